/*
 * The places of the program from which locks were taken, as a file beside the stream (docs/PROGRAMS.md):
 * what each place is, how often each class was taken there, and the place of each line of the stream.
 */
#define _GNU_SOURCE
#include <errno.h>
#include <inttypes.h>
#include <stdlib.h>
#include <string.h>
#include <unistd.h>

#include "merger.h"

#define TEXT_BYTES 16384

struct told {
    uint64_t address;
    uint32_t inside;
};

/* How often a class was taken at a place. */
struct taken {
    const struct class *class;
    uint32_t place;
    uint64_t count;
};

/* The places of the process that is gone over, by their numbers there. */
static struct told told[PLACE_NUMBERS];
static uint32_t numbered[PLACE_NUMBERS];
static size_t told_count;

/* A place that the file says, with callers or without. */
struct line {
    char *text;
    uint32_t plain; /* the number of the same place without callers */
    bool is_used;
    bool is_lost; /* it is in a function of --through, whose callers aren't known */
};
static struct line *places; /* place 1 is the first */
static size_t place_count, place_room;
static uint32_t *place_slots;
static size_t place_slot_count;

static struct taken *taken; /* by a checksum; without a class where there is none */
static size_t taken_count, taken_room;

static FILE *numbers; /* of the lines so far; none where places aren't wanted */
static unsigned number_bytes;
static uint64_t line_count;

void begin_places(void)
{
    memset(told, 0, sizeof told);
    memset(numbered, 0, sizeof numbered);
}

/* Takes up a place that is told, and gives the addresses of it and of those inside, the innermost
   first. */
static unsigned take_up(const struct unit *first, uint64_t calls[MOST_INSIDE])
{
    const struct told_place *place = (const struct told_place *)&first[1];
    uint64_t outwards[MOST_INSIDE];
    unsigned count = 0;
    uint64_t number = place->number % PLACE_NUMBERS;
    told[number] = (struct told){first->value, (uint32_t)(place->inside % PLACE_NUMBERS)};
    for (; number && count < MOST_INSIDE; number = told[number].inside)
        outwards[count++] = told[number].address;
    for (unsigned call = 0; call < count; call++)
        calls[call] = outwards[count - 1 - call];
    return count;
}

void ask_for_place(const struct modules *modules, const struct unit *first)
{
    uint64_t calls[MOST_INSIDE];
    unsigned count = take_up(first, calls);
    ask_for_calls(modules, calls, count);
    told_count++;
}

static uint32_t *slot_of_place(const char *text)
{
    size_t slot = checksum(text) % place_slot_count;
    while (place_slots[slot] && strcmp(places[place_slots[slot] - 1].text, text) != 0)
        slot = (slot + 1) % place_slot_count;
    return &place_slots[slot];
}

/* Gives the number of a place by what it says. `plain` is that of the same place without callers, or 0. */
static uint32_t number_of_text(const char *text, uint32_t plain)
{
    if (2 * place_count >= place_slot_count) {
        place_slot_count = place_slot_count ? 2 * place_slot_count : 256;
        free(place_slots);
        place_slots = must(calloc(place_slot_count, sizeof *place_slots));
        for (size_t number = 0; number < place_count; number++)
            *slot_of_place(places[number].text) = (uint32_t)number + 1;
    }
    uint32_t *slot = slot_of_place(text);
    if (*slot == 0) {
        places = grown(places, place_count, &place_room, sizeof *places);
        uint32_t number = (uint32_t)place_count + 1;
        places[place_count++] = (struct line){must(strdup(text)), plain ? plain : number, false, false};
        *slot = (uint32_t)place_count;
    }
    return *slot;
}

/* Appends where a call stands: its function, and its line or else its place in a file. */
static void append_call(char *text, const struct call *call, const char *between)
{
    const char *function = function_of(&call->frame);
    const char *file = call->frame.line ? call->frame.file : call->module ? call->module->path : "?";
    char end[32];
    append_clean(text, TEXT_BYTES, function ? function : "?", "");
    strcat(text, between);
    append_clean(text, TEXT_BYTES - sizeof end, file, "");
    if (call->frame.line)
        snprintf(end, sizeof end, ":%u", call->frame.line);
    else
        snprintf(end, sizeof end, "+0x%" PRIx64, call->offset);
    strcat(text, end);
}

void add_place(const struct modules *modules, const struct unit *first)
{
    static char text[8 * TEXT_BYTES];
    uint64_t calls[MOST_INSIDE];
    struct call found[1 + MOST_CALLERS];
    unsigned count = take_up(first, calls);
    size_t known = telling_calls(modules, calls, count, found, 1 + settings.callers);
    if (known == 0)
        return;
    text[0] = 0;
    append_call(text, &found[0], " ");
    uint32_t plain = number_of_text(text, 0);
    for (size_t caller = 1; caller < known; caller++) {
        strcat(text, ", from ");
        append_call(text + strlen(text), &found[caller], " at ");
    }
    const struct told_place *place = (const struct told_place *)&first[1];
    uint32_t number = number_of_text(text, plain);
    places[number - 1].is_lost = leads_through(&found[0]);
    numbered[place->number % PLACE_NUMBERS] = number;
}

/* Gives the number that the file has for a place of the process, or 0. */
uint32_t place_numbered(unsigned number)
{
    return numbered[number % PLACE_NUMBERS];
}

/* Says where a place is, without its callers. */
void name_place(char *text, size_t size, uint32_t place)
{
    const char *words = place ? places[places[place - 1].plain - 1].text : NULL;
    const char *file = words ? strchr(words, ' ') : NULL;
    if (file)
        snprintf(text, size, "in %.*s at %s", (int)(file - words), words, file + 1);
    else
        snprintf(text, size, "at a place that isn't known");
}

static void *slot_of_taken(void *all, size_t room, const void *element)
{
    struct taken *slots = all;
    const struct taken *wanted = element;
    size_t slot = ((uintptr_t)wanted->class / 16 * 31 + wanted->place) * UINT64_C(0x9e3779b97f4a7c15) >> 20;
    for (slot %= room; slots[slot].class; slot = (slot + 1) % room)
        if (slots[slot].class == wanted->class && slots[slot].place == wanted->place)
            break;
    return &slots[slot];
}

/* Says that a line of the stream was written, and the place at which it takes a lock of a class. */
void end_line(uint32_t place, const struct class *class)
{
    line_count++;
    if (!numbers)
        return;
    for (unsigned byte = 0; byte < number_bytes; byte++)
        putc_unlocked((int)(place >> 8 * byte & 0xff), numbers);
    if (!place || !class)
        return;
    places[place - 1].is_used = true;
    place = places[place - 1].plain;
    places[place - 1].is_used = true;
    taken = grown_table(taken, taken_count, &taken_room, sizeof *taken, slot_of_taken);
    struct taken wanted = {class, place, 0};
    struct taken *slot = slot_of_taken(taken, taken_room, &wanted);
    taken_count += slot->class == NULL;
    *slot = (struct taken){class, place, slot->count + 1};
}

/* Begins the file, after all places were asked for. The numbers of the lines come last in it, so they
   stand elsewhere until the stream has ended. */
bool open_places(const char *directory)
{
    char path[4096];
    snprintf(path, sizeof path, "%s/numbers", directory);
    numbers = fopen(path, "w+e");
    if (numbers)
        setvbuf(numbers, NULL, _IOFBF, 1 << 18);
    number_bytes = 2 * told_count < 65535 ? 2 : 4;
    return numbers != NULL;
}

static int by_class_and_count(const void *left, const void *right)
{
    const struct taken *a = left, *b = right;
    int order = strcmp(a->class->name, b->class->name);
    if (order)
        return order;
    if (a->count != b->count)
        return a->count > b->count ? -1 : 1;
    return a->place < b->place ? -1 : a->place > b->place;
}

static void write_text(FILE *file)
{
    size_t kept = 0;
    fprintf(file, "places 1\nlines %" PRIu64 " bytes %u\n", line_count, number_bytes);
    for (size_t slot = 0; slot < taken_room; slot++) {
        if (!taken[slot].class)
            continue;
        taken[kept++] = taken[slot];
    }
    for (size_t number = 0; number < place_count; number++)
        if (places[number].is_used)
            fprintf(file, "place %zu %s\n", number + 1, places[number].text);
    if (kept)
        qsort(taken, kept, sizeof *taken, by_class_and_count);
    for (size_t number = 0; number < kept; number++)
        fprintf(file, "taken %s %" PRIu32 " %" PRIu64 "\n", taken[number].class->name, taken[number].place,
                taken[number].count);
    fprintf(file, "numbers\n");
}

/* Counts the places in functions of --through whose callers aren't known. */
size_t lost_places(void)
{
    size_t lost = 0;
    for (size_t number = 0; number < place_count; number++)
        lost += places[number].is_used && places[number].is_lost;
    return lost;
}

/* Removes the file of an earlier recording, which would tell of other lines. */
bool remove_places(const char *stream_path)
{
    char path[4096];
    snprintf(path, sizeof path, "%s.places", stream_path);
    return unlink(path) == 0 || errno == ENOENT || errno == ENOTDIR;
}

/* Writes the file beside the stream. */
bool close_places(const char *stream_path)
{
    static char bytes[1 << 16];
    char path[4096];
    size_t count;
    snprintf(path, sizeof path, "%s.places", stream_path);
    FILE *file = fopen(path, "we");
    if (!file)
        return false;
    write_text(file);
    rewind(numbers);
    while ((count = fread(bytes, 1, sizeof bytes, numbers)) > 0)
        fwrite(bytes, 1, count, file);
    bool whole = !ferror(file) && !ferror(numbers);
    fclose(numbers);
    return fclose(file) == 0 && whole;
}
