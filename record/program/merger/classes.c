/* The classes of locks, which are named by source lines, by places in modules and by variables. */
#define _GNU_SOURCE
#include <inttypes.h>
#include <stdlib.h>
#include <string.h>

#include "merger.h"

#define TEXT_BYTES 16384

static struct class **classes;
static size_t count, room;
static uint32_t *slots;
static size_t slot_count;

static void grow_slots(void)
{
    free(slots);
    slot_count = slot_count ? 2 * slot_count : 1024;
    slots = must(calloc(slot_count, sizeof *slots));
    for (size_t number = 0; number < count; number++) {
        size_t slot = checksum(classes[number]->name) % slot_count;
        while (slots[slot])
            slot = (slot + 1) % slot_count;
        slots[slot] = (uint32_t)number + 1;
    }
}

static struct class *class_named(const char *name, const char *places, enum telling telling)
{
    if (2 * count >= slot_count)
        grow_slots();
    size_t slot = checksum(name) % slot_count;
    for (; slots[slot]; slot = (slot + 1) % slot_count)
        if (strcmp(classes[slots[slot] - 1]->name, name) == 0)
            return classes[slots[slot] - 1];
    struct class *class = must(calloc(1, sizeof *class));
    class->name = must(strdup(name));
    class->places = must(strdup(places));
    class->telling = telling;
    classes = grown(classes, count, &room, sizeof(struct class *));
    classes[count++] = class;
    slots[slot] = (uint32_t)count;
    return class;
}

static void append(char *text, const char *more)
{
    size_t length = strlen(text);
    snprintf(text + length, TEXT_BYTES - length, "%s", more);
}

static void append_offset(char *text, uint64_t offset)
{
    char number[32];
    snprintf(number, sizeof number, "+0x%llx", (unsigned long long)offset);
    append(text, number);
}

/* Appends an address to a class's name: its module, and its symbol with the offset there, or where there
   is none the offset in the module. `back` is 1 for a place in a call, whose name has the address of the
   return: that may be the first after the end of the function that called. */
static void append_place(char *name, const struct module *module, uint64_t offset, unsigned back)
{
    uint64_t into;
    const char *symbol = symbol_at(module->binary, offset, &into);
    append_clean(name, TEXT_BYTES, module->name, "@/");
    append(name, ":");
    if (symbol)
        append_clean(name, TEXT_BYTES, symbol, "@/");
    else
        append_offset(name, offset + back);
    if (symbol && into + back > 0)
        append_offset(name, into + back);
}

static void append_file(char *places, const struct module *module, uint64_t offset)
{
    append(places, " ");
    append_clean(places, TEXT_BYTES, module->path, "");
    append_offset(places, offset);
}

/* Appends a place in a source: its function, where it is known, and its file, with its number among the places of
   that function, if it isn't the first. Of a function whose name is too long the end is left out, and a checksum
   stands for the whole. Where that number isn't known the line stands for it. */
static void append_line(char *name, const struct frame *frame, unsigned place)
{
    char function[TEXT_BYTES] = "", file[TEXT_BYTES] = "", number[16] = "", short_name[1024];
    if (place == 0)
        snprintf(number, sizeof number, ":%u", frame->line);
    else if (place > 1)
        snprintf(number, sizeof number, "#%u", place);
    append_clean(file, sizeof file, base_of(frame->file), "@/");
    append(file, number);
    short_function(short_name, sizeof short_name, function_of(frame));
    append_clean(function, sizeof function, short_name, "@/");
    if (strlen(file) + 16 < MOST_NAME)
        cut_name(function, MOST_NAME - 1 - strlen(file));
    append(name, function);
    append(name, function[0] ? ":" : "");
    append(name, file);
}

static void append_source(char *places, const struct frame *frame)
{
    char number[16];
    snprintf(number, sizeof number, ":%u", frame->line);
    append(places, " ");
    append_clean(places, TEXT_BYTES, function_of(frame) ? function_of(frame) : "?", "");
    append(places, " ");
    append_clean(places, TEXT_BYTES, frame->file, "");
    append(places, number);
}

/* Notes by which calls the function that made a lock of the class was reached. */
static void note_callers(struct class *class, const struct call *call, uint64_t callers)
{
    char maker[1024];
    if (!class->maker) {
        name_function(maker, sizeof maker, call);
        class->maker = must(strdup(maker));
        class->callers = callers;
    }
    class->has_several_callers = class->has_several_callers || class->callers != callers;
}

/* Names a class by the call that tells it, and says in `places` where that is. */
static enum telling name_by_call(const struct call *call, const char *how, char *name, char *places)
{
    bool is_init = strcmp(how, "init") == 0;
    append_file(places, call->module, call->offset);
    if (!call->frame.line) {
        append_place(name, call->module, call->offset, 1);
        return TOLD_BY_ADDRESS;
    }
    append_line(name, &call->frame, is_init ? number_in_function(call->module->binary, &call->frame) : 0);
    append_source(places, &call->frame);
    return is_init ? TOLD_BY_LINE : TOLD_BY_FIRST;
}

/* Gives the class of the locks of these calls. One that was found to be a member has its name by that. */
static struct class *class_of_calls(const struct modules *modules, const char *how, const struct unit *first,
                                    unsigned following, const char *member)
{
    static char name[TEXT_BYTES], places[TEXT_BYTES];
    struct call call;
    uint64_t callers;
    enum telling telling = TOLD_BY_ADDRESS;
    name[0] = 0;
    snprintf(places, sizeof places, "%s", how);
    if (!telling_call(modules, (const uint64_t *)&first[1], 2 * following, &call, &callers)) {
        append(name, "?");
        append(places, " ?");
        call.module = NULL;
    } else {
        telling = name_by_call(&call, how, name, places);
    }
    if (member) {
        name[0] = 0;
        append_clean(name, sizeof name, member, "@/");
        telling = TOLD_BY_MEMBER;
    }
    cut_name(name, MOST_NAME);
    struct class *class = class_named(name, places, telling);
    if (call.module && !member)
        note_callers(class, &call, callers);
    return class;
}

struct class *class_of_init(const struct modules *modules, const struct unit *first, unsigned following)
{
    return class_of_calls(modules, "init", first, following, NULL);
}

/* Gives the class of a lock that no call initialised and these calls take first; by what their frames say, if they
   were told. */
struct class *class_of_first(const struct modules *modules, const struct unit *first, unsigned following)
{
    return class_of_calls(modules, "first", first, following, member_of_calls(modules, first, following));
}

/* Gives the class of a lock that stands in a module, or none where it stands in no module. */
struct class *class_of_static(const struct modules *modules, uint64_t address)
{
    static char name[TEXT_BYTES], places[TEXT_BYTES];
    const struct module *module = module_at(modules, address);
    uint64_t into;
    if (!module)
        return NULL;
    name[0] = 0;
    strcpy(places, "static");
    append_place(name, module, address - module->load, 0);
    append_file(places, module, address - module->load);
    const char *symbol = symbol_at(module->binary, address - module->load, &into);
    if (symbol) {
        append(places, " ");
        append_clean(places, TEXT_BYTES, symbol, "");
        if (into)
            append_offset(places, into);
    }
    cut_name(name, MOST_NAME);
    return class_named(name, places, TOLD_BY_STATIC);
}

/* Gives the class of what recursive readers of a class's locks wait for: `!read` behind its name. */
struct class *readers_of(struct class *class)
{
    static const char end[] = "!read";
    char name[TEXT_BYTES];
    if (class->readers)
        return class->readers;
    snprintf(name, sizeof name, "%s", class->name);
    cut_name(name, MOST_NAME - strlen(end));
    append(name, end);
    class->readers = class_named(name, class->places, class->telling);
    class->readers->locks = class;
    return class->readers;
}

/* Gives a lock of a class a class of its own. */
struct class *class_of_instance(struct class *class)
{
    char name[TEXT_BYTES], end[32];
    snprintf(end, sizeof end, "[%" PRIu64 "]", ++class->instances);
    snprintf(name, sizeof name, "%s", class->name);
    cut_name(name, MOST_NAME - strlen(end));
    strcat(name, end);
    return class_named(name, class->places, class->telling);
}

/* Counts the classes that stand in a trace: some locks are initialised and never taken. */
size_t class_count(void)
{
    size_t used = 0;
    for (size_t number = 0; number < count; number++)
        used += classes[number]->trace != 0;
    return used;
}

size_t classes_told(enum telling telling)
{
    size_t used = 0;
    for (size_t number = 0; number < count; number++)
        used += classes[number]->trace != 0 && classes[number]->telling == telling;
    return used;
}

/* Goes over the classes that stand in a trace. */
void each_class(void (*see)(const struct class *))
{
    for (size_t number = 0; number < count; number++)
        if (classes[number]->trace)
            see(classes[number]);
}

/* Says what a class is, and by which function its locks were made where that was called from several places. */
static void write_class(const struct class *class)
{
    static char maker[TEXT_BYTES];
    const struct class *made = class->locks ? class->locks : class;
    fprintf(stream, "# class %s %s\n", class->name, class->places);
    end_line(0, NULL);
    if (!made->has_several_callers)
        return;
    maker[0] = 0;
    append_clean(maker, sizeof maker, made->maker, "");
    fprintf(stream, "# maker %s %s\n", class->name, maker);
    end_line(0, NULL);
}

/* Says at the end of the stream, in lines that say nothing to lockcheck, what each class is. */
void write_classes(void)
{
    each_class(write_class);
}
