/* What is said, memory, and names as the trace format has them. */
#include <stdarg.h>
#include <stdlib.h>
#include <string.h>

#include "merger.h"

void say(const char *format, ...)
{
    va_list arguments;
    va_start(arguments, format);
    fputs("record/program/run: ", stderr);
    vfprintf(stderr, format, arguments);
    fputc('\n', stderr);
    va_end(arguments);
}

void *must(void *memory)
{
    if (!memory) {
        fputs("record/program/run: no memory for the stream\n", stderr);
        exit(2);
    }
    return memory;
}

/* Makes room for one more. */
void *grown(void *all, size_t count, size_t *room, size_t size)
{
    if (count < *room)
        return all;
    *room = *room ? 2 * *room : 16;
    return must(realloc(all, *room * size));
}

static bool is_in_use(const char *slot, size_t size)
{
    for (size_t byte = 0; byte < size; byte++)
        if (slot[byte])
            return true;
    return false;
}

/* Gives a table by a checksum room for one more, so that at most half of its slots are in use. A slot of zeros is
   free. `slot_of` gives the slot of an element, or a free one for it. */
void *grown_table(void *all, size_t count, size_t *room, size_t size, slot_of_element *slot_of)
{
    if (2 * count < *room)
        return all;
    size_t twice = *room ? 2 * *room : 256;
    char *slots = must(calloc(twice, size));
    for (size_t slot = 0; slot < *room; slot++) {
        const char *old = (const char *)all + slot * size;
        if (is_in_use(old, size))
            memcpy(slot_of(slots, twice, old), old, size);
    }
    free(all);
    *room = twice;
    return slots;
}

/* Gives a path without its directories. */
const char *base_of(const char *path)
{
    const char *base = strrchr(path, '/');
    return base ? base + 1 : path;
}

/* Gives the text that begins so far into some bytes, or NULL where it doesn't end there. */
const char *text_in(struct bytes bytes, uint64_t offset)
{
    uint64_t length = (uint64_t)(bytes.end - bytes.at);
    if (offset >= length || !memchr(bytes.at + offset, 0, length - offset))
        return NULL;
    return (const char *)bytes.at + offset;
}

/* FNV-1a of 32 bits. */
uint32_t checksum(const char *text)
{
    uint32_t sum = 2166136261u;
    for (; *text; text++)
        sum = (sum ^ (unsigned char)*text) * 16777619u;
    return sum;
}

/* Appends bytes, those that can't stand in a name, or are in `without`, as % and their number. */
void append_clean(char *text, size_t size, const char *bytes, const char *without)
{
    size_t length = strlen(text);
    for (; *bytes && length + 4 < size; bytes++) {
        unsigned char byte = (unsigned char)*bytes;
        if (byte > ' ' && byte <= '~' && byte != '%' && !strchr(without, byte))
            text[length++] = *bytes;
        else
            length += (size_t)snprintf(text + length, size - length, "%%%02X", byte);
    }
    text[length] = 0;
}

/* Cuts a name that is too long, to its first bytes, `~` and the checksum of the whole. */
void cut_name(char *text, size_t most)
{
    char sum[16];
    if (strlen(text) <= most)
        return;
    snprintf(sum, sizeof sum, "~%08x", checksum(text));
    strcpy(text + most - strlen(sum), sum);
}
