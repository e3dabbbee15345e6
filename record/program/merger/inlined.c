/*
 * What `addr2line` doesn't tell of functions that a compiler put into others: the columns of their calls, and of a C
 * function in the midst of C++ its name. Both stand in the entries of debug information.
 */
#include <string.h>

#include "dwarf.h"

#define MOST_FRAMES 64

/* Gives the name of a function: its own, or that of the entry that has what several have in common. */
static const char *name_of(const struct debug *debug, const struct entry *function)
{
    struct entry entry = *function;
    for (unsigned depth = 0; !entry.name && entry.origin && depth < 4; depth++)
        if (!entry_at(debug, entry.origin, &entry))
            return NULL;
    return entry.name;
}

/* Finds the functions that were put into one another at an address, the outermost first. */
static size_t functions_at(struct debug *debug, uint64_t address, struct entry *functions)
{
    size_t count = 0;
    struct entry block, child;
    if (!function_at(debug, address, &block))
        return 0;
    functions[count++] = block;
    for (unsigned depth = 0; depth < MOST_FRAMES && count < MOST_FRAMES; depth++) {
        child = (struct entry){.at = 0};
        while (next_child(debug, &block, &child))
            if ((child.tag == TAG_INLINED || child.tag == TAG_BLOCK) && holds_address(debug, &child, address))
                break;
        if (child.tag != TAG_INLINED && child.tag != TAG_BLOCK)
            break;
        if (child.tag == TAG_INLINED)
            functions[count++] = child;
        block = child;
    }
    return count;
}

/* Fills in the columns of outer frames, and the name of an innermost function of C, where that is wanted. */
void mend_by_entries(struct binary *binary, struct site *site)
{
    struct entry functions[MOST_FRAMES];
    bool wants_name = site->frame_count > 0 && site->frames[0].line && !site->frames[0].function;
    if (!wants_name && !(site->is_init && site->frame_count > 1))
        return;
    struct debug *debug = debug_of(binary);
    size_t count = functions_at(debug, site->offset, functions);
    if (wants_name && count)
        site->frames[0].function = name_of(debug, &functions[count - 1]);
    for (size_t frame = 1; count == site->frame_count && frame < count; frame++)
        site->frames[frame].column = (unsigned)functions[count - frame].call_column;
}
