/* Which code the entries of debug information stand for. */
#include <stdlib.h>

#include "dwarf.h"

enum { FORM_ADDRESS = 0x01, FORM_ADDRESS_NUMBER = 0x1b, FORM_RANGES_NUMBER = 0x23 };

/* What the entries of a list of version 5 say. */
enum {
    LIST_END,
    LIST_BASE_NUMBER,
    LIST_NUMBERS,
    LIST_NUMBER_AND_LENGTH,
    LIST_OFFSETS,
    LIST_BASE,
    LIST_ADDRESSES,
    LIST_ADDRESS_AND_LENGTH,
};

static bool is_address(const struct value *value)
{
    return value->form == FORM_ADDRESS || value->form == FORM_ADDRESS_NUMBER ||
           (value->form >= 0x29 && value->form <= 0x2c);
}

uint64_t address_numbered(const struct debug *debug, const struct debug_unit *unit, uint64_t number)
{
    struct bytes rest = debug->addresses;
    take_skip(&rest, unit->bases[BASE_ADDRESSES]);
    if (number > UINT32_MAX)
        return 0;
    take_skip(&rest, number * sizeof number);
    return take_number(&rest, sizeof number);
}

uint64_t address_value(const struct debug *debug, const struct debug_unit *unit, const struct value *value)
{
    return value->form == FORM_ADDRESS ? value->number : address_numbered(debug, unit, value->number);
}

typedef bool see_range(void *argument, uint64_t low, uint64_t high);

/* Goes over a list of version 4: pairs of addresses, as far as the unit's own, or the latest base, is before them. */
static bool each_of_pairs(struct bytes rest, uint64_t base, see_range *see, void *argument)
{
    while (rest.at) {
        uint64_t low = take_number(&rest, 8), high = take_number(&rest, 8);
        if (!rest.at || (low == 0 && high == 0))
            return false;
        if (low == UINT64_MAX)
            base = high;
        else if (see(argument, base + low, base + high))
            return true;
    }
    return false;
}

static bool each_of_list(const struct debug *debug, const struct debug_unit *unit, struct bytes rest,
                         see_range *see, void *argument)
{
    uint64_t base = unit->low;
    while (rest.at) {
        uint64_t low = 0, high = 0, kind = take_number(&rest, 1);
        if (!rest.at || kind == LIST_END || kind > LIST_ADDRESS_AND_LENGTH)
            return false;
        bool is_number = kind == LIST_BASE_NUMBER || kind == LIST_NUMBERS || kind == LIST_NUMBER_AND_LENGTH;
        if (is_number)
            low = address_numbered(debug, unit, take_packed(&rest, false));
        else
            low = kind == LIST_OFFSETS ? base + take_packed(&rest, false) : take_number(&rest, 8);
        if (kind == LIST_NUMBERS)
            high = address_numbered(debug, unit, take_packed(&rest, false));
        else if (kind == LIST_OFFSETS)
            high = base + take_packed(&rest, false);
        else if (kind == LIST_ADDRESSES)
            high = take_number(&rest, 8);
        else if (kind == LIST_NUMBER_AND_LENGTH || kind == LIST_ADDRESS_AND_LENGTH)
            high = low + take_packed(&rest, false);
        if (kind == LIST_BASE || kind == LIST_BASE_NUMBER)
            base = low;
        else if (rest.at && see(argument, low, high))
            return true;
    }
    return false;
}

/* Goes over the ranges of code of an entry until `see` answers that it is enough, and answers whether it did. */
bool each_range(const struct debug *debug, const struct entry *entry, see_range *see, void *argument)
{
    const struct debug_unit *unit = entry->unit;
    if (entry->low.form && entry->high.form) {
        uint64_t low = address_value(debug, unit, &entry->low);
        uint64_t high =
            is_address(&entry->high) ? address_value(debug, unit, &entry->high) : low + entry->high.number;
        return see(argument, low, high);
    }
    if (!entry->ranges.form)
        return false;
    struct bytes rest = unit->version < 5 ? debug->ranges : debug->range_lists;
    uint64_t offset = entry->ranges.number;
    if (entry->ranges.form == FORM_RANGES_NUMBER) {
        struct bytes offsets = debug->range_lists;
        take_skip(&offsets, unit->bases[BASE_RANGES]);
        take_skip(&offsets, offset <= UINT32_MAX ? offset * unit->offset_bytes : UINT64_MAX);
        offset = unit->bases[BASE_RANGES] + take_number(&offsets, unit->offset_bytes);
        if (!offsets.at)
            return false;
    }
    take_skip(&rest, offset);
    return unit->version < 5 ? each_of_pairs(rest, unit->low, see, argument)
                             : each_of_list(debug, unit, rest, see, argument);
}

static bool is_in(void *argument, uint64_t low, uint64_t high)
{
    uint64_t address = *(uint64_t *)argument;
    return low <= address && address < high;
}

bool holds_address(const struct debug *debug, const struct entry *entry, uint64_t address)
{
    return each_range(debug, entry, is_in, &address);
}

struct range_list {
    struct range **all;
    size_t *count, *room;
    uint64_t entry;
};

static bool add(void *argument, uint64_t low, uint64_t high)
{
    struct range_list *list = argument;
    if (low >= high || low == 0)
        return false;
    *list->all = grown(*list->all, *list->count, list->room, sizeof **list->all);
    (*list->all)[(*list->count)++] = (struct range){low, high, list->entry};
    return false;
}

/* Finds the functions of a unit, in whatever other entries they stand. */
static void find_functions(const struct debug *debug, struct debug_unit *unit)
{
    struct entry entry;
    unit->has_functions = true;
    for (uint64_t at = unit->first; at < unit->end; at = entry.next) {
        if (!read_entry(debug, unit, at, &entry) || entry.tag != TAG_FUNCTION)
            continue;
        struct range_list list = {&unit->functions, &unit->function_count, &unit->function_room, at};
        each_range(debug, &entry, add, &list);
    }
}

static void find_units(struct debug *debug)
{
    struct entry root;
    debug->has_ranges = true;
    for (size_t number = 0; number < debug->count; number++) {
        struct debug_unit *unit = &debug->units[number];
        struct range_list list = {&debug->unit_ranges, &debug->range_count, &debug->range_room, number};
        if (read_entry(debug, unit, unit->first, &root))
            each_range(debug, &root, add, &list);
    }
}

static bool function_in(const struct debug *debug, struct debug_unit *unit, uint64_t address,
                        struct entry *function)
{
    if (!unit->has_functions)
        find_functions(debug, unit);
    for (size_t number = 0; number < unit->function_count; number++) {
        const struct range *range = &unit->functions[number];
        if (address >= range->low && address < range->high)
            return read_entry(debug, unit, range->entry, function);
    }
    return false;
}

/* Gives the function that stands at an address. */
bool function_at(struct debug *debug, uint64_t address, struct entry *function)
{
    if (!debug->has_ranges)
        find_units(debug);
    for (size_t number = 0; number < debug->range_count; number++) {
        const struct range *range = &debug->unit_ranges[number];
        if (address >= range->low && address < range->high &&
            function_in(debug, &debug->units[range->entry], address, function))
            return true;
    }
    return false;
}
