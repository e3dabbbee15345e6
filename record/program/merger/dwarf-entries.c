/*
 * The entries of debug information, of DWARF 4 and 5. What other files hold (split units, units of types by their
 * signature, common parts that `dwz` took out) isn't read: an attribute that leads there counts as none.
 */
#include <stdlib.h>
#include <string.h>

#include "dwarf.h"

enum {
    FORM_ADDRESS = 0x01,
    FORM_BLOCK2 = 0x03,
    FORM_BLOCK4,
    FORM_DATA2,
    FORM_DATA4,
    FORM_DATA8,
    FORM_TEXT,
    FORM_BLOCK,
    FORM_BLOCK1,
    FORM_DATA1,
    FORM_FLAG,
    FORM_SIGNED,
    FORM_TEXT_AT,
    FORM_UNSIGNED,
    FORM_REFERENCE_ADDRESS,
    FORM_REFERENCE1,
    FORM_REFERENCE2,
    FORM_REFERENCE4,
    FORM_REFERENCE8,
    FORM_REFERENCE,
    FORM_INDIRECT,
    FORM_OFFSET,
    FORM_EXPRESSION,
    FORM_PRESENT,
    FORM_TEXT_NUMBER,
    FORM_ADDRESS_NUMBER,
    FORM_OTHER_REFERENCE4,
    FORM_OTHER_TEXT,
    FORM_DATA16,
    FORM_LINE_TEXT_AT,
    FORM_SIGNATURE,
    FORM_CONSTANT,
    FORM_LOCATIONS_NUMBER,
    FORM_RANGES_NUMBER,
    FORM_OTHER_REFERENCE8,
    FORM_TEXT_NUMBER1,
    FORM_ADDRESS_NUMBER1 = 0x29,
    FORM_ADDRESS_NUMBER4 = 0x2c,
    FORM_ALTERNATIVE_REFERENCE = 0x1f20,
    FORM_ALTERNATIVE_TEXT,
};

/* Gives how many bytes a number has in a form of fixed length, or 0. */
static unsigned bytes_of(const struct debug_unit *unit, uint64_t form)
{
    /* Some have no designator. */
    /* clang-format off */
    static const unsigned char sizes[] = {
        [FORM_DATA1] = 1, [FORM_FLAG] = 1, [FORM_REFERENCE1] = 1, [FORM_DATA2] = 2, [FORM_REFERENCE2] = 2,
        [FORM_DATA4] = 4, [FORM_REFERENCE4] = 4, [FORM_OTHER_REFERENCE4] = 4, [FORM_DATA8] = 8,
        [FORM_REFERENCE8] = 8, [FORM_SIGNATURE] = 8, [FORM_OTHER_REFERENCE8] = 8,
        [FORM_TEXT_NUMBER1] = 1, 2, 3, 4, [FORM_ADDRESS_NUMBER1] = 1, 2, 3, 4,
    };
    /* clang-format on */
    if (form == FORM_ADDRESS)
        return unit->address_bytes;
    if (form == FORM_OFFSET || form == FORM_TEXT_AT || form == FORM_LINE_TEXT_AT || form == FORM_OTHER_TEXT ||
        form == FORM_REFERENCE_ADDRESS || form == FORM_ALTERNATIVE_REFERENCE || form == FORM_ALTERNATIVE_TEXT)
        return unit->offset_bytes;
    return form < sizeof sizes ? sizes[form] : 0;
}

static void read_bytes(struct bytes *rest, struct value *value)
{
    uint64_t length = value->form == FORM_BLOCK1   ? take_number(rest, 1)
                      : value->form == FORM_BLOCK2 ? take_number(rest, 2)
                      : value->form == FORM_BLOCK4 ? take_number(rest, 4)
                                                   : take_packed(rest, false);
    const unsigned char *start = rest->at;
    take_skip(rest, length);
    if (rest->at)
        value->bytes = (struct bytes){start, rest->at};
}

/* Reads a value, as it stands. */
static void read_plain(const struct debug_unit *unit, struct bytes *rest, struct value *value)
{
    unsigned size;
    if (value->form == FORM_INDIRECT)
        value->form = take_packed(rest, false);
    size = bytes_of(unit, value->form);
    if (size)
        value->number = take_number(rest, size);
    else if (value->form == FORM_TEXT)
        value->text = take_text(rest);
    else if (value->form == FORM_EXPRESSION || value->form == FORM_BLOCK || value->form == FORM_BLOCK1 ||
             value->form == FORM_BLOCK2 || value->form == FORM_BLOCK4)
        read_bytes(rest, value);
    else if (value->form == FORM_SIGNED || value->form == FORM_UNSIGNED)
        value->number = take_packed(rest, value->form == FORM_SIGNED);
    else if (value->form == FORM_PRESENT)
        value->number = 1;
    else if (value->form == FORM_DATA16)
        take_skip(rest, 16);
    else if (value->form == FORM_REFERENCE || value->form == FORM_TEXT_NUMBER ||
             value->form == FORM_ADDRESS_NUMBER || value->form == FORM_LOCATIONS_NUMBER ||
             value->form == FORM_RANGES_NUMBER)
        value->number = take_packed(rest, false);
    else if (value->form != FORM_CONSTANT)
        *rest = (struct bytes){NULL, NULL};
}

static const char *text_numbered(const struct debug *debug, const struct debug_unit *unit, uint64_t number)
{
    struct bytes rest = debug->text_offsets;
    take_skip(&rest, unit->bases[BASE_TEXTS]);
    if (number > UINT32_MAX)
        return NULL;
    take_skip(&rest, number * unit->offset_bytes);
    uint64_t at = take_number(&rest, unit->offset_bytes);
    return rest.at ? text_in(debug->texts, at) : NULL;
}

static const char *text_value(const struct debug *debug, const struct debug_unit *unit,
                              const struct value *value)
{
    if (value->form == FORM_TEXT_AT)
        return text_in(debug->texts, value->number);
    if (value->form == FORM_LINE_TEXT_AT)
        return text_in(debug->line_texts, value->number);
    if (value->form == FORM_TEXT_NUMBER ||
        (value->form >= FORM_TEXT_NUMBER1 && value->form < FORM_ADDRESS_NUMBER1))
        return text_numbered(debug, unit, value->number);
    return value->text;
}

/* Gives the entry that a value leads to, or 0. */
static uint64_t reference(const struct debug_unit *unit, const struct value *value)
{
    if (value->form == FORM_REFERENCE_ADDRESS)
        return value->number;
    if (value->form >= FORM_REFERENCE1 && value->form <= FORM_REFERENCE)
        return unit->start + value->number;
    return 0;
}

static bool is_number(const struct value *value)
{
    return !value->bytes.at && value->form != FORM_TEXT && value->form != FORM_DATA16;
}

static void keep(const struct debug *debug, struct entry *entry, uint64_t attribute,
                 const struct value *value)
{
    const struct debug_unit *unit = entry->unit;
    switch (attribute) {
    case 0x01: entry->sibling = reference(unit, value); break;
    case 0x02: entry->location = *value; break;
    case 0x03: entry->name = text_value(debug, unit, value); break;
    case 0x0b:
        entry->has_size = is_number(value);
        entry->size = value->number;
        break;
    case 0x11: entry->low = *value; break;
    case 0x12: entry->high = *value; break;
    case 0x2f:
        entry->has_count = is_number(value);
        entry->count = value->number + 1;
        break;
    case 0x37:
        entry->has_count = is_number(value);
        entry->count = value->number;
        break;
    case 0x31:
    case 0x47: entry->origin = reference(unit, value); break;
    case 0x38:
        entry->has_offset = is_number(value);
        entry->offset = value->number;
        break;
    case 0x3c: entry->is_declaration = value->number != 0; break;
    case 0x40: entry->frame_base = *value; break;
    case 0x49: entry->type = reference(unit, value); break;
    case 0x55: entry->ranges = *value; break;
    case 0x57: entry->call_column = value->number; break;
    case 0x72: entry->bases[BASE_TEXTS] = value->number; break;
    case 0x73: entry->bases[BASE_ADDRESSES] = value->number; break;
    case 0x74: entry->bases[BASE_RANGES] = value->number; break;
    case 0x8c: entry->bases[BASE_LOCATIONS] = value->number; break;
    default: break;
    }
}

static void read_abbreviations(const struct debug *debug, struct debug_unit *unit)
{
    struct bytes rest = debug->abbreviations;
    take_skip(&rest, unit->abbreviations_at);
    while (rest.at) {
        struct abbreviation one = {.code = take_packed(&rest, false)};
        if (one.code == 0 || !rest.at)
            return;
        one.tag = take_packed(&rest, false);
        one.has_children = take_number(&rest, 1) != 0;
        one.fields = rest.at;
        uint64_t attribute = 1, form = 1;
        while (rest.at && (attribute || form)) {
            attribute = take_packed(&rest, false);
            form = take_packed(&rest, false);
            if (form == FORM_CONSTANT)
                take_packed(&rest, true);
        }
        if (!rest.at)
            return;
        unit->abbreviations =
            grown(unit->abbreviations, unit->abbreviation_count, &unit->abbreviation_room, sizeof one);
        unit->abbreviations[unit->abbreviation_count++] = one;
    }
}

static const struct abbreviation *abbreviation_of(const struct debug *debug, struct debug_unit *unit,
                                                  uint64_t code)
{
    if (!unit->abbreviations)
        read_abbreviations(debug, unit);
    if (code <= unit->abbreviation_count && unit->abbreviations[code - 1].code == code)
        return &unit->abbreviations[code - 1];
    for (size_t number = 0; number < unit->abbreviation_count; number++)
        if (unit->abbreviations[number].code == code)
            return &unit->abbreviations[number];
    return NULL;
}

/* Reads the entry at an offset. Where there is none, or it is the end of a row of children, `next` is behind it. */
bool read_entry(const struct debug *debug, struct debug_unit *unit, uint64_t at, struct entry *entry)
{
    *entry = (struct entry){.at = at, .next = unit->end, .unit = unit};
    if (at < unit->first || at >= unit->end)
        return false;
    struct bytes rest = {debug->info.at + at, debug->info.at + unit->end};
    uint64_t code = take_packed(&rest, false);
    const struct abbreviation *kind = code && rest.at ? abbreviation_of(debug, unit, code) : NULL;
    if (!kind) {
        if (code == 0 && rest.at)
            entry->next = (uint64_t)(rest.at - debug->info.at);
        return false;
    }
    entry->tag = (enum tag)kind->tag;
    entry->has_children = kind->has_children;
    struct bytes fields = {kind->fields, debug->abbreviations.end};
    for (;;) {
        uint64_t attribute = take_packed(&fields, false);
        struct value value = {.form = take_packed(&fields, false)};
        if (!fields.at || (!attribute && !value.form))
            break;
        if (value.form == FORM_CONSTANT)
            value.number = take_packed(&fields, true);
        read_plain(unit, &rest, &value);
        if (!rest.at)
            return false;
        keep(debug, entry, attribute, &value);
    }
    entry->next = (uint64_t)(rest.at - debug->info.at);
    return true;
}

/* Reads the entry at an offset in any unit. */
bool entry_at(const struct debug *debug, uint64_t at, struct entry *entry)
{
    size_t low = 0, high = debug->count;
    while (low < high) {
        size_t middle = low + (high - low) / 2;
        if (debug->units[middle].end <= at)
            low = middle + 1;
        else
            high = middle;
    }
    return at && low < debug->count && read_entry(debug, &debug->units[low], at, entry);
}

/* Gives what follows an entry and all that is in it. */
static uint64_t behind(const struct debug *debug, const struct entry *entry)
{
    struct entry inner;
    uint64_t at = entry->next;
    if (!entry->has_children)
        return at;
    if (entry->sibling > entry->at && entry->sibling <= entry->unit->end)
        return entry->sibling;
    for (unsigned depth = 1; depth > 0 && at < entry->unit->end; at = inner.next) {
        bool is_there = read_entry(debug, entry->unit, at, &inner);
        if (is_there && inner.has_children && inner.sibling > inner.at && inner.sibling <= entry->unit->end)
            inner.next = inner.sibling;
        else if (is_there && inner.has_children)
            depth++;
        else if (!is_there)
            depth--;
    }
    return at;
}

/* Goes on to the next child of an entry, or to the first one where `child` has no place yet. */
bool next_child(const struct debug *debug, const struct entry *parent, struct entry *child)
{
    if (!parent->has_children)
        return false;
    uint64_t at = child->at ? behind(debug, child) : parent->next;
    return read_entry(debug, parent->unit, at, child);
}

/* Reads the head of a unit; the rest begins behind its length. */
static bool read_head(const struct debug *debug, struct debug_unit *unit, struct bytes rest)
{
    unit->version = (unsigned)take_number(&rest, 2);
    if (unit->version < 2 || unit->version > 5)
        return false;
    unsigned kind = unit->version == 5 ? (unsigned)take_number(&rest, 1) : 1;
    if (unit->version == 5)
        unit->address_bytes = (unsigned)take_number(&rest, 1);
    unit->abbreviations_at = take_number(&rest, unit->offset_bytes);
    if (unit->version < 5)
        unit->address_bytes = (unsigned)take_number(&rest, 1);
    if (kind > 3 || unit->address_bytes != sizeof(uint64_t))
        return false;
    if (kind == 2)
        take_skip(&rest, 8 + unit->offset_bytes);
    unit->first = (uint64_t)(rest.at - debug->info.at);
    return rest.at != NULL;
}

static void read_root(const struct debug *debug, struct debug_unit *unit)
{
    struct entry root;
    if (!read_entry(debug, unit, unit->first, &root))
        return;
    memcpy(unit->bases, root.bases, sizeof unit->bases);
    unit->low = root.low.form ? address_value(debug, unit, &root.low) : 0;
}

static void read_units(struct debug *debug)
{
    struct bytes rest = debug->info;
    while (rest.at && rest.end - rest.at > 12) {
        struct debug_unit unit = {.start = (uint64_t)(rest.at - debug->info.at), .offset_bytes = 4};
        uint64_t length = take_number(&rest, 4);
        if (length == 0xffffffff) {
            unit.offset_bytes = 8;
            length = take_number(&rest, 8);
        }
        struct bytes body = {rest.at, rest.at};
        take_skip(&rest, length);
        if (!rest.at)
            return;
        body.end = rest.at;
        unit.end = (uint64_t)(rest.at - debug->info.at);
        if (!read_head(debug, &unit, body))
            continue;
        debug->units = grown(debug->units, debug->count, &debug->room, sizeof unit);
        debug->units[debug->count++] = unit;
        read_root(debug, &debug->units[debug->count - 1]);
    }
}

/* Gives the debug information of a binary, which is read once. */
struct debug *debug_of(struct binary *binary)
{
    if (binary->debug)
        return binary->debug;
    const struct binary *file = debug_file_of(binary);
    struct debug *debug = binary->debug = must(calloc(1, sizeof *debug));
    debug->info = section_of(file, ".debug_info");
    debug->abbreviations = section_of(file, ".debug_abbrev");
    debug->texts = section_of(file, ".debug_str");
    debug->line_texts = section_of(file, ".debug_line_str");
    debug->text_offsets = section_of(file, ".debug_str_offsets");
    debug->addresses = section_of(file, ".debug_addr");
    debug->locations = section_of(file, ".debug_loc");
    debug->location_lists = section_of(file, ".debug_loclists");
    debug->ranges = section_of(file, ".debug_ranges");
    debug->range_lists = section_of(file, ".debug_rnglists");
    read_units(debug);
    return debug;
}
