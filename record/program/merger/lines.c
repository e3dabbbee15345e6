/*
 * The source lines of places in code, by the tables of lines that DWARF 2 to 5 have. `addr2line` reads
 * them too, but up to binutils 2.41 it names a wrong file where the lines of a unit begin in another
 * file than the unit's own; and with that, one line would be two classes.
 */
#include <stdlib.h>
#include <string.h>

#include "dwarf.h"

enum { CONTENT_PATH = 1, CONTENT_DIRECTORY = 2 };

enum {
    STEP_EXTENDED,
    STEP_COPY,
    STEP_ADVANCE_ADDRESS,
    STEP_ADVANCE_LINE,
    STEP_SET_FILE,
    STEP_SET_COLUMN,
    STEP_ADD_CONSTANT = 8,
    STEP_ADVANCE_FIXED,
};

enum { EXTENDED_END = 1, EXTENDED_SET_ADDRESS, EXTENDED_DEFINE_FILE };

struct file_name {
    const char *name;
    uint64_t directory;
};

struct unit_lines {
    unsigned version;
    unsigned offset_bytes;
    unsigned least_instruction;
    int line_base;
    unsigned line_range;
    unsigned first_special;
    const unsigned char *operands; /* of each standard step, from 1 on */
    struct file_name *directories;
    size_t directory_count, directory_room;
    struct file_name *files;
    size_t file_count, file_room;
};

struct row {
    uint64_t address;
    uint64_t file;
    uint64_t line;
    uint64_t column;
};

/* What a run of rows has behind it. */
struct sequence {
    struct row row;
    struct row before;
    bool has_before;
    bool is_code; /* what the linker left out begins at 0 */
};

struct reader {
    struct binary *binary;
    struct bytes rest; /* both ends NULL once something couldn't be read */
    struct bytes strings, line_strings;
};

static uint64_t number_of(struct reader *reader, unsigned size)
{
    return take_number(&reader->rest, size);
}

static uint64_t packed(struct reader *reader, bool is_signed)
{
    return take_packed(&reader->rest, is_signed);
}

static const char *text_of(struct reader *reader)
{
    return take_text(&reader->rest);
}

static void skip(struct reader *reader, uint64_t count)
{
    take_skip(&reader->rest, count);
}

/* Reads a field of an entry of version 5, as a text or a number. */
static void field(struct reader *reader, const struct unit_lines *unit, uint64_t form, const char **text,
                  uint64_t *number)
{
    static const unsigned char sizes[32] = {[0x0b] = 1, [0x05] = 2, [0x06] = 4, [0x07] = 8};
    if (form == 0x08)
        *text = text_of(reader);
    else if (form == 0x1f)
        *text = text_in(reader->line_strings, number_of(reader, unit->offset_bytes));
    else if (form == 0x0e)
        *text = text_in(reader->strings, number_of(reader, unit->offset_bytes));
    else if (form == 0x0f)
        *number = packed(reader, false);
    else if (form == 0x1e)
        skip(reader, 16);
    else if (form == 0x09)
        skip(reader, packed(reader, false));
    else if (form < sizeof sizes && sizes[form])
        *number = number_of(reader, sizes[form]);
    else
        reader->rest = (struct bytes){NULL, NULL};
}

static void add_name(struct file_name **all, size_t *count, size_t *room, struct file_name name)
{
    *all = grown(*all, *count, room, sizeof **all);
    (*all)[(*count)++] = name;
}

/* Reads a list of version 5: what its entries have, and the entries. */
static void names_by_format(struct reader *reader, const struct unit_lines *unit, struct file_name **all,
                            size_t *count, size_t *room)
{
    uint64_t contents[256], forms[256];
    unsigned fields = (unsigned)number_of(reader, 1);
    for (unsigned number = 0; number < fields; number++) {
        contents[number] = packed(reader, false);
        forms[number] = packed(reader, false);
    }
    uint64_t entries = packed(reader, false);
    for (uint64_t entry = 0; fields && entry < entries && reader->rest.at; entry++) {
        struct file_name name = {NULL, 0};
        for (unsigned number = 0; number < fields; number++) {
            const char *text = NULL;
            uint64_t value = 0;
            field(reader, unit, forms[number], &text, &value);
            if (contents[number] == CONTENT_PATH)
                name.name = text;
            if (contents[number] == CONTENT_DIRECTORY)
                name.directory = value;
        }
        add_name(all, count, room, name);
    }
}

/* Reads the lists of versions 2 to 4, which count from 1: number 0 is the unit's own. */
static void names_by_order(struct reader *reader, struct unit_lines *unit)
{
    const char *text;
    add_name(&unit->directories, &unit->directory_count, &unit->directory_room, (struct file_name){NULL, 0});
    while ((text = text_of(reader)) && *text)
        add_name(&unit->directories, &unit->directory_count, &unit->directory_room,
                 (struct file_name){text, 0});
    add_name(&unit->files, &unit->file_count, &unit->file_room, (struct file_name){NULL, 0});
    while ((text = text_of(reader)) && *text) {
        struct file_name name = {text, packed(reader, false)};
        packed(reader, false);
        packed(reader, false);
        add_name(&unit->files, &unit->file_count, &unit->file_room, name);
    }
}

static const char *path_of(const struct unit_lines *unit, uint64_t file)
{
    if (file >= unit->file_count || !unit->files[file].name)
        return NULL;
    const struct file_name *name = &unit->files[file];
    const char *directory = NULL;
    if (name->name[0] != '/' && name->directory < unit->directory_count)
        directory = unit->directories[name->directory].name;
    if (!directory)
        return must(strdup(name->name));
    size_t length = strlen(directory) + strlen(name->name) + 2;
    char *path = must(malloc(length));
    snprintf(path, length, "%s/%s", directory, name->name);
    return path;
}

/* Gives a row to the places from its address to that of the next one. */
static void close_row(struct reader *reader, const struct unit_lines *unit, const struct sequence *sequence)
{
    struct site *sites = reader->binary->sites;
    size_t low = 0, high = reader->binary->site_count;
    if (!sequence->has_before || !sequence->is_code)
        return;
    while (low < high) {
        size_t middle = low + (high - low) / 2;
        if (sites[middle].offset < sequence->before.address)
            low = middle + 1;
        else
            high = middle;
    }
    for (; low < reader->binary->site_count && sites[low].offset < sequence->row.address; low++) {
        sites[low].file = path_of(unit, sequence->before.file);
        sites[low].line = sites[low].file ? (unsigned)sequence->before.line : 0;
        sites[low].column = (unsigned)sequence->before.column;
    }
}

static void add_row(struct reader *reader, const struct unit_lines *unit, struct sequence *sequence)
{
    if (!sequence->has_before)
        sequence->is_code = sequence->row.address != 0;
    if (sequence->row.address != sequence->before.address)
        close_row(reader, unit, sequence);
    sequence->before = sequence->row;
    sequence->has_before = true;
}

static void begin_sequence(struct sequence *sequence)
{
    *sequence = (struct sequence){.row = {0, 1, 1, 0}};
}

static void extended_step(struct reader *reader, struct unit_lines *unit, struct sequence *sequence)
{
    uint64_t length = packed(reader, false);
    if (length == 0 || length > (uint64_t)(reader->rest.end - reader->rest.at)) {
        reader->rest = (struct bytes){NULL, NULL};
        return;
    }
    const unsigned char *end = reader->rest.at + length;
    uint64_t step = number_of(reader, 1);
    if (step == EXTENDED_END) {
        add_row(reader, unit, sequence);
        begin_sequence(sequence);
    } else if (step == EXTENDED_SET_ADDRESS && length <= 9) {
        sequence->row.address = number_of(reader, (unsigned)length - 1);
    }
    reader->rest.at = end;
}

static void standard_step(struct reader *reader, const struct unit_lines *unit, struct sequence *sequence,
                          unsigned step)
{
    struct row *row = &sequence->row;
    if (step == STEP_COPY)
        add_row(reader, unit, sequence);
    else if (step == STEP_ADVANCE_ADDRESS)
        row->address += packed(reader, false) * unit->least_instruction;
    else if (step == STEP_ADVANCE_LINE)
        row->line += packed(reader, true);
    else if (step == STEP_SET_FILE)
        row->file = packed(reader, false);
    else if (step == STEP_SET_COLUMN)
        row->column = packed(reader, false);
    else if (step == STEP_ADD_CONSTANT)
        row->address += (255 - unit->first_special) / unit->line_range * unit->least_instruction;
    else if (step == STEP_ADVANCE_FIXED)
        row->address += number_of(reader, 2);
    else
        for (unsigned operand = 0; operand < unit->operands[step - 1]; operand++)
            packed(reader, false);
}

static void run_steps(struct reader *reader, struct unit_lines *unit)
{
    struct sequence sequence;
    begin_sequence(&sequence);
    while (reader->rest.at < reader->rest.end) {
        unsigned step = *reader->rest.at++;
        if (step == STEP_EXTENDED) {
            extended_step(reader, unit, &sequence);
        } else if (step < unit->first_special) {
            standard_step(reader, unit, &sequence, step);
        } else {
            step -= unit->first_special;
            sequence.row.address += step / unit->line_range * unit->least_instruction;
            sequence.row.line += (uint64_t)(int64_t)(unit->line_base + (int)(step % unit->line_range));
            add_row(reader, unit, &sequence);
        }
    }
}

/* Reads the head of a unit from behind its length, with the names of its files. */
static bool read_head(struct reader *reader, struct unit_lines *unit, const unsigned char **steps)
{
    unit->version = (unsigned)number_of(reader, 2);
    if (unit->version < 2 || unit->version > 5)
        return false;
    if (unit->version == 5)
        skip(reader, 2);
    uint64_t length = number_of(reader, unit->offset_bytes);
    if (!reader->rest.at || length > (uint64_t)(reader->rest.end - reader->rest.at))
        return false;
    *steps = reader->rest.at + length;
    unit->least_instruction = (unsigned)number_of(reader, 1);
    skip(reader, unit->version >= 4 ? 2 : 1);
    unit->line_base = (int8_t)number_of(reader, 1);
    unit->line_range = (unsigned)number_of(reader, 1);
    unit->first_special = (unsigned)number_of(reader, 1);
    unit->operands = reader->rest.at;
    skip(reader, unit->first_special ? unit->first_special - 1 : 0);
    if (unit->version == 5) {
        names_by_format(reader, unit, &unit->directories, &unit->directory_count, &unit->directory_room);
        names_by_format(reader, unit, &unit->files, &unit->file_count, &unit->file_room);
    } else {
        names_by_order(reader, unit);
    }
    return reader->rest.at && unit->line_range && unit->first_special;
}

/* Finds the lines of all places of a file that were asked for, which stand in their order. */
void find_lines(struct binary *binary)
{
    struct reader reader = {.binary = binary};
    const struct binary *debug = debug_file_of(binary);
    struct bytes all = section_of(debug, ".debug_line");
    reader.strings = section_of(debug, ".debug_str");
    reader.line_strings = section_of(debug, ".debug_line_str");
    while (all.at && all.end - all.at > 4) {
        struct unit_lines unit = {.offset_bytes = 4};
        const unsigned char *steps = NULL;
        reader.rest = all;
        uint64_t length = number_of(&reader, 4);
        if (length == 0xffffffff) {
            unit.offset_bytes = 8;
            length = number_of(&reader, 8);
        }
        if (!reader.rest.at || length > (uint64_t)(all.end - reader.rest.at))
            return;
        reader.rest.end = reader.rest.at + length;
        all.at = reader.rest.end;
        if (read_head(&reader, &unit, &steps)) {
            reader.rest = (struct bytes){steps, all.at};
            run_steps(&reader, &unit);
        }
        free(unit.directories);
        free(unit.files);
    }
}
