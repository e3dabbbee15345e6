/* Debug information of DWARF 4 and 5, as the merger reads it. */
#ifndef DWARF_H
#define DWARF_H

#include "merger.h"

/* Tags of entries, as DWARF numbers them. */
enum tag {
    TAG_NONE = 0x00,
    TAG_ARRAY = 0x01,
    TAG_CLASS = 0x02,
    TAG_PARAMETER = 0x05,
    TAG_BLOCK = 0x0b,
    TAG_MEMBER = 0x0d,
    TAG_POINTER = 0x0f,
    TAG_REFERENCE = 0x10,
    TAG_UNIT = 0x11,
    TAG_STRUCTURE = 0x13,
    TAG_TYPEDEF = 0x16,
    TAG_UNION = 0x17,
    TAG_INHERITANCE = 0x1c,
    TAG_INLINED = 0x1d,
    TAG_RANGE = 0x21,
    TAG_CONST = 0x26,
    TAG_FUNCTION = 0x2e,
    TAG_VARIABLE = 0x34,
    TAG_VOLATILE = 0x35,
    TAG_RESTRICT = 0x37,
    TAG_NAMESPACE = 0x39,
    TAG_RVALUE_REFERENCE = 0x42,
    TAG_ATOMIC = 0x47,
};

/* The sections of which a unit has a part of its own. */
enum base { BASE_TEXTS, BASE_ADDRESSES, BASE_RANGES, BASE_LOCATIONS, BASES };

/* A value of an attribute: a number, which may be an offset or an index, or bytes. */
struct value {
    uint64_t form;
    uint64_t number;
    struct bytes bytes; /* of an expression */
    const char *text;
};

struct abbreviation {
    uint64_t code;
    uint64_t tag;
    bool has_children;
    const unsigned char *fields;
};

/* A function of a unit, or one of the parts of it that stand apart. */
struct range {
    uint64_t low, high;
    uint64_t entry;
};

struct debug_unit {
    uint64_t start, first, end; /* of the head, of the first entry, of what follows */
    unsigned version, offset_bytes, address_bytes;
    struct abbreviation *abbreviations; /* read where the unit is first looked at */
    size_t abbreviation_count, abbreviation_room;
    uint64_t abbreviations_at;
    uint64_t low;
    uint64_t bases[BASES];   /* where the unit's own parts of other sections begin */
    struct range *functions; /* read where one of them is looked for */
    size_t function_count, function_room;
    bool has_functions;
};

struct debug {
    struct bytes info, abbreviations, texts, line_texts, text_offsets, addresses;
    struct bytes locations, location_lists, ranges, range_lists;
    struct debug_unit *units;
    size_t count, room;
    struct range *unit_ranges; /* whose entries are the numbers of units */
    size_t range_count, range_room;
    bool has_ranges;
    struct type_name *names; /* of types, by a checksum */
    size_t name_count, name_room;
};

struct type_name {
    uint64_t at;
    char *text;
};

/* An entry: what its attributes say, as far as it is wanted here. */
struct entry {
    uint64_t at, next; /* of it, and of its first child or else of what follows it */
    struct debug_unit *unit;
    enum tag tag;
    bool has_children, is_declaration;
    const char *name;
    uint64_t type, origin, sibling; /* offsets of other entries, or 0 */
    uint64_t size, count, offset;   /* of the type, of the range, of the member */
    uint64_t call_column;           /* where an inlined function is called */
    bool has_size, has_count, has_offset;
    struct value location, frame_base, low, high, ranges;
    uint64_t bases[BASES]; /* of a unit */
};

/* A lock that is a member of a record. */
struct member {
    const char *type, *name;
    bool is_alone; /* the record has nothing else: it is as good as the lock itself */
};

/* The registers of x86-64, as DWARF numbers them, of which a frame is known to have some. */
enum { REGISTER_FIRST_ARGUMENT = 5, REGISTER_FRAME = 6, REGISTER_STACK = 7, REGISTERS = 16 };

/* A frame of a thread: the place in its code, what its registers had, and a part of the stack. */
struct machine {
    struct debug *debug;
    const struct entry *function;
    uint64_t address; /* in the file, of the last byte of the call */
    uint64_t load;
    uint64_t registers[REGISTERS];
    unsigned known;       /* a bit for each register */
    uint64_t outer_stack; /* where the stack was before this frame, or 0 */
    uint64_t stack;
    struct bytes memory; /* from there on */
};

/* dwarf-entries.c */
struct debug *debug_of(struct binary *binary);
bool read_entry(const struct debug *debug, struct debug_unit *unit, uint64_t at, struct entry *entry);
bool entry_at(const struct debug *debug, uint64_t at, struct entry *entry);
bool next_child(const struct debug *debug, const struct entry *parent, struct entry *child);
const char *qualified_name(struct debug *debug, const struct entry *type);

/* dwarf-ranges.c */
uint64_t address_numbered(const struct debug *debug, const struct debug_unit *unit, uint64_t number);
uint64_t address_value(const struct debug *debug, const struct debug_unit *unit, const struct value *value);
bool each_range(const struct debug *debug, const struct entry *entry, bool (*see)(void *, uint64_t, uint64_t),
                void *argument);
bool holds_address(const struct debug *debug, const struct entry *entry, uint64_t address);
bool function_at(struct debug *debug, uint64_t address, struct entry *function);

/* dwarf-values.c */
enum where { NOWHERE, IN_MEMORY, IS_VALUE };
enum where locate(const struct machine *machine, const struct entry *variable, uint64_t *result);
bool read_memory(const struct machine *machine, uint64_t address, uint64_t *word);

/* dwarf-types.c */
bool type_at(const struct debug *debug, uint64_t at, struct entry *type);
uint64_t size_of(const struct debug *debug, uint64_t at);
bool is_of_library(const char *name);
bool member_at(struct debug *debug, uint64_t at, uint64_t offset, struct member *member);

/* reading.c: numbers and texts, as DWARF has them. Where one isn't whole, both ends become NULL. */
uint64_t take_number(struct bytes *rest, unsigned size);
uint64_t take_packed(struct bytes *rest, bool is_signed);
const char *take_text(struct bytes *rest);
void take_skip(struct bytes *rest, uint64_t count);

#endif
