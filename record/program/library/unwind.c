/*
 * Which calls led to a place, by what `.eh_frame` says of the frames of their functions. The rule of each place is
 * read once, so a frame is passed by two look-ups of memory. Where a rule is none of the plain ones, the calls around
 * it aren't known. On other processors than x86-64 none are.
 */
#define _GNU_SOURCE
#include <dlfcn.h>
#include <string.h>

#include "recorder.h"

#ifdef __x86_64__

/* Rules that are kept. Where the slots for one hold others it is read each time. */
#define RULES 16384
#define MOST_TRIES 4
#define MOST_FRAME_BYTES 60000
#define MOST_STATES 8

enum { REGISTER_BASE = 6, REGISTER_STACK = 7, REGISTER_RETURN = 16 };

/* What an encoding of pointers says: their form, and what they count from. */
enum { POINTER_8 = 0x04, POINTER_S4 = 0x0b, POINTER_S8 = 0x0c, FROM_HERE = 0x10, FROM_TABLE = 0x30 };

enum rule_state { RULE_NONE, RULE_BEGUN, RULE_READ };

struct kept_rule {
    uint64_t address;
    struct rule rule;
    uint8_t state; /* enum rule_state */
};

static struct kept_rule rules[RULES];

/* Numbers that stand in the tables. They are the loader's own, so they are trusted as far as its are. */
struct cursor {
    const unsigned char *at, *end;
};

static uint64_t fixed(struct cursor *cursor, unsigned size)
{
    uint64_t value = 0;
    if (cursor->end - cursor->at < (long)size) {
        cursor->at = cursor->end;
        return 0;
    }
    memcpy(&value, cursor->at, size);
    cursor->at += size;
    return value;
}

static uint64_t packed(struct cursor *cursor)
{
    uint64_t value = 0;
    for (unsigned shift = 0; cursor->at < cursor->end; shift += 7) {
        unsigned char byte = *cursor->at++;
        if (shift < 64)
            value |= (uint64_t)(byte & 0x7f) << shift;
        if (!(byte & 0x80))
            break;
    }
    return value;
}

static int64_t packed_signed(struct cursor *cursor)
{
    const unsigned char *start = cursor->at;
    uint64_t value = packed(cursor);
    unsigned bits = 7 * (unsigned)(cursor->at - start);
    bool is_negative = cursor->at > start && (cursor->at[-1] & 0x40) && bits < 64;
    return (int64_t)(is_negative ? value | ~UINT64_C(0) << bits : value);
}

static uint64_t pointer(struct cursor *cursor, unsigned form)
{
    uint64_t here = (uint64_t)cursor->at;
    uint64_t value = 0;
    if ((form & 0x0f) == POINTER_S4)
        value = (uint64_t)(int64_t)(int32_t)fixed(cursor, 4);
    else if ((form & 0x0f) == POINTER_8 || (form & 0x0f) == POINTER_S8 || (form & 0x0f) == 0)
        value = fixed(cursor, 8);
    else
        cursor->at = cursor->end;
    return value + ((form & 0x70) == FROM_HERE ? here : 0);
}

/* What the instructions of a table have made of the rules so far. */
struct made {
    uint64_t from; /* what the stack before the frame counts from: a register */
    int64_t offset;
    int64_t base; /* where the base register stands, or one of these */
    bool is_plain;
};

struct program {
    struct made now, begin, kept[MOST_STATES];
    unsigned kept_count;
    uint64_t location, wanted;
    uint64_t code_step;
    int64_t data_step;
    unsigned pointers; /* their form */
    bool has_more, is_signal;
};

static void set_register(struct program *program, uint64_t number, int64_t rule)
{
    if (number == REGISTER_BASE)
        program->now.base = rule;
    if (number == REGISTER_RETURN && rule != -8)
        program->now.is_plain = false;
}

static void set_frame(struct program *program, uint64_t from, int64_t offset)
{
    program->now.from = from;
    program->now.offset = offset;
    program->now.is_plain = from == REGISTER_STACK || from == REGISTER_BASE;
}

static void skip_block(struct cursor *cursor)
{
    uint64_t length = packed(cursor);
    cursor->at = length < (uint64_t)(cursor->end - cursor->at) ? cursor->at + length : cursor->end;
}

static void restore(struct program *program, uint64_t number)
{
    if (number == REGISTER_BASE)
        program->now.base = program->begin.base;
}

/* Steps that say where a register stands. */
static void register_step(struct program *program, struct cursor *cursor, unsigned step)
{
    uint64_t number = packed(cursor);
    if (step == 0x05)
        set_register(program, number, (int64_t)packed(cursor) * program->data_step);
    else if (step == 0x11)
        set_register(program, number, packed_signed(cursor) * program->data_step);
    else if (step == 0x2f)
        set_register(program, number, -(int64_t)packed(cursor) * program->data_step);
    else if (step == 0x06)
        restore(program, number);
    else if (step == 0x08)
        set_register(program, number, number == REGISTER_RETURN ? -8 : BASE_AS_IT_WAS);
    else
        set_register(program, number, BASE_LOST);
    if (step == 0x09 || step == 0x14)
        packed(cursor);
    else if (step == 0x15)
        packed_signed(cursor);
    else if (step == 0x10 || step == 0x16)
        skip_block(cursor);
}

/* Steps that say where the stack was before the frame. */
static void frame_step(struct program *program, struct cursor *cursor, unsigned step)
{
    uint64_t from = program->now.from;
    if (step == 0x0c || step == 0x0d || step == 0x12)
        from = packed(cursor);
    if (step == 0x0c || step == 0x0e)
        set_frame(program, from, (int64_t)packed(cursor));
    else if (step == 0x12 || step == 0x13)
        set_frame(program, from, packed_signed(cursor) * program->data_step);
    else
        set_frame(program, from, program->now.offset);
}

static void other_step(struct program *program, struct cursor *cursor, unsigned step)
{
    if (step == 0x0a && program->kept_count < MOST_STATES) {
        program->kept[program->kept_count++] = program->now;
    } else if (step == 0x0b && program->kept_count) {
        program->now = program->kept[--program->kept_count];
    } else if (step == 0x0f) {
        skip_block(cursor);
        program->now.is_plain = false;
    } else if (step == 0x2e) {
        packed(cursor);
    } else if (step != 0x00) {
        program->now.is_plain = false;
        cursor->at = cursor->end;
    }
}

/* Goes over steps up to the wanted place. */
static void run(struct program *program, struct cursor cursor)
{
    while (cursor.at < cursor.end && program->location <= program->wanted) {
        unsigned step = (unsigned)fixed(&cursor, 1), low = step & 0x3f;
        if (step >> 6 == 1)
            program->location += low * program->code_step;
        else if (step >> 6 == 2)
            set_register(program, low, (int64_t)packed(&cursor) * program->data_step);
        else if (step >> 6 == 3)
            restore(program, low);
        else if (step >= 0x02 && step <= 0x04)
            program->location += fixed(&cursor, 1u << (step - 2)) * program->code_step;
        else if ((step >= 0x05 && step <= 0x09) || step == 0x10 || step == 0x11 ||
                 (step >= 0x14 && step <= 0x16) || step == 0x2f)
            register_step(program, &cursor, step);
        else if ((step >= 0x0c && step <= 0x0e) || step == 0x12 || step == 0x13)
            frame_step(program, &cursor, step);
        else
            other_step(program, &cursor, step);
    }
}

/* Gives what an entry of the table has behind its length, or nothing. */
static struct cursor entry_at(const unsigned char *at)
{
    uint32_t length;
    memcpy(&length, at, sizeof length);
    bool is_plain = length != 0 && length != 0xffffffff;
    return (struct cursor){at + 4, at + 4 + (is_plain ? length : 0)};
}

/* Reads what all frames of some functions have in common, and runs its steps. */
static bool begin_program(struct program *program, struct cursor common)
{
    fixed(&common, 4);
    uint64_t version = fixed(&common, 1);
    const char *more = (const char *)common.at;
    common.at += strnlen(more, (size_t)(common.end - common.at)) + 1;
    if ((version != 1 && version != 3) || common.at >= common.end || (more[0] && more[0] != 'z'))
        return false;
    program->code_step = packed(&common);
    program->data_step = packed_signed(&common);
    if ((version == 1 ? fixed(&common, 1) : packed(&common)) != REGISTER_RETURN)
        return false;
    program->has_more = more[0] == 'z';
    if (program->has_more) {
        uint64_t length = packed(&common);
        struct cursor rest = {common.at, common.at + length};
        for (const char *word = more + 1; *word && length <= (uint64_t)(common.end - common.at); word++) {
            if (*word == 'R')
                program->pointers = (unsigned)fixed(&rest, 1);
            else if (*word == 'P')
                pointer(&rest, (unsigned)fixed(&rest, 1));
            else if (*word == 'L')
                fixed(&rest, 1);
            program->is_signal = program->is_signal || *word == 'S';
        }
        common.at += length;
    }
    uint64_t location = program->location;
    program->location = 0;
    program->now.is_plain = true;
    run(program, common);
    program->location = location;
    program->begin = program->now;
    return common.at <= common.end;
}

/* Reads the rule of a place by the entry of its function. */
static bool read_entry(struct rule *rule, const unsigned char *at, uint64_t address)
{
    struct program program = {.wanted = UINT64_MAX};
    struct cursor entry = entry_at(at);
    const unsigned char *here = entry.at;
    uint64_t back = fixed(&entry, 4);
    if (back == 0 || !begin_program(&program, entry_at(here - back)) || program.is_signal)
        return false;
    uint64_t start = pointer(&entry, program.pointers);
    uint64_t length = pointer(&entry, program.pointers & 0x0f);
    if (address < start || address - start >= length)
        return false;
    if (program.has_more)
        skip_block(&entry);
    program.location = start;
    program.wanted = address;
    run(&program, entry);
    if (!program.now.is_plain || program.now.offset < 8 || program.now.offset > MOST_FRAME_BYTES)
        return false;
    rule->is_based = program.now.from == REGISTER_BASE;
    rule->offset = (int32_t)program.now.offset;
    rule->base =
        program.now.base < -MOST_FRAME_BYTES || program.now.base > 0 ? BASE_LOST : (int32_t)program.now.base;
    return true;
}

/* Gives the entry of the function in which an address is, by the table that the linker has sorted. */
static const unsigned char *find_entry(const unsigned char *table, uint64_t address)
{
    struct cursor cursor = {table + 4, table + 12};
    if (table[0] != 1 || table[2] != 0x03 || table[3] != (FROM_TABLE | POINTER_S4))
        return NULL;
    pointer(&cursor, table[1]);
    cursor.end = cursor.at + 4;
    size_t low = 0, high = fixed(&cursor, 4);
    const unsigned char *rows = cursor.at;
    int64_t wanted = (int64_t)(address - (uint64_t)table);
    int32_t row[2];
    while (low < high) {
        size_t middle = low + (high - low) / 2;
        memcpy(row, rows + 8 * middle, sizeof row);
        if (row[0] <= wanted)
            low = middle + 1;
        else
            high = middle;
    }
    if (low == 0)
        return NULL;
    memcpy(row, rows + 8 * (low - 1), sizeof row);
    return table + row[1];
}

/* Gives how far it is from a place to the begin of the function that the call before it names, where it names one. */
static int32_t to_call(uint64_t address, uint64_t module)
{
    const unsigned char *call = (const unsigned char *)address - 5;
    int32_t distance;
    if (address - module < 5 || call[0] != 0xe8)
        return 0;
    memcpy(&distance, call + 1, sizeof distance);
    return distance;
}

static void read_rule(struct rule *rule, uint64_t address)
{
    struct dl_find_object object;
    *rule = (struct rule){.offset = 0};
    if (address == 0 || _dl_find_object((void *)(address - 1), &object) != 0)
        return;
    rule->is_code = true;
    rule->to_call = to_call(address, (uint64_t)object.dlfo_map_start);
    const unsigned char *table = object.dlfo_eh_frame;
    const unsigned char *entry = table ? find_entry(table, address - 1) : NULL;
    if (!entry || !read_entry(rule, entry, address - 1))
        rule->offset = 0;
}

/* Gives the rule of a place: how the frame around it is found. Where it can't be kept it is `own`. */
const struct rule *rule_of(uint64_t address, struct rule *own)
{
    for (unsigned turn = 0; turn < MOST_TRIES; turn++) {
        struct kept_rule *kept = &rules[((address * UINT64_C(0x9e3779b97f4a7c15) >> 50) + turn) % RULES];
        uint8_t state = __atomic_load_n(&kept->state, __ATOMIC_ACQUIRE);
        if (state == RULE_READ && kept->address == address)
            return &kept->rule;
        if (state != RULE_NONE || !__atomic_compare_exchange_n(&kept->state, &state, RULE_BEGUN, false,
                                                               __ATOMIC_ACQUIRE, __ATOMIC_RELAXED))
            continue;
        kept->address = address;
        read_rule(&kept->rule, address);
        __atomic_store_n(&kept->state, RULE_READ, __ATOMIC_RELEASE);
        return &kept->rule;
    }
    read_rule(own, address);
    return own;
}

#else

const struct rule *rule_of(uint64_t address, struct rule *own)
{
    (void)address;
    *own = (struct rule){.offset = 0};
    return own;
}

#endif
