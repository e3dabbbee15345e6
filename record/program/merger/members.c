/*
 * Of which record a lock is a member that no call initialised. One of the frames that led to it has a variable of that
 * record, or a pointer to it: where that is, and what its type is, debug information says.
 */
#include <stdlib.h>
#include <string.h>

#include "dwarf.h"

#define MOST_DEPTH 64
/* The most calls of a record. */
#define MOST_CALLS_TOLD 8
/* How many pointers in the variables of a frame are looked at, and how deep. */
#define MOST_POINTERS 256
#define MOST_INNER 4

struct search {
    struct machine machine;
    uint64_t lock;
    unsigned pointers;   /* that were looked at */
    struct member found; /* in the innermost frame that has a record of more than the lock */
    struct member alone; /* likewise, of a record that has nothing but the lock */
    bool is_through;     /* the frame is of a function that the user named */
};

/* The calls whose lock was looked for, and what it is: nothing where it wasn't found. */
struct known {
    uint64_t calls;
    char *name;
};
static struct known *known;
static size_t known_count, known_room;

/* Gives a type behind the names that it has. */
static bool plain_type(const struct debug *debug, uint64_t at, struct entry *type)
{
    unsigned depth = 0;
    while (type_at(debug, at, type) && type->tag == TAG_TYPEDEF && depth++ < MOST_DEPTH)
        at = type->type;
    return type->tag != TAG_NONE && type->tag != TAG_TYPEDEF;
}

static bool is_pointer(enum tag tag)
{
    return tag == TAG_POINTER || tag == TAG_REFERENCE || tag == TAG_RVALUE_REFERENCE;
}

/* Takes the lock as a member of what is at an address, if it is. */
static bool take(struct search *search, uint64_t type, uint64_t address)
{
    struct member member;
    uint64_t size = search->lock < address ? 0 : size_of(search->machine.debug, type);
    if (search->lock < address || search->lock - address >= size ||
        !member_at(search->machine.debug, type, search->lock - address, &member))
        return false;
    if (search->is_through)
        add_through_type(member.type);
    else if (!member.is_alone)
        search->found = member;
    else if (!search->alone.type)
        search->alone = member;
    return search->found.type != NULL;
}

/* Looks at the pointers in a record on the stack. */
static bool look_inside(struct search *search, uint64_t at, uint64_t address, unsigned depth)
{
    const struct debug *debug = search->machine.debug;
    struct entry type, part = {.at = 0}, inner;
    uint64_t value;
    if (depth > MOST_INNER || !plain_type(debug, at, &type) ||
        (type.tag != TAG_STRUCTURE && type.tag != TAG_CLASS))
        return false;
    while (next_child(debug, &type, &part) && search->pointers < MOST_POINTERS) {
        bool is_part = part.tag == TAG_MEMBER || part.tag == TAG_INHERITANCE;
        uint64_t start = address + (part.has_offset ? part.offset : 0);
        if (!is_part || !plain_type(debug, part.type, &inner))
            continue;
        search->pointers++;
        if (is_pointer(inner.tag) && read_memory(&search->machine, start, &value)) {
            if (take(search, inner.type, value))
                return true;
        } else if (look_inside(search, part.type, start, depth + 1)) {
            return true;
        }
    }
    return false;
}

/* Where the last byte of the call has a variable in a register that calls don't keep, the byte behind it may have it
   in another. */
static enum where locate_around(struct machine *machine, const struct entry *variable, uint64_t *value)
{
    enum where where = locate(machine, variable, value);
    if (where != NOWHERE)
        return where;
    machine->address++;
    where = locate(machine, variable, value);
    machine->address--;
    return where;
}

static bool look_at_variable(struct search *search, const struct entry *variable)
{
    const struct debug *debug = search->machine.debug;
    struct entry origin, type;
    uint64_t at = variable->type, value;
    for (unsigned depth = 0; !at && depth < 4; depth++) {
        if (!entry_at(debug, depth ? origin.origin : variable->origin, &origin))
            return false;
        at = origin.type;
    }
    if (!plain_type(debug, at, &type))
        return false;
    enum where where = locate_around(&search->machine, variable, &value);
    if (is_pointer(type.tag)) {
        if (where == IN_MEMORY && !read_memory(&search->machine, value, &value))
            return false;
        return where != NOWHERE && take(search, type.type, value);
    }
    return where == IN_MEMORY && (take(search, at, value) || look_inside(search, at, value, 0));
}

/* Looks at the variables of a function, or of a block of it, where the frame is: the innermost block first. */
static bool look_at_block(struct search *search, const struct entry *block, unsigned depth)
{
    const struct debug *debug = search->machine.debug;
    struct entry child = {.at = 0};
    while (depth < MOST_DEPTH && next_child(debug, block, &child)) {
        bool is_block = child.tag == TAG_BLOCK || child.tag == TAG_INLINED;
        if (is_block && holds_address(debug, &child, search->machine.address) &&
            look_at_block(search, &child, depth + 1))
            return true;
    }
    child = (struct entry){.at = 0};
    while (next_child(debug, block, &child))
        if ((child.tag == TAG_VARIABLE || child.tag == TAG_PARAMETER) && look_at_variable(search, &child))
            return true;
    return false;
}

static void set_register(struct machine *machine, unsigned number, uint64_t value)
{
    machine->registers[number] = value;
    machine->known |= 1u << number;
}

static bool look_at_frame(struct search *search, const struct modules *modules,
                          const struct told_frame *frame, bool is_innermost)
{
    static const unsigned kept[KEPT_REGISTERS] = {3, 6, 12, 13, 14, 15};
    struct machine *machine = &search->machine;
    const struct module *module = module_at(modules, frame->address);
    struct entry function;
    if (!module)
        return false;
    machine->debug = debug_of(module->binary);
    machine->load = module->load;
    machine->address = frame->address - module->load - 1;
    machine->known = 0;
    for (unsigned number = 0; number < KEPT_REGISTERS; number++)
        set_register(machine, kept[number], frame->registers[number]);
    set_register(machine, REGISTER_STACK, frame->stack);
    if (is_innermost)
        set_register(machine, REGISTER_FIRST_ARGUMENT, search->lock);
    machine->function = &function;
    search->pointers = 0;
    search->is_through = is_place_through(module->binary, machine->address);
    return function_at(machine->debug, machine->address, &function) && look_at_block(search, &function, 0);
}

/* Looks for the lock in the frames that were told, the innermost first. */
static const struct member *look_at_frames(struct search *search, const struct modules *modules,
                                           const struct unit *first)
{
    unsigned following = HEAD_FOLLOWING(first->head);
    const struct told_frame *frames = (const struct told_frame *)&first[2];
    unsigned units = sizeof *frames / sizeof *first;
    uint64_t count = following ? first[1].head : 0;
    if (count == 0 || count > (following - 1) / units)
        return NULL;
    search->machine.stack = frames[0].stack;
    search->machine.memory = (struct bytes){(const unsigned char *)&first[2 + count * units],
                                            (const unsigned char *)&first[1 + following]};
    for (unsigned number = 0; number < count; number++) {
        search->machine.outer_stack = number + 1 < count ? frames[number + 1].stack : first[1].value;
        if (look_at_frame(search, modules, &frames[number], number == 0))
            return &search->found;
    }
    return search->alone.type ? &search->alone : NULL;
}

static void *slot_of(void *all, size_t room, const void *element)
{
    struct known *slots = all;
    const struct known *wanted = element;
    size_t slot = (wanted->calls >> 20) % room;
    while (slots[slot].calls && slots[slot].calls != wanted->calls)
        slot = (slot + 1) % room;
    return &slots[slot];
}

static struct known *known_at(uint64_t calls)
{
    calls = calls ? calls : 1;
    known = grown_table(known, known_count, &known_room, sizeof *known, slot_of);
    struct known *slot = slot_of(known, known_room, &(struct known){.calls = calls});
    known_count += slot->calls == 0;
    slot->calls = calls;
    return slot;
}

/* Takes what the frames of the calls that are about to take a lock first say of it. Other locks which these calls take
   first are known by that, also if this one had its class before. */
void add_frames_told(const struct modules *modules, const struct unit *first)
{
    const struct told_frame *frames = (const struct told_frame *)&first[2];
    uint64_t calls[MOST_CALLS_TOLD] = {0};
    struct search search = {.lock = first->value};
    const struct member *member = look_at_frames(&search, modules, first);
    if (!member)
        return;
    for (unsigned number = 0; number < MOST_CALLS_TOLD && number < first[1].head; number++)
        calls[number] = frames[number].address;
    char type[1024], name[2048];
    short_function(type, sizeof type, member->type);
    snprintf(name, sizeof name, "%s::%s", type, member->name);
    struct known *slot = known_at(sum_of_calls(modules, calls, MOST_CALLS_TOLD));
    free(slot->name);
    slot->name = must(strdup(name));
}

/* Names the member that a lock is which these calls take first, or gives NULL if that isn't known. */
const char *member_of_calls(const struct modules *modules, const struct unit *first, unsigned following)
{
    return known_at(sum_of_calls(modules, (const uint64_t *)&first[1], 2 * following))->name;
}
