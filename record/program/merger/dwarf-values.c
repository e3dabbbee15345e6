/* Where variables are, and what memory of a thread's stack is known. */
#include <string.h>

#include "dwarf.h"

enum { FORM_OFFSET = 0x17, FORM_LOCATIONS_NUMBER = 0x22 };

/* What the entries of a list of locations say, in version 5. */
enum {
    LIST_END,
    LIST_BASE_NUMBER,
    LIST_NUMBERS,
    LIST_NUMBER_AND_LENGTH,
    LIST_OFFSETS,
    LIST_DEFAULT,
    LIST_BASE,
    LIST_ADDRESSES,
    LIST_ADDRESS_AND_LENGTH,
    LIST_VIEWS,
};

#define MOST_OPERANDS 16

struct operands {
    uint64_t all[MOST_OPERANDS];
    unsigned count;
    bool is_bad;
    bool is_value;
};

static void push(struct operands *operands, uint64_t value)
{
    if (operands->count < MOST_OPERANDS)
        operands->all[operands->count++] = value;
    else
        operands->is_bad = true;
}

static uint64_t pop(struct operands *operands)
{
    if (operands->count)
        return operands->all[--operands->count];
    operands->is_bad = true;
    return 0;
}

/* Reads a word of the stack, where that part of it is known. */
bool read_memory(const struct machine *machine, uint64_t address, uint64_t *word)
{
    uint64_t length = (uint64_t)(machine->memory.end - machine->memory.at);
    uint64_t start = address - machine->stack;
    if (address < machine->stack || start >= length || length - start < sizeof *word)
        return false;
    memcpy(word, machine->memory.at + start, sizeof *word);
    return true;
}

static void push_register(const struct machine *machine, struct operands *operands, uint64_t number,
                          uint64_t offset)
{
    if (number >= REGISTERS || !(machine->known >> number & 1))
        operands->is_bad = true;
    else
        push(operands, machine->registers[number] + offset);
}

static enum where evaluate(const struct machine *machine, struct bytes expression, bool is_base,
                           uint64_t *result);

static void push_frame_base(const struct machine *machine, struct operands *operands, uint64_t offset,
                            bool is_base)
{
    uint64_t base;
    struct bytes expression = machine->function->frame_base.bytes;
    if (!is_base && expression.at && evaluate(machine, expression, true, &base) != NOWHERE)
        push(operands, base + offset);
    else
        operands->is_bad = true;
}

static void push_constant(struct bytes *rest, struct operands *operands, unsigned operation)
{
    unsigned size = 1u << (operation - 0x08) / 2;
    uint64_t value = take_number(rest, size);
    if (operation % 2 && size < 8 && value >> (8 * size - 1))
        value |= ~UINT64_C(0) << 8 * size;
    push(operands, value);
}

static void calculate(struct operands *operands, unsigned operation)
{
    uint64_t second = pop(operands), first = pop(operands);
    push(operands, operation == 0x1a ? first & second : operation == 0x1c ? first - second : first + second);
}

static void step(const struct machine *machine, struct bytes *rest, struct operands *operands,
                 unsigned operation, bool is_base)
{
    uint64_t word = 0, number;
    if (operation == 0x03)
        push(operands, take_number(rest, 8) + machine->load);
    else if (operation == 0x06 && read_memory(machine, pop(operands), &word))
        push(operands, word);
    else if (operation >= 0x08 && operation <= 0x0f)
        push_constant(rest, operands, operation);
    else if (operation == 0x10 || operation == 0x11)
        push(operands, take_packed(rest, operation == 0x11));
    else if (operation == 0x1a || operation == 0x1c || operation == 0x22)
        calculate(operands, operation);
    else if (operation == 0x23)
        push(operands, pop(operands) + take_packed(rest, false));
    else if (operation >= 0x30 && operation <= 0x4f)
        push(operands, operation - 0x30);
    else if (operation >= 0x70 && operation <= 0x8f)
        push_register(machine, operands, operation - 0x70, take_packed(rest, true));
    else if (operation == 0x91)
        push_frame_base(machine, operands, take_packed(rest, true), is_base);
    else if (operation == 0x92 && (number = take_packed(rest, false)) < REGISTERS)
        push_register(machine, operands, number, take_packed(rest, true));
    else if (operation == 0x9c && machine->outer_stack)
        push(operands, machine->outer_stack);
    else if (operation == 0x9f)
        operands->is_value = true;
    else if (operation != 0x96)
        operands->is_bad = true;
}

/* Gives what an expression says: where a variable is, or its value. Of what is in several pieces, or what its value
   was before, nothing is known. */
static enum where evaluate(const struct machine *machine, struct bytes rest, bool is_base, uint64_t *result)
{
    struct operands operands = {.count = 0};
    while (rest.at && rest.at < rest.end && !operands.is_bad) {
        unsigned operation = (unsigned)take_number(&rest, 1);
        if (operation >= 0x50 && operation <= 0x6f) {
            push_register(machine, &operands, operation - 0x50, 0);
            operands.is_value = true;
        } else {
            step(machine, &rest, &operands, operation, is_base);
        }
    }
    if (!rest.at || operands.is_bad || operands.count == 0)
        return NOWHERE;
    *result = operands.all[operands.count - 1];
    return operands.is_value ? IS_VALUE : IN_MEMORY;
}

static bool is_there(const struct machine *machine, uint64_t low, uint64_t high)
{
    return machine->address >= low && machine->address < high;
}

/* Gives the expression of a list of version 4 that holds at the machine's place. */
static struct bytes in_pairs(const struct machine *machine, struct bytes rest, uint64_t base)
{
    while (rest.at) {
        uint64_t low = take_number(&rest, 8), high = take_number(&rest, 8);
        if (!rest.at || (low == 0 && high == 0))
            break;
        if (low == UINT64_MAX) {
            base = high;
            continue;
        }
        struct bytes expression = {rest.at + 2, NULL};
        take_skip(&rest, take_number(&rest, 2));
        expression.end = rest.at;
        if (rest.at && is_there(machine, base + low, base + high))
            return expression;
    }
    return (struct bytes){NULL, NULL};
}

/* Reads the two addresses of an entry of a list of version 5. */
static void read_bounds(const struct machine *machine, const struct debug_unit *unit, struct bytes *rest,
                        uint64_t kind, uint64_t *base, uint64_t *low, uint64_t *high)
{
    bool is_number = kind == LIST_BASE_NUMBER || kind == LIST_NUMBERS || kind == LIST_NUMBER_AND_LENGTH;
    *low = 0;
    *high = kind == LIST_DEFAULT ? UINT64_MAX : 0;
    if (is_number)
        *low = address_numbered(machine->debug, unit, take_packed(rest, false));
    else if (kind == LIST_OFFSETS)
        *low = *base + take_packed(rest, false);
    else if (kind == LIST_BASE || kind == LIST_ADDRESSES || kind == LIST_ADDRESS_AND_LENGTH)
        *low = take_number(rest, 8);
    if (kind == LIST_NUMBERS)
        *high = address_numbered(machine->debug, unit, take_packed(rest, false));
    else if (kind == LIST_OFFSETS)
        *high = *base + take_packed(rest, false);
    else if (kind == LIST_ADDRESSES)
        *high = take_number(rest, 8);
    else if (kind == LIST_NUMBER_AND_LENGTH || kind == LIST_ADDRESS_AND_LENGTH)
        *high = *low + take_packed(rest, false);
    if (kind == LIST_BASE || kind == LIST_BASE_NUMBER)
        *base = *low;
}

static struct bytes in_list(const struct machine *machine, const struct debug_unit *unit, struct bytes rest)
{
    uint64_t base = unit->low, low, high;
    while (rest.at) {
        uint64_t kind = take_number(&rest, 1);
        if (!rest.at || kind == LIST_END || kind > LIST_VIEWS)
            break;
        if (kind == LIST_VIEWS) {
            take_packed(&rest, false);
            take_packed(&rest, false);
            continue;
        }
        read_bounds(machine, unit, &rest, kind, &base, &low, &high);
        if (kind == LIST_BASE || kind == LIST_BASE_NUMBER)
            continue;
        uint64_t length = take_packed(&rest, false);
        struct bytes expression = {rest.at, NULL};
        take_skip(&rest, length);
        expression.end = rest.at;
        if (rest.at && is_there(machine, low, high))
            return expression;
    }
    return (struct bytes){NULL, NULL};
}

/* Gives the expression that says where a variable is at the machine's place. */
static struct bytes expression_of(const struct machine *machine, const struct entry *variable)
{
    const struct debug *debug = machine->debug;
    const struct debug_unit *unit = variable->unit;
    const struct value *location = &variable->location;
    struct bytes rest = unit->version < 5 ? debug->locations : debug->location_lists;
    uint64_t offset = location->number;
    if (location->bytes.at || !location->form)
        return location->bytes;
    if (location->form == FORM_LOCATIONS_NUMBER) {
        struct bytes offsets = debug->location_lists;
        take_skip(&offsets, unit->bases[BASE_LOCATIONS]);
        take_skip(&offsets, offset <= UINT32_MAX ? offset * unit->offset_bytes : UINT64_MAX);
        offset = unit->bases[BASE_LOCATIONS] + take_number(&offsets, unit->offset_bytes);
        rest = offsets.at ? rest : offsets;
    } else if (location->form != FORM_OFFSET) {
        return (struct bytes){NULL, NULL};
    }
    take_skip(&rest, offset);
    return unit->version < 5 ? in_pairs(machine, rest, unit->low) : in_list(machine, unit, rest);
}

/* Says where a variable is, or what its value is, as far as that is known of a frame. */
enum where locate(const struct machine *machine, const struct entry *variable, uint64_t *result)
{
    struct bytes expression = expression_of(machine, variable);
    return expression.at ? evaluate(machine, expression, false, result) : NOWHERE;
}
