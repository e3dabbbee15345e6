/*
 * The places of the program from which locks are taken. Each is told once, and then an event has its
 * number. All threads share the table, and none waits: a place that is about to be told by another
 * thread, or by the code that a signal handler interrupted, is told again under another number.
 */
#define _GNU_SOURCE
#include <stddef.h>

#include "recorder.h"

/* Slots that are looked at for a place. Where all of them hold others it has no number. */
#define MOST_TRIES 16
/* How far the frames that are looked at may be from the innermost one. */
#define MOST_BYTES 65535
/* How far into a function the call is after which the place around it is another part of the place. */
#define MOST_INTO 256
/* The most places of that kind, without the innermost. */
#define MOST_INNER 4

enum place_state { PLACE_NONE, PLACE_BEGUN, PLACE_TOLD };

_Static_assert(PLACE_NUMBERS == 1 << 16, "a number that is too large goes on from 0");
_Static_assert(MOST_CALLS <= MOST_INSIDE, "all calls that are told can be kept");

bool wants_places;
unsigned wanted_callers;

static uint16_t number_of(uint64_t address, uint16_t inside, unsigned turn)
{
    return (uint16_t)(((address + inside) * UINT64_C(0x9e3779b97f4a7c15) >> 48) + turn);
}

static bool tell(uint16_t number, uint64_t address, uint16_t inside)
{
    struct place *place = &life->places[number];
    uint8_t none = PLACE_NONE;
    if (!__atomic_compare_exchange_n(&place->state, &none, PLACE_BEGUN, false, __ATOMIC_ACQUIRE,
                                     __ATOMIC_RELAXED))
        return false;
    place->address = address;
    place->inside = inside;
    tell_place(address, (struct told_place){number, inside});
    __atomic_store_n(&place->state, PLACE_TOLD, __ATOMIC_RELEASE);
    return true;
}

/* Gives the number of a place, or 0. It is where the place stands in the table. */
static uint16_t find(uint64_t address, uint16_t inside)
{
    for (unsigned turn = 0; turn < MOST_TRIES; turn++) {
        uint16_t number = number_of(address, inside, turn);
        const struct place *place = &life->places[number];
        if (number == 0)
            continue;
        uint8_t state = __atomic_load_n(&place->state, __ATOMIC_ACQUIRE);
        if (state == PLACE_TOLD && place->address == address && place->inside == inside)
            return number;
        if (state == PLACE_NONE && tell(number, address, inside))
            return number;
    }
    return 0;
}

static uint64_t word_at(const struct frame *frame, uint64_t bytes)
{
    return *(const uint64_t *)((const char *)frame + bytes);
}

/* Answers whether these calls led here. Each of them is looked for where it was before: a frame lies where the places
   in it say, or else the base register does, so no word is read that isn't there. */
static bool are_same(const struct calls *calls, const struct frame *frame)
{
    for (unsigned number = 0; number < calls->count; number++) {
        const struct level *level = &calls->levels[number];
        if (word_at(frame, level->at) != level->address)
            return false;
        if (level->is_based && word_at(frame, level->base_at) != (uint64_t)frame + level->base)
            return false;
    }
    return calls->count > 0;
}

/* The way from frame to frame, in bytes from the innermost one. */
struct way {
    const struct frame *frame;
    uint64_t stack;
    uint64_t base_at; /* where the base register stands, and what it is */
    uint64_t base;
    bool has_base;
};

/* Goes on to the frame around one, and gives where the place in that stands, or 0 where it isn't known. */
static uint64_t step(struct way *way, const struct rule *rule, struct level *level)
{
    uint64_t start = way->stack;
    if (rule->offset == 0 || (rule->is_based && !way->has_base))
        return 0;
    if (rule->is_based) {
        *level = (struct level){level->address, level->at, (uint16_t)way->base_at, (uint16_t)way->base, true};
        start = way->base;
    }
    uint64_t outer = start + (uint64_t)rule->offset;
    if (outer <= way->stack || outer > MOST_BYTES || outer % sizeof(uint64_t) != 0)
        return 0;
    way->stack = outer;
    if (rule->base == BASE_LOST)
        way->has_base = false;
    else if (rule->base != BASE_AS_IT_WAS) {
        way->base_at = outer + (uint64_t)(int64_t)rule->base;
        way->has_base = way->base_at < outer;
    }
    if (way->has_base) {
        way->base = word_at(way->frame, way->base_at) - (uint64_t)way->frame;
        way->has_base = way->base >= outer && way->base <= MOST_BYTES;
    }
    return outer - sizeof(uint64_t);
}

/* Answers whether the place around another one is a part of it: where a call that stands there leads to the begin of
   the function which the inner place is in, near its begin. That is how the inline functions of headers look which
   aren't inlined. */
static bool is_inner(uint64_t inner, uint64_t outer, const struct rule *rule)
{
    return rule->to_call != 0 && inner - (outer + (uint64_t)(int64_t)rule->to_call) < MOST_INTO;
}

static struct way way_from(const struct frame *frame)
{
    struct way way = {.frame = frame, .stack = sizeof *frame};
    way.base = (uint64_t)frame->outer - (uint64_t)frame;
    way.has_base = way.base <= MOST_BYTES;
    return way;
}

/* Finds the calls that led here: those that are a part of the place, and as many callers as are wanted. */
static void find_calls(struct calls *calls, const struct frame *frame)
{
    struct way way = way_from(frame);
    struct rule own;
    unsigned inner = 0, callers = 0;
    uint64_t at = offsetof(struct frame, address), address = frame->address;
    const struct rule *rule = rule_of(address, &own);
    calls->count = 0;
    for (;;) {
        struct level *level = &calls->levels[calls->count++];
        *level = (struct level){.address = address, .at = (uint16_t)at};
        if (calls->count == MOST_INSIDE || (at = step(&way, rule, level)) == 0)
            return;
        uint64_t outer = word_at(frame, at);
        rule = rule_of(outer, &own);
        if (!rule->is_code)
            return;
        if (callers == 0 && inner < MOST_INNER && is_inner(address, outer, rule))
            inner++;
        else if (callers++ == wanted_callers)
            return;
        address = outer;
    }
}

/* Keeps calls that led here, to know them again, unless one of them can't be found where the one inside says. */
static void keep_calls(struct calls *calls, const struct frame *frame, const uint64_t *places, unsigned count)
{
    struct way way = way_from(frame);
    struct rule own;
    uint64_t at = offsetof(struct frame, address);
    calls->count = 0;
    for (unsigned number = 0; number < count; number++) {
        struct level *level = &calls->levels[number];
        if (at == 0 || word_at(frame, at) != places[number])
            return;
        *level = (struct level){.address = places[number], .at = (uint16_t)at};
        at = step(&way, rule_of(places[number], &own), level);
    }
    calls->count = (uint16_t)count;
}

/* Gives the return addresses of the calls that led into the library, the innermost first. Mostly a thread comes through
   the same ones again, and to see that costs far less than to unwind. What a signal handler does in the midst of
   another call of the recorder leaves the thread's calls as they are. */
unsigned callers_of_frame(const struct frame *frame, uint64_t places[MOST_CALLS])
{
    if (!frame || self.inside != 1)
        return callers(places, MOST_CALLS);
    struct calls *calls = &self.first[(frame->address ^ (uint64_t)frame >> 4) % FIRST_KEPT];
    if (!are_same(calls, frame)) {
        unsigned count = callers(places, MOST_CALLS);
        keep_calls(calls, frame, places, count);
        return count;
    }
    for (unsigned number = 0; number < calls->count; number++)
        places[number] = calls->levels[number].address;
    return calls->count;
}

/* Finds the number of the place by all calls at once, or else, the first time, by each of them in turn. */
static void find_number(struct calls *calls)
{
    uint64_t sum = calls->count;
    for (unsigned number = 0; number < calls->count; number++)
        sum = (sum ^ calls->levels[number].address) * UINT64_C(0x9e3779b97f4a7c15);
    uint64_t *way = &life->ways[sum >> 48];
    uint64_t known = __atomic_load_n(way, __ATOMIC_RELAXED);
    if (known != 0 && (known ^ (sum << 16)) < PLACE_NUMBERS) {
        calls->number = (uint16_t)known;
        return;
    }
    calls->number = 0;
    for (unsigned number = 0; number < calls->count; number++) {
        uint16_t place = find(calls->levels[number].address, calls->number);
        if (place == 0)
            return;
        calls->number = place;
    }
    __atomic_store_n(way, sum << 16 | calls->number, __ATOMIC_RELAXED);
}

/* Gives the number of the place that a call of the library came from, or 0. What a signal handler does
   in the midst of another call of the recorder leaves the thread's calls as they are. */
unsigned place_of_frame(const struct frame *frame)
{
    struct calls none;
    if (!frame)
        return 0;
    struct calls *calls = &self.calls[(frame->address ^ (uint64_t)frame >> 4) % CALLS_KEPT];
    if (self.inside != 1)
        calls = &none;
    if (calls == &none || !are_same(calls, frame)) {
        find_calls(calls, frame);
        find_number(calls);
    }
    return calls->number;
}
