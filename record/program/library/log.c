/* Writes the records. */
#define _GNU_SOURCE
#include <string.h>

#include "marks.h"
#include "recorder.h"

/* The locks that were told: an address whose place here holds another one is told again. */
#define KNOWN_PLACES 65536
static uint64_t known[KNOWN_PLACES];

static uint64_t *place_of(uint64_t lock)
{
    return &known[lock * UINT64_C(0x9e3779b97f4a7c15) >> 48];
}

static bool can_record(void)
{
    struct life *now = __atomic_load_n(&life, __ATOMIC_ACQUIRE);
    uint64_t state = now ? __atomic_load_n(&now->state, __ATOMIC_ACQUIRE) : STATE_NEW;
    if (state == STATE_OFF)
        return false;
    if (state == STATE_RECORDING && self.generation == now->generation)
        return true;
    return begin();
}

/* `inside` is seen by a signal handler on this thread, so its writes stay where they stand. */
static bool enter(void)
{
    if (!can_record())
        return false;
    self.inside++;
    __atomic_signal_fence(__ATOMIC_SEQ_CST);
    return true;
}

static void leave(void)
{
    __atomic_signal_fence(__ATOMIC_SEQ_CST);
    self.inside--;
}

static uint64_t draw_number(void)
{
    uint64_t number = __atomic_fetch_add(&life->numbers, 1, __ATOMIC_ACQ_REL);
    self.last_number = number + 1;
    return number;
}

static void finish_at(struct unit *first, enum operation operation, unsigned following, unsigned place,
                      uint64_t value)
{
    uint64_t number = draw_number();
    first->value = value;
    __atomic_store_n(&first->head, HEAD_OF(operation, following, place, number), __ATOMIC_RELEASE);
}

void finish_record(struct unit *first, enum operation operation, unsigned following, uint64_t value)
{
    finish_at(first, operation, following, 0, value);
}

static void write_module(uint64_t address)
{
    struct loaded module;
    if (!must_tell_module(address, &module))
        return;
    size_t length = strlen(module.path);
    size_t most = 250 * sizeof(struct unit);
    if (length > most)
        length = most;
    /* One more byte, so that the path ends in 0: the file's units are 0 before they are written. */
    unsigned path_units = (unsigned)(length / sizeof(struct unit)) + 1;
    struct unit *first = take_units(2 + path_units);
    if (!first)
        return;
    first[1] = (struct unit){module.last, module.load};
    memcpy(&first[2], module.path, length);
    finish_record(first, RECORD_MODULE, 1 + path_units, module.start);
    told_module(&module);
}

/* Writes a record on a lock with the calls that led to it. A lock of a module, which wasn't
   initialised by a call, is named by itself. */
static void write_place(enum operation operation, uint64_t lock, unsigned place, const struct frame *frame)
{
    uint64_t places[MOST_CALLS + 1] = {0};
    unsigned count = 0;
    if (operation != RECORD_INIT && is_in_module(lock))
        write_module(lock);
    else
        count = callers_of_frame(frame, places);
    for (unsigned caller = 0; caller < count; caller++)
        write_module(places[caller]);
    if (operation != RECORD_INIT && count)
        tell_frames(lock, places, count);
    unsigned following = (count + 1) / 2;
    struct unit *first = take_units(1 + following);
    if (!first)
        return;
    memcpy(&first[1], places, following * sizeof *first);
    finish_at(first, operation, following, place, lock);
}

/* Tells a place of the program, with its module. */
void tell_place(uint64_t address, struct told_place place)
{
    write_module(address);
    struct unit *first = take_units(2);
    if (!first)
        return;
    first[1] = (struct unit){place.number, place.inside};
    finish_record(first, RECORD_PLACE, 1, address);
}

static void write_one(enum operation operation, uint64_t lock, unsigned place)
{
    struct unit *unit = take_units(1);
    if (unit)
        finish_at(unit, operation, 0, place, lock);
}

void record(enum operation operation, const void *lock)
{
    if (!enter())
        return;
    write_one(operation, (uint64_t)lock, 0);
    leave();
}

/* Notes that a lock was told. */
static void know(uint64_t lock)
{
    __atomic_store_n(place_of(lock), lock, __ATOMIC_RELAXED);
    mark(lock);
}

/* The lock will be told again where it is taken next, or another one at its address. */
static void forget(uint64_t lock)
{
    uint64_t told = lock;
    __atomic_compare_exchange_n(place_of(lock), &told, 0, false, __ATOMIC_RELAXED, __ATOMIC_RELAXED);
}

void record_init(const void *lock, const struct frame *frame)
{
    if (!enter())
        return;
    write_place(RECORD_INIT, (uint64_t)lock, 0, frame);
    know((uint64_t)lock);
    leave();
}

/* Writes a record with the place of the program that it comes from. */
void record_at(enum operation operation, const void *lock, const struct frame *frame)
{
    if (!enter())
        return;
    write_one(operation, (uint64_t)lock, wants_places ? place_of_frame(frame) : 0);
    leave();
}

void record_destroy(const void *lock, const struct frame *frame)
{
    if (!enter())
        return;
    forget((uint64_t)lock);
    remove_mark((uint64_t)lock);
    write_one(RECORD_DESTROY, (uint64_t)lock, wants_places ? place_of_frame(frame) : 0);
    leave();
}

/* The memory up to `end` is about to be given back. */
void record_freed(uint64_t start, uint64_t end, const struct frame *frame)
{
    if (!enter())
        return;
    unsigned place = wants_places ? place_of_frame(frame) : 0;
    for (uint64_t lock = start; (lock = next_mark(lock, end)); lock += MARK_BYTES) {
        forget(lock);
        remove_mark(lock);
        write_one(RECORD_DESTROY, lock, place);
    }
    leave();
}

/* Some of the memory up to `end` may be given back by a call. Draws the number of the record that then says what was.
   The marks stay: only the call tells which locks do, and then others may have set some. */
bool expect_freed(uint64_t start, uint64_t end, uint64_t *number)
{
    if (!enter())
        return false;
    for (uint64_t lock = start; (lock = next_mark(lock, end)); lock += MARK_BYTES)
        forget(lock);
    *number = draw_number();
    leave();
    return true;
}

void record_expected(uint64_t number, uint64_t start, uint64_t end, const struct frame *frame)
{
    if (!enter())
        return;
    unsigned place = wants_places ? place_of_frame(frame) : 0;
    struct unit *first = take_units(2);
    if (first) {
        first[0].value = start;
        first[1].head = start < end ? end - start : 0;
        __atomic_store_n(&first->head, HEAD_OF(RECORD_FREED, 1, place, number), __ATOMIC_RELEASE);
    }
    leave();
}

void record_got(enum operation operation, const void *lock, const struct frame *frame)
{
    if (operation == RECORD_NOTHING || !enter())
        return;
    if (__atomic_load_n(place_of((uint64_t)lock), __ATOMIC_RELAXED) != (uint64_t)lock) {
        write_place(RECORD_FIRST, (uint64_t)lock, 0, frame);
        know((uint64_t)lock);
    }
    write_one(operation, (uint64_t)lock, wants_places ? place_of_frame(frame) : 0);
    leave();
}

/* Notes that this thread is about to wait for a lock, and what it wants of it. One that wasn't told yet
   isn't now either: its class is that of who takes it first, if anyone does. */
void record_wait(enum operation wanted, const void *lock, const struct frame *frame)
{
    if (!enter())
        return;
    enum operation operation = wanted == RECORD_READ ? RECORD_WAIT_READ : RECORD_WAIT;
    unsigned place = wants_places ? place_of_frame(frame) : 0;
    if (__atomic_load_n(place_of((uint64_t)lock), __ATOMIC_RELAXED) == (uint64_t)lock)
        write_one(operation, (uint64_t)lock, place);
    else
        write_place(operation, (uint64_t)lock, place, frame);
    leave();
}
