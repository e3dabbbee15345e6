/* Sets, removes and looks for marks. */
#define _GNU_SOURCE
#include "marks.h"

#include <errno.h>
#include <sys/mman.h>

#include "next.h"
#include "recorder.h"

void *regions;

static uint8_t *part_of(struct region *region, uint64_t address)
{
    return &region->is_used[address >> PART_SHIFT & ((1 << (REGION_SHIFT - PART_SHIFT)) - 1)];
}

/* Gives memory that is 0, and of which only what is written to is taken, or NULL. */
static void *map_empty(size_t length)
{
    int error = errno;
    int flags = MAP_PRIVATE | MAP_ANONYMOUS | MAP_NORESERVE;
    void *new = mmap(NULL, length, PROT_READ | PROT_WRITE, flags, -1, 0);
    if (new != MAP_FAILED) {
        madvise(new, length, MADV_NOHUGEPAGE);
        madvise(new, length, MADV_DONTDUMP);
    }
    errno = error;
    return new == MAP_FAILED ? NULL : new;
}

/* Gives what stands at a place, after it was made there if there was nothing, or NULL. */
static void *made_at(void **place, size_t length)
{
    void *there = __atomic_load_n(place, __ATOMIC_ACQUIRE);
    if (there)
        return there;
    void *new = map_empty(length);
    if (new && !__atomic_compare_exchange_n(place, &there, new, false, __ATOMIC_ACQ_REL, __ATOMIC_ACQUIRE)) {
        NEXT(munmap)(new, length);
        return there;
    }
    return new;
}

static struct region *region_of(uint64_t address)
{
    void **all = __atomic_load_n(&regions, __ATOMIC_ACQUIRE);
    if (!all || address >> ADDRESS_SHIFT != 0)
        return NULL;
    return __atomic_load_n(&all[address >> REGION_SHIFT], __ATOMIC_ACQUIRE);
}

/* Notes a lock, unless it is a variable. One that stands elsewhere than a mutex can is always initialised by a call. */
void mark(uint64_t lock)
{
    bool may_be = lock % MARK_BYTES == 0 && lock >> ADDRESS_SHIFT == 0;
    if (!may_be || is_in_module(lock) || !can_tell_sizes())
        return;
    void **all = made_at(&regions, sizeof *all << (ADDRESS_SHIFT - REGION_SHIFT));
    struct region *region = all ? made_at(&all[lock >> REGION_SHIFT], sizeof *region) : NULL;
    if (!region)
        return;
    __atomic_fetch_or(word_of(region, lock), bit_of(lock), __ATOMIC_RELAXED);
    __atomic_store_n(part_of(region, lock), 1, __ATOMIC_RELAXED);
}

void remove_mark(uint64_t lock)
{
    struct region *region = region_of(lock);
    if (region && __atomic_load_n(part_of(region, lock), __ATOMIC_RELAXED))
        __atomic_fetch_and(word_of(region, lock), ~bit_of(lock), __ATOMIC_RELAXED);
}

static uint64_t behind(uint64_t address, unsigned shift)
{
    return ((address >> shift) + 1) << shift;
}

/* Gives the first lock from one address on that stands before another, or 0. */
uint64_t next_mark(uint64_t at, uint64_t end)
{
    while (at < end && at >> ADDRESS_SHIFT == 0) {
        struct region *region = region_of(at);
        if (!region) {
            at = behind(at, REGION_SHIFT);
        } else if (!__atomic_load_n(part_of(region, at), __ATOMIC_RELAXED)) {
            at = behind(at, PART_SHIFT);
        } else {
            uint64_t marks = __atomic_load_n(word_of(region, at), __ATOMIC_RELAXED) & -bit_of(at);
            if (marks) {
                at = (at >> WORD_SHIFT << WORD_SHIFT) + ((uint64_t)__builtin_ctzll(marks) << MARK_SHIFT);
                return at < end ? at : 0;
            }
            at = behind(at, WORD_SHIFT);
        }
    }
    return 0;
}
