/* The locks of a process, by their addresses. */
#include <stdlib.h>
#include <string.h>

#include "merger.h"

static size_t slot_of(const struct locks *locks, uint64_t address)
{
    size_t slot = address * UINT64_C(0x9e3779b97f4a7c15) >> 20 & (locks->slot_count - 1);
    while (locks->slots[slot] && locks->all[locks->slots[slot] - 1].address != address)
        slot = (slot + 1) & (locks->slot_count - 1);
    return slot;
}

static void grow_slots(struct locks *locks)
{
    free(locks->slots);
    locks->slot_count = locks->slot_count ? 2 * locks->slot_count : 256;
    locks->slots = must(calloc(locks->slot_count, sizeof *locks->slots));
    for (size_t number = 0; number < locks->count; number++)
        locks->slots[slot_of(locks, locks->all[number].address)] = (uint32_t)number + 1;
}

/* Gives the lock at an address; where there never was one, makes it or gives NULL. */
struct lock *find_lock(struct locks *locks, uint64_t address, bool make)
{
    if (2 * locks->count >= locks->slot_count)
        grow_slots(locks);
    size_t slot = slot_of(locks, address);
    if (locks->slots[slot])
        return &locks->all[locks->slots[slot] - 1];
    if (!make)
        return NULL;
    locks->all = grown(locks->all, locks->count, &locks->room, sizeof *locks->all);
    struct lock *lock = &locks->all[locks->count++];
    memset(lock, 0, sizeof *lock);
    lock->address = address;
    locks->slots[slot] = (uint32_t)locks->count;
    return lock;
}

/* Copies the locks, held by nobody. */
void copy_locks(struct locks *to, const struct locks *from)
{
    *to = *from;
    to->room = from->count;
    to->all = must(malloc((from->count + 1) * sizeof *to->all));
    for (size_t number = 0; number < from->count; number++) {
        to->all[number] = from->all[number];
        to->all[number].holder = 0;
        to->all[number].readers = 0;
    }
    to->slots = must(malloc((from->slot_count + 1) * sizeof *to->slots));
    for (size_t slot = 0; slot < from->slot_count; slot++)
        to->slots[slot] = from->slots[slot];
}

void free_locks(struct locks *locks)
{
    free(locks->all);
    free(locks->slots);
    *locks = (struct locks){0};
}
