/* The locks that tasks of a process began to wait for, and neither got nor gave up since. */
#include <stdlib.h>

#include "merger.h"

static struct wait *waits; /* in the order in which they began */
static size_t wait_count, wait_room;

static uint32_t *waits_of; /* by task, how many of them it has: a signal handler may wait too */
static size_t task_count, task_room;

void begin_wait(uint32_t task, const struct unit *first)
{
    while (task_count <= task) {
        waits_of = grown(waits_of, task_count, &task_room, sizeof *waits_of);
        waits_of[task_count++] = 0;
    }
    const struct hold *held;
    waits_of[task]++;
    waits = grown(waits, wait_count, &wait_room, sizeof *waits);
    waits[wait_count++] = (struct wait){first, task, held_by(task, &held)};
}

/* The task got the lock at an address, or gave it up. Mostly it didn't wait. */
void end_wait(uint32_t task, uint64_t address)
{
    if (task >= task_count || waits_of[task] == 0)
        return;
    size_t at = wait_count;
    while (at > 0 && (waits[at - 1].task != task || waits[at - 1].first->value != address))
        at--;
    if (at == 0)
        return;
    for (; at < wait_count; at++)
        waits[at - 1] = waits[at];
    wait_count--;
    waits_of[task]--;
}

/* The task left the waits that it began with so many locks, by a jump out of a signal handler or by its end. */
void end_waits_from(uint32_t task, size_t held)
{
    if (task >= task_count || waits_of[task] == 0)
        return;
    size_t kept = 0;
    for (size_t at = 0; at < wait_count; at++) {
        if (waits[at].task == task && waits[at].held >= held)
            waits_of[task]--;
        else
            waits[kept++] = waits[at];
    }
    wait_count = kept;
}

size_t waits_left(const struct wait **all)
{
    *all = waits;
    return wait_count;
}

void forget_waits(void)
{
    wait_count = task_count = 0;
}
