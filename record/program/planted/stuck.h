/* Threads that wait for ever, one after another, and what their process does about it. */
#ifndef STUCK_H
#define STUCK_H

#include <stdatomic.h>
#include <stdbool.h>
#include <unistd.h>

#include "planted.h"

#define MOST_STUCK 16

struct stuck {
    void (*work)(void);
    atomic_int thread; /* the kernel's number of it */
    atomic_bool is_ready, may_wait;
};

static struct stuck stuck_threads[MOST_STUCK];
static __thread struct stuck *stuck_self;
static int stuck_count;

static inline void *stuck_begin(void *self)
{
    stuck_self = self;
    stuck_self->thread = gettid();
    stuck_self->work();
    return NULL;
}

/* What the thread does next is to wait. It is running until then. */
static inline void about_to_wait(void)
{
    stuck_self->is_ready = true;
    while (!stuck_self->may_wait)
        sched_yield();
}

/* Begins a thread and lets it run until it is about to wait. */
static inline struct stuck *begin_stuck(void (*work)(void))
{
    pthread_t thread;
    struct stuck *stuck = &stuck_threads[stuck_count++];
    stuck->work = work;
    must(pthread_create(&thread, NULL, stuck_begin, stuck) == 0);
    while (!stuck->is_ready)
        sched_yield();
    return stuck;
}

static inline char state_of(const struct stuck *stuck)
{
    char path[64], name[64], state = '?';
    snprintf(path, sizeof path, "/proc/self/task/%d/stat", stuck->thread);
    FILE *file = fopen(path, "r");
    must(file && fscanf(file, "%*d %63s %c", name, &state) == 2);
    fclose(file);
    return state;
}

/* Lets a thread wait, and goes on when it sleeps, as it does in a wait alone. */
static inline void let_wait(struct stuck *stuck)
{
    stuck->may_wait = true;
    for (int seen = 0; seen < 3; seen = state_of(stuck) == 'S' ? seen + 1 : 0)
        usleep(5000);
}

#endif
