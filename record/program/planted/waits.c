/*
 * Waits on conditions give the lock back and take it again, also where they end by a time or by
 * cancelling; a trylock adds no dependency into itself. `queue` is taken again under `other` by the
 * waits alone, and `other` under `queue` by a trylock alone, so there is no inversion.
 *
 * Report:
 * traces 1 refused 0 events 20 classes 2 dependencies 1
 * clean
 */
#define _GNU_SOURCE
#include <errno.h>

#include "planted.h"

static pthread_mutex_t queue = PTHREAD_MUTEX_INITIALIZER;
static pthread_mutex_t other = PTHREAD_MUTEX_INITIALIZER;
static pthread_cond_t filled = PTHREAD_COND_INITIALIZER;
static pthread_cond_t waiting = PTHREAD_COND_INITIALIZER;
static int is_waiting;
static const struct timespec long_ago = {1, 0};

/* 8 events, and the dependency from `other` to `queue` */
static void wait_under_other(void)
{
    must(pthread_mutex_trylock(&queue) == 0);
    must(pthread_mutex_trylock(&other) == 0);
    must(pthread_cond_timedwait(&filled, &queue, &long_ago) == ETIMEDOUT);
    must(pthread_cond_clockwait(&filled, &queue, CLOCK_MONOTONIC, &long_ago) == ETIMEDOUT);
    must(pthread_mutex_unlock(&other) == 0);
    must(pthread_mutex_unlock(&queue) == 0);
}

/* 2 events: the wait is refused, and the lock is held on. */
static void wait_for_nothing(void)
{
    static const struct timespec no_time = {0, -1};
    must(pthread_mutex_lock(&queue) == 0);
    must(pthread_cond_timedwait(&filled, &queue, &no_time) == EINVAL);
    must(pthread_mutex_trylock(&queue) == EBUSY);
    must(pthread_mutex_unlock(&queue) == 0);
}

static void give_back(void *lock)
{
    must(pthread_mutex_trylock(&other) == 0);
    must(pthread_mutex_unlock(&other) == 0);
    must(pthread_mutex_unlock(lock) == 0);
}

/* 6 events: the cleanup runs with the lock held. */
static void *wait_for_ever(void *nothing)
{
    must(pthread_mutex_lock(&queue) == 0);
    is_waiting = 1;
    must(pthread_cond_signal(&waiting) == 0);
    pthread_cleanup_push(give_back, &queue);
    for (;;)
        pthread_cond_wait(&filled, &queue);
    pthread_cleanup_pop(0);
    return nothing;
}

/* 4 events, and those of the thread */
static void cancel_waiter(void)
{
    pthread_t thread;
    void *answer;
    must(pthread_mutex_lock(&queue) == 0);
    must(pthread_create(&thread, NULL, wait_for_ever, NULL) == 0);
    while (!is_waiting)
        must(pthread_cond_wait(&waiting, &queue) == 0);
    must(pthread_mutex_unlock(&queue) == 0);
    must(pthread_cancel(thread) == 0);
    must(pthread_join(thread, &answer) == 0 && answer == PTHREAD_CANCELED);
}

int main(void)
{
    wait_under_other();
    wait_for_nothing();
    cancel_waiter();
    return 0;
}
