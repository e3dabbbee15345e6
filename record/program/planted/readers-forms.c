/*
 * Calls that try to read, or to write, add no dependency into the lock, and those that would give up later
 * do as those that wait. A call that runs out of time, or is refused, is nothing.
 *
 * Flags: -O0
 * Flags: -O2
 *
 * Report:
 * traces 1 refused 0 events 42 classes 7 dependencies 8
 * inversion readers-forms:clocked!read -> readers-forms:mutex at readers-forms-1:37 via readers-forms:mutex -> readers-forms:clocked!read
 * inversion readers-forms:mutex -> readers-forms:clocked!read at readers-forms-1:30 via readers-forms:clocked!read -> readers-forms:mutex
 * inversion readers-forms:mutex -> readers-forms:timed!read at readers-forms-1:18 via readers-forms:timed!read -> readers-forms:mutex
 * inversion readers-forms:timed!read -> readers-forms:mutex at readers-forms-1:25 via readers-forms:mutex -> readers-forms:timed!read
 * violations 4
 */
#define _GNU_SOURCE
#include <errno.h>
#include <time.h>

#include "planted.h"

static pthread_rwlock_t tried = PTHREAD_RWLOCK_INITIALIZER;
static pthread_rwlock_t timed = PTHREAD_RWLOCK_INITIALIZER;
static pthread_rwlock_t clocked = PTHREAD_RWLOCK_INITIALIZER;
static pthread_mutex_t mutex = PTHREAD_MUTEX_INITIALIZER;
static const struct timespec long_ago = {1, 0}, no_time = {0, -1};
static struct timespec later;

static void give_back(pthread_rwlock_t *lock)
{
    must(pthread_rwlock_unlock(lock) == 0);
}

/* A lock that was just taken is held over the mutex. 6 events with those of the writer */
static void hold_over_mutex(pthread_rwlock_t *lock)
{
    take_and_give(&mutex);
    give_back(lock);
}

/* 14 events */
static void try_both_ways(void)
{
    must(pthread_mutex_lock(&mutex) == 0);
    must(pthread_rwlock_tryrdlock(&tried) == 0);
    give_back(&tried);
    must(pthread_rwlock_trywrlock(&tried) == 0);
    give_back(&tried);
    must(pthread_mutex_unlock(&mutex) == 0);
    must(pthread_rwlock_wrlock(&tried) == 0);
    hold_over_mutex(&tried);
}

/* 12 events */
static void wait_until_later(void)
{
    must(pthread_mutex_lock(&mutex) == 0);
    must(pthread_rwlock_timedrdlock(&timed, &later) == 0);
    give_back(&timed);
    must(pthread_mutex_unlock(&mutex) == 0);
    must(pthread_rwlock_timedwrlock(&timed, &later) == 0);
    hold_over_mutex(&timed);
}

/* 12 events */
static void wait_by_clock(void)
{
    must(pthread_mutex_lock(&mutex) == 0);
    must(pthread_rwlock_clockrdlock(&clocked, CLOCK_REALTIME, &later) == 0);
    give_back(&clocked);
    must(pthread_mutex_unlock(&mutex) == 0);
    must(pthread_rwlock_clockwrlock(&clocked, CLOCK_REALTIME, &later) == 0);
    hold_over_mutex(&clocked);
}

static void *read_in_vain(void *nothing)
{
    must(pthread_rwlock_tryrdlock(&tried) == EBUSY);
    must(pthread_rwlock_timedrdlock(&tried, &long_ago) == ETIMEDOUT);
    must(pthread_rwlock_clockrdlock(&tried, CLOCK_MONOTONIC, &long_ago) == ETIMEDOUT);
    must(pthread_rwlock_timedrdlock(&timed, &no_time) == EINVAL);
    must(pthread_rwlock_clockrdlock(&timed, CLOCK_PROCESS_CPUTIME_ID, &long_ago) == EINVAL);
    return nothing;
}

int main(void)
{
    must(clock_gettime(CLOCK_REALTIME, &later) == 0);
    later.tv_sec += 3600;
    try_both_ways();
    wait_until_later();
    wait_by_clock();
    must(pthread_rwlock_wrlock(&tried) == 0);
    run_thread(read_in_vain);
    give_back(&tried);
    return 0;
}
