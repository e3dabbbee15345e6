/*
 * Calls that wait and give up, or are refused, write nothing, and neither does a thread that waited and
 * got the lock write more than that it got it.
 *
 * Flags: -O0
 * Flags: -O2
 *
 * Report:
 * traces 1 refused 0 events 10 classes 4 dependencies 3
 * clean
 *
 * Not: acquire t2
 * Unsaid: ended while
 */
#define _GNU_SOURCE
#include <errno.h>
#include <threads.h>

#include "stuck.h"

static pthread_mutex_t held = PTHREAD_ERRORCHECK_MUTEX_INITIALIZER_NP;
static pthread_rwlock_t written = PTHREAD_RWLOCK_WRITER_NONRECURSIVE_INITIALIZER_NP;
static mtx_t timed;
static pthread_mutex_t waited = PTHREAD_MUTEX_INITIALIZER;
static atomic_bool has_got;
static const struct timespec long_ago = {1, 0}, no_time = {0, -1};

static void give_up(void)
{
    must(pthread_mutex_timedlock(&held, &long_ago) == ETIMEDOUT);
    must(pthread_mutex_timedlock(&held, &no_time) == EINVAL);
    must(pthread_mutex_clocklock(&held, CLOCK_MONOTONIC, &long_ago) == ETIMEDOUT);
    must(pthread_mutex_clocklock(&held, CLOCK_PROCESS_CPUTIME_ID, &long_ago) == EINVAL);
    must(pthread_mutex_trylock(&held) == EBUSY);
    must(pthread_rwlock_timedwrlock(&written, &long_ago) == ETIMEDOUT);
    must(pthread_rwlock_clockwrlock(&written, CLOCK_MONOTONIC, &long_ago) == ETIMEDOUT);
    must(pthread_rwlock_trywrlock(&written) == EBUSY);
    must(mtx_timedlock(&timed, &long_ago) == thrd_timedout);
    must(mtx_trylock(&timed) == thrd_busy);
    about_to_wait();
    pause();
}

/* libc refuses these times and this clock before it looks at a lock, so a free lock isn't taken either. */
static void refuse_free(void)
{
    pthread_rwlock_t lock = PTHREAD_RWLOCK_INITIALIZER;
    must(pthread_rwlock_timedwrlock(&lock, &no_time) == EINVAL);
    must(pthread_rwlock_clockwrlock(&lock, CLOCK_PROCESS_CPUTIME_ID, &long_ago) == EINVAL);
}

static void get(void)
{
    about_to_wait();
    must(pthread_mutex_lock(&waited) == 0);
    must(pthread_mutex_unlock(&waited) == 0);
    has_got = true;
}

int main(void)
{
    must(mtx_init(&timed, mtx_timed) == thrd_success);
    must(pthread_mutex_lock(&held) == 0 && pthread_mutex_lock(&held) == EDEADLK);
    must(pthread_rwlock_wrlock(&written) == 0 && pthread_rwlock_wrlock(&written) == EDEADLK);
    must(mtx_lock(&timed) == thrd_success);
    let_wait(begin_stuck(give_up));
    refuse_free();
    must(pthread_mutex_unlock(&held) == 0);
    must(pthread_rwlock_unlock(&written) == 0);
    must(mtx_unlock(&timed) == thrd_success);
    must(pthread_mutex_lock(&waited) == 0);
    struct stuck *waiter = begin_stuck(get);
    let_wait(waiter);
    must(pthread_mutex_unlock(&waited) == 0);
    while (!has_got)
        sched_yield();
    _exit(3);
}
