/*
 * One order, with every kind of lock: inner levels of a recursive mutex, readers, calls that were
 * refused or ran out of time, a robust mutex whose owner died, a lock that is new at an old address.
 * A lock that is released by another thread than its holder's is held no more.
 *
 * Report:
 * traces 1 refused 0 events 30 classes 9 dependencies 4
 * clean
 */
#define _GNU_SOURCE
#include <errno.h>
#include <threads.h>
#include <time.h>

#include "planted.h"

static pthread_mutex_t outer = PTHREAD_MUTEX_INITIALIZER;
static pthread_mutex_t checked = PTHREAD_ERRORCHECK_MUTEX_INITIALIZER_NP;
static pthread_mutex_t recursive = PTHREAD_RECURSIVE_MUTEX_INITIALIZER_NP;
static pthread_rwlock_t shared = PTHREAD_RWLOCK_INITIALIZER;
static pthread_mutex_t robust;
static pthread_mutex_t handed = PTHREAD_MUTEX_INITIALIZER;
static const struct timespec long_ago = {1, 0};

/* 2 events: the inner level isn't written. */
static void go_deep(void)
{
    for (int level = 0; level < 3; level++)
        must(pthread_mutex_lock(&recursive) == 0);
    for (int level = 0; level < 3; level++)
        must(pthread_mutex_unlock(&recursive) == 0);
}

/* 14 events under `outer`: 4 for each writer and for the reader that may wait, 2 for the one that tries. */
static void share(void)
{
    must(pthread_rwlock_rdlock(&shared) == 0);
    must(pthread_rwlock_unlock(&shared) == 0);
    must(pthread_rwlock_wrlock(&shared) == 0);
    must(pthread_rwlock_unlock(&shared) == 0);
    must(pthread_rwlock_tryrdlock(&shared) == 0);
    must(pthread_rwlock_unlock(&shared) == 0);
    must(pthread_rwlock_clockwrlock(&shared, CLOCK_MONOTONIC, &long_ago) == 0);
    must(pthread_rwlock_unlock(&shared) == 0);
}

/* No event: of what is refused nothing is written. */
static void *refused(void *nothing)
{
    must(pthread_mutex_unlock(&checked) == EPERM);
    must(pthread_mutex_trylock(&outer) == EBUSY);
    must(pthread_mutex_timedlock(&outer, &long_ago) == ETIMEDOUT);
    must(pthread_mutex_clocklock(&outer, CLOCK_MONOTONIC, &long_ago) == ETIMEDOUT);
    return nothing;
}

/* 1 event */
static void *die_with_lock(void *nothing)
{
    must(pthread_mutex_lock(&robust) == 0);
    return nothing;
}

/* 4 events, one of them the release for the owner that died. */
static void recover(void)
{
    pthread_mutexattr_t attributes;
    must(pthread_mutexattr_init(&attributes) == 0);
    must(pthread_mutexattr_setrobust(&attributes, PTHREAD_MUTEX_ROBUST) == 0);
    must(pthread_mutex_init(&robust, &attributes) == 0);
    run_thread(die_with_lock);
    must(pthread_mutex_lock(&robust) == EOWNERDEAD);
    must(pthread_mutex_consistent(&robust) == 0);
    must(pthread_mutex_unlock(&robust) == 0);
}

/* 4 events of two classes: a lock of C11, destroyed and made anew. */
static void renew(void)
{
    mtx_t lock;
    must(mtx_init(&lock, mtx_plain) == thrd_success);
    must(mtx_lock(&lock) == thrd_success);
    must(mtx_unlock(&lock) == thrd_success);
    mtx_destroy(&lock);
    must(mtx_init(&lock, mtx_plain) == thrd_success);
    must(mtx_trylock(&lock) == thrd_success);
    must(mtx_unlock(&lock) == thrd_success);
}

static void *hand_back(void *nothing)
{
    must(pthread_mutex_unlock(&handed) == 0);
    return nothing;
}

/* 2 events */
static void hand_over(void)
{
    must(pthread_mutex_lock(&handed) == 0);
    run_thread(hand_back);
}

int main(void)
{
    must(pthread_mutex_lock(&outer) == 0);
    go_deep();
    share();
    must(pthread_mutex_lock(&checked) == 0);
    must(pthread_mutex_lock(&checked) == EDEADLK);
    run_thread(refused);
    must(pthread_mutex_unlock(&checked) == 0);
    must(pthread_mutex_unlock(&outer) == 0);
    recover();
    hand_over();
    renew();
    puts("in one order");
    return 0;
}
