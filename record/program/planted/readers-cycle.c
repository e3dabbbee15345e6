/*
 * A reader behind a mutex, and a writer before it.
 *
 * Flags: -O0
 * Flags: -O2
 *
 * Report:
 * traces 1 refused 0 events 12 classes 3 dependencies 3
 * inversion readers-cycle:lock!read -> readers-cycle:mutex at readers-cycle-1:11 via readers-cycle:mutex -> readers-cycle:lock!read
 * inversion readers-cycle:mutex -> readers-cycle:lock!read at readers-cycle-1:4 via readers-cycle:lock!read -> readers-cycle:mutex
 * violations 2
 *
 * Class: readers-cycle:lock
 * Class: readers-cycle:lock!read
 * Taken: 1 readers-cycle:lock read_behind readers-cycle.c:31
 * Taken: 1 readers-cycle:lock write_before readers-cycle.c:39
 * Taken: 1 readers-cycle:lock!read read_behind readers-cycle.c:31
 * Taken: 1 readers-cycle:lock!read write_before readers-cycle.c:39
 * Taken: 1 readers-cycle:mutex read_behind readers-cycle.c:30
 * Taken: 1 readers-cycle:mutex take_and_give planted.h:36
 */
#define _GNU_SOURCE
#include "planted.h"

static pthread_rwlock_t lock = PTHREAD_RWLOCK_INITIALIZER;
static pthread_mutex_t mutex = PTHREAD_MUTEX_INITIALIZER;

static void *read_behind(void *nothing)
{
    must(pthread_mutex_lock(&mutex) == 0);
    must(pthread_rwlock_rdlock(&lock) == 0);
    must(pthread_rwlock_unlock(&lock) == 0);
    must(pthread_mutex_unlock(&mutex) == 0);
    return nothing;
}

static void *write_before(void *nothing)
{
    must(pthread_rwlock_wrlock(&lock) == 0);
    take_and_give(&mutex);
    must(pthread_rwlock_unlock(&lock) == 0);
    return nothing;
}

int main(void)
{
    run_thread(read_behind);
    run_thread(write_before);
    return 0;
}
