/*
 * A lock is read before a mutex and behind it, and its readers wait behind a writer that waits: so two of
 * them and a writer can wait in a circle.
 *
 * Flags: -O0
 * Flags: -O2
 *
 * Report:
 * traces 1 refused 0 events 8 classes 2 dependencies 2
 * inversion readers-nonrecursive:lock -> readers-nonrecursive:mutex at readers-nonrecursive-1:4 via readers-nonrecursive:mutex -> readers-nonrecursive:lock
 * inversion readers-nonrecursive:mutex -> readers-nonrecursive:lock at readers-nonrecursive-1:8 via readers-nonrecursive:lock -> readers-nonrecursive:mutex
 * violations 2
 */
#define _GNU_SOURCE
#include "planted.h"

static pthread_rwlock_t lock = PTHREAD_RWLOCK_WRITER_NONRECURSIVE_INITIALIZER_NP;
static pthread_mutex_t mutex = PTHREAD_MUTEX_INITIALIZER;

static void *read_before(void *nothing)
{
    must(pthread_rwlock_rdlock(&lock) == 0);
    take_and_give(&mutex);
    must(pthread_rwlock_unlock(&lock) == 0);
    return nothing;
}

static void *read_behind(void *nothing)
{
    must(pthread_mutex_lock(&mutex) == 0);
    must(pthread_rwlock_rdlock(&lock) == 0);
    must(pthread_rwlock_unlock(&lock) == 0);
    must(pthread_mutex_unlock(&mutex) == 0);
    return nothing;
}

int main(void)
{
    run_thread(read_before);
    run_thread(read_behind);
    return 0;
}
