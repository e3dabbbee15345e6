/*
 * A lock is read before a mutex and behind it. Readers that may read again while a writer waits never
 * wait for each other, so that is no inversion: by default, and where writers are preferred without more.
 *
 * Run: default
 * Run: writers
 * Flags: -O0
 * Flags: -O2
 *
 * Report:
 * traces 2 refused 0 events 20 classes 5 dependencies 4
 * clean
 */
#define _GNU_SOURCE
#include <string.h>

#include "planted.h"

static pthread_rwlock_t lock = PTHREAD_RWLOCK_INITIALIZER;
static pthread_mutex_t mutex = PTHREAD_MUTEX_INITIALIZER;

/* 4 events: a reader that holds nothing waits for nobody who waits for it. */
static void *read_before(void *nothing)
{
    must(pthread_rwlock_rdlock(&lock) == 0);
    take_and_give(&mutex);
    must(pthread_rwlock_unlock(&lock) == 0);
    return nothing;
}

/* 6 events */
static void *read_behind(void *nothing)
{
    must(pthread_mutex_lock(&mutex) == 0);
    must(pthread_rwlock_rdlock(&lock) == 0);
    must(pthread_rwlock_unlock(&lock) == 0);
    must(pthread_mutex_unlock(&mutex) == 0);
    return nothing;
}

static void prefer_writers(void)
{
    pthread_rwlockattr_t kind;
    must(pthread_rwlockattr_init(&kind) == 0);
    must(pthread_rwlockattr_setkind_np(&kind, PTHREAD_RWLOCK_PREFER_WRITER_NP) == 0);
    must(pthread_rwlock_init(&lock, &kind) == 0);
}

int main(int count, char **arguments)
{
    must(count == 2);
    if (strcmp(arguments[1], "writers") == 0)
        prefer_writers();
    run_thread(read_before);
    run_thread(read_behind);
    return 0;
}
