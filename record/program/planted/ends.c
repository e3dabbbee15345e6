/*
 * Locks are taken in constructors, in destructors, at exit and at the end of a thread, and `exit` is
 * called in a thread while others go on.
 *
 * Report:
 * traces 1 refused 0 events 12 classes 2 dependencies 2
 * inversion ends:A -> ends:B at ends-1:4 via ends:B -> ends:A
 * inversion ends:B -> ends:A at ends-1:12 via ends:A -> ends:B
 * violations 2
 */
#include <unistd.h>

#include "planted.h"

static pthread_mutex_t A = PTHREAD_MUTEX_INITIALIZER;
static pthread_mutex_t B = PTHREAD_MUTEX_INITIALIZER;
static pthread_key_t key;

__attribute__((constructor)) static void before(void)
{
    take_both(&A, &B);
}

/* 2 events for each thread: by the time it runs, the recorder may have seen the thread end. */
static void at_end_of_thread(void *nothing)
{
    (void)nothing;
    pthread_mutex_lock(&B);
    pthread_mutex_unlock(&B);
}

__attribute__((destructor)) static void after(void)
{
    take_both(&B, &A);
}

static void *use_key(void *nothing)
{
    pthread_setspecific(key, &key);
    return nothing;
}

static void *leave(void *nothing)
{
    (void)nothing;
    exit(6);
}

int main(void)
{
    pthread_t thread;
    must(pthread_key_create(&key, at_end_of_thread) == 0);
    run_thread(use_key);
    run_thread(use_key);
    must(pthread_create(&thread, NULL, leave, NULL) == 0);
    for (;;)
        pause();
}
