/*
 * A thread that leaves its wait for a lock: a signal comes, and its handler jumps behind the call. Another one is
 * cancelled meanwhile. Neither waits any more, so what it holds later has no order with that lock.
 *
 * Report:
 * traces 1 refused 0 events 6 classes 3 dependencies 0
 * clean
 *
 * Unsaid: waited for
 */
#define _GNU_SOURCE
#include <setjmp.h>
#include <signal.h>
#include <unistd.h>

#include "planted.h"

static pthread_mutex_t wanted = PTHREAD_MUTEX_INITIALIZER;
static pthread_mutex_t outer = PTHREAD_MUTEX_INITIALIZER;
static pthread_mutex_t later = PTHREAD_MUTEX_INITIALIZER;
static sigjmp_buf behind;

static void jump(int number)
{
    (void)number;
    siglongjmp(behind, 1);
}

static void *wait_and_jump(void *unused)
{
    must(pthread_mutex_lock(&outer) == 0);
    if (sigsetjmp(behind, 1) == 0)
        pthread_mutex_lock(&wanted);
    must(pthread_mutex_unlock(&outer) == 0);
    must(pthread_mutex_lock(&later) == 0);
    must(pthread_mutex_unlock(&later) == 0);
    return unused;
}

static void *wait_and_end(void *unused)
{
    must(pthread_setcanceltype(PTHREAD_CANCEL_ASYNCHRONOUS, NULL) == 0);
    pthread_mutex_lock(&wanted);
    return unused;
}

int main(void)
{
    pthread_t jumping, ending;
    signal(SIGUSR1, jump);
    must(pthread_mutex_lock(&wanted) == 0);
    must(pthread_create(&jumping, NULL, wait_and_jump, NULL) == 0);
    must(pthread_create(&ending, NULL, wait_and_end, NULL) == 0);
    sleep(1);
    must(pthread_kill(jumping, SIGUSR1) == 0);
    must(pthread_cancel(ending) == 0);
    must(pthread_join(jumping, NULL) == 0);
    must(pthread_join(ending, NULL) == 0);
    must(pthread_mutex_unlock(&wanted) == 0);
    return 0;
}
