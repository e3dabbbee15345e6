/*
 * A thread that locks its own mutex again, and another one that waits for that mutex behind it.
 *
 * Flags: -O0
 * Flags: -O2
 *
 * Report:
 * traces 1 refused 0 events 3 classes 1 dependencies 1
 * recursion itself:A at itself-1:4
 * violations 1
 *
 * Says: process 1 ended while t2 waited for itself:A, held by itself
 * Says: process 1 ended while t3 waited for itself:A, held by t2
 */
#define _GNU_SOURCE
#include <signal.h>

#include "stuck.h"

static pthread_mutex_t A = PTHREAD_MUTEX_INITIALIZER;

static void again(void)
{
    pthread_mutex_lock(&A);
    about_to_wait();
    pthread_mutex_lock(&A);
}

static void behind(void)
{
    about_to_wait();
    pthread_mutex_lock(&A);
}

int main(void)
{
    let_wait(begin_stuck(again));
    let_wait(begin_stuck(behind));
    raise(SIGTERM);
    return 0;
}
