/*
 * Two threads that wait for each other, until the process ends by itself or by a signal.
 *
 * Run: exit
 * Run: killed
 * Flags: -O0
 * Flags: -O2
 *
 * Report:
 * traces 2 refused 0 events 8 classes 2 dependencies 2
 * inversion crosswise:A -> crosswise:B at crosswise-1:5 via crosswise:B -> crosswise:A
 * inversion crosswise:B -> crosswise:A at crosswise-1:6 via crosswise:A -> crosswise:B
 * violations 2
 *
 * Says: process 1 ended while t2 waited for crosswise:B, held by t3
 * Says: process 1 ended while t3 waited for crosswise:A, held by t2
 * Taken: 1 crosswise:A back crosswise.c:40
 * Taken: 1 crosswise:A forth crosswise.c:31
 * Taken: 1 crosswise:B back crosswise.c:38
 * Taken: 1 crosswise:B forth crosswise.c:33
 */
#define _GNU_SOURCE
#include <signal.h>

#include "stuck.h"

static pthread_mutex_t A = PTHREAD_MUTEX_INITIALIZER, B = PTHREAD_MUTEX_INITIALIZER;

static void forth(void)
{
    pthread_mutex_lock(&A);
    about_to_wait();
    must(pthread_mutex_lock(&B) == 0);
}

static void back(void)
{
    pthread_mutex_lock(&B);
    about_to_wait();
    must(pthread_mutex_lock(&A) == 0);
}

int main(int count, char **arguments)
{
    struct stuck *first = begin_stuck(forth), *second = begin_stuck(back);
    let_wait(first);
    let_wait(second);
    must(count == 2);
    if (arguments[1][0] == 'k')
        raise(SIGKILL);
    _exit(3);
}
