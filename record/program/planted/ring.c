/*
 * Three threads in a ring, each of which waits for what the next one holds: two of them by calls that
 * would give up in an hour.
 *
 * Flags: -O0
 * Flags: -O2
 *
 * Report:
 * traces 1 refused 0 events 6 classes 3 dependencies 3
 * inversion ring:A -> ring:B at ring-1:6 via ring:B -> ring:C -> ring:A
 * inversion ring:B -> ring:C at ring-1:7 via ring:C -> ring:A -> ring:B
 * inversion ring:C -> ring:A at ring-1:8 via ring:A -> ring:B -> ring:C
 * violations 3
 *
 * Says: process 1 ended while t2 waited for ring:B, held by t3
 * Says: process 1 ended while t3 waited for ring:C, held by t4
 * Says: process 1 ended while t4 waited for ring:A, held by t2
 */
#define _GNU_SOURCE
#include <time.h>

#include "stuck.h"

static pthread_mutex_t A = PTHREAD_MUTEX_INITIALIZER;
static pthread_mutex_t B = PTHREAD_MUTEX_INITIALIZER;
static pthread_mutex_t C = PTHREAD_MUTEX_INITIALIZER;
static struct timespec later;

static void take_a(void)
{
    pthread_mutex_lock(&A);
    about_to_wait();
    pthread_mutex_lock(&B);
}

static void take_b(void)
{
    pthread_mutex_lock(&B);
    about_to_wait();
    pthread_mutex_timedlock(&C, &later);
}

static void take_c(void)
{
    pthread_mutex_lock(&C);
    about_to_wait();
    pthread_mutex_clocklock(&A, CLOCK_REALTIME, &later);
}

int main(void)
{
    must(clock_gettime(CLOCK_REALTIME, &later) == 0);
    later.tv_sec += 3600;
    struct stuck *first = begin_stuck(take_a), *second = begin_stuck(take_b), *third = begin_stuck(take_c);
    let_wait(first);
    let_wait(second);
    let_wait(third);
    _exit(3);
}
