/*
 * Each call that waits is waited in where the process ends: for a spin lock, for read-write locks, and by
 * the calls of C11. The main thread holds them all.
 *
 * Flags: -O0
 * Flags: -O2
 *
 * Report:
 * traces 1 refused 0 events 14 classes 7 dependencies 0
 * clean
 *
 * Says: process 1 ended while t2 waited for main:lasting.c, held by t1
 * Says: process 1 ended while t3 waited for lasting:written, held by t1
 * Says: process 1 ended while t4 waited for lasting:written_in_time, held by t1
 * Says: process 1 ended while t5 waited for lasting:written_by_clock, held by t1
 * Says: process 1 ended while t6 waited for main:lasting.c#2, held by t1
 * Says: process 1 ended while t7 waited for main:lasting.c#3, held by t1
 * Says: process 1 ended while t8 waited for lasting:mutex, held by t1
 */
#define _GNU_SOURCE
#include <threads.h>
#include <time.h>

#include "stuck.h"

static pthread_spinlock_t spin;
static pthread_rwlock_t written = PTHREAD_RWLOCK_WRITER_NONRECURSIVE_INITIALIZER_NP;
static pthread_rwlock_t written_in_time = PTHREAD_RWLOCK_WRITER_NONRECURSIVE_INITIALIZER_NP;
static pthread_rwlock_t written_by_clock = PTHREAD_RWLOCK_WRITER_NONRECURSIVE_INITIALIZER_NP;
static mtx_t plain, timed;
static pthread_mutex_t mutex = PTHREAD_ERRORCHECK_MUTEX_INITIALIZER_NP;
static struct timespec later;
static int call;

static void wait_in_call(void)
{
    int answer = 0;
    about_to_wait();
    switch (call) {
    case 0: answer = pthread_spin_lock(&spin); break;
    case 1: answer = pthread_rwlock_wrlock(&written); break;
    case 2: answer = pthread_rwlock_timedwrlock(&written_in_time, &later); break;
    case 3: answer = pthread_rwlock_clockwrlock(&written_by_clock, CLOCK_REALTIME, &later); break;
    case 4: answer = mtx_lock(&plain); break;
    case 5: answer = mtx_timedlock(&timed, &later); break;
    case 6: answer = pthread_mutex_lock(&mutex); break;
    }
    must(answer == -1);
}

static void hold_all(void)
{
    must(pthread_spin_lock(&spin) == 0);
    must(pthread_rwlock_trywrlock(&written) == 0);
    must(pthread_rwlock_trywrlock(&written_in_time) == 0);
    must(pthread_rwlock_trywrlock(&written_by_clock) == 0);
    must(mtx_trylock(&plain) == thrd_success);
    must(mtx_trylock(&timed) == thrd_success);
    must(pthread_mutex_trylock(&mutex) == 0);
}

/* A thread that waits for a spin lock doesn't sleep. */
static void let_spin(struct stuck *stuck)
{
    stuck->may_wait = true;
    usleep(300000);
}

int main(void)
{
    must(clock_gettime(CLOCK_REALTIME, &later) == 0);
    later.tv_sec += 3600;
    must(pthread_spin_init(&spin, PTHREAD_PROCESS_PRIVATE) == 0);
    must(mtx_init(&plain, mtx_plain) == thrd_success);
    must(mtx_init(&timed, mtx_timed) == thrd_success);
    hold_all();
    let_spin(begin_stuck(wait_in_call));
    for (call = 1; call < 7; call++)
        let_wait(begin_stuck(wait_in_call));
    _exit(3);
}
