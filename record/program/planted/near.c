/*
 * All locks are taken by one function, whose call for that stands near its begin: so it counts as a part of the calls
 * that lead there. The places have none of these all the same, since none is asked for.
 *
 * Flags: -O0
 * Flags: -O2
 * Options: --callers 0
 *
 * Report:
 * traces 1 refused 0 events 8 classes 2 dependencies 2
 * inversion near:A -> near:B at near-1:4 via near:B -> near:A
 * inversion near:B -> near:A at near-1:8 via near:A -> near:B
 * violations 2
 *
 * Taken: 2 near:A take near.c:27
 * Taken: 2 near:B take near.c:27
 *
 * Place: take near.c:27
 */
#include "planted.h"

static pthread_mutex_t A = PTHREAD_MUTEX_INITIALIZER, B = PTHREAD_MUTEX_INITIALIZER;
static volatile int count;

__attribute__((noinline)) static void take(pthread_mutex_t *lock)
{
    must(pthread_mutex_lock(lock) == 0);
    count++;
}

__attribute__((noinline)) static void take_two(pthread_mutex_t *outer, pthread_mutex_t *inner)
{
    take(outer);
    take(inner);
    count++;
    must(pthread_mutex_unlock(inner) == 0);
    must(pthread_mutex_unlock(outer) == 0);
}

int main(void)
{
    take_two(&A, &B);
    count++;
    take_two(&B, &A);
    return 0;
}
