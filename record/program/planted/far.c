/*
 * All locks are taken by one function, whose call for that stands more than 256 bytes behind its begin: so it doesn't
 * count as a part of the calls that lead there. Of these each place has one, since one is asked for.
 *
 * Flags: -O0
 * Flags: -O2
 * Options: --callers 1
 *
 * Report:
 * traces 1 refused 0 events 8 classes 2 dependencies 2
 * inversion far:A -> far:B at far-1:4 via far:B -> far:A
 * inversion far:B -> far:A at far-1:8 via far:A -> far:B
 * violations 2
 *
 * Taken: 2 far:A take far.c:31
 * Taken: 2 far:B take far.c:31
 *
 * Place: take far.c:31
 * Place: take far.c:31, from take_two at far.c:37
 * Place: take far.c:31, from take_two at far.c:38
 */
#include "planted.h"

static pthread_mutex_t A = PTHREAD_MUTEX_INITIALIZER, B = PTHREAD_MUTEX_INITIALIZER;
static volatile int count;

__attribute__((noinline)) static void take(pthread_mutex_t *lock)
{
    /* Code that does nothing. */
    __asm__ volatile(".fill 300, 1, 0x90");
    must(pthread_mutex_lock(lock) == 0);
    count++;
}

__attribute__((noinline)) static void take_two(pthread_mutex_t *outer, pthread_mutex_t *inner)
{
    take(outer);
    take(inner);
    count++;
    must(pthread_mutex_unlock(inner) == 0);
    must(pthread_mutex_unlock(outer) == 0);
}

int main(void)
{
    take_two(&A, &B);
    count++;
    take_two(&B, &A);
    return 0;
}
