/*
 * All locks are taken by one function, which isn't inlined: each place has the calls that led there, three at most. A
 * function whose frame has another size in each call is passed, and so are functions without a pointer to their frame.
 *
 * Flags: -O0
 * Flags: -O1
 * Flags: -O2
 * Flags: -O2 -fno-omit-frame-pointer
 * Flags: -O2 -flto
 * Flags: -O2 -fno-plt
 *
 * Report:
 * traces 1 refused 0 events 14 classes 2 dependencies 2
 * inversion wrapped:A -> wrapped:B at wrapped-1:4 via wrapped:B -> wrapped:A
 * inversion wrapped:B -> wrapped:A at wrapped-1:8 via wrapped:A -> wrapped:B
 * violations 2
 *
 * Taken: 5 wrapped:A take wrapped.c:42
 * Taken: 2 wrapped:B take wrapped.c:42
 *
 * Place: take wrapped.c:42
 * Place: take wrapped.c:42, from push at wrapped.c:54
 * Place: take wrapped.c:42, from push at wrapped.c:55
 * Place: take wrapped.c:42, from pop at wrapped.c:63
 * Place: take wrapped.c:42, from pop at wrapped.c:64
 * Place: take wrapped.c:42, from sized at wrapped.c:74, from outer at wrapped.c:81, from main at wrapped.c:91
 * Place: take wrapped.c:42, from sized at wrapped.c:74, from outer at wrapped.c:81, from main at wrapped.c:92
 * Place: take wrapped.c:42, from sized at wrapped.c:74, from main at wrapped.c:93
 */
#include <string.h>

#include "planted.h"

static pthread_mutex_t A = PTHREAD_MUTEX_INITIALIZER, B = PTHREAD_MUTEX_INITIALIZER;
static volatile int count;

__attribute__((noinline)) static void take(pthread_mutex_t *lock)
{
    /* As in any function that checks what it was given. */
    if (lock == NULL)
        exit(1);
    must(pthread_mutex_lock(lock) == 0);
    count++;
}

__attribute__((noinline)) static void give(pthread_mutex_t *lock)
{
    count--;
    must(pthread_mutex_unlock(lock) == 0);
}

static void *push(void *nothing)
{
    take(&A);
    take(&B);
    give(&B);
    give(&A);
    return nothing;
}

static void *pop(void *nothing)
{
    take(&B);
    take(&A);
    give(&A);
    give(&B);
    return nothing;
}

__attribute__((noinline)) static void sized(int size)
{
    volatile char text[size];
    text[0] = (char)size;
    take(&A);
    count += text[0] - (char)size;
    give(&A);
}

__attribute__((noinline)) static void outer(int size)
{
    sized(size);
    count++;
}

int main(void)
{
    /* A thread each, one after the other. */
    run_thread(push);
    run_thread(pop);

    outer(40);
    outer(4000);
    sized(400);
    count++;
    return 0;
}
