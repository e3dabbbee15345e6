/*
 * A function that ends with the call which initialises a lock: where it is optimised it isn't on the
 * stack any more when the lock is initialised, and its callers aren't what the class goes by.
 *
 * Flags: -O0
 * Flags: -O1
 * Flags: -O2
 * Flags: -O2 -flto
 *
 * Report:
 * traces 1 refused 0 events 8 classes 2 dependencies 2
 * inversion conn_init:tails.c -> tails:table at tails-1:8 via tails:table -> conn_init:tails.c
 * inversion tails:table -> conn_init:tails.c at tails-1:4 via conn_init:tails.c -> tails:table
 * violations 2
 */
#include "planted.h"

static pthread_mutex_t table = PTHREAD_MUTEX_INITIALIZER;
static pthread_mutex_t first, second;

__attribute__((noinline)) int conn_init(pthread_mutex_t *lock)
{
    return pthread_mutex_init(lock, NULL);
}

static void *forth(void *nothing)
{
    take_both(&table, &first);
    return nothing;
}

static void *back(void *nothing)
{
    take_both(&second, &table);
    return nothing;
}

int main(void)
{
    must(conn_init(&first) == 0);
    must(conn_init(&second) == 0);
    run_thread(forth);
    run_thread(back);
    return 0;
}
