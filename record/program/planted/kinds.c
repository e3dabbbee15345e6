/*
 * A function that makes locks of two kinds, which are never held together: one is taken before the table,
 * one after it. As one class they would be in an inversion with it, which is none.
 *
 * Options: --through lock_new
 * Flags: -O0
 * Flags: -O2
 *
 * Report:
 * traces 1 refused 0 events 8 classes 3 dependencies 2
 * clean
 *
 * Class: main:kinds.c
 * Class: main:kinds.c#2
 */
#include "planted.h"

static pthread_mutex_t table = PTHREAD_MUTEX_INITIALIZER;
static pthread_mutex_t *before, *after;

static pthread_mutex_t *lock_new(void)
{
    pthread_mutex_t *lock = malloc(sizeof *lock);
    must(lock != NULL);
    must(pthread_mutex_init(lock, NULL) == 0);
    return lock;
}

static void *forth(void *nothing)
{
    take_both(before, &table);
    return nothing;
}

static void *back(void *nothing)
{
    take_both(&table, after);
    return nothing;
}

int main(void)
{
    before = lock_new();
    after = lock_new();
    run_thread(forth);
    run_thread(back);
    return 0;
}
