/*
 * A function through which a program makes all its locks, as `--through` says: the line of its caller
 * tells their classes. Without that they all would be of one.
 *
 * Options: --through lock_new --through nobody
 * Flags: -O0
 * Flags: -O2
 * Flags: -O2 -flto
 *
 * Report:
 * traces 1 refused 0 events 8 classes 2 dependencies 2
 * inversion main:maker.c -> main:maker.c#2 at maker-1:4 via main:maker.c#2 -> main:maker.c
 * inversion main:maker.c#2 -> main:maker.c at maker-1:8 via main:maker.c -> main:maker.c#2
 * violations 2
 *
 * Says: no lock was made through nobody
 */
#include "planted.h"

static pthread_mutex_t *table, *entry;

static void begin(pthread_mutex_t *lock)
{
    must(pthread_mutex_init(lock, NULL) == 0);
}

static pthread_mutex_t *lock_new(void)
{
    pthread_mutex_t *lock = malloc(sizeof *lock);
    must(lock != NULL);
    begin(lock);
    return lock;
}

static void *forth(void *nothing)
{
    take_both(table, entry);
    return nothing;
}

static void *back(void *nothing)
{
    take_both(entry, table);
    return nothing;
}

int main(void)
{
    table = lock_new();
    entry = lock_new();
    run_thread(forth);
    run_thread(back);
    return 0;
}
