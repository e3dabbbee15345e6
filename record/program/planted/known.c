/*
 * Functions through which everybody makes and takes locks are known by their names: the classes and the
 * places are those of their callers.
 *
 * Flags: -O0
 * Flags: -O2
 *
 * Report:
 * traces 1 refused 0 events 8 classes 2 dependencies 2
 * inversion main:known.c -> main:known.c#2 at known-1:4 via main:known.c#2 -> main:known.c
 * inversion main:known.c#2 -> main:known.c at known-1:8 via main:known.c -> main:known.c#2
 * violations 2
 *
 * Taken: 1 main:known.c take_two known.c:36
 * Taken: 1 main:known.c take_two known.c:37
 * Taken: 1 main:known.c#2 take_two known.c:36
 * Taken: 1 main:known.c#2 take_two known.c:37
 */
#include "planted.h"

static int apr_thread_mutex_create(pthread_mutex_t **made)
{
    *made = malloc(sizeof **made);
    must(*made != NULL);
    return pthread_mutex_init(*made, NULL);
}

static int apr_thread_mutex_lock(pthread_mutex_t *mutex)
{
    int answer = pthread_mutex_lock(mutex);
    return answer;
}

static void take_two(pthread_mutex_t *outer, pthread_mutex_t *inner)
{
    must(apr_thread_mutex_lock(outer) == 0);
    must(apr_thread_mutex_lock(inner) == 0);
    must(pthread_mutex_unlock(inner) == 0);
    must(pthread_mutex_unlock(outer) == 0);
}

int main(void)
{
    pthread_mutex_t *table, *entry;
    must(apr_thread_mutex_create(&table) == 0);
    must(apr_thread_mutex_create(&entry) == 0);
    take_two(table, entry);
    take_two(entry, table);
    return 0;
}
