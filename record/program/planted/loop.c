/*
 * A loop makes the locks of two objects, and the compiler may unroll it: they are of one class. One
 * thread takes the table and then the first of them, another the second and then the table.
 *
 * Flags: -O0
 * Flags: -O1
 * Flags: -O2
 * Flags: -O3
 * Flags: -O3 -flto
 *
 * Report:
 * traces 1 refused 0 events 8 classes 2 dependencies 2
 * inversion loop:table -> main:loop.c at loop-1:4 via main:loop.c -> loop:table
 * inversion main:loop.c -> loop:table at loop-1:8 via loop:table -> main:loop.c
 * violations 2
 */
#include "planted.h"

static pthread_mutex_t table = PTHREAD_MUTEX_INITIALIZER;
static pthread_mutex_t *made[2];

static void *forth(void *nothing)
{
    take_both(&table, made[0]);
    return nothing;
}

static void *back(void *nothing)
{
    take_both(made[1], &table);
    return nothing;
}

int main(void)
{
    for (int number = 0; number < 2; number++) {
        made[number] = malloc(sizeof *made[number]);
        must(pthread_mutex_init(made[number], NULL) == 0);
    }
    run_thread(forth);
    run_thread(back);
    return 0;
}
