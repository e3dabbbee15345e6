/*
 * Without debug information a class goes by the address of the call that initialises its locks.
 *
 * Flags: -O0 -g0
 * Flags: -O2 -g0
 *
 * Report:
 * traces 1 refused 0 events 8 classes 2 dependencies 2
 * inversion bare:conn_new+0x.. -> bare:table at bare-1:8 via bare:table -> bare:conn_new+0x..
 * inversion bare:table -> bare:conn_new+0x.. at bare-1:4 via bare:conn_new+0x.. -> bare:table
 * violations 2
 *
 * Says: 1 of 2 classes go by the address of a call, for want of debug information (compile with -g): one line may be several classes, and orders are missed
 */
#include "planted.h"

static pthread_mutex_t table = PTHREAD_MUTEX_INITIALIZER;
static pthread_mutex_t *first, *second;

__attribute__((noinline)) static pthread_mutex_t *conn_new(void)
{
    pthread_mutex_t *lock = malloc(sizeof *lock);
    must(lock && pthread_mutex_init(lock, NULL) == 0);
    return lock;
}

static void *forth(void *nothing)
{
    take_both(&table, first);
    return nothing;
}

static void *back(void *nothing)
{
    take_both(second, &table);
    return nothing;
}

int main(void)
{
    first = conn_new();
    second = conn_new();
    run_thread(forth);
    run_thread(back);
    return 0;
}
