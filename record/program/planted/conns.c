/*
 * One function makes the connections, and two places call it: one thread takes the table and then a
 * connection of the first place, another one of the second place and then the table. All connections are
 * of one class, however the compiler puts the function into its callers.
 *
 * Flags: -O0
 * Flags: -O1
 * Flags: -O2
 * Flags: -O3
 * Flags: -O2 -flto
 * Flags: -O2 -gdwarf-4
 *
 * Report:
 * traces 1 refused 0 events 8 classes 2 dependencies 2
 * inversion conn_new:conns.c -> conns:table at conns-1:8 via conns:table -> conn_new:conns.c
 * inversion conns:table -> conn_new:conns.c at conns-1:4 via conn_new:conns.c -> conns:table
 * violations 2
 *
 * Taken: 1 conn_new:conns.c take_both planted.h:20
 * Taken: 1 conn_new:conns.c take_both planted.h:21
 * Taken: 1 conns:table take_both planted.h:20
 * Taken: 1 conns:table take_both planted.h:21
 */
#include "planted.h"

struct conn {
    pthread_mutex_t lock;
};

static pthread_mutex_t table = PTHREAD_MUTEX_INITIALIZER;
static struct conn *first, *second;

static struct conn *conn_new(void)
{
    struct conn *conn = malloc(sizeof *conn);
    must(conn != NULL);
    must(pthread_mutex_init(&conn->lock, NULL) == 0);
    return conn;
}

static void *forth(void *nothing)
{
    take_both(&table, &first->lock);
    return nothing;
}

static void *back(void *nothing)
{
    take_both(&second->lock, &table);
    return nothing;
}

int main(void)
{
    first = conn_new();
    run_thread(forth);
    second = conn_new();
    run_thread(back);
    return 0;
}
