/*
 * Memory that is freed with a held lock in it. The lock is held no more then, and that is said.
 *
 * Report:
 * traces 1 refused 0 events 8 classes 3 dependencies 1
 * clean
 *
 * Class: conn::lock
 * Class: queue::lock
 * Says: 1 times conn::lock was destroyed while it was held, in drop at ..freed-held.c:32
 */
#include <stdint.h>

#include "planted.h"

struct conn {
    pthread_mutex_t lock;
    long number;
};

struct queue {
    pthread_mutex_t lock;
    long length;
};

static pthread_mutex_t table = PTHREAD_MUTEX_INITIALIZER;

__attribute__((noinline)) static void drop(struct conn *conn)
{
    must(pthread_mutex_lock(&conn->lock) == 0);
    conn->number++;
    free(conn);
    take_and_give(&table);
}

__attribute__((noinline)) static void add(struct queue *queue)
{
    take_both(&table, &queue->lock);
    queue->length++;
}

int main(void)
{
    struct conn *conn = make_empty(sizeof *conn);
    volatile uintptr_t place = (uintptr_t)conn;
    drop(conn);
    struct queue *queue = make_empty(sizeof *queue);
    must((uintptr_t)queue == place);
    add(queue);
    return 0;
}
