/*
 * Locks of C that are members of records, and that no call initialises: the memory is just empty. One line takes the
 * lock of one connection first, another line that of another; a function takes all of them for the program.
 *
 * Flags: -O0
 * Flags: -O1
 * Flags: -O2
 * Flags: -O2 -flto
 * Flags: -O2 -gdwarf-4
 *
 * Report:
 * traces 1 refused 0 events 14 classes 3 dependencies 3
 * inversion conn::lock -> fields:table at fields-1:.. via fields:table -> conn::lock
 * inversion fields:table -> conn::lock at fields-1:.. via conn::lock -> fields:table
 * violations 2
 *
 * Class: conn::lock
 * Class: queue_t::lock
 */
#include "planted.h"

struct conn {
    int number;
    pthread_mutex_t lock;
};

typedef struct {
    long length;
    struct {
        pthread_mutex_t lock;
    };
} queue_t;

static pthread_mutex_t table = PTHREAD_MUTEX_INITIALIZER;
static struct conn *first, *second;

__attribute__((noinline)) static void take(pthread_mutex_t *lock)
{
    must(pthread_mutex_lock(lock) == 0);
}

__attribute__((noinline)) static void give(pthread_mutex_t *lock)
{
    must(pthread_mutex_unlock(lock) == 0);
}

__attribute__((noinline)) static void open_conn(struct conn *conn)
{
    take(&conn->lock);
    conn->number++;
    give(&conn->lock);
}

__attribute__((noinline)) static void move_conn(struct conn *conn)
{
    take(&table);
    take(&conn->lock);
    conn->number++;
    give(&conn->lock);
    give(&table);
}

__attribute__((noinline)) static void close_conn(struct conn *conn)
{
    take(&conn->lock);
    take(&table);
    conn->number--;
    give(&table);
    give(&conn->lock);
}

__attribute__((noinline)) static void add(queue_t *queue)
{
    take(&queue->lock);
    take(&table);
    queue->length++;
    give(&table);
    give(&queue->lock);
}

int main(void)
{
    queue_t queue = {0};
    first = calloc(1, sizeof *first);
    second = calloc(1, sizeof *second);
    must(first && second);
    open_conn(first);
    move_conn(second);
    close_conn(first);
    add(&queue);
    return 0;
}
