/*
 * A program's own kind of lock has more than a mutex, and no call initialises it. It is taken by a function that the
 * user names: so a class is the member of the record that has such a lock, and not that of the lock itself.
 *
 * Options: --through own_take
 * Flags: -O0
 * Flags: -O2
 *
 * Report:
 * traces 1 refused 0 events 8 classes 2 dependencies 2
 * inversion conn::lock -> pool::lock at owned-1:.. via pool::lock -> conn::lock
 * inversion pool::lock -> conn::lock at owned-1:.. via conn::lock -> pool::lock
 * violations 2
 *
 * Class: conn::lock
 * Class: pool::lock
 */
#include "planted.h"

struct own {
    pthread_mutex_t mutex;
    int taken;
};

struct conn {
    int number;
    struct own lock;
};

struct pool {
    struct own lock;
    int size;
};

__attribute__((noinline)) static void own_take(struct own *own)
{
    must(pthread_mutex_lock(&own->mutex) == 0);
    own->taken++;
}

__attribute__((noinline)) static void own_give(struct own *own)
{
    own->taken--;
    must(pthread_mutex_unlock(&own->mutex) == 0);
}

__attribute__((noinline)) static void add(struct pool *pool, struct conn *conn)
{
    own_take(&pool->lock);
    own_take(&conn->lock);
    pool->size += conn->number;
    own_give(&conn->lock);
    own_give(&pool->lock);
}

__attribute__((noinline)) static void drop(struct pool *pool, struct conn *conn)
{
    own_take(&conn->lock);
    own_take(&pool->lock);
    pool->size -= conn->number;
    own_give(&pool->lock);
    own_give(&conn->lock);
}

int main(void)
{
    struct pool *first = calloc(1, sizeof *first), *second = calloc(1, sizeof *second);
    struct conn *one = calloc(1, sizeof *one), *other = calloc(1, sizeof *other);
    must(first && second && one && other);
    add(first, one);
    drop(second, other);
    return 0;
}
