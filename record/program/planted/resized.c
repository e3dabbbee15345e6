/*
 * Memory with locks in it that gets another size. If it moves, its locks are no more, and if it ends earlier, nor are
 * those behind its end: what stands there next is of another class. If it stays, or can't have the size, its locks stay.
 *
 * Report:
 * traces 1 refused 0 events 28 classes 6 dependencies 6
 * inversion open_pool:resized.c -> resized:table at resized-1:16 via resized:table -> open_pool:resized.c
 * inversion queue::lock -> resized:table at resized-1:8 via resized:table -> queue::lock
 * inversion resized:table -> open_pool:resized.c at resized-1:28 via open_pool:resized.c -> resized:table
 * inversion resized:table -> queue::lock at resized-1:12 via queue::lock -> resized:table
 * violations 4
 *
 * Class: conn::lock
 * Class: queue::lock
 * Class: open_pool:resized.c
 * Class: open_pool:resized.c#2
 * Class: tail::lock
 */
#include <errno.h>
#include <stddef.h>
#include <stdint.h>

#include "planted.h"

struct conn {
    pthread_mutex_t lock;
    long number;
};

struct queue {
    pthread_mutex_t lock;
    long length;
};

/* The pool is cut off behind `kept`, and the tail gets what was cut off, but for 16 bytes that libc takes. */
struct pool {
    pthread_mutex_t lock;
    char kept[472];
    char room[600];
    pthread_mutex_t last;
    char more[384];
};

struct tail {
    char room[584];
    pthread_mutex_t lock;
    char more[392];
};

static pthread_mutex_t table = PTHREAD_MUTEX_INITIALIZER;

/* The compiler would warn of what is tried here. */
__attribute__((noinline)) static void *resize(void *memory, size_t size)
{
    return realloc(memory, size);
}

/* Gives some that isn't the last of the heap, so that it can't grow where it stands. */
static void *make_inside(size_t size)
{
    void *made = make_empty(size);
    make_empty(size);
    return made;
}

__attribute__((noinline)) static void open_conn(struct conn *conn)
{
    take_and_give(&conn->lock);
    conn->number++;
}

__attribute__((noinline)) static void add(struct queue *queue)
{
    take_both(&queue->lock, &table);
    queue->length++;
}

__attribute__((noinline)) static void drain(struct queue *queue)
{
    take_both(&table, &queue->lock);
    queue->length--;
}

static void move(void)
{
    struct conn *conn = make_inside(sizeof *conn);
    open_conn(conn);
    volatile uintptr_t place = (uintptr_t)conn;
    conn = reallocarray(conn, 64, sizeof *conn);
    must(conn && (uintptr_t)conn != place);
    open_conn(conn);
    struct queue *queue = make_empty(sizeof *queue);
    must((uintptr_t)queue == place);
    add(queue);
    drain(make_empty(sizeof *queue));
}

static struct pool *open_pool(void)
{
    struct pool *pool = make_inside(sizeof *pool);
    must(pthread_mutex_init(&pool->lock, NULL) == 0);
    must(pthread_mutex_init(&pool->last, NULL) == 0);
    return pool;
}

__attribute__((noinline)) static void touch(struct tail *tail)
{
    take_both(&table, &tail->lock);
    tail->room[0]++;
}

static void shrink(void)
{
    struct pool *pool = open_pool();
    take_both(&pool->lock, &table);
    take_both(&pool->last, &table);
    must(!resize(pool, PTRDIFF_MAX) && errno == ENOMEM);
    volatile uintptr_t place = (uintptr_t)pool, last = (uintptr_t)&pool->last;
    pool = resize(pool, offsetof(struct pool, room));
    must((uintptr_t)pool == place);
    struct tail *tail = make_empty(sizeof *tail);
    must((uintptr_t)&tail->lock == last);
    touch(tail);
    take_both(&table, &pool->lock);
}

int main(void)
{
    move();
    shrink();
    return 0;
}
