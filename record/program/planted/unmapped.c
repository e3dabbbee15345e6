/*
 * Memory with a lock in it that is unmapped, though no call destroyed the lock. Where that fails, the lock stays; what is
 * mapped there next has a lock of another class.
 *
 * Report:
 * traces 1 refused 0 events 16 classes 4 dependencies 4
 * inversion open_conn:unmapped.c -> unmapped:other at unmapped-1:8 via unmapped:other -> open_conn:unmapped.c
 * inversion unmapped:other -> open_conn:unmapped.c at unmapped-1:12 via open_conn:unmapped.c -> unmapped:other
 * violations 2
 *
 * Class: open_conn:unmapped.c
 * Class: queue::lock
 */
#define _GNU_SOURCE
#include <errno.h>
#include <sys/mman.h>

#include "planted.h"

#define BYTES (4 << 20)

/* The locks aren't at the begin of the memory. */
struct conn {
    char room[BYTES / 2];
    pthread_mutex_t lock;
    long number;
};

struct queue {
    char room[BYTES / 2];
    pthread_mutex_t lock;
    long length;
};

static pthread_mutex_t table = PTHREAD_MUTEX_INITIALIZER;
static pthread_mutex_t other = PTHREAD_MUTEX_INITIALIZER;

static void *map(void *place)
{
    int flags = MAP_PRIVATE | MAP_ANONYMOUS | (place ? MAP_FIXED_NOREPLACE : 0);
    void *mapped = mmap(place, BYTES, PROT_READ | PROT_WRITE, flags, -1, 0);
    must(mapped != MAP_FAILED && (!place || mapped == place));
    return mapped;
}

__attribute__((noinline)) static void open_conn(struct conn *conn)
{
    must(pthread_mutex_init(&conn->lock, NULL) == 0);
    take_both(&conn->lock, &table);
    take_both(&conn->lock, &other);
    conn->number++;
}

static void close_conn(struct conn *conn)
{
    errno = 0;
    must(munmap((char *)conn + 1, BYTES - 1) == -1 && errno == EINVAL);
    take_both(&other, &conn->lock);
    must(munmap(conn, BYTES) == 0);
}

__attribute__((noinline)) static void drain(struct queue *queue)
{
    take_both(&table, &queue->lock);
    queue->length++;
}

int main(void)
{
    struct conn *conn = map(NULL);
    open_conn(conn);
    close_conn(conn);
    drain(map(conn));
    return 0;
}
