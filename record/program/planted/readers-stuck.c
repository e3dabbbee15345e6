/*
 * Waits that never end for and by readers: a writer waits for two readers, of which one waits for what the
 * writer holds; a reader waits for a writer; and a reader that waits behind a writer who waits for it.
 *
 * Flags: -O0
 * Flags: -O2
 *
 * Report:
 * traces 1 refused 0 events 11 classes 5 dependencies 3
 * recursion readers-stuck:behind at readers-stuck-1:13
 * inversion readers-stuck:mutex -> readers-stuck:shared at readers-stuck-1:9 via readers-stuck:shared -> readers-stuck:mutex
 * inversion readers-stuck:shared -> readers-stuck:mutex at readers-stuck-1:10 via readers-stuck:mutex -> readers-stuck:shared
 * violations 3
 *
 * Says: process 1 ended while t4 waited for readers-stuck:shared, held by t2 and 1 more
 * Says: process 1 ended while t2 waited for readers-stuck:mutex, held by t4
 * Says: process 1 ended while t6 waited for readers-stuck:written, held by t1
 * Says: process 1 ended while t7 waited for readers-stuck:behind, held by t5
 * Says: process 1 ended while t5 waited for readers-stuck:behind, held by itself
 */
#define _GNU_SOURCE
#include "stuck.h"

static pthread_rwlock_t shared = PTHREAD_RWLOCK_INITIALIZER;
static pthread_rwlock_t written = PTHREAD_RWLOCK_INITIALIZER;
static pthread_rwlock_t behind = PTHREAD_RWLOCK_WRITER_NONRECURSIVE_INITIALIZER_NP;
static pthread_mutex_t mutex = PTHREAD_MUTEX_INITIALIZER;

static void read_before(void)
{
    pthread_rwlock_rdlock(&shared);
    about_to_wait();
    pthread_mutex_lock(&mutex);
}

static void read_alone(void)
{
    pthread_rwlock_rdlock(&shared);
    about_to_wait();
    pause();
}

static void write_behind(void)
{
    pthread_mutex_lock(&mutex);
    about_to_wait();
    pthread_rwlock_wrlock(&shared);
}

static void read_again(void)
{
    pthread_rwlock_rdlock(&behind);
    about_to_wait();
    pthread_rwlock_rdlock(&behind);
}

static void read_what_is_written(void)
{
    about_to_wait();
    pthread_rwlock_rdlock(&written);
}

static void write_what_is_read(void)
{
    about_to_wait();
    pthread_rwlock_wrlock(&behind);
}

int main(void)
{
    must(pthread_rwlock_wrlock(&written) == 0);
    struct stuck *reader = begin_stuck(read_before);
    begin_stuck(read_alone);
    struct stuck *writer = begin_stuck(write_behind), *twice = begin_stuck(read_again);
    let_wait(writer);
    let_wait(reader);
    let_wait(begin_stuck(read_what_is_written));
    let_wait(begin_stuck(write_what_is_read));
    let_wait(twice);
    _exit(3);
}
