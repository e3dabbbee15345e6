/*
 * Mistakes with locks that are none of order, each of which is said; and calls that refuse one, of which
 * nothing is said. A lock that is destroyed while it is held is held no more, unless that is refused.
 *
 * Flags: -O0
 * Flags: -O2
 *
 * Report:
 * traces 1 refused 0 events 23 classes 9 dependencies 3
 * clean
 *
 * Says: 2 times misuse:handed was given back by another thread than its holder, in hand_back at ..misuse.c:44
 * Says: 1 times misuse:handed was given back while nobody held it, in main at ..misuse.c:112
 * Says: 1 times main:misuse.c was given back by another thread than its holder, which took it in hand_over at ..misuse.c:99
 * Says: 1 times misuse:shared was given back by another thread than its holder, which took it in hand_over at ..misuse.c:100
 * Says: 1 times misuse:destroyed was destroyed while it was held, in destroy at ..misuse.c:59
 * Says: 1 times misuse:written was destroyed while it was held, in destroy at ..misuse.c:62
 * Says: 1 times a thread ended while it held misuse:kept, taken in keep at ..misuse.c:73
 * Says: 1 times a condition of misuse:queue was waited for while misuse:outer was held, in wait_under_outer at ..misuse.c:85
 * Unsaid: misuse:checked
 */
#define _GNU_SOURCE
#include <errno.h>

#include "planted.h"

static pthread_mutex_t handed = PTHREAD_MUTEX_INITIALIZER;
static pthread_mutex_t destroyed = PTHREAD_MUTEX_INITIALIZER;
static pthread_mutex_t kept = PTHREAD_MUTEX_INITIALIZER;
static pthread_mutex_t outer = PTHREAD_MUTEX_INITIALIZER;
static pthread_mutex_t queue = PTHREAD_MUTEX_INITIALIZER;
static pthread_mutex_t checked = PTHREAD_ERRORCHECK_MUTEX_INITIALIZER_NP;
static pthread_rwlock_t written = PTHREAD_RWLOCK_WRITER_NONRECURSIVE_INITIALIZER_NP;
static pthread_rwlock_t shared = PTHREAD_RWLOCK_INITIALIZER;
static pthread_cond_t filled = PTHREAD_COND_INITIALIZER;
static pthread_spinlock_t spin;
static pthread_key_t key;

/* No other thread holds what this one gives back. */
static void *hand_back(void *nothing)
{
    must(pthread_mutex_trylock(&handed) == EBUSY);
    must(pthread_mutex_unlock(&checked) == EPERM);
    pthread_mutex_unlock(&handed);
    return nothing;
}

static void *hand_back_others(void *nothing)
{
    pthread_spin_unlock(&spin);
    pthread_rwlock_unlock(&shared);
    return nothing;
}

/* 4 events */
static void destroy(void)
{
    must(pthread_mutex_lock(&destroyed) == 0);
    must(pthread_mutex_destroy(&destroyed) == EBUSY);
    must(pthread_mutex_unlock(&destroyed) == 0);
    must(pthread_rwlock_wrlock(&written) == 0);
    pthread_rwlock_destroy(&written);
}

static void give_back_at_end(void *lock)
{
    must(pthread_mutex_unlock(lock) == 0);
}

/* 3 events: what runs at the thread's end gives one lock back, and nobody the other one. */
static void *keep(void *nothing)
{
    must(pthread_mutex_lock(&kept) == 0);
    must(pthread_mutex_lock(&handed) == 0);
    must(pthread_setspecific(key, &handed) == 0);
    return nothing;
}

/* 6 events */
static void wait_under_outer(void)
{
    static const struct timespec long_ago = {1, 0};
    must(pthread_mutex_lock(&outer) == 0);
    must(pthread_mutex_lock(&queue) == 0);
    must(pthread_cond_timedwait(&filled, &queue, &long_ago) == ETIMEDOUT);
    must(pthread_mutex_unlock(&queue) == 0);
    must(pthread_mutex_unlock(&outer) == 0);
}

/* 10 events: none is of a release that was refused */
static void hand_over(void)
{
    must(pthread_mutex_lock(&checked) == 0);
    for (int round = 0; round < 2; round++) {
        must(pthread_mutex_lock(&handed) == 0);
        run_thread(hand_back);
    }
    must(pthread_mutex_unlock(&checked) == 0);
    must(pthread_spin_lock(&spin) == 0);
    must(pthread_rwlock_tryrdlock(&shared) == 0);
    run_thread(hand_back_others);
}

int main(void)
{
    must(pthread_spin_init(&spin, PTHREAD_PROCESS_PRIVATE) == 0);
    must(pthread_key_create(&key, give_back_at_end) == 0);
    hand_over();
    destroy();
    run_thread(keep);
    wait_under_outer();
    pthread_mutex_unlock(&handed);
    return 0;
}
