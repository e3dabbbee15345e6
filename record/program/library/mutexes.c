/* Mutexes of pthread and of C11, and the waits on conditions that give them back. */
#define _GNU_SOURCE
#include <errno.h>
#include <pthread.h>
#include <threads.h>

#include "next.h"
#include "recorder.h"
#include "wrappers.h"

/* A robust mutex whose owner died is held all the same. */
static bool is_got(int answer)
{
    return answer == 0 || answer == EOWNERDEAD;
}

/* Answers whether the holder of a mutex may take it again. libc's mutexes of C11 are those of pthread. */
static bool is_nesting(const void *mutex)
{
    return (((const pthread_mutex_t *)mutex)->__data.__kind & 3) == PTHREAD_MUTEX_RECURSIVE_NP;
}

static enum operation taking(const void *mutex)
{
    return is_nesting(mutex) ? RECORD_NESTING : RECORD_ACQUIRE;
}

static enum operation trying(const void *mutex)
{
    return is_nesting(mutex) ? RECORD_TRY_NESTING : RECORD_TRY;
}

WRAP_INIT(pthread_mutex_init, pthread_mutex_t, const pthread_mutexattr_t *)
WRAP_DESTROY(pthread_mutex_destroy, pthread_mutex_t)

WRAP_TRY(is_got, trying(lock), pthread_mutex_trylock, pthread_mutex_t)
WRAP_TAKE(is_got, taking(lock), pthread_mutex_lock, pthread_mutex_trylock, pthread_mutex_t)
WRAP_TIMED(is_got, taking(lock), pthread_mutex_timedlock, pthread_mutex_trylock, pthread_mutex_t, true)
WRAP_CLOCKED(is_got, taking(lock), pthread_mutex_clocklock, pthread_mutex_trylock, pthread_mutex_t,
             is_clock(clock))

/* A mutex says who holds it. A thread that hasn't begun to record doesn't know its own number yet. */
static inline void give_back(const pthread_mutex_t *mutex, const struct frame *frame)
{
    if (self.thread == mutex->__data.__owner || self.thread == 0)
        record(RECORD_RELEASE, mutex);
    else
        record_at(RECORD_RELEASE_OTHER, mutex, frame);
}

EXPORTED int pthread_mutex_unlock(pthread_mutex_t *mutex)
{
    give_back(mutex, HERE);
    int answer = NEXT(pthread_mutex_unlock)(mutex);
    if (answer != 0)
        record(RECORD_REFUSED, mutex);
    return answer;
}

/* A thread that is cancelled while it waits has the mutex again when its cleanup begins. */
static void cancelled(void *mutex)
{
    record_got(taking(mutex), mutex, NULL);
}

/* After a wait, in whatever way it ended, the mutex is held again, unless it can't be recovered; where
   the call was refused it never was given back. */
static int waited(const void *mutex, int answer, const struct frame *frame)
{
    if (answer == EPERM || answer == EINVAL)
        record(RECORD_REFUSED, mutex);
    else if (answer != ENOTRECOVERABLE)
        record_got(taking(mutex), mutex, frame);
    return answer;
}

EXPORTED int pthread_cond_wait(pthread_cond_t *condition, pthread_mutex_t *mutex)
{
    int answer;
    record_at(RECORD_CONDITION, mutex, HERE);
    pthread_cleanup_push(cancelled, mutex);
    answer = NEXT(pthread_cond_wait)(condition, mutex);
    pthread_cleanup_pop(0);
    return waited(mutex, answer, HERE);
}

EXPORTED int pthread_cond_timedwait(pthread_cond_t *condition, pthread_mutex_t *mutex,
                                    const struct timespec *until)
{
    int answer;
    record_at(RECORD_CONDITION, mutex, HERE);
    pthread_cleanup_push(cancelled, mutex);
    answer = NEXT(pthread_cond_timedwait)(condition, mutex, until);
    pthread_cleanup_pop(0);
    return waited(mutex, answer, HERE);
}

EXPORTED int pthread_cond_clockwait(pthread_cond_t *condition, pthread_mutex_t *mutex, clockid_t clock,
                                    const struct timespec *until)
{
    int answer;
    record_at(RECORD_CONDITION, mutex, HERE);
    pthread_cleanup_push(cancelled, mutex);
    answer = NEXT(pthread_cond_clockwait)(condition, mutex, clock, until);
    pthread_cleanup_pop(0);
    return waited(mutex, answer, HERE);
}

WRAP_INIT(mtx_init, mtx_t, int)

EXPORTED void mtx_destroy(mtx_t *mutex)
{
    NEXT(mtx_destroy)(mutex);
    record_destroy(mutex, HERE);
}

static bool is_got_c11(int answer)
{
    return answer == thrd_success;
}

WRAP_TRY(is_got_c11, trying(lock), mtx_trylock, mtx_t)
WRAP_TAKE(is_got_c11, taking(lock), mtx_lock, mtx_trylock, mtx_t)
WRAP_TIMED(is_got_c11, taking(lock), mtx_timedlock, mtx_trylock, mtx_t, true)

EXPORTED int mtx_unlock(mtx_t *mutex)
{
    give_back((const pthread_mutex_t *)mutex, HERE);
    int answer = NEXT(mtx_unlock)(mutex);
    if (answer != thrd_success)
        record(RECORD_REFUSED, mutex);
    return answer;
}

static int waited_c11(const void *mutex, int answer, const struct frame *frame)
{
    if (answer == thrd_success || answer == thrd_timedout)
        record_got(taking(mutex), mutex, frame);
    else
        record(RECORD_REFUSED, mutex);
    return answer;
}

EXPORTED int cnd_wait(cnd_t *condition, mtx_t *mutex)
{
    int answer;
    record_at(RECORD_CONDITION, mutex, HERE);
    pthread_cleanup_push(cancelled, mutex);
    answer = NEXT(cnd_wait)(condition, mutex);
    pthread_cleanup_pop(0);
    return waited_c11(mutex, answer, HERE);
}

EXPORTED int cnd_timedwait(cnd_t *restrict condition, mtx_t *restrict mutex,
                           const struct timespec *restrict until)
{
    int answer;
    record_at(RECORD_CONDITION, mutex, HERE);
    pthread_cleanup_push(cancelled, mutex);
    answer = NEXT(cnd_timedwait)(condition, mutex, until);
    pthread_cleanup_pop(0);
    return waited_c11(mutex, answer, HERE);
}
