/* Read-write locks. */
#define _GNU_SOURCE
#include <pthread.h>

#include "next.h"
#include "recorder.h"
#include "wrappers.h"

/* libc has the number of readers above three bits for other things. */
#define READER_SHIFT 3

bool leaves_readers_out;

WRAP_INIT(pthread_rwlock_init, pthread_rwlock_t, const pthread_rwlockattr_t *)
WRAP_DESTROY(pthread_rwlock_destroy, pthread_rwlock_t)

static bool is_got(int answer)
{
    return answer == 0;
}

/* One call gives back read locks and write locks. Where readers are left out, a thread that never took a
   write lock has none to give back, so what it does with read locks costs nothing; of another's unlocks
   those of read locks release what nobody holds exclusively, and are no event to the merger. */
static __thread bool took_write_lock __attribute__((tls_model("initial-exec")));

static bool wrote(int answer)
{
    took_write_lock = took_write_lock || answer == 0;
    return answer == 0;
}

/* Answers whether who reads the lock may read it again while a writer waits. It is so by default, and
   with libc also where an attribute prefers writers, unless its name says that readers don't recur. */
static bool has_recursive_readers(const pthread_rwlock_t *lock)
{
    return lock->__data.__flags != PTHREAD_RWLOCK_PREFER_WRITER_NONRECURSIVE_NP;
}

static enum operation writing(const pthread_rwlock_t *lock)
{
    return !leaves_readers_out && has_recursive_readers(lock) ? RECORD_WRITE : RECORD_ACQUIRE;
}

static enum operation trying_to_write(const pthread_rwlock_t *lock)
{
    return writing(lock) == RECORD_WRITE ? RECORD_TRY_WRITE : RECORD_TRY;
}

static enum operation reading(const pthread_rwlock_t *lock)
{
    if (leaves_readers_out)
        return RECORD_NOTHING;
    return has_recursive_readers(lock) ? RECORD_READ : RECORD_SHARE;
}

static enum operation trying_to_read(void)
{
    return leaves_readers_out ? RECORD_NOTHING : RECORD_TRY_READ;
}

/* libc looks at the time, as at the clock, before it looks at the lock. */
static bool is_time(const struct timespec *until)
{
    return until->tv_nsec >= 0 && until->tv_nsec < 1000000000;
}

WRAP_TRY(wrote, trying_to_write(lock), pthread_rwlock_trywrlock, pthread_rwlock_t)
WRAP_TAKE(wrote, writing(lock), pthread_rwlock_wrlock, pthread_rwlock_trywrlock, pthread_rwlock_t)
WRAP_TIMED(wrote, writing(lock), pthread_rwlock_timedwrlock, pthread_rwlock_trywrlock, pthread_rwlock_t,
           is_time(until))
WRAP_CLOCKED(wrote, writing(lock), pthread_rwlock_clockwrlock, pthread_rwlock_trywrlock, pthread_rwlock_t,
             is_clock(clock) && is_time(until))

WRAP_TRY(is_got, trying_to_read(), pthread_rwlock_tryrdlock, pthread_rwlock_t)
WRAP_TAKE(is_got, reading(lock), pthread_rwlock_rdlock, pthread_rwlock_tryrdlock, pthread_rwlock_t)
WRAP_TIMED(is_got, reading(lock), pthread_rwlock_timedrdlock, pthread_rwlock_tryrdlock, pthread_rwlock_t,
           is_time(until))
WRAP_CLOCKED(is_got, reading(lock), pthread_rwlock_clockrdlock, pthread_rwlock_tryrdlock, pthread_rwlock_t,
             is_clock(clock) && is_time(until))

/* A lock says who writes it, and how many read it, but not who they are. */
static void give_back(const pthread_rwlock_t *lock, const struct frame *frame)
{
    int writer = lock->__data.__cur_writer;
    bool is_read = lock->__data.__readers >= 1 << READER_SHIFT;
    if (self.thread == 0 || (writer == 0 && is_read))
        record(RECORD_RELEASE_ANY, lock);
    else if (writer == self.thread)
        record(RECORD_RELEASE, lock);
    else
        record_at(RECORD_RELEASE_OTHER, lock, frame);
}

EXPORTED int pthread_rwlock_unlock(pthread_rwlock_t *lock)
{
    if (!leaves_readers_out || took_write_lock)
        give_back(lock, HERE);
    return NEXT(pthread_rwlock_unlock)(lock);
}
