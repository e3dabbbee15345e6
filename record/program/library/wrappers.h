/* Wrappers of calls that differ in the names of the call and of the lock's type alone. Each tells what the call
   did to the lock where libc's own worked, and answers what that did. */
#ifndef WRAPPERS_H
#define WRAPPERS_H

#include <errno.h>
#include <time.h>

#include "next.h"
#include "recorder.h"

#define WRAP_INIT(call, lock_type, options_type)             \
    EXPORTED int call(lock_type *lock, options_type options) \
    {                                                        \
        int answer = NEXT(call)(lock, options);              \
        if (answer == 0)                                     \
            record_init((const void *)lock, HERE);           \
        return answer;                                       \
    }

#define WRAP_DESTROY(call, lock_type)                         \
    EXPORTED int call(lock_type *lock)                        \
    {                                                         \
        int answer = NEXT(call)(lock);                        \
        if (answer == 0)                                      \
            record_destroy((const void *)lock, HERE);         \
        else if (answer == EBUSY)                             \
            record_at(RECORD_KEPT, (const void *)lock, HERE); \
        return answer;                                        \
    }

#define TELL_GOT(doing, lock) record_got(doing, (const void *)(lock), HERE)

/* `doing` is what the recorder is told of a lock that was got. */
#define WRAP_TRY(is_got, doing, call, lock_type) \
    EXPORTED int call(lock_type *lock)           \
    {                                            \
        int answer = NEXT(call)(lock);           \
        if (is_got(answer))                      \
            TELL_GOT(doing, lock);               \
        return answer;                           \
    }

/* A call that may wait. First it is tried whether the lock is free: where it isn't, the recorder notes
   before the thread waits that it does, since that may be for ever. */
#define TAKE(is_got, doing, lock, trial, taking)      \
    enum operation told = doing;                      \
    if (told == RECORD_NOTHING)                       \
        return taking;                                \
    int answer = trial;                               \
    if (is_got(answer)) {                             \
        TELL_GOT(told, lock);                         \
        return answer;                                \
    }                                                 \
    record_wait(told, (const void *)(lock), HERE);    \
    answer = taking;                                  \
    if (is_got(answer))                               \
        TELL_GOT(told, lock);                         \
    else                                              \
        record(RECORD_GIVE_UP, (const void *)(lock)); \
    return answer

#define WRAP_TAKE(is_got, doing, call, try_call, lock_type)                \
    EXPORTED int call(lock_type *lock)                                     \
    {                                                                      \
        TAKE(is_got, doing, lock, NEXT(try_call)(lock), NEXT(call)(lock)); \
    }

/* `may_try` says where libc takes a free lock whatever the clock and the time are. Elsewhere it refuses
   some of them before it looks at the lock, and then nothing is tried. */
#define WRAP_TIMED(is_got, doing, call, try_call, lock_type, may_try)                                \
    EXPORTED int call(lock_type *lock, const struct timespec *until)                                 \
    {                                                                                                \
        TAKE(is_got, doing, lock, may_try ? NEXT(try_call)(lock) : EINVAL, NEXT(call)(lock, until)); \
    }

#define WRAP_CLOCKED(is_got, doing, call, try_call, lock_type, may_try)                                     \
    EXPORTED int call(lock_type *lock, clockid_t clock, const struct timespec *until)                       \
    {                                                                                                       \
        TAKE(is_got, doing, lock, may_try ? NEXT(try_call)(lock) : EINVAL, NEXT(call)(lock, clock, until)); \
    }

static inline bool is_clock(clockid_t clock)
{
    return clock == CLOCK_REALTIME || clock == CLOCK_MONOTONIC;
}

#endif
