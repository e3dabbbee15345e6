/* The calls as libc has them. NEXT(pthread_mutex_lock)(mutex) is libc's own pthread_mutex_lock. */
#ifndef NEXT_H
#define NEXT_H

/* clang-format off */
#define NEXT_CALLS(each)            \
    each(pthread_mutex_init)        \
    each(pthread_mutex_destroy)     \
    each(pthread_mutex_lock)        \
    each(pthread_mutex_trylock)     \
    each(pthread_mutex_timedlock)   \
    each(pthread_mutex_clocklock)   \
    each(pthread_mutex_unlock)      \
    each(pthread_cond_wait)         \
    each(pthread_cond_timedwait)    \
    each(pthread_cond_clockwait)    \
    each(pthread_spin_init)         \
    each(pthread_spin_destroy)      \
    each(pthread_spin_lock)         \
    each(pthread_spin_trylock)      \
    each(pthread_spin_unlock)       \
    each(pthread_rwlock_init)       \
    each(pthread_rwlock_destroy)    \
    each(pthread_rwlock_wrlock)     \
    each(pthread_rwlock_trywrlock)  \
    each(pthread_rwlock_timedwrlock) \
    each(pthread_rwlock_clockwrlock) \
    each(pthread_rwlock_rdlock)     \
    each(pthread_rwlock_tryrdlock)  \
    each(pthread_rwlock_timedrdlock) \
    each(pthread_rwlock_clockrdlock) \
    each(pthread_rwlock_unlock)     \
    each(mtx_init)                  \
    each(mtx_destroy)               \
    each(mtx_lock)                  \
    each(mtx_trylock)               \
    each(mtx_timedlock)             \
    each(mtx_unlock)                \
    each(cnd_wait)                  \
    each(cnd_timedwait)             \
    each(free)                      \
    each(realloc)                   \
    each(malloc_usable_size)        \
    each(munmap)
/* clang-format on */

enum next {
#define NUMBER(call) NEXT_##call,
    NEXT_CALLS(NUMBER)
#undef NUMBER
};

extern void *next_found[];
void *look_up_next(enum next which);

/* Locks are taken and memory is freed before the library's own constructor runs, so each call is looked up where it is
   first wanted. */
static inline void *next_call(enum next which)
{
    void *call = __atomic_load_n(&next_found[which], __ATOMIC_RELAXED);
    return call ? call : look_up_next(which);
}

#define NEXT(call) ((__typeof__(&call))next_call(NEXT_##call))

#endif
