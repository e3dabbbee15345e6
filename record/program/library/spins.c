/* Spin locks. */
#define _GNU_SOURCE
#include <pthread.h>

#include "next.h"
#include "recorder.h"
#include "wrappers.h"

WRAP_INIT(pthread_spin_init, pthread_spinlock_t, int)
WRAP_DESTROY(pthread_spin_destroy, pthread_spinlock_t)

static bool is_got(int answer)
{
    return answer == 0;
}

WRAP_TRY(is_got, RECORD_TRY, pthread_spin_trylock, pthread_spinlock_t)
WRAP_TAKE(is_got, RECORD_ACQUIRE, pthread_spin_lock, pthread_spin_trylock, pthread_spinlock_t)

EXPORTED int pthread_spin_unlock(pthread_spinlock_t *lock)
{
    record(RECORD_RELEASE_ANY, (const void *)lock);
    return NEXT(pthread_spin_unlock)(lock);
}
