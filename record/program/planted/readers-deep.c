/*
 * Who writes a lock that has recursive readers holds two locks of a trace: the 49th that a task holds is
 * left out, and a reader of one more as well.
 *
 * Report:
 * traces 1 refused 0 events 192 classes 96 dependencies 2256
 * clean
 *
 * Says: 2 locks were left out: their task held 96 already
 */
#include "planted.h"

#define LOCKS 50

static pthread_rwlock_t locks[LOCKS];

int main(void)
{
    for (int lock = 0; lock < LOCKS - 1; lock++)
        must(pthread_rwlock_wrlock(&locks[lock]) == 0);
    must(pthread_rwlock_rdlock(&locks[LOCKS - 1]) == 0);
    for (int lock = 0; lock < LOCKS; lock++)
        must(pthread_rwlock_unlock(&locks[lock]) == 0);
    return 0;
}
