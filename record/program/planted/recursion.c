/*
 * Two locks that one call initialises are of one class; one is taken under the other.
 *
 * Report:
 * traces 1 refused 0 events 4 classes 1 dependencies 1
 * recursion new_lock:recursion.c at recursion-1:4
 * violations 1
 */
#include "planted.h"

struct pair {
    pthread_mutex_t *part[2];
};

static pthread_mutex_t *new_lock(void)
{
    pthread_mutex_t *lock = malloc(sizeof *lock);
    must(lock && pthread_mutex_init(lock, NULL) == 0);
    return lock;
}

static struct pair new_pair(void)
{
    struct pair pair;
    for (int part = 0; part < 2; part++)
        pair.part[part] = new_lock();
    return pair;
}

int main(void)
{
    struct pair pair = new_pair();
    take_both(pair.part[0], pair.part[1]);
    for (int part = 0; part < 2; part++)
        must(pthread_mutex_destroy(pair.part[part]) == 0);
    return 0;
}
