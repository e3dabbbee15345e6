/* What several of the planted programs do. */
#ifndef PLANTED_H
#define PLANTED_H

#include <pthread.h>
#include <stdio.h>
#include <stdlib.h>

/* Ends the program where what must hold doesn't. */
static inline void must(int holds)
{
    if (!holds) {
        perror("planted");
        exit(99);
    }
}

static inline void take_both(pthread_mutex_t *outer, pthread_mutex_t *inner)
{
    must(pthread_mutex_lock(outer) == 0);
    must(pthread_mutex_lock(inner) == 0);
    must(pthread_mutex_unlock(inner) == 0);
    must(pthread_mutex_unlock(outer) == 0);
}

/* Runs a thread from its begin to its end. */
static inline void run_thread(void *(*work)(void *))
{
    pthread_t thread;
    must(pthread_create(&thread, NULL, work, NULL) == 0);
    must(pthread_join(thread, NULL) == 0);
}

static inline void take_and_give(pthread_mutex_t *lock)
{
    must(pthread_mutex_lock(lock) == 0);
    must(pthread_mutex_unlock(lock) == 0);
}

/* Gives empty memory. `calloc`, of which the compiler knows, wouldn't give what was freed last. */
static inline void *make_empty(size_t size)
{
    void *volatile made = malloc(size);
    must(made != NULL);
    char *bytes = (char *)made;
    for (size_t i = 0; i < size; i++)
        bytes[i] = 0;
    return made;
}

#endif
