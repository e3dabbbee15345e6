/* What the programs that are timed have in common: four threads share a number of operations. */
#ifndef TIMED_H
#define TIMED_H

#include <pthread.h>
#include <stdio.h>
#include <stdlib.h>

#define THREADS 4

static inline void must(int holds)
{
    if (!holds) {
        perror("timed");
        exit(99);
    }
}

/* Some work of a thread's own between two locks. */
static inline unsigned long work(unsigned long number)
{
    for (int round = 0; round < 300; round++)
        number = number * 6364136223846793005u + 1442695040888963407u;
    return number;
}

static inline long operations_of(int count, char **words)
{
    must(count == 2);
    return atol(words[1]);
}

/* Runs the threads from their begin to their end, each with its number. */
static inline void run_threads(void *(*run)(void *))
{
    static int numbers[THREADS];
    pthread_t threads[THREADS];
    for (int thread = 0; thread < THREADS; thread++) {
        numbers[thread] = thread;
        must(pthread_create(&threads[thread], NULL, run, &numbers[thread]) == 0);
    }
    for (int thread = 0; thread < THREADS; thread++)
        must(pthread_join(threads[thread], NULL) == 0);
}

#endif
