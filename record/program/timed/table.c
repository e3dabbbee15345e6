/* A table under a read-write lock, which nine operations in ten read. */
#include "timed.h"

#define ENTRIES 256

static pthread_rwlock_t lock = PTHREAD_RWLOCK_INITIALIZER;
static unsigned long entries[ENTRIES];
static long operations;

static void *use(void *number)
{
    unsigned long seed = (unsigned long)*(int *)number, sum = 0;
    for (long round = 0; round < operations / THREADS; round++) {
        seed = work(seed + 1);
        unsigned long entry = (seed >> 32) % ENTRIES;
        if (round % 10 == 0) {
            pthread_rwlock_wrlock(&lock);
            entries[entry] += seed;
        } else {
            pthread_rwlock_rdlock(&lock);
            sum += entries[entry];
        }
        pthread_rwlock_unlock(&lock);
    }
    return (void *)sum;
}

int main(int count, char **words)
{
    operations = operations_of(count, words);
    run_threads(use);
    return 0;
}
