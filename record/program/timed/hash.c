/* A hash table with a lock for each of 64 buckets, and a lock for a log below: 17 events in 8 operations. */
#include "timed.h"

#define BUCKETS 64

static struct bucket {
    pthread_mutex_t lock;
    unsigned long sum;
} buckets[BUCKETS];
static pthread_mutex_t log_lock = PTHREAD_MUTEX_INITIALIZER;
static long operations, logged;

static void note(void)
{
    pthread_mutex_lock(&log_lock);
    logged++;
    pthread_mutex_unlock(&log_lock);
}

static void *change(void *number)
{
    unsigned long seed = (unsigned long)*(int *)number;
    for (long round = 0; round < operations / THREADS; round++) {
        seed = work(seed + 1);
        struct bucket *bucket = &buckets[(seed >> 32) % BUCKETS];
        pthread_mutex_lock(&bucket->lock);
        bucket->sum += seed & 1;
        if (round % 16 == 0)
            note();
        pthread_mutex_unlock(&bucket->lock);
    }
    return NULL;
}

int main(int count, char **words)
{
    operations = operations_of(count, words);
    for (int bucket = 0; bucket < BUCKETS; bucket++)
        must(pthread_mutex_init(&buckets[bucket].lock, NULL) == 0);
    run_threads(change);
    printf("%ld\n", logged);
    return 0;
}
