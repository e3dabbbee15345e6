/* A thread for every hundred operations, each with a lock of its own below that of them all. */
#include "timed.h"

static pthread_mutex_t all = PTHREAD_MUTEX_INITIALIZER;
static unsigned long sum;
static long operations;

static void *live(void *number)
{
    pthread_mutex_t own;
    unsigned long value = (unsigned long)*(int *)number;
    must(pthread_mutex_init(&own, NULL) == 0);
    for (int round = 0; round < 100; round++) {
        value = work(value + 1);
        pthread_mutex_lock(&all);
        pthread_mutex_lock(&own);
        sum += value & 1;
        pthread_mutex_unlock(&own);
        pthread_mutex_unlock(&all);
    }
    must(pthread_mutex_destroy(&own) == 0);
    return NULL;
}

int main(int count, char **words)
{
    operations = operations_of(count, words);
    for (long begun = 0; begun < operations; begun += 100 * THREADS)
        run_threads(live);
    return 0;
}
