/* Two threads fill a queue of 64 places and two empty it, with waits on conditions. */
#include "timed.h"

#define PLACES 64

static pthread_mutex_t lock = PTHREAD_MUTEX_INITIALIZER;
static pthread_cond_t has_room = PTHREAD_COND_INITIALIZER;
static pthread_cond_t has_more = PTHREAD_COND_INITIALIZER;
static unsigned long queue[PLACES];
static long operations, put, got;

static void fill(unsigned long value)
{
    pthread_mutex_lock(&lock);
    while (put - got == PLACES)
        pthread_cond_wait(&has_room, &lock);
    queue[put++ % PLACES] = value;
    pthread_cond_signal(&has_more);
    pthread_mutex_unlock(&lock);
}

static unsigned long empty(void)
{
    pthread_mutex_lock(&lock);
    while (put == got)
        pthread_cond_wait(&has_more, &lock);
    unsigned long value = queue[got++ % PLACES];
    pthread_cond_signal(&has_room);
    pthread_mutex_unlock(&lock);
    return value;
}

static void *serve(void *number)
{
    unsigned long value = (unsigned long)*(int *)number;
    for (long round = 0; round < operations / THREADS; round++)
        if (*(int *)number % 2)
            fill(value = work(value));
        else
            value += work(empty());
    return (void *)value;
}

int main(int count, char **words)
{
    operations = operations_of(count, words);
    run_threads(serve);
    printf("%ld\n", got);
    return 0;
}
