/* A module that opens.c opens. */
#include "planted.h"

static pthread_mutex_t inside = PTHREAD_MUTEX_INITIALIZER;

void take(pthread_mutex_t *outside);

__attribute__((constructor)) static void begin(void)
{
    must(pthread_mutex_lock(&inside) == 0);
    must(pthread_mutex_unlock(&inside) == 0);
}

void take(pthread_mutex_t *outside)
{
    take_both(&inside, outside);
}
