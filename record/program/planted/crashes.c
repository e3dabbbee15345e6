/*
 * A program that crashes is recorded up to there.
 *
 * Report:
 * traces 1 refused 0 events 3 classes 2 dependencies 1
 * clean
 */
#include "planted.h"

static pthread_mutex_t A = PTHREAD_MUTEX_INITIALIZER;
static pthread_mutex_t B = PTHREAD_MUTEX_INITIALIZER;

int main(void)
{
    volatile int *volatile nowhere = NULL;
    pthread_mutex_lock(&A);
    pthread_mutex_lock(&B);
    pthread_mutex_unlock(&B);
    *nowhere = 1;
    pthread_mutex_unlock(&A);
    return 0;
}
