/*
 * A program that is killed is recorded up to there, in all its threads.
 *
 * Report:
 * traces 1 refused 0 events 6 classes 2 dependencies 2
 * inversion killed:A -> killed:B at killed-1:4 via killed:B -> killed:A
 * inversion killed:B -> killed:A at killed-1:8 via killed:A -> killed:B
 * violations 2
 */
#include <signal.h>

#include "planted.h"

static pthread_mutex_t A = PTHREAD_MUTEX_INITIALIZER;
static pthread_mutex_t B = PTHREAD_MUTEX_INITIALIZER;

static void *back(void *nothing)
{
    pthread_mutex_lock(&B);
    pthread_mutex_lock(&A);
    raise(SIGKILL);
    return nothing;
}

int main(void)
{
    take_both(&A, &B);
    run_thread(back);
    return 0;
}
