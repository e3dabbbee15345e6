/*
 * A trace is cut after some lines, with what is held carried over: the lock that is held all the while is in each of
 * the traces, and an order that begins before a cut and ends behind it isn't lost.
 *
 * Options: --cut 6
 *
 * Report:
 * traces 4 refused 0 events 27 classes 3 dependencies 3
 * inversion cuts:first -> cuts:second at cuts-1.4:.. via cuts:second -> cuts:first
 * inversion cuts:second -> cuts:first at cuts-1:.. via cuts:first -> cuts:second
 * violations 2
 */
#include "planted.h"

static pthread_mutex_t first = PTHREAD_MUTEX_INITIALIZER, second = PTHREAD_MUTEX_INITIALIZER;
static pthread_mutex_t other = PTHREAD_MUTEX_INITIALIZER;

/* Four events. */
static void *forth(void *nothing)
{
    take_both(&second, &first);
    return nothing;
}

int main(void)
{
    run_thread(forth);
    must(pthread_mutex_lock(&first) == 0);
    /* Sixteen events, and three by which traces take up what is held. */
    for (int round = 0; round < 8; round++) {
        must(pthread_mutex_lock(&other) == 0);
        must(pthread_mutex_unlock(&other) == 0);
    }
    must(pthread_mutex_lock(&second) == 0);
    must(pthread_mutex_unlock(&second) == 0);
    must(pthread_mutex_unlock(&first) == 0);
    return 0;
}
