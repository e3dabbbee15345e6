/*
 * Two threads that never meet take two locks in turned orders.
 *
 * Report:
 * traces 1 refused 0 events 8 classes 2 dependencies 2
 * inversion inversion:A -> inversion:B at inversion-1:4 via inversion:B -> inversion:A
 * inversion inversion:B -> inversion:A at inversion-1:8 via inversion:A -> inversion:B
 * violations 2
 */
#include "planted.h"

static pthread_mutex_t A = PTHREAD_MUTEX_INITIALIZER;
static pthread_mutex_t B = PTHREAD_MUTEX_INITIALIZER;

static void *forth(void *nothing)
{
    take_both(&A, &B);
    return nothing;
}

static void *back(void *nothing)
{
    take_both(&B, &A);
    return nothing;
}

int main(void)
{
    run_thread(forth);
    run_thread(back);
    puts("both have run");
    return 0;
}
