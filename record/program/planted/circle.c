/*
 * A circle through three locks: a mutex, the write side of a read-write lock, and a spin lock.
 *
 * Report:
 * traces 1 refused 0 events 16 classes 4 dependencies 4
 * inversion circle:A -> circle:B at circle-1:4 via circle:B -> main:circle.c -> circle:A
 * inversion circle:B -> main:circle.c at circle-1:11 via main:circle.c -> circle:A -> circle:B
 * inversion main:circle.c -> circle:A at circle-1:16 via circle:A -> circle:B -> main:circle.c
 * violations 3
 */
#include "planted.h"

static pthread_mutex_t A = PTHREAD_MUTEX_INITIALIZER;
static pthread_rwlock_t B = PTHREAD_RWLOCK_INITIALIZER;
static pthread_spinlock_t C;

static void *first(void *nothing)
{
    pthread_mutex_lock(&A);
    pthread_rwlock_wrlock(&B);
    pthread_rwlock_unlock(&B);
    pthread_mutex_unlock(&A);
    return nothing;
}

static void *second(void *nothing)
{
    pthread_rwlock_wrlock(&B);
    pthread_spin_lock(&C);
    pthread_spin_unlock(&C);
    pthread_rwlock_unlock(&B);
    return nothing;
}

static void *third(void *nothing)
{
    pthread_spin_lock(&C);
    pthread_mutex_lock(&A);
    pthread_mutex_unlock(&A);
    pthread_spin_unlock(&C);
    return nothing;
}

int main(void)
{
    must(pthread_spin_init(&C, PTHREAD_PROCESS_PRIVATE) == 0);
    run_thread(first);
    run_thread(second);
    run_thread(third);
    return 0;
}
