/*
 * A release that is refused gives nothing back, and no trace shows it: of a mutex that nobody holds, that another
 * thread holds, that a wait on a condition is asked to give back, or that stays held since the wait has no valid time.
 * What the thread holds is what it held before, in the same order. A recursive mutex keeps its levels.
 *
 * Flags: -O0
 * Flags: -O2
 *
 * Report:
 * traces 2 refused 0 events 42 classes 6 dependencies 6
 * clean
 *
 * Not: try
 * Unsaid: given back
 * Unsaid: a condition of
 */
#define _GNU_SOURCE
#include <errno.h>
#include <sys/wait.h>
#include <threads.h>
#include <unistd.h>

#include "planted.h"

static pthread_mutex_t first = PTHREAD_MUTEX_INITIALIZER;
static pthread_mutex_t last = PTHREAD_MUTEX_INITIALIZER;
static pthread_mutex_t checked = PTHREAD_ERRORCHECK_MUTEX_INITIALIZER_NP;
static pthread_mutex_t recursive = PTHREAD_RECURSIVE_MUTEX_INITIALIZER_NP;
static mtx_t of_c11;
static pthread_mutex_t robust;
static pthread_cond_t filled = PTHREAD_COND_INITIALIZER;

static void take_and_give_back(pthread_mutex_t *mutex)
{
    must(pthread_mutex_lock(mutex) == 0);
    must(pthread_mutex_unlock(mutex) == 0);
}

/* 8 events */
static void nobody_holds(void)
{
    take_and_give_back(&checked);
    must(pthread_mutex_unlock(&checked) == EPERM);
    must(pthread_cond_wait(&filled, &checked) == EPERM);
    take_and_give_back(&recursive);
    must(pthread_mutex_unlock(&recursive) == EPERM);
    take_and_give_back(&robust);
    must(pthread_mutex_unlock(&robust) == EPERM);
    must(mtx_lock(&of_c11) == thrd_success);
    must(mtx_unlock(&of_c11) == thrd_success);
    must(mtx_unlock(&of_c11) == thrd_error);
}

static void *give_back_others(void *nothing)
{
    must(pthread_mutex_unlock(&checked) == EPERM);
    must(pthread_mutex_unlock(&recursive) == EPERM);
    return nothing;
}

/* 6 events, and 3 dependencies: checked is held before recursive, and that before last. */
static void another_holds(void)
{
    must(pthread_mutex_lock(&checked) == 0);
    must(pthread_mutex_lock(&recursive) == 0);
    must(pthread_mutex_lock(&recursive) == 0);
    run_thread(give_back_others);
    must(pthread_mutex_unlock(&recursive) == 0);
    take_and_give_back(&last);
    must(pthread_mutex_unlock(&recursive) == 0);
    must(pthread_mutex_unlock(&recursive) == EPERM);
    must(pthread_mutex_unlock(&checked) == 0);
}

/* 4 events, and 1 dependency */
static void no_valid_time(void)
{
    static const struct timespec none = {0, 1000000000};
    must(pthread_mutex_lock(&first) == 0);
    must(pthread_cond_timedwait(&filled, &first, &none) == EINVAL);
    take_and_give_back(&last);
    must(pthread_mutex_unlock(&first) == 0);
}

/* 12 events, and 2 dependencies, in each process: what was refused isn't held. */
static void take_under_first(void)
{
    must(pthread_mutex_lock(&first) == 0);
    take_and_give_back(&checked);
    take_and_give_back(&recursive);
    must(pthread_mutex_unlock(&first) == 0);
    take_and_give_back(&first);
    take_and_give_back(&robust);
    take_and_give_back(&last);
}

static void init_others(void)
{
    pthread_mutexattr_t attributes;
    must(mtx_init(&of_c11, mtx_plain | mtx_recursive) == thrd_success);
    must(pthread_mutexattr_init(&attributes) == 0);
    must(pthread_mutexattr_setrobust(&attributes, PTHREAD_MUTEX_ROBUST) == 0);
    must(pthread_mutex_init(&robust, &attributes) == 0);
}

int main(void)
{
    init_others();
    nobody_holds();
    another_holds();
    no_valid_time();
    pid_t child = fork();
    take_under_first();
    must(child == 0 || waitpid(child, NULL, 0) == child);
    return 0;
}
