/*
 * A child of a fork waits for a lock that another thread held when it was forked, which nobody in the
 * child gives back.
 *
 * Flags: -O0
 * Flags: -O2
 *
 * Report:
 * traces 2 refused 0 events 3 classes 2 dependencies 1
 * clean
 *
 * Says: process 2 ended while t1 waited for orphan:A, held by nobody that is known
 */
#define _GNU_SOURCE
#include <signal.h>
#include <sys/wait.h>

#include "stuck.h"

static pthread_mutex_t A = PTHREAD_MUTEX_INITIALIZER;
static pthread_mutex_t B = PTHREAD_MUTEX_INITIALIZER;

static void hold(void)
{
    pthread_mutex_lock(&A);
    about_to_wait();
}

int main(void)
{
    int status;
    begin_stuck(hold);
    pid_t child = fork();
    must(child >= 0);
    if (child == 0) {
        alarm(1);
        pthread_mutex_lock(&B);
        pthread_mutex_lock(&A);
    }
    must(waitpid(child, &status, 0) == child && WIFSIGNALED(status) && WTERMSIG(status) == SIGALRM);
    _exit(3);
}
