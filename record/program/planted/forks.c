/*
 * A child of a fork is a trace of its own. It begins with the lock that the forking thread held, and
 * knows the locks that its parent had initialised, however many there are.
 *
 * Report:
 * traces 2 refused 0 events 10 classes 2 dependencies 2
 * inversion forks:A -> new_lock:forks.c at forks-2:12 via new_lock:forks.c -> forks:A
 * inversion new_lock:forks.c -> forks:A at forks-1:6 via forks:A -> new_lock:forks.c
 * violations 2
 *
 * Taken: 2 forks:A main forks.c:36
 * Taken: 1 forks:A take_both planted.h:21
 * Taken: 1 new_lock:forks.c main forks.c:40
 * Taken: 1 new_lock:forks.c take_both planted.h:20
 */
#include <sys/wait.h>
#include <unistd.h>

#include "planted.h"

static pthread_mutex_t A = PTHREAD_MUTEX_INITIALIZER;

static pthread_mutex_t *new_lock(void)
{
    pthread_mutex_t *lock = malloc(sizeof *lock);
    must(lock && pthread_mutex_init(lock, NULL) == 0);
    return lock;
}

int main(void)
{
    int status;
    pthread_mutex_t *lock = new_lock();
    for (int more = 0; more < 5000; more++)
        new_lock();
    must(pthread_mutex_lock(&A) == 0);
    pid_t child = fork();
    must(child >= 0);
    if (child == 0) {
        must(pthread_mutex_lock(lock) == 0);
        must(pthread_mutex_unlock(lock) == 0);
        must(pthread_mutex_unlock(&A) == 0);
        _exit(5);
    }
    must(pthread_mutex_unlock(&A) == 0);
    take_both(lock, &A);
    must(waitpid(child, &status, 0) == child && WIFEXITED(status) && WEXITSTATUS(status) == 5);
    return 0;
}
