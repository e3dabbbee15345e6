/*
 * A mutex that is held at a fork, and that the child makes anew by an assignment, as some handlers of forks do: no call
 * gives it back. Once the child takes and gives it back it is held no more. A recursive mutex is, until its last level
 * is given back.
 *
 * Report:
 * traces 2 refused 0 events 14 classes 3 dependencies 2
 * clean
 */
#include <sys/wait.h>
#include <unistd.h>

#include "planted.h"

static pthread_mutex_t table = PTHREAD_MUTEX_INITIALIZER;
static pthread_mutex_t log_lock = PTHREAD_MUTEX_INITIALIZER;
static pthread_mutex_t nesting;

static void hold_table(void)
{
    must(pthread_mutex_lock(&table) == 0);
}

static void give_table_back(void)
{
    must(pthread_mutex_unlock(&table) == 0);
}

static void make_table_anew(void)
{
    table = (pthread_mutex_t)PTHREAD_MUTEX_INITIALIZER;
}

int main(void)
{
    pthread_mutexattr_t attributes;
    must(pthread_mutexattr_init(&attributes) == 0);
    must(pthread_mutexattr_settype(&attributes, PTHREAD_MUTEX_RECURSIVE) == 0);
    must(pthread_mutex_init(&nesting, &attributes) == 0);
    must(pthread_atfork(hold_table, give_table_back, make_table_anew) == 0);
    pid_t child = fork();
    must(child >= 0);
    if (child == 0) {
        take_and_give(&table);
        take_and_give(&log_lock);
        _exit(0);
    }
    must(waitpid(child, NULL, 0) == child);
    take_both(&log_lock, &table);
    must(pthread_mutex_lock(&nesting) == 0);
    must(pthread_mutex_trylock(&nesting) == 0);
    must(pthread_mutex_unlock(&nesting) == 0);
    take_and_give(&log_lock);
    must(pthread_mutex_unlock(&nesting) == 0);
    return 0;
}
