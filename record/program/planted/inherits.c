/*
 * A child of a fork gives back what the thread which forked it held, before it takes anything itself: as where a program
 * holds its locks over a fork by pthread_atfork.
 *
 * Report:
 * traces 2 refused 0 events 8 classes 2 dependencies 2
 * inversion inherits:A -> inherits:B at inherits-1:4 via inherits:B -> inherits:A
 * inversion inherits:B -> inherits:A at inherits-2:10 via inherits:A -> inherits:B
 * violations 2
 */
#include <sys/wait.h>
#include <unistd.h>

#include "planted.h"

static pthread_mutex_t A = PTHREAD_MUTEX_INITIALIZER;
static pthread_mutex_t B = PTHREAD_MUTEX_INITIALIZER;

static void take_a(void)
{
    must(pthread_mutex_lock(&A) == 0);
}

static void give_a(void)
{
    must(pthread_mutex_unlock(&A) == 0);
}

/* The parent goes on with the lock. */
static void keep_a(void)
{
}

int main(void)
{
    int status;
    must(pthread_atfork(take_a, keep_a, give_a) == 0);
    pid_t child = fork();
    must(child >= 0);
    if (child == 0) {
        take_both(&B, &A);
        _exit(0);
    }
    must(waitpid(child, &status, 0) == child && status == 0);
    take_and_give(&B);
    give_a();
    return 0;
}
