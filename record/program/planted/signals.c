/*
 * Handlers of signals take locks wherever they come, also inside of the recorder. Each of them leaves
 * `errno` as it was, as do the calls.
 *
 * Report:
 * traces 1 refused 0 events .. classes 2 dependencies 1
 * clean
 */
#define _GNU_SOURCE
#include <errno.h>
#include <signal.h>
#include <sys/time.h>

#include "planted.h"

static pthread_mutex_t A = PTHREAD_MUTEX_INITIALIZER;
static pthread_spinlock_t B;
static volatile sig_atomic_t handled;

static void handle(int number)
{
    (void)number;
    errno = 78;
    if (pthread_spin_trylock(&B) == 0)
        pthread_spin_unlock(&B);
    must(errno == 78);
    errno = 77;
    handled++;
}

int main(void)
{
    struct itimerval often = {{0, 50}, {0, 50}}, never = {{0, 0}, {0, 0}};
    must(pthread_spin_init(&B, PTHREAD_PROCESS_PRIVATE) == 0);
    must(signal(SIGALRM, handle) != SIG_ERR);
    must(setitimer(ITIMER_REAL, &often, NULL) == 0);
    errno = 77;
    while (handled < 300) {
        pthread_mutex_lock(&A);
        pthread_spin_lock(&B);
        pthread_spin_unlock(&B);
        pthread_mutex_unlock(&A);
        must(errno == 77);
    }
    must(setitimer(ITIMER_REAL, &never, NULL) == 0);
    puts("handled");
    return 0;
}
