/*
 * A program that closes all descriptors, and where it may changes its root, directory and user, is
 * recorded on, and so is a thread that begins after that; and a child, where its root is as it was.
 *
 * Run: descriptors
 * Run: user
 * Run: root
 *
 * Report:
 * traces 5 refused 0 events 60008 classes 2 dependencies 2
 * inversion hides:A -> hides:B at hides-1:4 via hides:B -> hides:A
 * inversion hides:B -> hides:A at hides-2:20006 via hides:A -> hides:B
 * violations 2
 */
#define _GNU_SOURCE
#include <string.h>
#include <sys/wait.h>
#include <unistd.h>

#include "planted.h"

static pthread_mutex_t A = PTHREAD_MUTEX_INITIALIZER;
static pthread_mutex_t B = PTHREAD_MUTEX_INITIALIZER;

/* 20,000 events: more than a thread gets room for at once */
static void *work(void *nothing)
{
    for (int round = 0; round < 5000; round++)
        take_both(&A, &B);
    return nothing;
}

static void hide(const char *what)
{
    if (strcmp(what, "descriptors") == 0)
        must(close_range(0, ~0u, 0) == 0);
    else if (strcmp(what, "user") == 0)
        must(geteuid() != 0 || (setgid(65534) == 0 && setuid(65534) == 0));
    else
        must(geteuid() != 0 ? chdir("/") == 0 : chroot("/proc") == 0 && chdir("/") == 0);
}

int main(int count, char **arguments)
{
    int status;
    must(count == 2);
    hide(arguments[1]);
    run_thread(work);
    if (strcmp(arguments[1], "root") == 0)
        return 0;
    pid_t child = fork();
    if (child == 0) {
        take_both(&B, &A);
        _exit(0);
    }
    must(waitpid(child, &status, 0) == child && status == 0);
    return 0;
}
