/*
 * Other programs are started in each way, and the program goes on to itself by exec: each is a process
 * of its own.
 *
 * Report:
 * traces 2 refused 0 events 8 classes 2 dependencies 2
 * inversion spawns:A -> spawns:B at spawns-1:4 via spawns:B -> spawns:A
 * inversion spawns:B -> spawns:A at spawns-5:13 via spawns:A -> spawns:B
 * violations 2
 */
#define _GNU_SOURCE
#include <spawn.h>
#include <sys/wait.h>
#include <unistd.h>

#include "planted.h"

static pthread_mutex_t A = PTHREAD_MUTEX_INITIALIZER;
static pthread_mutex_t B = PTHREAD_MUTEX_INITIALIZER;

static void wait_for(pid_t child)
{
    int status;
    must(child > 0 && waitpid(child, &status, 0) == child && status == 0);
}

static void spawn_all(void)
{
    char *words[] = {"true", NULL};
    pid_t child = vfork();
    if (child == 0) {
        execv("/bin/true", words);
        _exit(98);
    }
    wait_for(child);
    must(posix_spawn(&child, "/bin/true", NULL, NULL, words, environ) == 0);
    wait_for(child);
    must(system("exit 0") == 0);
}

int main(int count, char **arguments)
{
    if (count == 1) {
        take_both(&A, &B);
        spawn_all();
        execl("/proc/self/exe", arguments[0], "again", NULL);
        return 97;
    }
    take_both(&B, &A);
    puts(arguments[1]);
    return 0;
}
