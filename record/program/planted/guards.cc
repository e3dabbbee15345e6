/*
 * Locks that are taken through guards of the standard library: by two guards at one line each, by one guard
 * from frames that lie elsewhere each time, and the same once more in a child of a fork. Each line counts
 * what it took.
 * Not by clang: at -O2 it puts the functions into main, and addr2line names main alone
 * Flags: -O0
 * Flags: -O2
 *
 * Report:
 * traces 2 refused 0 events 90 classes 2 dependencies 1
 * clean
 *
 * Taken: 9 guards:first deeper(int) guards.cc:31
 * Taken: 9 guards:first rounds() guards.cc:38
 * Taken: 9 guards:second rounds() guards.cc:39
 * Taken: 9 guards:first rounds() guards.cc:42
 * Taken: 9 guards:second rounds() guards.cc:43
 */
#include <mutex>
#include <sys/wait.h>
#include <unistd.h>

#include "planted.h"

std::mutex first, second;

void deeper(int depth)
{
    if (depth > 0)
        return deeper(depth - 1);
    std::lock_guard<std::mutex> guard(first);
}

void rounds()
{
    for (int round = 0; round < 3; round++) {
        {
            std::lock_guard<std::mutex> outer(first);
            std::lock_guard<std::mutex> inner(second);
        }
        {
            std::unique_lock<std::mutex> outer(first);
            std::unique_lock<std::mutex> inner(second);
        }
        deeper(round);
    }
}

int main()
{
    int status;
    rounds();
    pid_t child = fork();
    must(child >= 0);
    rounds();
    if (child == 0)
        _exit(0);
    must(waitpid(child, &status, 0) == child && status == 0);
    return 0;
}
