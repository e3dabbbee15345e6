/*
 * Threads that take the first locks of a process at once: each lock is known as a member, whichever thread is the
 * first to tell of the calls and of the module. The children of the forks begin anew each time.
 *
 * Report:
 * traces 10 refused 0 events 160 classes 1 dependencies 0
 * clean
 *
 * Class: Entry::mu
 * Not: acquire t1 ?
 * Unsaid: go by the line
 */
#include <mutex>
#include <sys/wait.h>
#include <thread>
#include <unistd.h>
#include <vector>

#include "planted.h"

#define THREADS 8

struct Entry {
    int count;
    std::mutex mu;
};

static pthread_barrier_t all;

static __attribute__((noinline)) void sweep(Entry *entry)
{
    entry->mu.lock();
    entry->count++;
    entry->mu.unlock();
}

static void sweep_all()
{
    std::vector<std::thread> threads;
    pthread_barrier_init(&all, nullptr, THREADS);
    for (int number = 0; number < THREADS; number++)
        threads.emplace_back([] {
            Entry *entry = new Entry{};
            pthread_barrier_wait(&all);
            sweep(entry);
            delete entry;
        });
    for (auto &thread : threads)
        thread.join();
}

int main()
{
    for (int child = 0; child < 10; child++) {
        pid_t pid = fork();
        if (pid == 0) {
            sweep_all();
            _exit(0);
        }
        waitpid(pid, nullptr, 0);
    }
    return 0;
}
