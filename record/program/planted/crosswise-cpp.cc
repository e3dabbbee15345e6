/*
 * Two threads of C++ that wait for each other: one by a guard, one by a call that would give up later.
 *
 * Flags: -O0
 * Flags: -O2
 *
 * Report:
 * traces 1 refused 0 events 4 classes 2 dependencies 2
 * inversion crosswise-cpp:first -> crosswise-cpp:second at crosswise-cpp-1:5 via crosswise-cpp:second -> crosswise-cpp:first
 * inversion crosswise-cpp:second -> crosswise-cpp:first at crosswise-cpp-1:6 via crosswise-cpp:first -> crosswise-cpp:second
 * violations 2
 *
 * Says: process 1 ended while t2 waited for crosswise-cpp:second, held by t3
 * Says: process 1 ended while t3 waited for crosswise-cpp:first, held by t2
 */
#include <atomic>
#include <chrono>
#include <cstdlib>
#include <mutex>
#include <thread>

std::mutex first;
std::timed_mutex second;
static std::atomic<int> taken, turn;

static void reach(int wanted)
{
    taken++;
    while (turn < wanted)
        std::this_thread::yield();
}

int main()
{
    const std::chrono::milliseconds while_it_waits(300);
    std::thread([] {
        std::lock_guard<std::mutex> outer(first);
        reach(1);
        std::unique_lock<std::timed_mutex> inner(second, std::chrono::hours(1));
    }).detach();
    while (taken < 1)
        std::this_thread::yield();
    std::thread([] {
        std::lock_guard<std::timed_mutex> outer(second);
        reach(2);
        std::lock_guard<std::mutex> inner(first);
    }).detach();
    while (taken < 2)
        std::this_thread::yield();
    turn = 1;
    std::this_thread::sleep_for(while_it_waits);
    turn = 2;
    std::this_thread::sleep_for(while_it_waits);
    std::_Exit(3);
}
