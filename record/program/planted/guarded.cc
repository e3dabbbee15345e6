/*
 * Locks that functions of the library take for the program, inlined or not: each place is the program's own, with the
 * calls that led there. The second lock of two is tried, and so no order begins at the first.
 *
 * Flags: -O0
 * Flags: -O1
 * Flags: -O2
 * Flags: -O2 -flto
 *
 * Report:
 * traces 1 refused 0 events 8 classes 2 dependencies 1
 * clean
 *
 * Place: both() guarded.cc:28
 * Place: both() guarded.cc:28, from main at guarded.cc:43
 * Place: one(int) guarded.cc:36
 * Place: one(int) guarded.cc:36, from main at guarded.cc:44
 * Place: one(int) guarded.cc:37
 * Place: one(int) guarded.cc:37, from main at guarded.cc:44
 */
#include <mutex>

std::mutex first, second;
volatile int count;

__attribute__((noinline)) void both()
{
    std::lock(first, second);
    count++;
    first.unlock();
    second.unlock();
}

__attribute__((noinline)) void one(int number)
{
    std::unique_lock<std::mutex> outer(second);
    std::lock_guard<std::mutex> inner(first);
    count += number;
}

int main()
{
    both();
    one(1);
    return 0;
}
