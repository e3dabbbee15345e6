/*
 * A class of C++ with two locks as members, which no call initialises, and with two constructors. What
 * first takes them is a function that both call, by locks of the standard library that are called or
 * inlined. Their classes are the members. One thread takes the locks of one object in turn, another those of the other object in the
 * other turn.
 *
 * Flags: -O0
 * Flags: -O1
 * Flags: -O2
 * Flags: -O3
 * Flags: -O2 -flto
 *
 * Report:
 * traces 1 refused 0 events 16 classes 2 dependencies 2
 * inversion Pair::in -> Pair::out at pairs-1:12 via Pair::out -> Pair::in
 * inversion Pair::out -> Pair::in at pairs-1:16 via Pair::in -> Pair::out
 * violations 2
 *
 * Class: Pair::in
 * Class: Pair::out
 * Taken: 2 Pair::in Pair::open(int) pairs.cc:44
 * Taken: 2 Pair::out Pair::open(int) pairs.cc:48
 * Taken: 1 Pair::in Pair::forth() pairs.cc:55
 * Taken: 1 Pair::out Pair::forth() pairs.cc:56
 * Taken: 1 Pair::out Pair::back() pairs.cc:61
 * Taken: 1 Pair::in Pair::back() pairs.cc:62
 */
#include <mutex>

#include "planted.h"

class Pair {
    std::mutex in, out;
    int opened = 0;

  public:
    Pair() { open(1); }

    explicit Pair(int number) { open(number); }

    void open(int number)
    {
        {
            std::lock_guard<std::mutex> hold(in);
            opened += number;
        }
        {
            std::unique_lock<std::mutex> hold(out);
            opened += number;
        }
    }

    void forth()
    {
        std::lock_guard<std::mutex> outer(in);
        std::scoped_lock inner(out);
    }

    void back()
    {
        std::unique_lock<std::mutex> outer(out);
        std::lock_guard<std::mutex> inner(in);
    }
};

static Pair *first, *second;

static void *forth(void *nothing)
{
    first->forth();
    return nothing;
}

static void *back(void *nothing)
{
    second->back();
    return nothing;
}

int main()
{
    first = new Pair;
    second = new Pair(2);
    run_thread(forth);
    run_thread(back);
    return 0;
}
