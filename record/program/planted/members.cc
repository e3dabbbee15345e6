/*
 * Locks that are members of records and that no call initialises. One line takes the lock of one object first, another
 * line that of another object: they are of one class, whose name is the member's. A guard of the library, a base, an
 * array, a record that has nothing but a lock, and a pointer in a variable of the library are looked through.
 *
 * Flags: -O0
 * Flags: -O1
 * Flags: -O2
 * Flags: -O2 -flto
 * Flags: -O2 -gdwarf-4
 * Flags: -O0 -gdwarf-4
 *
 * Report:
 * traces 1 refused 0 events 36 classes 6 dependencies 3
 * inversion shop::Order::mutex -> shop::Stock::mutex at members-1:.. via shop::Stock::mutex -> shop::Order::mutex
 * inversion shop::Stock::mutex -> shop::Order::mutex at members-1:.. via shop::Order::mutex -> shop::Stock::mutex
 * violations 2
 *
 * Class: shop::Order::mutex
 * Class: shop::Stock::mutex
 * Class: shop::Base::lock
 * Class: shop::Shelf::parts
 * Class: shop::Shelf::guard
 * Class: shop::Shelf::guard!read
 */
#include <memory>
#include <mutex>
#include <shared_mutex>

#include "planted.h"

namespace shop {

struct Order {
    int number = 0;
    std::mutex mutex;
};

struct Stock {
    std::mutex mutex;
    int left = 0;
};

struct Base {
    std::recursive_mutex lock;
    long uses = 0;
};

class Guard {
    std::shared_mutex inner;

  public:
    __attribute__((noinline)) void take() { inner.lock(); }

    __attribute__((noinline)) void give() { inner.unlock(); }
};

struct Shelf : Base {
    std::mutex parts[4];
    Guard guard;
    int filled = 0;
};

__attribute__((noinline)) static void touch(Order &order)
{
    std::lock_guard<std::mutex> hold(order.mutex);
    order.number++;
}

__attribute__((noinline)) static void poke(Order &order)
{
    std::unique_lock<std::mutex> hold(order.mutex);
    order.number--;
}

__attribute__((noinline)) static void sell(Order &order, Stock &stock)
{
    std::lock_guard<std::mutex> outer(order.mutex);
    std::lock_guard<std::mutex> inner(stock.mutex);
    stock.left -= order.number;
}

__attribute__((noinline)) static void fill(Order &order, Stock &stock)
{
    std::lock_guard<std::mutex> outer(stock.mutex);
    std::lock_guard<std::mutex> inner(order.mutex);
    stock.left += order.number;
}

__attribute__((noinline)) static void sort(Shelf *shelf)
{
    std::lock_guard<std::recursive_mutex> outer(shelf->lock);
    for (int part = 0; part < 4; part++) {
        std::lock_guard<std::mutex> inner(shelf->parts[part]);
        shelf->filled++;
    }
}

__attribute__((noinline)) static void close(Shelf *shelf)
{
    shelf->guard.take();
    shelf->filled = 0;
    shelf->guard.give();
}

} // namespace shop

static std::unique_ptr<shop::Order> first, second;
static std::unique_ptr<shop::Stock> one, other;

static void *forth(void *nothing)
{
    shop::sell(*first, *one);
    return nothing;
}

static void *back(void *nothing)
{
    shop::fill(*second, *other);
    return nothing;
}

int main()
{
    first = std::make_unique<shop::Order>();
    second = std::make_unique<shop::Order>();
    one = std::make_unique<shop::Stock>();
    other = std::make_unique<shop::Stock>();
    shop::touch(*first);
    shop::poke(*second);
    run_thread(forth);
    run_thread(back);
    auto shelves = std::make_unique<shop::Shelf[]>(2);
    shop::sort(&shelves[0]);
    shop::sort(&shelves[1]);
    shop::close(&shelves[1]);
    return 0;
}
