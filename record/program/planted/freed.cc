/*
 * Objects of C++ whose locks no call initialises, in the memory of objects of other kinds that were freed: by the
 * thread that took their locks, and by another one. The new locks have classes of their own, so their orders are seen.
 *
 * Report:
 * traces 1 refused 0 events 20 classes 5 dependencies 4
 * inversion Stock::lock -> freed:_ZL5table at freed-1:8 via freed:_ZL5table -> Stock::lock
 * inversion Truck::lock -> freed:_ZL5table at freed-1:12 via freed:_ZL5table -> Truck::lock
 * inversion freed:_ZL5table -> Stock::lock at freed-1:16 via Stock::lock -> freed:_ZL5table
 * inversion freed:_ZL5table -> Truck::lock at freed-1:20 via Truck::lock -> freed:_ZL5table
 * violations 4
 *
 * Class: Order::lock
 * Class: Stock::lock
 * Class: Parcel::lock
 * Class: Truck::lock
 */
#include <cerrno>
#include <cstdint>
#include <mutex>

#include "planted.h"

struct Order {
    std::mutex lock;
    long number = 0;
};

struct Stock {
    std::mutex lock;
    long left = 0;
};

struct Parcel {
    std::mutex lock;
    long weights[20] = {};
};

struct Truck {
    std::mutex lock;
    long loads[20] = {};
};

static std::mutex table;
static Order *order;
static Stock *stock;
static Parcel *parcel;
static Truck *truck;

__attribute__((noinline)) static void number(Order *order)
{
    std::lock_guard<std::mutex> guard(order->lock);
    order->number++;
}

__attribute__((noinline)) static void fill(Stock *stock)
{
    std::lock_guard<std::mutex> outer(stock->lock);
    std::lock_guard<std::mutex> inner(table);
    stock->left++;
}

__attribute__((noinline)) static void sell(Stock *stock)
{
    std::lock_guard<std::mutex> outer(table);
    std::lock_guard<std::mutex> inner(stock->lock);
    stock->left--;
}

__attribute__((noinline)) static void weigh(Parcel *parcel)
{
    std::lock_guard<std::mutex> guard(parcel->lock);
    parcel->weights[0]++;
}

__attribute__((noinline)) static void load(Truck *truck)
{
    std::lock_guard<std::mutex> outer(truck->lock);
    std::lock_guard<std::mutex> inner(table);
    truck->loads[0]++;
}

__attribute__((noinline)) static void unload(Truck *truck)
{
    std::lock_guard<std::mutex> outer(table);
    std::lock_guard<std::mutex> inner(truck->lock);
    truck->loads[0]--;
}

/* Frees one object and makes another, which must get its memory. The compiler knows better that it can't. */
template <typename New, typename Old>
static New *in_memory_of(Old *old)
{
    volatile auto place = reinterpret_cast<uintptr_t>(old);
    errno = E2BIG;
    delete old;
    must(errno == E2BIG);
    New *made = new New;
    must(reinterpret_cast<uintptr_t>(made) == place);
    return made;
}

static void *make_truck(void *nothing)
{
    truck = in_memory_of<Truck>(parcel);
    return nothing;
}

static void *forth(void *nothing)
{
    fill(stock);
    load(truck);
    return nothing;
}

static void *back(void *nothing)
{
    Stock other;
    Truck another;
    sell(&other);
    unload(&another);
    return nothing;
}

int main()
{
    order = new Order;
    parcel = new Parcel;
    number(order);
    weigh(parcel);
    stock = in_memory_of<Stock>(order);
    run_thread(make_truck);
    run_thread(forth);
    run_thread(back);
    return 0;
}
