/*
 * An object of C++ in the memory of one of another kind that was freed, also by a child of a fork. Its lock was taken in
 * the other order than that of the first one, which is no mistake, since they are locks of two kinds.
 *
 * Run: here
 * Run: child
 *
 * Report:
 * traces 3 refused 0 events 16 classes 3 dependencies 2
 * clean
 *
 * Class: Order::lock
 * Class: Stock::lock
 */
#include <cstdint>
#include <cstring>
#include <mutex>
#include <sys/wait.h>
#include <unistd.h>

#include "planted.h"

struct Order {
    std::mutex lock;
    long number = 0;
};

struct Stock {
    std::mutex lock;
    long left = 0;
};

static std::mutex table;
static Order *order;
static Stock *stock;

__attribute__((noinline)) static void number(Order *order)
{
    std::lock_guard<std::mutex> outer(order->lock);
    std::lock_guard<std::mutex> inner(table);
    order->number++;
}

__attribute__((noinline)) static void sell(Stock *stock)
{
    std::lock_guard<std::mutex> outer(table);
    std::lock_guard<std::mutex> inner(stock->lock);
    stock->left--;
}

static void *forth(void *nothing)
{
    number(order);
    return nothing;
}

static void *back(void *nothing)
{
    sell(stock);
    return nothing;
}

static void reuse()
{
    volatile auto place = reinterpret_cast<uintptr_t>(order);
    delete order;
    stock = new Stock;
    must(reinterpret_cast<uintptr_t>(stock) == place);
    run_thread(back);
}

int main(int count, char **words)
{
    int status = 0;
    order = new Order;
    run_thread(forth);
    must(count == 2);
    pid_t child = strcmp(words[1], "child") == 0 ? fork() : 0;
    must(child >= 0);
    if (child == 0)
        reuse();
    else
        must(waitpid(child, &status, 0) == child);
    return status;
}
