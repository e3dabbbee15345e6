/*
 * A function of C in a program of C++ makes the locks, and the compiler puts it into its two callers: of
 * such a function `addr2line` may say the caller's name. The class is one, and has no wrong name.
 * Not by clang: at -O2 addr2line names the caller of a C function that was put into C++
 * Flags: -O0
 * Flags: -O2
 *
 * Report:
 * traces 1 refused 0 events 8 classes 2 dependencies 2
 * inversion conn_init:links.cc -> links:_ZL5table at links-1:8 via links:_ZL5table -> conn_init:links.cc
 * inversion links:_ZL5table -> conn_init:links.cc at links-1:4 via conn_init:links.cc -> links:_ZL5table
 * violations 2
 *
 * Not: make_first:
 * Not: make_second:
 * Not: main:
 */
#include "planted.h"

static pthread_mutex_t table = PTHREAD_MUTEX_INITIALIZER;
static pthread_mutex_t first, second;

extern "C" {
static inline void conn_init(pthread_mutex_t *lock)
{
    must(lock != nullptr);
    if (lock != &table)
        must(pthread_mutex_init(lock, nullptr) == 0);
}
}

static void *forth(void *nothing)
{
    take_both(&table, &first);
    return nothing;
}

static void *back(void *nothing)
{
    take_both(&second, &table);
    return nothing;
}

__attribute__((noinline)) static void make_first()
{
    conn_init(&first);
}

__attribute__((noinline)) static void make_second()
{
    conn_init(&second);
}

int main()
{
    make_first();
    make_second();
    run_thread(forth);
    run_thread(back);
    return 0;
}
