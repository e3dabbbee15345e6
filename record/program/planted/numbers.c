/*
 * One function initialises four locks, the last two in one line, and a run comes to a part of these places. A class
 * has its number by the places that the code has, and not by those that the run came to: so the lock of the second
 * place, which is taken after the table in one run and before it in another, is of one class. The locks of one line
 * are of two, and to take one of them under the other is no recursion.
 * Not by clang: at -O2 it makes one call of the two on a line
 * Flags: -O0
 * Flags: -O2
 * Flags: -O2 -flto
 *
 * Run: first
 * Run: second
 * Run: back
 * Run: third
 *
 * Report:
 * traces 4 refused 0 events 16 classes 5 dependencies 4
 * inversion make:numbers.c#2 -> numbers:table at numbers.3-1:20 via numbers:table -> make:numbers.c#2
 * inversion numbers:table -> make:numbers.c#2 at numbers.2-1:12 via make:numbers.c#2 -> numbers:table
 * violations 2
 *
 * Class: make:numbers.c
 * Class: make:numbers.c#2
 * Class: make:numbers.c#3
 * Class: make:numbers.c#4
 */
#include "planted.h"

static pthread_mutex_t table = PTHREAD_MUTEX_INITIALIZER;
static pthread_mutex_t lock, other;
static volatile int made;

__attribute__((noinline)) static void make(char which)
{
    if (which == 'f')
        must(pthread_mutex_init(&lock, NULL) == 0);
    else if (which == 's' || which == 'b')
        must(pthread_mutex_init(&lock, NULL) == 0 && made++ == 0);
    else
        must(pthread_mutex_init(&lock, NULL) == 0), must(pthread_mutex_init(&other, NULL) == 0);
}

int main(int count, char **words)
{
    must(count == 2);
    make(words[1][0]);
    if (words[1][0] == 't')
        take_both(&lock, &other);
    else if (words[1][0] == 'b')
        take_both(&lock, &table);
    else
        take_both(&table, &lock);
    return 0;
}
