/*
 * A function that the user names makes the locks, and one line calls it twice: they are of two classes, also where the
 * compiler puts the function into its caller. To take one under the other is no recursion.
 *
 * Options: --through begin
 * Flags: -O0
 * Flags: -O2
 * Flags: -O2 -gdwarf-4
 *
 * Report:
 * traces 1 refused 0 events 4 classes 2 dependencies 1
 * clean
 *
 * Class: main:one-line.c
 * Class: main:one-line.c#2
 */
#include "planted.h"

static pthread_mutex_t first, second;

static void begin(pthread_mutex_t *lock)
{
    must(pthread_mutex_init(lock, NULL) == 0);
}

int main(void)
{
    begin(&first), begin(&second);
    take_both(&first, &second);
    return 0;
}
