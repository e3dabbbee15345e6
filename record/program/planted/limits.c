/*
 * More tasks, classes and held locks than a trace may have, and a name that is too long. The 97th lock
 * that is held is left out, and so is its release. With the 1,025th task and the 8,192nd class a new
 * trace begins, which takes up the lock that is held by then.
 *
 * Report:
 * traces 3 refused 0 events 18898 classes 8302 dependencies 12861
 * clean
 *
 * Says: 1 locks were left out: their task held 96 already
 * Class: a_function_with_a_name_that_is_longer_than_a_c~..:limits.c
 */
#include "planted.h"

#define CLASSES 8300

static pthread_mutex_t many[CLASSES];
static pthread_mutex_t held = PTHREAD_MUTEX_INITIALIZER;

/* 192 events, 4,560 dependencies */
static void hold_97(void)
{
    for (int lock = 0; lock < 97; lock++)
        must(pthread_mutex_lock(&many[lock]) == 0);
    for (int lock = 0; lock < 97; lock++)
        must(pthread_mutex_unlock(&many[lock]) == 0);
}

static void *take_one(void *nothing)
{
    must(pthread_mutex_lock(&many[0]) == 0);
    must(pthread_mutex_unlock(&many[0]) == 0);
    return nothing;
}

static void a_function_with_a_name_that_is_longer_than_a_class_may_be_called(void)
{
    pthread_mutex_t lock;
    must(pthread_mutex_init(&lock, NULL) == 0);
    must(pthread_mutex_lock(&lock) == 0);
    must(pthread_mutex_unlock(&lock) == 0);
    must(pthread_mutex_destroy(&lock) == 0);
}

int main(void)
{
    hold_97();
    must(pthread_mutex_lock(&held) == 0);
    for (int thread = 0; thread < 1050; thread++)
        run_thread(take_one);
    a_function_with_a_name_that_is_longer_than_a_class_may_be_called();
    for (int lock = 0; lock < CLASSES; lock++) {
        must(pthread_mutex_lock(&many[lock]) == 0);
        must(pthread_mutex_unlock(&many[lock]) == 0);
    }
    must(pthread_mutex_unlock(&held) == 0);
    return 0;
}
