/*
 * A module that is opened while the program runs: its constructor and its functions take locks.
 *
 * Run: MODULE
 *
 * Report:
 * traces 1 refused 0 events 8 classes 2 dependencies 2
 * inversion module.so:inside -> opens:outside at opens-1:8 via opens:outside -> module.so:inside
 * inversion opens:outside -> module.so:inside at opens-1:4 via module.so:inside -> opens:outside
 * violations 2
 */
#include <dlfcn.h>

#include "planted.h"

pthread_mutex_t outside = PTHREAD_MUTEX_INITIALIZER;

int main(int count, char **arguments)
{
    must(count == 2);
    must(pthread_mutex_lock(&outside) == 0);
    void *module = dlopen(arguments[1], RTLD_NOW);
    must(module != NULL);
    must(pthread_mutex_unlock(&outside) == 0);
    void (*take)(pthread_mutex_t *);
    *(void **)&take = dlsym(module, "take");
    must(take != NULL);
    take(&outside);
    must(dlclose(module) == 0);
    return 0;
}
