/* The calls as libc has them: each call that the library stands before goes on to one of these. */
#define _GNU_SOURCE
#include "next.h"

#include <dlfcn.h>
#include <errno.h>

#include "recorder.h"

static const char *const names[] = {
#define NAME(call) [NEXT_##call] = #call,
    NEXT_CALLS(NAME)
#undef NAME
};

#define CALL_COUNT (sizeof names / sizeof names[0])

void *next_found[CALL_COUNT];

/* What stands for `free` while that is looked up itself: the little that is freed then stays. */
static void keep(void *memory)
{
    (void)memory;
}

/* On x86-64 libc has an old form of some waits on conditions, for programs from before 2003, under
   the same name. A look-up that fails would leave an error for the program to find, and none does:
   only calls that are there are looked up. */
static void *look_up(enum next which)
{
#ifdef __x86_64__
    if (which == NEXT_pthread_cond_wait || which == NEXT_pthread_cond_timedwait)
        return dlvsym(RTLD_NEXT, names[which], "GLIBC_2.3.2");
#endif
    return dlsym(RTLD_NEXT, names[which]);
}

/* Two threads that look a call up at once find the same. A look-up frees what is left of an earlier one that failed. */
void *look_up_next(enum next which)
{
    if (which == NEXT_free && self.looks_up)
        return (void *)keep;
    int error = errno;
    bool did_look_up = self.looks_up;
    self.looks_up = true;
    void *call = look_up(which);
    self.looks_up = did_look_up;
    __atomic_store_n(&next_found[which], call, __ATOMIC_RELAXED);
    errno = error;
    return call;
}

void find_all_next(void)
{
    for (unsigned which = 0; which < CALL_COUNT; which++)
        next_call((enum next)which);
}
