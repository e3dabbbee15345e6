/*
 * Memory that the program gives back. A lock in it that no call destroyed, such as one of C++'s library, is gone, and
 * the next one at its address is another: so that one is told anew.
 */
#define _GNU_SOURCE
#include <dlfcn.h>
#include <malloc.h>
#include <stdlib.h>
#include <sys/mman.h>

#include "marks.h"
#include "next.h"
#include "recorder.h"

enum sizes { SIZES_NEW, SIZES_KNOWN, SIZES_UNKNOWN };

/* Answers whether the allocator tells how long its memory is. One that has no such call of its own would have that of
   libc asked, which knows nothing of its memory. */
bool can_tell_sizes(void)
{
    static uint8_t sizes; /* enum sizes */
    uint8_t found = __atomic_load_n(&sizes, __ATOMIC_RELAXED);
    if (found == SIZES_NEW) {
        struct dl_find_object frees, tells;
        found = _dl_find_object((void *)NEXT(free), &frees) == 0 &&
                        _dl_find_object((void *)NEXT(malloc_usable_size), &tells) == 0 &&
                        frees.dlfo_link_map == tells.dlfo_link_map
                    ? SIZES_KNOWN
                    : SIZES_UNKNOWN;
        __atomic_store_n(&sizes, found, __ATOMIC_RELAXED);
    }
    return found == SIZES_KNOWN;
}

static uint64_t end_of(void *memory)
{
    return (uint64_t)memory + NEXT(malloc_usable_size)(memory);
}

/* What is freed may be another thread's before the call is back, so its locks end before it. */
EXPORTED void free(void *memory)
{
    if (memory && has_marks()) {
        uint64_t end = end_of(memory);
        if (is_marked((uint64_t)memory, end))
            record_freed((uint64_t)memory, end, HERE);
    }
    NEXT(free)(memory);
}

/* Memory with locks in it gets another size, and mostly another place. Which locks end only the answer tells, and by
   then another thread may have locks in the memory: so the record's number is drawn before. */
static void *resize(void *memory, size_t size, uint64_t end, const struct frame *frame)
{
    uint64_t start = (uint64_t)memory, number;
    if (!expect_freed(start, end, &number))
        return NEXT(realloc)(memory, size);
    void *resized = NEXT(realloc)(memory, size);
    if (!resized && size > 0)
        start = end;
    else if ((uint64_t)resized == start)
        start = end_of(resized);
    record_expected(number, start, end, frame);
    return resized;
}

EXPORTED void *realloc(void *memory, size_t size)
{
    if (memory && has_marks()) {
        uint64_t end = end_of(memory);
        if (is_marked((uint64_t)memory, end))
            return resize(memory, size, end, HERE);
    }
    return NEXT(realloc)(memory, size);
}

EXPORTED int munmap(void *memory, size_t length)
{
    uint64_t start = (uint64_t)memory, end = start + length, number;
    if (!has_marks() || !is_marked(start, end) || !expect_freed(start, end, &number))
        return NEXT(munmap)(memory, length);
    int answer = NEXT(munmap)(memory, length);
    record_expected(number, answer == 0 ? start : end, end, HERE);
    return answer;
}
