/*
 * The room that threads write to: chunks of the process's file, each mapped for the thread that has
 * it. The file has no descriptor any more, so a chunk is mapped as a part of a longer copy of the
 * mapping of the file's first page. Its blocks are taken before it is used: a full disk is an answer
 * here, and no signal later.
 */
#define _GNU_SOURCE
#include <errno.h>
#include <pthread.h>
#include <sys/mman.h>

#include "next.h"
#include "recorder.h"

#define POOL_PLACES 64
/* A chunk with less room than this isn't handed on to another thread. */
#define WORTH_KEEPING 512

static struct chunk *pool[POOL_PLACES];
static pthread_key_t ending;
static bool has_key;

static struct chunk *map_chunk(struct process *process, uint64_t number)
{
    uint64_t before = number * CHUNK_BYTES;
    /* A program that locks all its memory has locked this page too, and the copy would be filled. */
    munlock(process, PROCESS_BYTES);
    char *copy = mremap(process, 0, before + CHUNK_BYTES, MREMAP_MAYMOVE);
    if (copy == MAP_FAILED) {
        end_recording(is_under_valgrind ? ENDED_BY_VALGRIND : ENDED_NO_MEMORY);
        return NULL;
    }
    NEXT(munmap)(copy, before);
    struct chunk *chunk = (struct chunk *)(copy + before);
    if (madvise(chunk, CHUNK_BYTES, MADV_POPULATE_WRITE) != 0) {
        NEXT(munmap)(chunk, CHUNK_BYTES);
        end_recording(ENDED_NO_SPACE);
        return NULL;
    }
    madvise(chunk, CHUNK_BYTES, MADV_DONTFORK);
    madvise(chunk, CHUNK_BYTES, MADV_DONTDUMP);
    return chunk;
}

static struct chunk *new_chunk(void)
{
    for (unsigned place = 0; place < POOL_PLACES; place++) {
        struct chunk *kept = __atomic_exchange_n(&pool[place], NULL, __ATOMIC_ACQUIRE);
        if (kept)
            return kept;
    }
    struct process *process = life->process;
    /* The page may have been written out since, and some file systems then want a new block. */
    if (madvise(process, PROCESS_BYTES, MADV_POPULATE_WRITE) != 0) {
        __atomic_store_n(&life->state, STATE_OFF, __ATOMIC_RELEASE);
        return NULL;
    }
    return map_chunk(process, __atomic_add_fetch(&process->chunks, 1, __ATOMIC_RELAXED));
}

/* Gives this thread another chunk than the full one. That is unmapped, unless a call of the recorder
   was interrupted by the signal handler that runs here, and is about to write to it. */
static bool change_chunk(struct chunk *full)
{
    int error = errno;
    struct chunk *chunk = new_chunk();
    if (chunk) {
        uint64_t first = __atomic_fetch_add(&chunk->used, 1, __ATOMIC_RELAXED);
        chunk->units[first].value = self.task;
        __atomic_store_n(&chunk->units[first].head, HEAD_OF(RECORD_TASK, 0, 0, 0), __ATOMIC_RELEASE);
        self.chunk = chunk;
        if (has_key)
            pthread_setspecific(ending, &self);
        if (full && self.inside == 1)
            NEXT(munmap)(full, CHUNK_BYTES);
    }
    errno = error;
    return chunk != NULL;
}

/* Gives the first of some units for this thread to write, or NULL where the recording has ended. A
   signal handler may come between any two steps, and take units of its own. */
struct unit *take_units(unsigned count)
{
    for (;;) {
        struct chunk *chunk = *(struct chunk *volatile *)&self.chunk;
        if (chunk) {
            uint64_t first = __atomic_fetch_add(&chunk->used, count, __ATOMIC_RELAXED);
            if (first + count <= UNITS_OF_CHUNK)
                return &chunk->units[first];
        }
        if (!change_chunk(chunk))
            return NULL;
    }
}

/* A thread ends: the rest of its chunk is for the next one. It may take locks even after this, in
   what else runs at its end, and then has a chunk again. */
static void hand_on(void *ended)
{
    struct chunk *chunk = self.chunk;
    (void)ended;
    if (!chunk || self.generation != life->generation)
        return;
    record(RECORD_END, NULL);
    chunk = self.chunk;
    self.chunk = NULL;
    bool kept = false;
    bool worth = chunk->used + WORTH_KEEPING <= UNITS_OF_CHUNK;
    for (unsigned place = 0; worth && !kept && place < POOL_PLACES; place++) {
        struct chunk *none = NULL;
        kept = __atomic_compare_exchange_n(&pool[place], &none, chunk, false, __ATOMIC_RELEASE,
                                           __ATOMIC_RELAXED);
    }
    if (!kept && self.inside == 0)
        NEXT(munmap)(chunk, CHUNK_BYTES);
}

/* Values of later keys than the first 32 take memory, and the program's allocator may be the one that
   waits for the recorder: then chunks aren't handed on. */
void keep_chunks(void)
{
    has_key = pthread_key_create(&ending, hand_on) == 0;
    if (has_key && ending >= 32) {
        pthread_key_delete(ending);
        has_key = false;
    }
}

/* In a child of a fork the parent's chunks aren't mapped. */
void forget_chunks(void)
{
    for (unsigned place = 0; place < POOL_PLACES; place++)
        pool[place] = NULL;
}
