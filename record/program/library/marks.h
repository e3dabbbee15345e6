/*
 * Where locks stand that the recorder knows, in memory that the program may give back: a bit for each 8 bytes of
 * addresses, so that it costs next to nothing to learn that there is none in some memory. Marks are set and removed
 * without a lock, by any thread. One that is left behind does no harm: a lock that isn't there any more ends once more.
 */
#ifndef MARKS_H
#define MARKS_H

#include <stdbool.h>
#include <stddef.h>
#include <stdint.h>

/* Sizes are powers of two: what a mark stands for, a word of marks, a page of these, a region, and all addresses. */
#define MARK_SHIFT 3
#define WORD_SHIFT (MARK_SHIFT + 6)
#define PART_SHIFT (WORD_SHIFT + 9)
#define REGION_SHIFT 28
#define ADDRESS_SHIFT 48

#define MARK_BYTES (1 << MARK_SHIFT)
#define MOST_SMALL_BYTES 4096

/* The marks of a region, and which pages of them have had any. */
struct region {
    uint64_t words[1 << (REGION_SHIFT - WORD_SHIFT)];
    uint8_t is_used[1 << (REGION_SHIFT - PART_SHIFT)];
};

/* For each region its marks or NULL, as an array of `void *`; and NULL where there are none at all. */
extern void *regions;

void mark(uint64_t lock);
void remove_mark(uint64_t lock);
uint64_t next_mark(uint64_t at, uint64_t end);

static inline uint64_t *word_of(struct region *region, uint64_t address)
{
    return &region->words[address >> WORD_SHIFT & ((1 << (REGION_SHIFT - WORD_SHIFT)) - 1)];
}

static inline uint64_t bit_of(uint64_t address)
{
    return UINT64_C(1) << (address >> MARK_SHIFT & 63);
}

/* Answers whether there may be a mark anywhere. Nothing else costs a program anything that has none. */
static inline bool has_marks(void)
{
    return __atomic_load_n(&regions, __ATOMIC_ACQUIRE) != NULL;
}

/*
 * Answers whether there is a mark in memory, where there may be one. Most memory that is given back is small: a few
 * words have its marks.
 */
static inline bool is_marked(uint64_t start, uint64_t end)
{
    bool is_small = end - start <= MOST_SMALL_BYTES && (start ^ (end - 1)) >> REGION_SHIFT == 0;
    if (!is_small || start >> ADDRESS_SHIFT != 0)
        return next_mark(start, end) != 0;
    void **all = __atomic_load_n(&regions, __ATOMIC_ACQUIRE);
    struct region *region = __atomic_load_n(&all[start >> REGION_SHIFT], __ATOMIC_ACQUIRE);
    if (!region)
        return false;
    const uint64_t *word = word_of(region, start), *last = word_of(region, end - 1);
    uint64_t marks = __atomic_load_n(word, __ATOMIC_RELAXED) & -bit_of(start);
    for (; word < last && !marks; marks = __atomic_load_n(word, __ATOMIC_RELAXED))
        word++;
    return word < last || (marks & ((bit_of(end - 1) << 1) - 1)) != 0;
}

#endif
