/*
 * The places in the functions of a file at which locks are initialised. They are numbered in their order, by all that
 * the code of the file has and not by what a run came to: so a place has the same number in each run.
 */
#include <stdlib.h>
#include <string.h>

#include "merger.h"

/* A call that initialises a lock, and the place that the recorder sees for it: of a jump the begin of its function. */
struct init {
    uint64_t at;
    uint64_t seen;
};

struct source {
    char function[256];
    struct frame frame; /* as the recorder sees it */
    unsigned line;      /* where it stands */
    unsigned column;
    unsigned number; /* in its function, from 1 on */
};

struct sources {
    uint64_t *wanted; /* what is called there */
    size_t wanted_count, wanted_room;
    struct init *inits;
    size_t init_count, init_room;
    struct source *all;
    size_t count, room;
    bool is_ordered;
};

static int by_value(const void *left, const void *right)
{
    uint64_t a = *(const uint64_t *)left, b = *(const uint64_t *)right;
    return a < b ? -1 : a > b;
}

static bool is_wanted(const struct binary *binary, uint64_t target)
{
    const struct sources *sources = binary->sources;
    return sources->wanted_count &&
           bsearch(&target, sources->wanted, sources->wanted_count, sizeof *sources->wanted, by_value);
}

static void want(struct binary *binary, const char *symbol, uint64_t target)
{
    struct sources *sources = binary->sources;
    if (!may_be_maker(symbol))
        return;
    sources->wanted = grown(sources->wanted, sources->wanted_count, &sources->wanted_room, sizeof target);
    sources->wanted[sources->wanted_count++] = target;
}

static void add_init(struct binary *binary, uint64_t at, bool is_jump)
{
    struct sources *sources = binary->sources;
    struct init init = {at, at};
    uint64_t into;
    if (is_jump && symbol_at(binary, at, &into))
        init.seen = at - into;
    ask_for_init(binary, init.at);
    ask_for_init(binary, init.seen);
    sources->inits = grown(sources->inits, sources->init_count, &sources->init_room, sizeof init);
    sources->inits[sources->init_count++] = init;
}

/* Asks for the lines of all places of a file where locks can be initialised, where it has any lines. */
void ask_for_sources(struct binary *binary)
{
    if (binary->sources)
        return;
    struct sources *sources = binary->sources = must(calloc(1, sizeof *sources));
    if (!section_of(debug_file_of(binary), ".debug_line").at)
        return;
    each_import(binary, want);
    each_symbol(binary, want);
    if (sources->wanted_count == 0)
        return;
    qsort(sources->wanted, sources->wanted_count, sizeof *sources->wanted, by_value);
    each_call(binary, is_wanted, add_init);
}

/* Gives the frame of a place that isn't in a function through which locks are made, or NULL. */
static const struct frame *telling_frame(const struct site *site)
{
    size_t start = 0;
    char name[256];
    for (size_t number = 0; site && number < site->frame_count; number++) {
        const char *function = site->frames[number].function;
        short_function(name, sizeof name, function ? function : "");
        if (function && is_through(function, name, NULL))
            start = number + 1;
    }
    while (site && start < site->frame_count && is_maker(&site->frames[start]))
        start++;
    return site && start < site->frame_count ? &site->frames[start] : NULL;
}

static int by_place(const void *left, const void *right)
{
    const struct source *a = left, *b = right;
    int order = strcmp(a->function, b->function);
    if (!order)
        order = strcmp(base_of(a->frame.file), base_of(b->frame.file));
    if (!order)
        order = strcmp(a->frame.file, b->frame.file);
    if (!order)
        order = a->line < b->line ? -1 : a->line > b->line;
    if (!order)
        order = a->column < b->column ? -1 : a->column > b->column;
    return order;
}

static bool are_same(const struct frame *a, const struct frame *b)
{
    return a->line == b->line && a->column == b->column && strcmp(a->file, b->file) == 0;
}

static void add_source(struct sources *sources, const struct frame *seen, const struct frame *at)
{
    if (!seen || !seen->line || !at || !function_of(seen))
        return;
    sources->all = grown(sources->all, sources->count, &sources->room, sizeof *sources->all);
    struct source *source = &sources->all[sources->count++];
    *source = (struct source){.frame = *seen, .line = at->line, .column = at->column};
    short_function(source->function, sizeof source->function, function_of(seen));
}

/* Puts the places in order, each once: a function that stands in several others has them as often. */
static void order(const struct binary *binary)
{
    struct sources *sources = binary->sources;
    size_t kept = 0;
    for (size_t number = 0; number < sources->init_count; number++) {
        const struct init *init = &sources->inits[number];
        add_source(sources, telling_frame(site_at(binary, init->seen)),
                   telling_frame(site_at(binary, init->at)));
    }
    if (sources->count)
        qsort(sources->all, sources->count, sizeof *sources->all, by_place);
    for (size_t number = 0; number < sources->count; number++) {
        struct source source = sources->all[number];
        const struct source *before = kept ? &sources->all[kept - 1] : NULL;
        bool is_next = before && strcmp(before->function, source.function) == 0 &&
                       strcmp(base_of(before->frame.file), base_of(source.frame.file)) == 0;
        if (is_next && are_same(&before->frame, &source.frame))
            continue;
        source.number = is_next ? before->number + 1 : 1;
        sources->all[kept++] = source;
    }
    sources->count = kept;
    sources->is_ordered = true;
}

/* Gives the number of a place among those of its function, or 0 where it isn't known as one of them. */
unsigned number_in_function(const struct binary *binary, const struct frame *frame)
{
    char function[256];
    struct sources *sources = binary->sources;
    if (!sources || !function_of(frame))
        return 0;
    if (!sources->is_ordered)
        order(binary);
    short_function(function, sizeof function, function_of(frame));
    for (size_t number = 0; number < sources->count; number++) {
        const struct source *source = &sources->all[number];
        if (are_same(&source->frame, frame) && strcmp(source->function, function) == 0)
            return source->number;
    }
    return 0;
}
