/*
 * In which order locks of one class were taken under one another. A report says of classes that one was taken under
 * itself; whether its locks were always taken in one order can be told here alone, and stands in comments.
 */
#include <inttypes.h>
#include <stdlib.h>
#include <string.h>

#include "merger.h"

/* That a lock of a class was acquired under another one of it, or under itself. */
struct order {
    const struct class *class; /* NULL where there is none */
    uint64_t outer, inner;     /* their instances */
    uint64_t times;
    bool is_upwards; /* the inner one has the greater address */
};

static struct order *orders; /* by a checksum */
static size_t order_count, order_room;

static void *slot_of(void *all, size_t room, const void *element)
{
    struct order *slots = all;
    const struct order *wanted = element;
    uint64_t sum = ((uintptr_t)wanted->class / 16 + wanted->outer * 31) * UINT64_C(0x9e3779b97f4a7c15);
    size_t slot = ((sum ^ wanted->inner) * UINT64_C(0x9e3779b97f4a7c15) >> 20) % room;
    for (; slots[slot].class; slot = (slot + 1) % room)
        if (slots[slot].class == wanted->class && slots[slot].outer == wanted->outer &&
            slots[slot].inner == wanted->inner)
            break;
    return &slots[slot];
}

/* Notes that a lock was acquired while another one of its class, or itself, was held. */
void note_order(const struct lock *outer, const struct lock *inner)
{
    struct order order = {inner->class, outer->instance, inner->instance, 0, inner->address > outer->address};
    orders = grown_table(orders, order_count, &order_room, sizeof *orders, slot_of);
    struct order *slot = slot_of(orders, order_room, &order);
    if (!slot->class) {
        *slot = order;
        order_count++;
    }
    slot->times++;
}

static int by_class(const void *left, const void *right)
{
    const struct order *a = left, *b = right;
    if (a->class != b->class)
        return strcmp(a->class->name, b->class->name);
    if (a->outer != b->outer)
        return a->outer < b->outer ? -1 : 1;
    return a->inner < b->inner ? -1 : a->inner > b->inner;
}

/* The orders of one class, as a graph of its locks. */
struct graph {
    const struct order *orders;
    size_t count;
    uint64_t *locks; /* in order */
    size_t lock_count;
    unsigned char *state; /* of each lock: not met, on the way to the present one, done */
    size_t *way, *next;   /* the locks on the way, and of each the order that is looked at next */
    size_t length;
};

enum { LOCK_NEW, LOCK_ON_THE_WAY, LOCK_DONE };

static int by_value(const void *left, const void *right)
{
    uint64_t a = *(const uint64_t *)left, b = *(const uint64_t *)right;
    return a < b ? -1 : a > b;
}

static size_t number_of(const struct graph *graph, uint64_t lock)
{
    const uint64_t *found = bsearch(&lock, graph->locks, graph->lock_count, sizeof lock, by_value);
    return found ? (size_t)(found - graph->locks) : 0;
}

/* Gives the first order from a lock on. */
static size_t first_order(const struct graph *graph, uint64_t lock)
{
    size_t low = 0, high = graph->count;
    while (low < high) {
        size_t middle = low + (high - low) / 2;
        if (graph->orders[middle].outer < lock)
            low = middle + 1;
        else
            high = middle;
    }
    return low;
}

static void begin_graph(struct graph *graph, const struct order *all, size_t count)
{
    *graph = (struct graph){.orders = all, .count = count};
    graph->locks = must(malloc(2 * count * sizeof *graph->locks));
    for (size_t number = 0; number < count; number++) {
        graph->locks[2 * number] = all[number].outer;
        graph->locks[2 * number + 1] = all[number].inner;
    }
    qsort(graph->locks, 2 * count, sizeof *graph->locks, by_value);
    for (size_t number = 0; number < 2 * count; number++)
        if (graph->lock_count == 0 || graph->locks[graph->lock_count - 1] != graph->locks[number])
            graph->locks[graph->lock_count++] = graph->locks[number];
    graph->state = must(calloc(graph->lock_count, sizeof *graph->state));
    graph->way = must(calloc(graph->lock_count, sizeof *graph->way));
    graph->next = must(calloc(graph->lock_count, sizeof *graph->next));
}

static void end_graph(struct graph *graph)
{
    free(graph->locks);
    free(graph->state);
    free(graph->way);
    free(graph->next);
}

static void go_on_to(struct graph *graph, size_t lock)
{
    graph->state[lock] = LOCK_ON_THE_WAY;
    graph->way[graph->length] = lock;
    graph->next[graph->length++] = first_order(graph, graph->locks[lock]);
}

/* Looks for a cycle on the ways from a lock. Where there is one it is the end of the way, from the place that is
   given on. */
static bool has_cycle_from(struct graph *graph, size_t lock, size_t *start)
{
    go_on_to(graph, lock);
    while (graph->length) {
        size_t last = graph->way[graph->length - 1], order = graph->next[graph->length - 1]++;
        if (order >= graph->count || graph->orders[order].outer != graph->locks[last]) {
            graph->state[last] = LOCK_DONE;
            graph->length--;
            continue;
        }
        size_t inner = number_of(graph, graph->orders[order].inner);
        if (graph->state[inner] == LOCK_NEW) {
            go_on_to(graph, inner);
        } else if (graph->state[inner] == LOCK_ON_THE_WAY) {
            *start = graph->length - 1;
            while (graph->way[*start] != inner)
                --*start;
            return true;
        }
    }
    return false;
}

static void write_cycle(struct graph *graph)
{
    size_t start = 0;
    for (size_t lock = 0; lock < graph->lock_count; lock++) {
        if (graph->state[lock] != LOCK_NEW || !has_cycle_from(graph, lock, &start))
            continue;
        fputs(" cycle", stream);
        for (size_t at = start; at < graph->length; at++)
            fprintf(stream, " @%" PRIu64, graph->locks[graph->way[at]]);
        fprintf(stream, " @%" PRIu64, graph->locks[graph->way[start]]);
        return;
    }
    fputs(" order", stream);
}

/* Writes what is known of the locks of one class. */
static void write_orders(const struct order *all, size_t count)
{
    struct graph graph;
    uint64_t times = 0;
    size_t upwards = 0, downwards = 0;
    begin_graph(&graph, all, count);
    for (size_t number = 0; number < count; number++) {
        times += all[number].times;
        upwards += all[number].is_upwards;
        downwards += !all[number].is_upwards && all[number].outer != all[number].inner;
    }
    fprintf(stream, "# instances %s %" PRIu64 " %zu", all[0].class->name, times, graph.lock_count);
    if (upwards == count || downwards == count)
        fputs(upwards ? " upwards" : " downwards", stream);
    else
        write_cycle(&graph);
    fputc('\n', stream);
    end_line(0, NULL);
    end_graph(&graph);
}

/* Says at the end of the stream, of each class that was taken under itself, how often, how many locks these were, and
   whether they were taken in one order. */
void write_instances(void)
{
    size_t kept = 0;
    for (size_t slot = 0; slot < order_room; slot++)
        if (orders[slot].class)
            orders[kept++] = orders[slot];
    if (kept)
        qsort(orders, kept, sizeof *orders, by_class);
    for (size_t start = 0, end = 0; start < kept; start = end) {
        while (end < kept && orders[end].class == orders[start].class)
            end++;
        write_orders(&orders[start], end - start);
    }
}
