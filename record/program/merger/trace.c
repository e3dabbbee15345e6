/* Writes the traces of one process, within the limits of a trace. */
#define _GNU_SOURCE
#include <stdlib.h>
#include <string.h>

#include "merger.h"

struct task {
    struct hold *held; /* the latest last */
    size_t held_count;
    size_t held_room;
    unsigned written; /* how many locks the stream says that it holds */
    uint64_t trace;   /* the latest trace that it is in */
    bool has_ended;   /* as far as is known */
};

static struct task *tasks;
static size_t task_count, task_room;

static const char *label;
static size_t process;
static unsigned traces_of_process;
static unsigned tasks_of_trace;
static unsigned classes_of_trace;
static uint64_t lines_of_trace; /* behind those that took up what was held */

static char *put_text(char *at, const char *text)
{
    size_t length = strlen(text);
    memcpy(at, text, length);
    return at + length;
}

static char *put_number(char *at, uint64_t number)
{
    char digits[20];
    unsigned count = 0;
    do
        digits[count++] = (char)('0' + number % 10);
    while (number /= 10);
    while (count > 0)
        *at++ = digits[--count];
    return at;
}

/* Lines that aren't in the stream's file yet. */
static char lines[1 << 16];
static size_t line_bytes;

static void flush_lines(void)
{
    fwrite(lines, 1, line_bytes, stream);
    line_bytes = 0;
}

/* Writes the line of an event by hand: to read a format for each would take half of the merger's time. */
static void write_line(const char *verb, uint32_t task, const char *class, uint64_t instance)
{
    if (line_bytes + 32 + MOST_NAME + 2 * 20 > sizeof lines)
        flush_lines();
    char *at = put_text(&lines[line_bytes], verb);
    at = put_text(at, " t");
    at = put_number(at, task);
    *at++ = ' ';
    at = put_text(at, class);
    *at++ = '@';
    at = put_number(at, instance);
    *at++ = '\n';
    line_bytes = (size_t)(at - lines);
}

void begin_writer(const char *label_of_all, size_t process_number)
{
    label = label_of_all;
    process = process_number;
    traces_of_process = 0;
}

void end_writer(void)
{
    flush_lines();
    for (size_t task = 0; task < task_count; task++)
        free(tasks[task].held);
    task_count = 0;
}

static struct task *task_at(uint32_t number)
{
    while (task_count <= number) {
        tasks = grown(tasks, task_count, &task_room, sizeof *tasks);
        memset(&tasks[task_count++], 0, sizeof *tasks);
    }
    return &tasks[number];
}

size_t held_by(uint32_t task, const struct hold **held)
{
    bool is_known = task < task_count;
    *held = is_known ? tasks[task].held : NULL;
    return is_known ? tasks[task].held_count : 0;
}

static void write_event(const char *verb, uint32_t number, struct class *class, const struct lock *lock,
                        uint32_t place)
{
    struct task *task = &tasks[number];
    if (task->trace != totals.traces) {
        task->trace = totals.traces;
        tasks_of_trace++;
    }
    if (class->trace != totals.traces) {
        class->trace = totals.traces;
        classes_of_trace++;
    }
    write_line(verb, number, class->name, lock->instance);
    end_line(place, class);
    totals.events++;
    lines_of_trace++;
}

static void write_header(void)
{
    char text[256] = "", end[64];
    if (++traces_of_process == 1)
        snprintf(end, sizeof end, "-%zu", process);
    else
        snprintf(end, sizeof end, "-%zu.%u", process, traces_of_process);
    snprintf(text, sizeof text, "%s", label);
    cut_name(text, MOST_NAME - strlen(end));
    flush_lines();
    fprintf(stream, "trace %s%s\n", text, end);
    end_line(0, NULL);
    totals.traces++;
    tasks_of_trace = 0;
    classes_of_trace = 0;
}

/* How many locks of a trace one is that is held so. */
static unsigned locks_of(const struct hold *hold)
{
    return hold->is_split ? 2 : 1;
}

/* A new trace takes up what is held. One task and two classes stay free for who comes next, so what
   would fill the trace at once is left out. */
static void take_up(const struct locks *locks, uint32_t number, struct hold *hold)
{
    struct task *task = &tasks[number];
    const struct lock *lock = &locks->all[hold->lock];
    hold->is_written = task->written + locks_of(hold) <= MOST_HELD && tasks_of_trace < MOST_TASKS - 1 &&
                       classes_of_trace + locks_of(hold) <= MOST_CLASSES - 2;
    if (!hold->is_written) {
        totals.not_taken_up++;
        return;
    }
    task->written += locks_of(hold);
    write_event("try", number, lock->class, lock, hold->place);
    if (hold->is_split)
        write_event("try", number, lock->class->readers, lock, hold->place);
}

static void open_trace(const struct locks *locks)
{
    write_header();
    for (uint32_t number = 0; number < task_count; number++) {
        tasks[number].written = 0;
        for (size_t place = 0; place < tasks[number].held_count; place++)
            take_up(locks, number, &tasks[number].held[place]);
    }
    lines_of_trace = 0;
}

static bool must_cut(void)
{
    return settings.cut && lines_of_trace >= settings.cut && totals.traces < MOST_CUT_TRACES;
}

static unsigned is_new(const struct class *class)
{
    return class && class->trace != totals.traces;
}

/* Opens a trace where there is none, or where the task and the classes find no room in it. */
static void make_room(const struct locks *locks, const struct task *task, const struct class *class,
                      const struct class *other)
{
    if (traces_of_process == 0 || must_cut() ||
        (task->trace != totals.traces && tasks_of_trace == MOST_TASKS) ||
        classes_of_trace + is_new(class) + is_new(other) > MOST_CLASSES)
        open_trace(locks);
}

static void push(struct task *task, struct hold hold)
{
    task->held = grown(task->held, task->held_count, &task->held_room, sizeof *task->held);
    task->held[task->held_count++] = hold;
}

/* A child of a fork begins with the locks that the thread which forked it held. Its trace takes them up once it
   begins: what is given back before that isn't in it. */
void hold_from_start(uint32_t task, struct locks *locks, struct hold hold)
{
    struct lock *lock = &locks->all[hold.lock];
    hold.is_written = false;
    if (hold.is_shared)
        lock->readers++;
    else
        lock->holder = task;
    push(task_at(task), hold);
}

/* Answers whether a task holds a lock of the class of another one, and notes in which order it took them. */
static bool holds_class(const struct task *task, const struct locks *locks, const struct lock *lock,
                        bool waits)
{
    bool does = false;
    for (size_t place = 0; place < task->held_count; place++) {
        const struct lock *held = &locks->all[task->held[place].lock];
        if (held->class != lock->class)
            continue;
        does = true;
        if (waits)
            note_order(held, lock);
    }
    return does;
}

/* Writes that a task got a lock (docs/FORMAT.md, Readers). A lock with recursive readers is two: who
   reads it holds the first one, and enters it without waiting for other readers; who writes it holds both.
   What a reader waits for is the second one, which it passes. */
void write_got(struct taking taking, uint32_t number, struct locks *locks, struct lock *lock, uint32_t place)
{
    struct task *task = task_at(number);
    struct class *class = lock->class;
    struct class *readers = taking.is_recursive ? readers_of(class) : class->readers;
    struct hold hold = {.lock = (uint32_t)(lock - locks->all), .place = place, .is_shared = taking.is_shared};
    hold.is_split = !taking.is_shared && readers;
    task->has_ended = false;
    bool waits = taking.waits && !(taking.is_shared && taking.is_recursive);
    bool passes = taking.is_shared && taking.is_recursive && taking.waits && task->held_count > 0;
    make_room(locks, task, class, hold.is_split || passes ? readers : NULL);
    class->under_itself += !passes && holds_class(task, locks, lock, waits);
    hold.is_written = task->written + locks_of(&hold) <= MOST_HELD;
    if (taking.is_shared) {
        lock->readers++;
    } else {
        lock->holder = number;
        lock->level = 1;
    }
    push(task, hold);
    if (!hold.is_written) {
        totals.too_deep++;
        return;
    }
    task->written += locks_of(&hold);
    if (passes) {
        write_event("acquire", number, readers, lock, place);
        write_event("release", number, readers, lock, 0);
    }
    write_event(waits ? "acquire" : "try", number, class, lock, place);
    if (hold.is_split)
        write_event("try", number, readers, lock, place);
}

/* A lock that a task still waits for where the trace ends: an acquisition too, since a dependency says
   that a lock was attempted. */
void write_waiting(bool is_recursive, uint32_t number, struct locks *locks, const struct lock *lock,
                   uint32_t place)
{
    struct task *task = task_at(number);
    struct class *class = is_recursive ? readers_of(lock->class) : lock->class;
    make_room(locks, task, class, NULL);
    lock->class->under_itself += holds_class(task, locks, lock, !is_recursive);
    if (task->written < MOST_HELD)
        write_event("acquire", number, class, lock, place);
    else
        totals.too_deep++;
}

/* Gives where a task's latest hold of a lock is among those of the task, counted from 1, or 0. */
static size_t find_hold(const struct task *task, uint32_t lock)
{
    size_t place = task->held_count;
    while (place > 0 && task->held[place - 1].lock != lock)
        place--;
    return place;
}

/* Gives the place of the program where a task took a lock that it holds, or 0. */
uint32_t place_of_hold(uint32_t task, const struct locks *locks, const struct lock *lock)
{
    size_t place = find_hold(task_at(task), (uint32_t)(lock - locks->all));
    return place ? tasks[task].held[place - 1].place : 0;
}

bool does_hold(uint32_t task, const struct locks *locks, const struct lock *lock)
{
    return find_hold(task_at(task), (uint32_t)(lock - locks->all)) > 0;
}

/* Gives a task that holds the lock, from one on, or 0 where there is none. */
uint32_t next_holder(uint32_t task, const struct locks *locks, const struct lock *lock)
{
    for (; task < task_count; task++)
        if (does_hold(task, locks, lock))
            return task;
    return 0;
}

/* A task's thread ends. What it gives back behind that is given back. */
void end_task(uint32_t task)
{
    task_at(task)->has_ended = true;
}

/* Notes what tasks hold whose threads have ended. */
void note_ended(const struct locks *locks)
{
    for (size_t task = 0; task < task_count; task++)
        for (size_t place = 0; tasks[task].has_ended && place < tasks[task].held_count; place++) {
            const struct hold *hold = &tasks[task].held[place];
            note_misuse(MISUSE_ENDED, locks->all[hold->lock].class, NULL, hold->place);
        }
}

/* A task's latest hold of a lock ends. Mostly the latest locks are given back first. */
void write_released(uint32_t number, struct lock *lock, struct locks *locks)
{
    struct task *task = task_at(number);
    size_t place = find_hold(task, (uint32_t)(lock - locks->all));
    if (lock->holder == number)
        lock->holder = 0;
    else if (lock->readers > 0)
        lock->readers--;
    if (place == 0)
        return;
    struct hold hold = task->held[place - 1];
    memmove(&task->held[place - 1], &task->held[place], (task->held_count - place) * sizeof *task->held);
    task->held_count--;
    if (!hold.is_written)
        return;
    task->written -= locks_of(&hold);
    if (hold.is_split)
        write_event("release", number, lock->class->readers, lock, 0);
    write_event("release", number, lock->class, lock, 0);
}
