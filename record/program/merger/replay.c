/* Goes over the records of one process in the order of their numbers. */
#include <inttypes.h>
#include <stdlib.h>
#include <string.h>

#include "merger.h"

static struct locks locks;
static struct modules modules;

/* Nobody holds the lock any more. */
static void end_holds(struct lock *lock)
{
    if (lock->holder)
        write_released(lock->holder, lock, &locks);
    for (uint32_t task = 0; lock->readers && (task = next_holder(task, &locks, lock));)
        write_released(task, lock, &locks);
    lock->readers = 0;
}

/* A lock begins anew at its address. What was held there before is no more. */
static void begin_lock(struct lock *lock, struct class *class)
{
    end_holds(lock);
    lock->class = class && settings.has_instances ? class_of_instance(class) : class;
    lock->instance = lock->class ? ++lock->class->instances : 0;
}

static void on_first(uint64_t address, const struct unit *first, unsigned following)
{
    struct lock *lock = find_lock(&locks, address, true);
    if (lock->class)
        return;
    struct class *class = following ? NULL : class_of_static(&modules, address);
    if (!class)
        class = class_of_first(&modules, first, following);
    begin_lock(lock, class);
}

static struct taking taking_by(enum operation got)
{
    return (struct taking){
        .waits = got == RECORD_ACQUIRE || got == RECORD_NESTING || got == RECORD_WRITE ||
                 got == RECORD_READ || got == RECORD_SHARE,
        .nests = got == RECORD_NESTING || got == RECORD_TRY_NESTING,
        .is_shared = got == RECORD_READ || got == RECORD_SHARE || got == RECORD_TRY_READ,
        .is_recursive = got == RECORD_READ || got == RECORD_WRITE || got == RECORD_TRY_WRITE,
    };
}

/* A lock that is got while someone has it was given back by a call that wasn't seen, or by the end of its holder, or
   was made anew by an assignment. Inner levels of a recursive mutex aren't written. */
static void on_got(enum operation operation, uint32_t task, const struct unit *first)
{
    struct lock *lock = find_lock(&locks, first->value, true);
    struct taking taking = taking_by(operation);
    end_wait(task, first->value);
    if (!lock->class)
        begin_lock(lock, class_of_first(&modules, first, 0));
    if (lock->holder == task && taking.nests) {
        lock->level++;
        return;
    }
    if (lock->holder || (lock->readers && !taking.is_shared))
        end_holds(lock);
    write_got(taking, task, &locks, lock, place_numbered(HEAD_PLACE(first->head)));
}

/* Notes a release by a task that doesn't hold the lock: where the lock said so itself, or where it says
   nothing and another task was seen to take it. */
static void note_release(enum operation operation, uint32_t task, struct lock *lock, uint32_t place)
{
    bool is_held = lock->holder || lock->readers;
    if (does_hold(task, &locks, lock))
        return;
    if (operation == RECORD_RELEASE_OTHER)
        note_misuse(is_held ? MISUSE_OTHER : MISUSE_FREE, lock->class, NULL, place);
    else if (operation == RECORD_RELEASE_ANY && is_held)
        note_misuse(MISUSE_UNTOLD, lock->class, NULL,
                    place_of_hold(next_holder(0, &locks, lock), &locks, lock));
}

/* Notes a wait on a condition by a task that holds another lock than the one it gives back. */
static void note_condition(uint32_t task, struct lock *lock, uint32_t place)
{
    const struct hold *held;
    size_t count = held_by(task, &held);
    if (count && &locks.all[held[count - 1].lock] != lock)
        note_misuse(MISUSE_CONDITION, lock->class, locks.all[held[count - 1].lock].class, place);
    else if (count > 1)
        note_misuse(MISUSE_CONDITION, lock->class, locks.all[held[count - 2].lock].class, place);
}

/* Whoever gives the lock back: it is its holder's no more. Who reads it gives back what it has of its own. A task that
   gives back what it held when it began to wait doesn't wait any more. */
static void on_release(enum operation operation, uint32_t task, const struct unit *first)
{
    struct lock *lock = find_lock(&locks, first->value, operation == RECORD_RELEASE_OTHER);
    if (!lock)
        return;
    note_release(operation, task, lock, place_numbered(HEAD_PLACE(first->head)));
    if (operation == RECORD_CONDITION)
        note_condition(task, lock, place_numbered(HEAD_PLACE(first->head)));
    if (!lock->holder && lock->readers) {
        uint32_t reader = does_hold(task, &locks, lock) ? task : next_holder(0, &locks, lock);
        write_released(reader, lock, &locks);
    } else if (lock->holder && lock->level > 1) {
        lock->level--;
    } else if (lock->holder) {
        write_released(lock->holder, lock, &locks);
    }
    const struct hold *held;
    end_waits_from(task, held_by(task, &held) + 1);
}

static void note_destroyed(const struct lock *lock, const struct unit *first)
{
    if (lock->holder || lock->readers)
        note_misuse(MISUSE_DESTROYED, lock->class, NULL, place_numbered(HEAD_PLACE(first->head)));
}

/* A mutex that is held can't be destroyed; other locks, and those of C11, are all the same. */
static void on_destroy(bool is_kept, const struct unit *first)
{
    struct lock *lock = find_lock(&locks, first->value, false);
    if (!lock)
        return;
    note_destroyed(lock, first);
    if (!is_kept)
        begin_lock(lock, NULL);
}

static void destroy_freed(struct lock *lock, const struct unit *first)
{
    if (!lock || !lock->class)
        return;
    note_destroyed(lock, first);
    begin_lock(lock, NULL);
}

/* Memory was given back: its locks are destroyed. Mostly it has fewer bytes than there are locks: then a lock is looked
   up at each, so that a program with many locks isn't gone over for each of its calls. */
static void on_freed(const struct unit *first)
{
    uint64_t length = first[1].head;
    if (length < locks.count) {
        for (uint64_t byte = 0; byte < length; byte++)
            destroy_freed(find_lock(&locks, first->value + byte, false), first);
        return;
    }
    for (size_t number = 0; number < locks.count; number++) {
        struct lock *lock = &locks.all[number];
        if (lock->address - first->value < length)
            destroy_freed(lock, first);
    }
}

/* Takes what a record tells of modules, of places and of where locks begin. Answers whether it tells that. */
static bool take_told(enum operation operation, const struct unit *first)
{
    unsigned following = HEAD_FOLLOWING(first->head);
    switch (operation) {
    case RECORD_MODULE: add_module(&modules, first, following); return true;
    case RECORD_INIT:
        begin_lock(find_lock(&locks, first->value, true), class_of_init(&modules, first, following));
        return true;
    case RECORD_FIRST: on_first(first->value, first, following); return true;
    case RECORD_PLACE:
        if (following)
            add_place(&modules, first);
        return true;
    case RECORD_FRAMES: add_frames_told(&modules, first); return true;
    default: return false;
    }
}

/* Notes where a task begins and ceases to wait, and where it ends. Answers whether a record is one of these. */
static bool take_wait(enum operation operation, const struct unit *first, uint32_t task)
{
    switch (operation) {
    case RECORD_WAIT:
    case RECORD_WAIT_READ: begin_wait(task, first); return true;
    case RECORD_GIVE_UP: end_wait(task, first->value); return true;
    case RECORD_END:
        end_task(task);
        end_waits_from(task, 0);
        return true;
    default: return false;
    }
}

static void step(const struct unit *first, uint32_t task)
{
    enum operation operation = HEAD_OPERATION(first->head);
    if (take_told(operation, first) || take_wait(operation, first, task))
        return;
    switch (operation) {
    case RECORD_DESTROY:
    case RECORD_KEPT: on_destroy(operation == RECORD_KEPT, first); break;
    case RECORD_FREED:
        if (HEAD_FOLLOWING(first->head))
            on_freed(first);
        break;
    case RECORD_ACQUIRE:
    case RECORD_TRY:
    case RECORD_WRITE:
    case RECORD_TRY_WRITE:
    case RECORD_READ:
    case RECORD_SHARE:
    case RECORD_TRY_READ:
    case RECORD_NESTING:
    case RECORD_TRY_NESTING: on_got(operation, task, first); break;
    case RECORD_RELEASE:
    case RECORD_RELEASE_OTHER:
    case RECORD_RELEASE_ANY:
    case RECORD_CONDITION: on_release(operation, task, first); break;
    default: totals.damaged++;
    }
}

/* Takes what the places of a recording need to be asked for. */
static void survey_step(const struct unit *first, uint32_t task)
{
    unsigned following = HEAD_FOLLOWING(first->head);
    enum operation operation = HEAD_OPERATION(first->head);
    (void)task;
    if (operation == RECORD_MODULE)
        add_module(&modules, first, following);
    if (operation == RECORD_INIT)
        ask_for_inits(&modules, (const uint64_t *)&first[1], 2 * following);
    if (operation == RECORD_FIRST || operation == RECORD_WAIT || operation == RECORD_WAIT_READ)
        ask_for_calls(&modules, (const uint64_t *)&first[1], 2 * following);
    if (operation == RECORD_PLACE && following)
        ask_for_place(&modules, first);
}

/* Keeps what a child of a fork begins with. */
static void keep_start(struct recording *child)
{
    const struct hold *held;
    size_t count = held_by((uint32_t)child->process->parent_task, &held);
    struct start *start = &child->start;
    copy_locks(&start->locks, &locks);
    start->modules = (struct modules){.count = modules.count, .room = modules.count};
    start->modules.all = must(malloc((modules.count + 1) * sizeof *modules.all));
    for (size_t module = 0; module < modules.count; module++)
        start->modules.all[module] = modules.all[module];
    start->held = must(malloc((count + 1) * sizeof *held));
    for (size_t hold = 0; hold < count; hold++)
        start->held[hold] = held[hold];
    start->held_count = count;
}

static bool is_child(const struct process *child, const struct process *parent)
{
    return child->parent_started != 0 && child->parent_pid == parent->pid &&
           child->parent_started == parent->started;
}

/* Keeps the starts of the children that were forked before an event. A child began after its parent,
   so it stands behind it. */
static void keep_starts(struct recording *all, size_t count, size_t which, uint64_t number, bool *is_kept)
{
    for (size_t child = which + 1; child < count; child++) {
        const struct process *process = all[child].process;
        if (!is_kept[child] && is_child(process, all[which].process) && process->parent_number <= number) {
            is_kept[child] = true;
            keep_start(&all[child]);
        }
    }
}

/* Gives the number of the event before which the next child was forked. */
static uint64_t next_fork(struct recording *all, size_t count, size_t which, const bool *is_kept)
{
    uint64_t next = UINT64_MAX;
    for (size_t child = which + 1; child < count; child++)
        if (!is_kept[child] && is_child(all[child].process, all[which].process) &&
            all[child].process->parent_number < next)
            next = all[child].process->parent_number;
    return next;
}

/* Says who holds a lock that a task waits for: of its readers the first one, and how many more there are. */
static void name_holder(char *text, size_t size, const struct lock *lock, uint32_t task)
{
    uint32_t holder = lock->holder;
    if (lock->readers)
        holder = does_hold(task, &locks, lock) ? task : next_holder(0, &locks, lock);
    if (holder == task)
        snprintf(text, size, "itself");
    else if (holder)
        snprintf(text, size, "t%" PRIu32, holder);
    else
        snprintf(text, size, "nobody that is known");
    if (lock->readers > 1)
        snprintf(text + strlen(text), size - strlen(text), " and %" PRIu32 " more", lock->readers - 1);
}

/* Says that a task waits for a lock where the trace ends. */
static void say_wait(const struct recording *all, size_t count, size_t which, uint32_t task,
                     const struct lock *lock)
{
    char holder[64];
    bool is_cut = all[which].process->ended != ENDED_NOT;
    const char *ended = !is_cut && still_runs(all, count, which) ? "still ran" : "ended";
    name_holder(holder, sizeof holder, lock, task);
    say("%sprocess %zu %s while t%" PRIu32 " waited for %s, held by %s", is_cut ? "the recording of " : "",
        which + 1, ended, task, lock->class->name, holder);
}

/* Writes what tasks still wait for at the end. */
static void write_waits(const struct recording *all, size_t count, size_t which)
{
    const struct wait *waits;
    size_t left = waits_left(&waits);
    for (size_t number = 0; number < left; number++) {
        const struct unit *first = waits[number].first;
        on_first(first->value, first, HEAD_FOLLOWING(first->head));
        const struct lock *lock = find_lock(&locks, first->value, true);
        write_waiting(HEAD_OPERATION(first->head) == RECORD_WAIT_READ, waits[number].task, &locks, lock,
                      place_numbered(HEAD_PLACE(first->head)));
        say_wait(all, count, which, waits[number].task, lock);
    }
    forget_waits();
}

static void begin_replay(struct start *start, const struct process *process)
{
    locks = start->locks;
    modules = start->modules;
    modules.process = process;
    for (size_t held = 0; held < start->held_count; held++)
        hold_from_start(1, &locks, start->held[held]);
    free(start->held);
}

/* Goes over the records that were placed. */
static void go_over(struct recording *all, size_t count, size_t which,
                    void (*see)(const struct unit *, uint32_t))
{
    struct recording *recording = &all[which];
    bool *is_kept = must(calloc(count, sizeof *is_kept));
    begin_replay(&recording->start, recording->process);
    begin_places();
    uint64_t fork = next_fork(all, count, which, is_kept);
    for (size_t at = 0; at < recording->place_count; at++) {
        struct place place = recording->places[at];
        if (!place.unit)
            continue;
        const struct unit *first = unit_at(recording, place.unit);
        uint64_t number = HEAD_NUMBER(first->head);
        if (number >= fork) {
            keep_starts(all, count, which, number, is_kept);
            fork = next_fork(all, count, which, is_kept);
        }
        see(first, place.task);
    }
    keep_starts(all, count, which, UINT64_MAX, is_kept);
    write_waits(all, count, which);
    note_ended(&locks);
    end_writer();
    free_locks(&locks);
    free(modules.all);
    free(recording->places);
    free(is_kept);
    recording->start = (struct start){.held = NULL};
}

/* Asks for all places in code that tell a class, before the traces are written. */
void survey(struct recording *all, size_t count)
{
    for (size_t which = 0; which < count; which++) {
        place_long_records(&all[which]);
        go_over(all, count, which, survey_step);
    }
    totals = (struct totals){0};
}

void replay(struct recording *all, size_t count, size_t which, const char *label)
{
    begin_writer(label, which + 1);
    place_records(&all[which]);
    go_over(all, count, which, step);
}
