/* The calls that led to a lock's beginning, and which of them tells its class. */
#include <inttypes.h>
#include <stdlib.h>
#include <string.h>

#include "merger.h"

/* The most frames of all calls of a record that are looked at. */
#define MOST_FRAMES 64

struct frames {
    struct call all[MOST_FRAMES];
    size_t count;
};

/* Answers whether a function begins at `start` and a place is in it. Where there is no symbol for the
   place it may be. */
static bool may_hold(const struct module *module, uint64_t start, const struct module *inner, uint64_t offset)
{
    uint64_t into;
    if (inner != module || start > offset)
        return false;
    return !symbol_at(module->binary, offset, &into) || offset - into == start;
}

/* Goes over the calls from the innermost on, and gives the place of each. A function that ends in a call
   may leave that to its own caller, and isn't on the stack any more then. So where a call names another
   function than the one that it led to, that one stood in between, and its begin is given first. */
static void each_place(const struct modules *modules, const uint64_t *calls, unsigned count,
                       void (*see)(const struct module *, uint64_t, void *), void *argument)
{
    const struct module *inner = NULL;
    uint64_t offset = 0;
    for (unsigned number = 0; number < count && calls[number]; number++) {
        const struct module *module = module_at(modules, calls[number]);
        if (!module) {
            see(NULL, 0, argument);
            inner = NULL;
            continue;
        }
        uint64_t called = called_before(module->binary, calls[number] - module->load);
        if (called && !may_hold(module, called, inner, offset))
            see(module, called, argument);
        offset = calls[number] - module->load - 1;
        see(module, offset, argument);
        inner = module;
    }
}

static void ask_for_one(const struct module *module, uint64_t offset, void *nothing)
{
    (void)nothing;
    if (module)
        ask_for(module->binary, offset);
}

void ask_for_calls(const struct modules *modules, const uint64_t *calls, unsigned count)
{
    each_place(modules, calls, count, ask_for_one, NULL);
}

static void ask_for_file(const struct module *module, uint64_t offset, void *nothing)
{
    (void)offset;
    (void)nothing;
    if (module)
        ask_for_sources(module->binary);
}

/* Asks for the other places in the same files where locks can be initialised, too. */
void ask_for_inits(const struct modules *modules, const uint64_t *calls, unsigned count)
{
    ask_for_calls(modules, calls, count);
    each_place(modules, calls, count, ask_for_file, NULL);
}

static void add_sum(const struct module *module, uint64_t offset, void *argument)
{
    uint64_t *sum = argument;
    *sum = (*sum + offset + (uintptr_t)(module ? module->binary : NULL)) * UINT64_C(0x9e3779b97f4a7c15);
}

/* Gives a number for calls, which is the same for the same places in files. */
uint64_t sum_of_calls(const struct modules *modules, const uint64_t *calls, unsigned count)
{
    uint64_t sum = 1;
    each_place(modules, calls, count, add_sum, &sum);
    return sum;
}

static void add_frames(const struct module *module, uint64_t offset, void *argument)
{
    struct frames *frames = argument;
    const struct site *site = module ? site_at(module->binary, offset) : NULL;
    size_t count = site && site->frame_count ? site->frame_count : 1;
    for (size_t number = 0; number < count && frames->count < MOST_FRAMES; number++) {
        struct call *call = &frames->all[frames->count++];
        *call = (struct call){module, offset, {NULL, NULL, 0, 0}};
        if (site && site->frame_count)
            call->frame = site->frames[number];
    }
}

/* Names the function of a call in a module. One that has no name is said by a place in it, as a class has
   that. */
void name_function(char *name, size_t size, const struct call *call)
{
    if (call->frame.function)
        short_function(name, size, call->frame.function);
    else
        snprintf(name, size, "%s:+0x%" PRIx64, call->module->name, call->offset + 1);
}

/* Answers whether a call is in a function that the user named, and notes that it was met. */
bool leads_through(const struct call *call)
{
    char name[256];
    const char *function = call->frame.function;
    if (!function && !call->module)
        return false;
    name_function(name, sizeof name, call);
    return is_through(function, name, through_met);
}

/* Answers whether a place is in a function that the user named, or one that stands in it. */
bool is_place_through(const struct binary *binary, uint64_t offset)
{
    char name[256];
    const struct site *site = site_at(binary, offset);
    for (size_t number = 0; site && number < site->frame_count; number++) {
        const char *function = site->frames[number].function;
        short_function(name, sizeof name, function ? function : "");
        if (function && is_through(function, name, NULL))
            return true;
    }
    return false;
}

/* Gives the first frame from `start` on that isn't one through which others make their locks. Frames
   without a name that such a one of the same module called are its own. */
static size_t behind_makers(const struct frames *frames, size_t start)
{
    for (size_t number = start; number < frames->count; number++) {
        const struct call *call = &frames->all[number];
        if (is_maker(&call->frame))
            start = number + 1;
        else if (call->frame.function || call->module != frames->all[start].module)
            break;
    }
    return start;
}

/* Gives a number for the calls from `start` on, by their source lines where these are known. */
static uint64_t number_of_calls(const struct frames *frames, size_t start)
{
    uint64_t result = 0;
    for (size_t number = start; number < frames->count; number++) {
        const struct call *call = &frames->all[number];
        result += call->frame.line ? call->frame.line : call->offset;
        result += (uintptr_t)(call->module ? call->module->binary : NULL);
        result *= UINT64_C(0x9e3779b97f4a7c15);
    }
    return result;
}

/* Gives where the first frame is that isn't one through which others make and take their locks, or the last one. */
static size_t telling_frame(const struct frames *frames)
{
    size_t start = 0;
    for (size_t number = 0; number < frames->count; number++)
        if (leads_through(&frames->all[number]))
            start = number + 1;
    start = behind_makers(frames, start);
    if (start >= frames->count)
        start = frames->count ? frames->count - 1 : 0;
    return start;
}

/* Answers whether a frame is of a library that begins programs and threads, and calls functions for others. */
static bool is_of_system(const struct call *call)
{
    static const char *const names[] = {"libc.so.", "libpthread.so.", "libstdc++.so."};
    for (size_t number = 0; number < sizeof names / sizeof *names; number++)
        if (!call->module || strncmp(call->module->name, names[number], strlen(names[number])) == 0)
            return true;
    return false;
}

/* Gives the call that takes a lock, and those that led there, as far as they tell anything: not what stands in headers
   of the library, and not how a thread begins. Gives how many they are. */
size_t telling_calls(const struct modules *modules, const uint64_t *calls, unsigned count, struct call *found,
                     size_t most)
{
    struct frames frames = {.count = 0};
    size_t kept = 0, last = 0;
    each_place(modules, calls, count, add_frames, &frames);
    size_t start = telling_frame(&frames);
    if (frames.count == 0 || !frames.all[start].module)
        return 0;
    for (size_t number = start; number < frames.count && kept < most; number++) {
        const struct call *call = &frames.all[number];
        if (number > start && is_maker(&call->frame))
            continue;
        found[kept++] = *call;
        if (number == start || !is_of_system(call))
            last = kept;
    }
    return last;
}

/* Gives the call that tells a lock's class, or false where there is none in any module; and where it is
   asked for a number for the calls that led there. */
bool telling_call(const struct modules *modules, const uint64_t *calls, unsigned count, struct call *call,
                  uint64_t *callers)
{
    struct frames frames = {.count = 0};
    each_place(modules, calls, count, add_frames, &frames);
    size_t start = telling_frame(&frames);
    if (frames.count)
        *call = frames.all[start];
    if (callers)
        *callers = number_of_calls(&frames, start + 1);
    return frames.count && call->module;
}
