/*
 * What the frames that led to a lock had in their registers and on the stack. By that, and by what debug information
 * says of their variables, the merger finds of which record a lock is a member that no call initialised. It is told
 * once for the same calls.
 */
#define _GNU_SOURCE
#include <string.h>
#include <unwind.h>

#include "recorder.h"

/* The calls that were told; others whose place here is the same are told again. */
#define TOLD_PLACES 4096
static uint64_t told[TOLD_PLACES];

void forget_stacks(void)
{
    memset(told, 0, sizeof told);
}

#ifdef __x86_64__

/* Registers that a call leaves as they are. */
static const int kept[] = {3, 6, 12, 13, 14, 15};
_Static_assert(sizeof kept / sizeof *kept == KEPT_REGISTERS, "the registers of a frame");

struct walk {
    struct told_frame frames[MOST_CALLS];
    unsigned count, wanted;
    uint64_t end; /* of the stack, as far as it is known */
    uint64_t innermost;
};

static _Unwind_Reason_Code step(struct _Unwind_Context *context, void *argument)
{
    struct walk *walk = argument;
    uint64_t address = _Unwind_GetIP(context);
    if (walk->count == 0 && address != walk->innermost)
        return address ? _URC_NO_REASON : _URC_NORMAL_STOP;
    walk->end = _Unwind_GetCFA(context);
    if (walk->count == walk->wanted || address == 0)
        return _URC_NORMAL_STOP;
    struct told_frame *frame = &walk->frames[walk->count++];
    *frame = (struct told_frame){.address = address, .stack = walk->end};
    for (unsigned number = 0; number < KEPT_REGISTERS; number++)
        frame->registers[number] = _Unwind_GetGR(context, kept[number]);
    return _URC_NO_REASON;
}

static uint64_t sum_of(const uint64_t *calls, unsigned count)
{
    uint64_t sum = count;
    for (unsigned call = 0; call < count; call++)
        sum = (sum ^ calls[call]) * UINT64_C(0x9e3779b97f4a7c15);
    return sum;
}

/* Gives how much of the stack there is from the innermost frame on. A thread may have more than one stack: another one
   of a signal handler, or one that a function changes to. Behind its end there may be nothing to read, so the frames
   are followed as long as the next one isn't farther than what is kept. */
static uint64_t length_of_stack(const struct walk *walk)
{
    uint64_t start = walk->frames[0].stack, end = start;
    for (unsigned number = 1; number <= walk->count; number++) {
        uint64_t next = number < walk->count ? walk->frames[number].stack : walk->end;
        if (next < end || next - end > MOST_STACK_BYTES)
            break;
        end = next;
    }
    return end - start < MOST_STACK_BYTES ? end - start : MOST_STACK_BYTES;
}

/* Tells the frames of the calls that led to a lock. It is noted that they were told behind their record: a thread
   that sees the note may go on, and its next record has a later number. Others tell them again. */
void tell_frames(uint64_t lock, const uint64_t *calls, unsigned count)
{
    struct walk walk = {.wanted = count, .innermost = calls[0]};
    uint64_t sum = sum_of(calls, count);
    uint64_t *place = &told[sum >> 52];
    if (count == 0 || __atomic_load_n(place, __ATOMIC_ACQUIRE) == sum)
        return;
    _Unwind_Backtrace(step, &walk);
    if (walk.count == 0)
        return;
    uint64_t length = length_of_stack(&walk);
    unsigned frames = walk.count * (unsigned)(sizeof(struct told_frame) / sizeof(struct unit));
    unsigned following = 1 + frames + (unsigned)(length / sizeof(struct unit));
    struct unit *first = take_units(1 + following);
    if (!first)
        return;
    first[1] = (struct unit){walk.count, walk.end};
    memcpy(&first[2], walk.frames, frames * sizeof(struct unit));
    memcpy(&first[2 + frames], (const void *)walk.frames[0].stack,
           length / sizeof(struct unit) * sizeof(struct unit));
    finish_record(first, RECORD_FRAMES, following, lock);
    __atomic_store_n(place, sum, __ATOMIC_RELEASE);
}

#else

void tell_frames(uint64_t lock, const uint64_t *calls, unsigned count)
{
    (void)lock;
    (void)calls;
    (void)count;
}

#endif
