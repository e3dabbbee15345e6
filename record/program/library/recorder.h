/* What the parts of the library know of each other. */
#ifndef RECORDER_H
#define RECORDER_H

#include <stdbool.h>
#include <stddef.h>
#include <stdint.h>

#include "recording.h"

#define EXPORTED __attribute__((visibility("default")))

/* The most calls that are kept of those that led to the begin of a lock. */
#define MOST_CALLS 8

/* A place that was told: the rest holds once `state` says so. */
struct place {
    uint64_t address;
    uint16_t inside;
    uint8_t state; /* enum place_state */
};

/*
 * What this process has of its own. It lies in a page that the kernel clears in a child of a fork,
 * however that child was made, so a child finds out by its first look that it has no recording yet.
 */
struct life {
    uint64_t state;      /* enum state */
    uint64_t generation; /* how many recordings this process and those it was forked from began */
    uint64_t tasks;
    struct process *process;
    /* The counter of events is on a line of the cache of its own: all threads write it. */
    _Alignas(64) uint64_t numbers;
    _Alignas(64) struct place places[PLACE_NUMBERS];
    uint64_t ways[PLACE_NUMBERS]; /* a sum of calls, whose last bits are the number of the place */
};

/* What stands at the address of a frame, where the code keeps one. */
struct frame {
    const struct frame *outer;
    uint64_t address;
};

/* The frame of a call of the library, whose return address is a place of the program. */
#define HERE ((const struct frame *)__builtin_frame_address(0))

enum state { STATE_NEW, STATE_BEGINNING, STATE_RECORDING, STATE_OFF };

#define CALLS_KEPT 8
#define FIRST_KEPT 4

/* A call that led to an event: the place of it, where that stands, and, if the frame goes by the base register, what
   that was and where that stands. All but the place is in bytes from the innermost frame. */
struct level {
    uint64_t address;
    uint16_t at;
    uint16_t base_at, base;
    bool is_based;
};

/* The calls which led to an event of this thread, the innermost first: mostly the next event comes through the same
   ones, from frames that lie the same. */
struct calls {
    struct level levels[MOST_INSIDE];
    uint16_t count;
    uint16_t number; /* of the place of the last one */
};

/* How the frame around a place is found: its stack begins so far behind that of the place, or behind the base
   register. Where nothing of it is known `offset` is 0. */
struct rule {
    int32_t offset;
    int32_t base;    /* where the base register stands, from there; or BASE_AS_IT_WAS or BASE_LOST */
    int32_t to_call; /* from the place to what the call before it names, or 0 */
    bool is_based;
    bool is_code;
};
enum { BASE_AS_IT_WAS = 0, BASE_LOST = 1 };

/* What a thread has of its own. `inside` counts calls of the recorder that run: more than one of
   them where a signal handler that takes locks interrupted another. */
struct self {
    uint64_t generation; /* that of the recording for which the rest holds */
    uint64_t task;
    uint64_t last_number;
    int thread; /* the kernel's number of it */
    struct chunk *chunk;
    unsigned inside;
    bool looks_up; /* what libc has of a call */
    struct calls calls[CALLS_KEPT];
    struct calls first[FIRST_KEPT]; /* up to MOST_CALLS that led to a lock which was told */
};

/* A module: its first and last address, where it was loaded, what the loader has of it, and its path. */
struct loaded {
    uint64_t start, last, load;
    const void *map;
    const char *path;
};

extern struct life *life;
extern __thread struct self self __attribute__((tls_model("initial-exec")));

/* begin.c */
extern bool is_under_valgrind;
bool begin(void);
void end_recording(enum ended why);

/* chunks.c */
void keep_chunks(void);
void forget_chunks(void);
struct unit *take_units(unsigned count);

/* log.c */
void record(enum operation operation, const void *lock);
void record_init(const void *lock, const struct frame *frame);
void record_at(enum operation operation, const void *lock, const struct frame *frame);
void record_destroy(const void *lock, const struct frame *frame);
void record_got(enum operation operation, const void *lock, const struct frame *frame);
void record_wait(enum operation wanted, const void *lock, const struct frame *frame);

/* log.c, for memory that is given back */
void record_freed(uint64_t start, uint64_t end, const struct frame *frame);
bool expect_freed(uint64_t start, uint64_t end, uint64_t *number);
void record_expected(uint64_t number, uint64_t start, uint64_t end, const struct frame *frame);

/* freed.c */
bool can_tell_sizes(void);

/* rwlocks.c */
extern bool leaves_readers_out;

/* Writes the head of a record, which is finished then. */
void finish_record(struct unit *first, enum operation operation, unsigned following, uint64_t value);

/* stacks.c */
void forget_stacks(void);
void tell_frames(uint64_t lock, const uint64_t *calls, unsigned count);

/* unwind.c */
const struct rule *rule_of(uint64_t address, struct rule *own);

/* frames.c */
extern bool wants_places;
extern unsigned wanted_callers;
unsigned place_of_frame(const struct frame *frame);
unsigned callers_of_frame(const struct frame *frame, uint64_t places[MOST_CALLS]);

/* log.c, for the places */
void tell_place(uint64_t address, struct told_place place);

/* places.c */
void find_own_place(void);
unsigned callers(uint64_t *places, unsigned most);
bool is_in_module(uint64_t address);
bool must_tell_module(uint64_t address, struct loaded *module);
void told_module(const struct loaded *module);

/* program.c */
void find_program(void);
const char *program_path(void);
const char *program_name(void);
const char *program_arguments(size_t *length);

/* next.c */
void find_all_next(void);

#endif
