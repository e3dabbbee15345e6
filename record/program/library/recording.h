/*
 * The file that the recorder leaves of each process, as the library writes it and the merger reads it.
 *
 * The file begins with a `struct process`. At each further multiple of CHUNK_BYTES that was given out
 * there is a `struct chunk`, which one thread at a time writes. A chunk is a row of units of 16
 * bytes; a record is one unit and those that follow it. The head of a record is written last, so a
 * record whose head is 0 was never finished, and is skipped: a process can be killed at any moment.
 */
#ifndef RECORDING_H
#define RECORDING_H

#include <stdint.h>

#define PROCESS_MAGIC UINT64_C(0x31636f72706b636c)
#define CHUNK_BYTES ((uint64_t)128 * 1024)
#define UNITS_OF_CHUNK (CHUNK_BYTES / sizeof(struct unit) - 1)

/* What a record says. `value` of its first unit is what stands in brackets. */
enum operation {
    RECORD_NOTHING,
    RECORD_TASK,    /* [number] from here on the chunk is written by this task */
    RECORD_MODULE,  /* [first address] last address and load address, then the path in 0 bytes */
    RECORD_INIT,    /* [lock] was initialised; the calls that led there follow */
    RECORD_FIRST,   /* [lock] is about to be taken for the first time, as far as is known; likewise */
    RECORD_DESTROY, /* [lock] is no lock any more */
    RECORD_ACQUIRE, /* [lock] was got by a call that may have waited */
    RECORD_TRY,     /* [lock] was got by a call that couldn't wait */
    RECORD_RELEASE, /* [lock] is about to be given back */
    RECORD_REFUSED, /* [lock] wasn't given back: the call for the release before this one failed */
    RECORD_PLACE,   /* [address] is a place of the program; `struct told_place` follows */
    RECORD_WAIT,    /* [lock] wasn't free: the thread begins to wait for it; where it wasn't told yet,
                       the calls that led there follow */
    RECORD_GIVE_UP, /* [lock] was waited for, and wasn't got */
    /* Of a read-write lock whose readers are recursive: who reads it may read it again while a writer
       waits. Its writers: */
    RECORD_WRITE,     /* as RECORD_ACQUIRE */
    RECORD_TRY_WRITE, /* as RECORD_TRY */
    /* and its readers: */
    RECORD_READ,      /* [lock] was got for reading by a call that may have waited */
    RECORD_WAIT_READ, /* as RECORD_WAIT */
    /* Of other read-write locks: */
    RECORD_SHARE, /* as RECORD_READ */
    /* Of all: */
    RECORD_TRY_READ, /* [lock] was got for reading by a call that couldn't wait */
    /* What is a mistake, or may be: */
    RECORD_RELEASE_OTHER, /* as RECORD_RELEASE, by a thread that doesn't hold the lock, as that tells */
    RECORD_RELEASE_ANY,   /* as RECORD_RELEASE, of a lock that doesn't tell who holds it */
    RECORD_CONDITION,     /* as RECORD_RELEASE, by a wait on a condition */
    RECORD_KEPT,          /* [lock] wasn't destroyed, since it is held */
    RECORD_END,           /* the thread ends, unless more of it follows */
    RECORD_FRAMES, /* [lock] is about to be told as taken first, by these frames: their number and the end of what
                       is known of the stack, then each `struct told_frame`, then the stack */
    /* Of a mutex that its holder may take again: */
    RECORD_NESTING,     /* as RECORD_ACQUIRE */
    RECORD_TRY_NESTING, /* as RECORD_TRY */
    /* Of memory: */
    RECORD_FREED, /* [its start] was given back, and no lock in it is one any more; its length follows. Its number was
                     drawn before the call that did so */
};

/* In `head`: the operation (5 bits), the number of units that follow (8), the place (16), which is 0
   where there is none, and the event's number (35). */
struct unit {
    uint64_t head;
    uint64_t value;
};

/* It would take `&` for that of an address. */
/* clang-format off */
#define HEAD_OPERATION(head) ((enum operation)((head) & 0x1f))
/* clang-format on */
#define HEAD_FOLLOWING(head) ((unsigned)((head) >> 5 & 0xff))
#define HEAD_PLACE(head) ((unsigned)((head) >> 13 & 0xffff))
#define HEAD_NUMBER(head) ((head) >> 29)
#define HEAD_OF(operation, following, place, number) \
    ((uint64_t)(number) << 29 | (uint64_t)(place) << 13 | (uint64_t)(following) << 5 | (uint64_t)(operation))

/* A place is the return address of a call. The place inside it, if there is one, is that of the call
   which led from there to the recorder. */
struct told_place {
    uint64_t number;
    uint64_t inside; /* the number of that place, or 0 */
};

/* A frame: its return address, the stack there, and registers that calls keep, which on x86-64 are rbx, rbp and r12
   to r15. */
#define KEPT_REGISTERS 6
struct told_frame {
    uint64_t address;
    uint64_t stack;
    uint64_t registers[KEPT_REGISTERS];
};
#define MOST_STACK_BYTES 2560

#define PLACE_NUMBERS 65536
/* The most places that are one inside the other. */
#define MOST_INSIDE 8

struct chunk {
    uint64_t used; /* units that were asked for, maybe more than there are */
    uint64_t unused;
    struct unit units[UNITS_OF_CHUNK];
};

/* Why the recording of a process ended before the process did. */
enum ended { ENDED_NOT, ENDED_NO_SPACE, ENDED_NO_MEMORY, ENDED_BY_VALGRIND };

#define MOST_ARGUMENT_BYTES 1536

struct process {
    uint64_t magic;
    uint64_t pid;
    uint64_t started; /* nanoseconds of the system's clock that never steps back */
    /* Of a child of a fork: who forked it, and the number of the parent's next event then. */
    uint64_t parent_pid;
    uint64_t parent_started;
    uint64_t parent_task;
    uint64_t parent_number;
    uint64_t chunks;        /* chunks that were given out; the first is at CHUNK_BYTES */
    uint64_t ended;         /* enum ended */
    uint64_t lost_children; /* children of forks for which no file could be made */
    char program[2048];
    char name[256]; /* of the program, as it was started */
    uint64_t argument_bytes;
    char arguments[MOST_ARGUMENT_BYTES]; /* with its name before them, each ended by a 0; maybe cut off */
};

#define PROCESS_BYTES 4096

_Static_assert(sizeof(struct unit) == 16, "a unit is 16 bytes");
_Static_assert(sizeof(struct told_place) == sizeof(struct unit), "a place is told by one more unit");
_Static_assert(sizeof(struct told_frame) % sizeof(struct unit) == 0, "a frame is whole units");
_Static_assert(sizeof(struct chunk) == CHUNK_BYTES, "a chunk is whole");
_Static_assert(sizeof(struct process) <= PROCESS_BYTES, "the first page holds the process");

#endif
