/* What the parts of the merger know of each other. */
#ifndef MERGER_H
#define MERGER_H

#include <stdbool.h>
#include <stddef.h>
#include <stdint.h>
#include <stdio.h>

#include "../library/recording.h"

/* The limits of a trace (docs/FORMAT.md). */
enum {
    MOST_NAME = 64,
    MOST_TASKS = 1024,
    MOST_CLASSES = 8191,
    MOST_HELD = 96,
    MOST_TRACES = 65535,
    MOST_CUT_TRACES = 60000, /* after these a trace isn't cut any more, so that the stream can be read */
};
#define MOST_STREAM_BYTES INT64_C(2147483648)

/* What tells the class of a lock. */
enum telling {
    TOLD_BY_LINE,    /* the source line that initialised it */
    TOLD_BY_FIRST,   /* no call initialised it: the source line that took it first */
    TOLD_BY_ADDRESS, /* the address of such a call, for want of debug information */
    TOLD_BY_STATIC,  /* the variable that it is */
    TOLD_BY_MEMBER,  /* the member of a record that it is */
};

struct bytes {
    const unsigned char *at;
    const unsigned char *end;
};

/* A function in which a place in code is, by the source: of a place in a function that the compiler put
   into others there are several. */
struct frame {
    const char *function; /* NULL where it isn't known */
    const char *file;
    unsigned line;   /* 0 where it isn't known */
    unsigned column; /* likewise: of outer frames where a lock is initialised alone */
};

/* A place in the code of a file, and its frames, the innermost first. */
struct site {
    uint64_t offset;
    struct frame *frames;
    size_t frame_count;
    const char *file; /* as the table of lines has it */
    unsigned line;    /* likewise, or 0 */
    unsigned column;
    bool is_init; /* a lock is initialised there */
};

struct binary {
    char *path;
    char *name;        /* what others link it by, or its own without directories */
    const char *bytes; /* NULL where it can't be read */
    uint64_t length;
    struct symbol *symbols;
    size_t symbol_count;
    size_t symbol_room;
    struct site *sites;
    size_t site_count;
    size_t site_room;
    struct sources *sources;
    struct debug *debug;
};

struct module {
    uint64_t start;
    uint64_t last;
    uint64_t load;
    char *path;
    const char *name; /* as classes have it */
    struct binary *binary;
};

struct modules {
    const struct process *process;
    struct module *all;
    size_t count;
    size_t room;
};

/* A call that led to a lock's beginning. */
struct call {
    const struct module *module; /* NULL where the place is in none */
    uint64_t offset;             /* in the file */
    struct frame frame;
};

struct class {
    struct class *readers; /* what recursive readers of its locks wait for, or NULL */
    struct class *locks;   /* of such a class: that of the locks, else NULL */
    char *name;
    char *places; /* how and where its locks came to be, for a reader */
    enum telling telling;
    uint64_t instances;
    uint64_t trace;           /* the latest trace that it is in */
    char *maker;              /* the function that makes its locks, as --through has it, or NULL */
    uint64_t callers;         /* a number for the calls up to that function, the first time */
    bool has_several_callers; /* they were others too */
    uint64_t under_itself;    /* how often one of its locks was taken under another */
};

/* Mistakes that aren't ones of order. */
enum misuse {
    MISUSE_OTHER,     /* a lock was given back by a thread that doesn't hold it */
    MISUSE_UNTOLD,    /* likewise; where it was taken is known alone */
    MISUSE_FREE,      /* a lock was given back that nobody holds */
    MISUSE_DESTROYED, /* a lock was destroyed while it was held */
    MISUSE_ENDED,     /* a thread ended while it held a lock */
    MISUSE_CONDITION, /* a thread waited on a condition while it held another lock */
};

/* The lock at an address, or what was last there. */
struct lock {
    uint64_t address;
    struct class *class; /* none where there is no lock now */
    uint64_t instance;
    uint32_t holder;  /* the task that has it alone, or 0 */
    uint32_t readers; /* how many times it is held by tasks that share it */
    uint32_t level;
};

/* That a task holds a lock. */
struct hold {
    uint32_t lock;   /* its number */
    uint32_t place;  /* of the program, where it was taken */
    bool is_shared;  /* by a reader */
    bool is_split;   /* by a writer, which holds what the readers wait for too */
    bool is_written; /* the stream says so */
};

/* How a lock was got. */
struct taking {
    bool waits; /* or might have */
    bool is_shared;
    bool is_recursive; /* the lock's readers may read it again while a writer waits */
    bool nests;        /* its holder may take it again */
};

struct locks {
    struct lock *all;
    size_t count;
    size_t room;
    uint32_t *slots; /* 1 and the number of a lock, or 0 */
    size_t slot_count;
};

/* Where a record stands in the file, and which task wrote it. */
struct place {
    uint32_t unit;
    uint32_t task;
};

/* That a task waits for a lock. */
struct wait {
    const struct unit *first; /* of the record */
    uint32_t task;
    size_t held; /* how many locks the task held then */
};

/* What a child of a fork begins with. */
struct start {
    struct locks locks;
    struct modules modules;
    struct hold *held;
    size_t held_count;
};

struct recording {
    const char *bytes;
    size_t length;
    const struct process *process;
    struct place *places; /* in the order of the records' numbers */
    size_t place_count;
    size_t place_room;
    struct start start;
};

struct totals {
    uint64_t events;
    uint64_t traces;
    uint64_t too_deep;
    uint64_t not_taken_up;
    uint64_t damaged;
};

#define MOST_CALLERS 3

struct settings {
    uint64_t cut;       /* lines after which a new trace begins, or 0 */
    uint64_t callers;   /* how many calls that led to a place are said, at most MOST_CALLERS */
    bool has_instances; /* each lock is a class of its own */
};

extern FILE *stream;
extern struct totals totals;

/* settings.c */
extern struct settings settings;
int read_settings(int count, char **words);

/* helpers.c */
__attribute__((format(printf, 1, 2))) void say(const char *format, ...);
void *must(void *memory);
void *grown(void *all, size_t count, size_t *room, size_t size);
typedef void *slot_of_element(void *all, size_t room, const void *element);
void *grown_table(void *all, size_t count, size_t *room, size_t size, slot_of_element *slot_of);
const char *base_of(const char *path);
const char *text_in(struct bytes bytes, uint64_t offset);
uint32_t checksum(const char *text);
void append_clean(char *text, size_t size, const char *bytes, const char *without);
void cut_name(char *text, size_t most);

/* files.c */
size_t read_recordings(const char *directory, struct recording **recordings);
void place_records(struct recording *recording);
void place_long_records(struct recording *recording);
bool still_runs(const struct recording *all, size_t count, size_t which);
const struct unit *unit_at(const struct recording *recording, uint32_t unit);

/* refused.c */
void note_refused(uint64_t number);
void leave_out_refused(struct recording *recording);

/* binaries.c */
extern struct binary **binaries;
extern size_t binary_count;
struct binary *binary_of(const char *path);
struct bytes section_of(const struct binary *binary, const char *name);
const char *symbol_at(const struct binary *binary, uint64_t address, uint64_t *offset);

/* code.c */
uint64_t called_before(const struct binary *binary, uint64_t address);
void each_call(struct binary *binary, bool (*is_wanted)(const struct binary *, uint64_t),
               void (*see)(struct binary *, uint64_t, bool));
void each_import(struct binary *binary, void (*see)(struct binary *, const char *, uint64_t));
void each_symbol(struct binary *binary, void (*see)(struct binary *, const char *, uint64_t));

/* debug.c */
const struct binary *debug_file_of(const struct binary *binary);

/* lines.c */
void find_lines(struct binary *binary);

/* frames.c */
extern bool has_addr2line;
void ask_for(struct binary *binary, uint64_t offset);
void ask_for_init(struct binary *binary, uint64_t offset);
void find_frames(void);
const struct site *site_at(const struct binary *binary, uint64_t offset);

/* functions.c */
void short_function(char *text, size_t size, const char *function);
void know_function(const struct frame *frame);
const char *function_of(const struct frame *frame);
bool is_maker(const struct frame *frame);
bool is_through(const char *function, const char *short_name, bool *is_met);
bool may_be_maker(const char *symbol);
bool is_through_type(const char *type);
void add_through_type(const char *type);
extern char **through;
extern size_t through_count;
extern bool *through_met;

/* members.c */
void add_frames_told(const struct modules *modules, const struct unit *first);
const char *member_of_calls(const struct modules *modules, const struct unit *first, unsigned following);

/* inlined.c */
void mend_by_entries(struct binary *binary, struct site *site);

/* sources.c */
void ask_for_sources(struct binary *binary);
unsigned number_in_function(const struct binary *binary, const struct frame *frame);

/* modules.c */
void add_module(struct modules *modules, const struct unit *first, unsigned following);
const struct module *module_at(const struct modules *modules, uint64_t address);

/* calls.c */
void ask_for_calls(const struct modules *modules, const uint64_t *calls, unsigned count);
void ask_for_inits(const struct modules *modules, const uint64_t *calls, unsigned count);
bool leads_through(const struct call *call);
bool is_place_through(const struct binary *binary, uint64_t offset);
uint64_t sum_of_calls(const struct modules *modules, const uint64_t *calls, unsigned count);
void name_function(char *name, size_t size, const struct call *call);
bool telling_call(const struct modules *modules, const uint64_t *calls, unsigned count, struct call *call,
                  uint64_t *callers);
size_t telling_calls(const struct modules *modules, const uint64_t *calls, unsigned count, struct call *found,
                     size_t most);

/* classes.c */
struct class *class_of_init(const struct modules *modules, const struct unit *first, unsigned following);
struct class *class_of_first(const struct modules *modules, const struct unit *first, unsigned following);
struct class *class_of_static(const struct modules *modules, uint64_t address);
struct class *readers_of(struct class *class);
struct class *class_of_instance(struct class *class);
size_t class_count(void);
size_t classes_told(enum telling telling);
void each_class(void (*see)(const struct class *));
void write_classes(void);

/* locks.c */
struct lock *find_lock(struct locks *locks, uint64_t address, bool make);
void copy_locks(struct locks *to, const struct locks *from);
void free_locks(struct locks *locks);

/* places.c */
bool open_places(const char *directory);
void begin_places(void);
void ask_for_place(const struct modules *modules, const struct unit *first);
void add_place(const struct modules *modules, const struct unit *first);
uint32_t place_numbered(unsigned number);
void name_place(char *text, size_t size, uint32_t place);
void end_line(uint32_t place, const struct class *class);
bool close_places(const char *stream_path);
size_t lost_places(void);
bool remove_places(const char *stream_path);

/* trace.c */
void begin_writer(const char *label, size_t process);
void end_writer(void);
void hold_from_start(uint32_t task, struct locks *locks, struct hold hold);
void write_got(struct taking taking, uint32_t task, struct locks *locks, struct lock *lock, uint32_t place);
void write_waiting(bool is_recursive, uint32_t task, struct locks *locks, const struct lock *lock,
                   uint32_t place);
void write_released(uint32_t task, struct lock *lock, struct locks *locks);
uint32_t place_of_hold(uint32_t task, const struct locks *locks, const struct lock *lock);
void end_task(uint32_t task);
void note_ended(const struct locks *locks);
bool does_hold(uint32_t task, const struct locks *locks, const struct lock *lock);
uint32_t next_holder(uint32_t task, const struct locks *locks, const struct lock *lock);
size_t held_by(uint32_t task, const struct hold **held);

/* misuse.c */
void note_misuse(enum misuse how, const struct class *class, const struct class *other, uint32_t place);
void say_misuse(void);

/* waits.c */
void begin_wait(uint32_t task, const struct unit *first);
void end_wait(uint32_t task, uint64_t address);
void end_waits_from(uint32_t task, size_t held);
size_t waits_left(const struct wait **all);
void forget_waits(void);

/* instances.c */
void note_order(const struct lock *outer, const struct lock *inner);
void write_instances(void);

/* replay.c */
void survey(struct recording *all, size_t count);
void replay(struct recording *all, size_t count, size_t which, const char *label);

#endif
