/* Where the recording of a process and of a thread begins and ends. */
#define _GNU_SOURCE
#include <errno.h>
#include <fcntl.h>
#include <pthread.h>
#include <stdio.h>
#include <stdlib.h>
#include <string.h>
#include <sys/mman.h>
#include <sys/resource.h>
#include <sys/stat.h>
#include <sys/syscall.h>
#include <time.h>
#include <unistd.h>

#include "next.h"
#include "recorder.h"

#if !__GLIBC_PREREQ(2, 35) || !defined(__LP64__)
#error "the recorder needs a 64-bit system with glibc 2.35 or later"
#endif

/* The file of a process is as long as this from the start, and all of it a hole. */
#define MOST_FILE_BYTES ((uint64_t)1 << 38)

struct life *life;
__thread struct self self __attribute__((tls_model("initial-exec")));

/* Valgrind doesn't take the call by which a chunk is mapped. */
bool is_under_valgrind;

static char directory[2048];
/* These two live on in a child of a fork, and say whose child it is. */
static struct process *latest;
static uint64_t generations;

static bool make_life(void)
{
    struct life *new = mmap(NULL, sizeof *new, PROT_READ | PROT_WRITE, MAP_PRIVATE | MAP_ANONYMOUS, -1, 0);
    if (new == MAP_FAILED)
        return false;
    struct life *none = NULL;
    if (madvise(new, sizeof *new, MADV_WIPEONFORK) != 0 ||
        !__atomic_compare_exchange_n(&life, &none, new, false, __ATOMIC_ACQ_REL, __ATOMIC_ACQUIRE))
        NEXT(munmap)(new, sizeof *new);
    return life != NULL;
}

static bool read_settings(void)
{
    const char *where = getenv("LOCKCHECK_RECORD_DIRECTORY");
    const char *places = getenv("LOCKCHECK_RECORD_PLACES");
    const char *readers = getenv("LOCKCHECK_RECORD_READERS");
    const char *loaded = getenv("LD_PRELOAD");
    if (!where || strlen(where) >= sizeof directory)
        return false;
    const char *callers = getenv("LOCKCHECK_RECORD_CALLERS");
    wants_places = places && strcmp(places, "1") == 0;
    is_under_valgrind = loaded && strstr(loaded, "/vgpreload_");
    leaves_readers_out = readers && strcmp(readers, "0") == 0;
    wanted_callers = callers && callers[0] >= '0' && callers[0] <= '3' ? (unsigned)(callers[0] - '0') : 0;
    strcpy(directory, where);
    return true;
}

/* A process has a file for each program that it goes on to by exec, and process numbers come again,
   so the first free name is taken. The calls of libc to open and close are places where a thread can
   be cancelled, and no lock call is one: so these go to the kernel directly. */
static int open_file(void)
{
    char path[sizeof directory + 64];
    int file = -1;
    for (unsigned turn = 0; turn < 1000000; turn++) {
        snprintf(path, sizeof path, "%s/%ld.%u", directory, (long)getpid(), turn);
        file = (int)syscall(SYS_openat, AT_FDCWD, path, O_RDWR | O_CREAT | O_EXCL | O_CLOEXEC | O_NOFOLLOW,
                            0644);
        if (file >= 0 || errno != EEXIST)
            break;
    }
    return file;
}

/* A length over the process's limit would come with a signal, so the limit is kept to. */
static bool set_length(int file)
{
    struct rlimit limit;
    uint64_t most = MOST_FILE_BYTES;
    if (getrlimit(RLIMIT_FSIZE, &limit) == 0 && limit.rlim_cur < most)
        most = limit.rlim_cur;
    for (; most >= 2 * CHUNK_BYTES; most /= 2)
        if (ftruncate(file, (off_t)most) == 0)
            return true;
    return false;
}

/* The descriptor is closed again at once: nothing that the program does to its descriptors, its root,
   its directory or its user can then end the recording. */
static struct process *make_process(void)
{
    int file = open_file();
    if (file < 0)
        return NULL;
    struct process *process = MAP_FAILED;
    if (fchmod(file, 0644) == 0 && set_length(file))
        process = mmap(NULL, PROCESS_BYTES, PROT_READ | PROT_WRITE, MAP_SHARED, file, 0);
    syscall(SYS_close, file);
    if (process == MAP_FAILED)
        return NULL;
    if (madvise(process, PROCESS_BYTES, MADV_POPULATE_WRITE) == 0)
        return process;
    NEXT(munmap)(process, PROCESS_BYTES);
    return NULL;
}

static void describe(struct process *process, const struct process *parent)
{
    struct timespec now = {0};
    clock_gettime(CLOCK_MONOTONIC, &now);
    process->pid = (uint64_t)getpid();
    process->started = (uint64_t)now.tv_sec * 1000000000 + (uint64_t)now.tv_nsec;
    snprintf(process->program, sizeof process->program, "%s", program_path());
    snprintf(process->name, sizeof process->name, "%s", program_name());
    const char *arguments = program_arguments(&process->argument_bytes);
    memcpy(process->arguments, arguments, process->argument_bytes);
    if (parent) {
        process->parent_pid = parent->pid;
        process->parent_started = parent->started;
    }
    if (parent && self.generation == generations) {
        process->parent_task = self.task;
        process->parent_number = self.last_number;
    }
    __atomic_store_n(&process->magic, PROCESS_MAGIC, __ATOMIC_RELEASE);
}

static bool start_recording(void)
{
    struct process *parent = latest;
    if (!parent && !read_settings())
        return false;
    find_own_place();
    struct process *process = make_process();
    if (!process) {
        if (parent)
            __atomic_fetch_add(&parent->lost_children, 1, __ATOMIC_RELAXED);
        return false;
    }
    describe(process, parent);
    if (parent)
        NEXT(munmap)(parent, PROCESS_BYTES);
    forget_chunks();
    latest = process;
    life->process = process;
    life->generation = ++generations;
    return true;
}

static bool begin_process(void)
{
    if (!life && !make_life())
        return false;
    uint64_t state = STATE_NEW;
    if (__atomic_compare_exchange_n(&life->state, &state, STATE_BEGINNING, false, __ATOMIC_ACQ_REL,
                                    __ATOMIC_ACQUIRE)) {
        state = start_recording() ? STATE_RECORDING : STATE_OFF;
        __atomic_store_n(&life->state, state, __ATOMIC_RELEASE);
    }
    return state == STATE_RECORDING;
}

/* Answers whether this thread can record, after it has begun to where it hadn't. What a signal
   handler or another thread does while a recording begins isn't recorded. */
bool begin(void)
{
    int error = errno;
    bool can = begin_process();
    if (can && self.generation != life->generation) {
        self.chunk = NULL;
        self.last_number = 0;
        self.thread = (int)syscall(SYS_gettid);
        memset(self.calls, 0, sizeof self.calls);
        memset(self.first, 0, sizeof self.first);
        self.task = __atomic_add_fetch(&life->tasks, 1, __ATOMIC_RELAXED);
        self.generation = life->generation;
    }
    errno = error;
    return can;
}

void end_recording(enum ended why)
{
    uint64_t not_yet = ENDED_NOT;
    __atomic_compare_exchange_n(&life->process->ended, &not_yet, why, false, __ATOMIC_RELAXED,
                                __ATOMIC_RELAXED);
    __atomic_store_n(&life->state, STATE_OFF, __ATOMIC_RELEASE);
}

/* A child has what its parent had when it was forked, which is told by the parent's next number. */
static void before_fork(void)
{
    if (life && self.generation == life->generation)
        self.last_number = __atomic_load_n(&life->numbers, __ATOMIC_RELAXED);
}

static void in_child(void)
{
    begin();
}

__attribute__((constructor)) static void start(void)
{
    int error = errno;
    find_all_next();
    keep_chunks();
    pthread_atfork(before_fork, NULL, in_child);
    begin();
    errno = error;
}
