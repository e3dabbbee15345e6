"""The end of a program, its input and output, its descriptors and signals are its own, also where it is recorded."""

import os
import signal
import subprocess
import sys

from planting import COMPILERS, RUN, Planted, call, lockcheck, must, record, said


def check_statuses(directory):
    """The end, the input, the output and the descriptors are the program's own."""
    stream = os.path.join(directory, "sh.trace")
    for script, status in (("exit 7", 7), ("kill -TERM $$", -signal.SIGTERM),
                           ("kill -SEGV $$", -signal.SIGSEGV)):
        answer = record(stream, "sh", ["sh", "-c", script])
        must(answer.returncode == status, f"sh -c '{script}': status {answer.returncode}")
    answer = record(stream, "none", [os.path.join(directory, "there is no such program")])
    must(answer.returncode == 127, f"no program: status {answer.returncode}")
    answer = record(stream, "sh", ["sh", "-c", "cat; echo words >&2; exit 3"], input="lines\n")
    said(answer)
    must((answer.stdout, answer.stderr, answer.returncode) == ("lines\n", "words\n", 3),
         "sh: input, output or status are not the program's own")
    with open(os.path.join(directory, "handed"), "w+b") as file:
        # A shell takes descriptors of one digit alone.
        script = f"import os; os.write({file.fileno()}, b'handed down')"
        answer = record(stream, "handed", [sys.executable, "-c", script], pass_fds=[file.fileno()])
        file.seek(0)
        must(file.read() == b"handed down", f"a descriptor wasn't handed down: {answer.stderr}")


def check_signal(directory):
    """A signal to `run` goes on to the program, and what was recorded by then is kept."""
    stream = os.path.join(directory, "term.trace")
    program = subprocess.Popen([RUN, "-o", stream, "sh", "-c", "echo ready; exec sleep 30"],
                               stdout=subprocess.PIPE, stderr=subprocess.DEVNULL, text=True)
    must(program.stdout.readline() == "ready\n", "sh wasn't started")
    program.send_signal(signal.SIGTERM)
    must(program.wait(timeout=120) == -signal.SIGTERM, "SIGTERM didn't go on to the program")
    must(os.path.exists(stream), "there is no stream after SIGTERM")


SLOW_START = """\
import os, signal, subprocess
quick = subprocess.Popen
def slow(*words, **settings):
    subprocess.Popen = quick
    program = quick(*words, **settings)
    os.kill(os.getpid(), signal.SIGTERM)
    return program
subprocess.Popen = slow
"""


def check_early_signal(directory):
    """So does one that comes while the program starts, before `run` knows of it."""
    # Python imports a module of this name at its start: so `run` sends itself the signal, right behind the start.
    with open(os.path.join(directory, "sitecustomize.py"), "w", encoding="ascii") as module:
        module.write(SLOW_START)
    answer = record(os.path.join(directory, "early.trace"), "early", ["sleep", "30"],
                    env=os.environ | {"PYTHONPATH": directory})
    must(answer.returncode == -signal.SIGTERM, "a SIGTERM at the start didn't go on to the program")


def check_sanitizers(directory):
    """A program with a sanitizer is recorded as the same one without, also if there are options for the sanitizer."""
    planted = Planted("inversion.c")
    for name in ("address", "thread", "undefined", "leak"):
        program = os.path.join(directory, f"by-{name}", "inversion")
        os.mkdir(os.path.dirname(program))
        flag = f"-fsanitize={name}"
        if call([*COMPILERS[".c"], flag, "-x", "c", "-o", program, "-"], input="int main(void) { return 0; }").returncode:
            continue
        planted.compile([flag], program)
        alone = call([program])
        if alone.returncode:  # this sanitizer doesn't run here
            continue
        for options in ({}, {"ASAN_OPTIONS": "detect_leaks=0"}):
            answer = record(program + ".trace", "inversion", [program], env=os.environ | options)
            said(answer)
            must((answer.returncode, answer.stdout, answer.stderr) == (0, alone.stdout, alone.stderr), f"{name}: {answer}")
            with open(program + ".trace", encoding="ascii") as lines:
                report = lockcheck(lines.read()).stdout
            must(planted.matches(report), f"{name}: {report}")


# Memory that was freed is given again if it is as long, the latest first. What is left of a look-up that fails is freed
# by the next one.
ALLOCATOR = """\
#define _GNU_SOURCE
#include <dlfcn.h>
#include <errno.h>
#include <stddef.h>
#include <string.h>
#include <sys/mman.h>

#define BYTES (1 << 24)

struct block {
    size_t size;
    struct block *next;
};

static char *all;
static size_t used;
static struct block *freed;
static char is_busy;

void *malloc(size_t size)
{
    size = (size + 15) / 16 * 16;
    if (size > BYTES / 2) {
        errno = ENOMEM;
        return NULL;
    }
    while (__atomic_test_and_set(&is_busy, __ATOMIC_ACQUIRE))
        ;
    if (!all)
        all = mmap(NULL, BYTES, PROT_READ | PROT_WRITE, MAP_PRIVATE | MAP_ANONYMOUS, -1, 0);
    struct block **place = &freed, *block = (struct block *)&all[used];
    while (*place && (*place)->size != size)
        place = &(*place)->next;
    if (*place) {
        block = *place;
        *place = block->next;
    } else {
        used += sizeof *block + size;
        block->size = size;
    }
    block->next = (struct block *)0x1002; /* libc would take it for a length */
    __atomic_clear(&is_busy, __ATOMIC_RELEASE);
    return block + 1;
}

void free(void *memory)
{
    struct block *block = (struct block *)memory - 1;
    if (!memory)
        return;
    while (__atomic_test_and_set(&is_busy, __ATOMIC_ACQUIRE))
        ;
    block->next = freed;
    freed = block;
    __atomic_clear(&is_busy, __ATOMIC_RELEASE);
}

void *calloc(size_t count, size_t size)
{
    void *made = malloc(count * size);
    return made ? memset(made, 0, count * size) : NULL;
}

void *realloc(void *memory, size_t size)
{
    size_t old = memory ? ((struct block *)memory - 1)->size : 0;
    void *made = malloc(size);
    if (made && memory) {
        memcpy(made, memory, old < size ? old : size);
        free(memory);
    }
    return made;
}

#ifdef TELLS_SIZES
size_t malloc_usable_size(void *memory)
{
    return memory ? ((struct block *)memory - 1)->size : 0;
}
#endif

__attribute__((constructor)) static void begin(void)
{
    dlsym(RTLD_DEFAULT, "nothing has this name");
    free(malloc(1));
}
"""


def check_allocators(directory):
    """A program with an allocator of its own is recorded by that. Where it tells no sizes, what is freed isn't seen."""
    planted = Planted("freed.cc")
    for name, flags, is_seen in (("sizes", ["-DTELLS_SIZES"], True), ("no-sizes", [], False)):
        folder = os.path.join(directory, f"by-allocator-{name}")
        library, program = os.path.join(folder, "liballocator.so"), os.path.join(folder, "freed")
        os.mkdir(folder)
        built = call([*COMPILERS[".c"], "-O1", "-fno-builtin", "-fPIC", "-shared", *flags, "-x", "c", "-o", library, "-"],
                     input=ALLOCATOR)
        must(built.returncode == 0, f"allocator: {built.stderr}")
        planted.compile(["-O0", "-Wl,--no-as-needed", library, f"-Wl,-rpath,{folder}"], program)
        must(call([program]).returncode == 0, f"{name}: the program fails alone")
        answer = record(program + ".trace", "freed", [program])
        said(answer)
        must((answer.returncode, answer.stdout, answer.stderr) == (0, "", ""), f"{name}: {answer}")
        with open(program + ".trace", encoding="ascii") as lines:
            report = lockcheck(lines.read()).stdout
        must(bool(planted.matches(report)) == is_seen and " refused 0 " in report, f"{name}: {report}")


def check_no_space(directory):
    """Where a file can't grow the recording ends, `run` says so, and the program goes on."""
    stream = os.path.join(directory, "space.trace")
    script = f"ulimit -f 512; exec {os.path.join(directory, 'hides-0', 'hides')} root"
    answer = record(stream, "space", ["sh", "-c", script])
    must(answer.returncode == 0, f"no space: status {answer.returncode}")
    must("recording ended before it did: no space on the disk" in said(answer),
         "no space: run doesn't say that the recording ended")
    with open(stream, encoding="ascii") as lines:
        report = lockcheck(lines.read()).stdout
    must(" refused 0 " in report and " events 0 " not in report, f"no space: {report}")
