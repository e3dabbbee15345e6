"""Streams of together more than 2 GiB, in one call of `lockgraph reduce`."""
import os
import subprocess
import time

from rooms import must, program, read, say

LARGE = 2000
MIB = 1 << 20
# What a stream may have.
LONGEST = 2048 * MIB
# The files, and what each has; a group has at most so many bytes, or one longer file.
FILES, SIZE, GROUP = 25, 100 * MIB, 256 * MIB
# All pairs of so many classes.
CLASSES = 40
# So many traces are written at once.
BATCH = 100


def nested(names):
    return [f"acquire t {it}" for it in names] + [f"release t {it}" for it in reversed(names)]


def body():
    """The lines of a trace that shows all pairs of the classes in one order, again and again."""
    return "\n".join(nested([f"c{it:02}" for it in range(CLASSES)]) * 6) + "\n"


def put_large(room):
    """Writes one file, to which each name of the others leads. Only its first trace shows something."""
    lines = body()
    path = room.path("large", "m00.trace")
    with open(path, "w", encoding="ascii") as file:
        number = 0
        while file.tell() < SIZE:
            file.write("".join(f"trace m-{number + it}\n{lines}" for it in range(BATCH)))
            number += BATCH
    for at in range(1, FILES):
        os.link(path, room.path("large", f"m{at:02}.trace"))
    return os.path.getsize(path)


def check_large(room, count):
    """More than 2 GiB in one call: the right traces are left, and memory holds a group and one file, be it that each
    is copied once as it grows."""
    if count < LARGE:
        return f"{FILES} files of {SIZE // MIB} MiB are read with --large alone"
    room.write("large/first.trace", "trace first\nacquire t A\nacquire t B\n")
    room.write("large/last.trace", "trace last\nacquire t B\nacquire t A\n")
    size = put_large(room)
    must(size * FILES > LONGEST, "large: the files have too few bytes")
    names = ["first.trace", *[f"m{it:02}.trace" for it in range(FILES)], "last.trace"]
    began = time.monotonic()
    status, memory = measured(names, room.path("large"), room.path("left"))
    took = time.monotonic() - began
    must(status == 0, f"large: status {status}")
    left = (
        "trace first\n# from first.trace 1\nacquire t A\nacquire t B\n"
        f"trace m-0\n# from m00.trace 1\n{body()}"
        "trace last\n# from last.trace 1\nacquire t B\nacquire t A\n"
    )
    must(read(room.path("left")).decode() == left, "large: another stream is left")
    must(memory <= 2 * (GROUP + size), f"large: it took {memory // MIB} MiB of memory")
    of = f"{size * FILES // MIB} MiB in files of {size // MIB} MiB"
    say(f"large: {of} took {took:.0f} s and {memory // MIB} MiB of memory")
    return None


def measured(names, folder, target):
    """How one call of `lockgraph reduce` ends, and how many bytes of memory it has had at most."""
    with open(target, "wb") as out:
        command = [program("lockgraph"), "reduce", "--from", *names]
        process = subprocess.Popen(command, cwd=folder, stdin=subprocess.DEVNULL, stdout=out)
    _, status, used = os.wait4(process.pid, 0)
    process.returncode = os.waitstatus_to_exitcode(status)
    return process.returncode, used.ru_maxrss * 1024
