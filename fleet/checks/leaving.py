"""Streams that are left with the reason, that take too long, and that are compressed."""
import bz2
import gzip
import lzma
import os
import shutil
import subprocess
import time

from rooms import call, fleet, must, night, program, read

# Stands for lockgraph: what it does with the stream `x` each time.
STAND_IN = """#!/bin/sh
case "$*" in *x.trace*) {does} ;; esac
exec {lockgraph} "$@"
"""
# What it does, and what is said of the stream then.
REASONS = [
    ("echo 'lockgraph: write failed' >&2; exit 2", "lockgraph: write failed"),
    ("exit 127", "lockgraph reduce: status 127"),
    ("kill -9 $$", "lockgraph reduce: ended by signal 9"),
    ("exec sleep 600", "lockgraph took longer than 6 s"),
    ('kill -9 "$PPID"', "no task has said why"),
]
SHORT = "Allocation error : not enough memory"
# What stands for zstd: what it does each time, if it is there at all, and what is said of the stream then.
FAILING = [
    (None, "the program zstd isn't installed here"),
    (f"echo 'zstd: error 11 : {SHORT}' >&2; exit 11", "zstd: not enough memory"),
    (f"echo '/*stdin* : Decoding error (36) : {SHORT}' >&2; exit 1", "zstd: not enough memory"),
    ("exit 104", "zstd: status 104"),
    ("kill -9 $$", "zstd: ended by signal 9"),
]
FIRST, SECOND = "acquire t A\nacquire t B\n", "acquire t B\nacquire t A\n"


def check_left(room, _count):
    """A stream that is left is told with the reason, and holds up no other, though it hangs. With a lockgraph that does
    it, the same call goes on."""
    streams, target = room.new("streams"), room.path("night")
    room.write("streams/x.trace", f"trace x\n{FIRST}")
    room.write("streams/y.trace", f"trace y\n{SECOND}")
    for does, why in REASONS:
        room.new("night")
        text = STAND_IN.format(does=does, lockgraph=program("lockgraph"))
        more = {"LOCKGRAPH": room.write("stand-in", text, 0o755)}
        began = time.monotonic()
        line = "streams 2 reduced 1 empty 0 faulty 0 left 1 refused 0 violations 0 new 0"
        said = night(streams, target, "--limit", "6", status=2, line=line, more=more)
        must(time.monotonic() - began < 300, f"left: {does}: it waited for what hangs")
        left = read(target, "night.left").decode()
        must(left == f"x.trace: {why}\n", f"left: {does}: left is {left}:\n{said}")
        night(streams, target, status=1)
        must(read(target, "night.left") == b"", f"left: {does}: an old reason stays")
    check_join_hangs(room, streams)


def check_join_hangs(room, streams):
    """A join in which lockgraph hangs is ended, and says why. Another call does it."""
    ended = call(fleet("map"), "--folder", streams, room.path("hanging"), "x.trace", "y.trace")
    must(ended.returncode == 0, f"left: {ended.stderr.decode()}")
    room.write("hanging/streams", "x.trace\0y.trace\0")
    text = f'#!/bin/sh\ncase "$*" in *--help*) exec {program("lockgraph")} "$@" ;; esac\nexec sleep 600\n'
    more = {"LOCKGRAPH": room.write("hangs", text, 0o755)}
    ended = call(fleet("join"), "--folder", streams, "--limit", "2", room.path("hanging"), more=more)
    must(
        ended.returncode == 1 and b"left: lockgraph took longer than 2 s\n" in ended.stderr,
        f"left: a join that hangs: status {ended.returncode}: {ended.stderr.decode()}",
    )
    ended = call(fleet("join"), "--folder", streams, room.path("hanging"))
    must(ended.returncode == 0, f"left: {ended.stderr.decode()}")


def by_zstd(data):
    return subprocess.run(("zstd", "-cq"), input=data, stdout=subprocess.PIPE, check=True).stdout


PACKERS = {".gz": gzip.compress, ".xz": lzma.compress, ".bz2": bz2.compress, ".zst": by_zstd}


def check_packed(room, _count):
    """A compressed stream is read as what is in it, and its traces are said to come from its name. One that was cut off
    is at fault, and so is one with a fault in it."""
    streams, target = room.new("streams"), room.path("night")
    room.write("streams/a.trace", f"trace a\n{FIRST}")
    left = [f"trace a\n# from a.trace 1\n{FIRST}"]
    for number, (ending, pack) in enumerate(PACKERS.items()):
        name, own = f"rack/m{number}.trace{ending}", f"acquire t A{number}\nacquire t B{number}\n"
        text = f"# a machine\ntrace m{number}\n{own}trace r{number}\nrelease t A\n"
        room.write(f"streams/{name}", pack(text.encode()))
        room.write(f"streams/cut{number}.trace{ending}", pack(text.encode())[:-9])
        room.write(f"streams/headless{number}.trace{ending}", pack(own.encode()))
        left += [f"trace m{number}\n# from {name} 2\n{own}", f"trace r{number}\n# from {name} 5\nrelease t A\n"]
    room.write("streams/z.trace.gz", gzip.compress(f"trace z\n{SECOND}".encode()))
    with open(os.path.join(os.fsencode(streams), b"\xff.trace.gz"), "wb") as file:
        file.write(gzip.compress(b"trace odd\nacquire t C\nacquire t D\n"))
    left += [f"trace z\n# from z.trace.gz 1\n{SECOND}", "trace odd\n# from - 1\nacquire t C\nacquire t D\n"]
    line = "streams 15 reduced 7 empty 0 faulty 8 left 0 refused 4 violations 2 new 2"
    said = night(streams, target, status=1, line=line)
    found = read(target, "night.trace").decode()
    must(found == "".join(left), f"packed: left is\n{found}\n{said}")
    told = read(target, "night.faulty").decode().splitlines()
    faulty = [it.partition(": it can't be decompressed")[0] for it in told]
    cut = [f"cut{number}.trace{ending}" for number, ending in enumerate(PACKERS)]
    headless = [
        f"lockgraph: headless{number}.trace{ending}:1: NoHeader: no line \"trace LABEL\" is above this line:"
        f' "acquire t A{number}"'
        for number, ending in enumerate(PACKERS)
    ]
    must(faulty == cut + headless, f"packed: other streams are at fault: {faulty}")
    check_outside(room, streams)
    check_failing_zstd(room, streams)


def check_outside(room, streams):
    """A compressed stream that isn't below the folder is left, and nothing is made beside it."""
    room.write("beside.trace.gz", gzip.compress(b"trace b\nacquire t A\n"))
    ended = call(fleet("map"), "--folder", streams, room.path("other"), "../beside.trace.gz")
    must(
        ended.returncode == 1 and b"is named by its path below the folder" in ended.stderr,
        f"packed: {ended.stderr.decode()}",
    )


def check_failing_zstd(room, streams):
    """A stream that was compressed by zstd is left with the reason, if there is no zstd or it fails itself. With one
    that doesn't, the same call reduces it."""
    words = (fleet("map"), "--folder", streams, room.path("failing"), "rack/m3.trace.zst")
    for does, why in FAILING:
        room.new("failing")
        programs = room.new("programs")
        os.symlink(shutil.which("python3"), os.path.join(programs, "python3"))
        if does:
            room.write("programs/zstd", f"#!/bin/sh\n{does}\n", 0o755)
        ended = call(*words, more={"PATH": programs})
        must(
            ended.returncode == 1 and f"left: {why}\n" in ended.stderr.decode(),
            f"packed: zstd that does {does}: status {ended.returncode}: {ended.stderr.decode()}",
        )
        ended = call(*words)
        must(ended.returncode == 0, f"packed: after a zstd that does {does}: {ended.stderr.decode()}")
