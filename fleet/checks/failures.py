"""What fails: programs that are killed, and disks that are full."""
import os
import subprocess

import planted
from machine import SMALL, made
from rooms import call, fleet, must, must_be_same, night, parts_in, program, read, say, unnoted, without_parallel

# Stands for lockgraph: what it does with the stream `x`, once.
STAND_IN = """#!/bin/sh
case "$*" in *x.trace*) if mkdir "{room}/once" 2>/dev/null; then {does}; fi ;; esac
exec {lockgraph} "$@"
"""
FAILURES = [
    "echo 'lockgraph: write failed' >&2; exit 2",
    "echo 'lockgraph: out of memory' >&2; exit 2",
    "echo 'lockgraph: x.trace: read failed' >&2; exit 2",
    "echo 'lockgraph: x.trace: Input/output error (os error 5)' >&2; exit 2",
    "echo 'lockgraph: uneven at 3' >&2; exit 2",
    "echo 'trace half'; exit 1",
    "echo 'trace half'; kill -9 $$",
    "exit 127",
]


def check_statuses(room, _count):
    """Only a fault of the stream itself makes it faulty. Whatever else fails leaves nothing, and is done the next
    time."""
    streams, text = room.new("streams"), "trace x\nacquire t A\nacquire t B\n"
    room.write("streams/x.trace", text)
    room.write("streams/y.trace", text.replace("trace x", "trace y"))
    for does in FAILURES:
        room.new("once")
        os.rmdir(room.path("once"))
        target = room.new("night")
        stand_in = room.write(
            "stand-in", STAND_IN.format(room=room.folder, does=does, lockgraph=program("lockgraph")), 0o755
        )
        words = [fleet("map"), target, "x.trace", "y.trace"]
        first = call(*words, folder=streams, more={"LOCKGRAPH": stand_in})
        must(
            first.returncode == 1 and b"1 of 2 streams are left" in first.stderr,
            f"statuses: {does}: {first.stderr.decode()}",
        )
        must(
            sorted(os.listdir(os.path.join(target, "map"))) == ["y.trace.counts", "y.trace.reduced"],
            f"statuses: {does}: something is left",
        )
        second = call(*words, folder=streams, more={"LOCKGRAPH": stand_in})
        must(
            second.returncode == 0 and unnoted(read(target, "map/x.trace.reduced")).decode() == text,
            f"statuses: {does}: {second.stderr.decode()}",
        )


# Stands for a lockgraph whose help has another option, which it takes, and notes the words of each call.
WITH_OPTION = """#!/bin/sh
case "$*" in *--help) echo "  {option}"; exit ;; esac
echo "$*" >>{room}/said
[ "$4" != --from ] || shift 4
exec {lockgraph} reduce "$@"
"""


def check_from(room, _count):
    """A lockgraph that can note where each trace comes from is asked to, when it reads a recorded stream; another one
    is not."""
    room.write("streams/x.trace", "trace x\nacquire t A\nacquire t B\n")
    for option, words in (("--from", "reduce --workers 1 --from x.trace"), ("--other", "reduce --workers 1 x.trace")):
        text = WITH_OPTION.format(room=room.folder, lockgraph=program("lockgraph"), option=option)
        if option != "--from":
            text = text.replace('reduce "$@"', '"$@"')
        more = {"LOCKGRAPH": room.write("stand-in", text, 0o755)}
        ended = call(fleet("map"), room.new("night"), "x.trace", folder=room.path("streams"), more=more)
        must(ended.returncode == 0, f"from: {ended.stderr.decode()}")
        said = read(room.path("said")).decode()
        must(said == words + "\n", f"from: it is called with: {said}")
        os.unlink(room.path("said"))


def check_killed(room, _count):
    """A task that is killed loses nothing: the night goes round again."""
    streams = made(room, "streams", SMALL)
    night(streams, room.path("alone"), status=1)
    for turn, does in enumerate(("kill -9 $PPID; exit 1", "kill -9 $$")):
        stand_in = room.write(
            "stand-in",
            STAND_IN.format(room=room.folder, does=does, lockgraph=program("lockgraph")).replace(
                "x.trace", "m00009.trace"
            ),
            0o755,
        )
        said = night(
            streams, room.path(f"night{turn}"), status=1, line=planted.summary(SMALL), more={"LOCKGRAPH": stand_in}
        )
        must("round 2:" in said, f"killed: there was no second round:\n{said}")
        must_be_same(room.path("alone"), room.path(f"night{turn}"), "killed")
        must(not parts_in(room.path(f"night{turn}")), "killed: parts are left")
        os.rmdir(room.path("once"))
    check_poisoned(room, streams)


def check_poisoned(room, streams):
    """A stream that kills its task each time is told in the end, and holds up no other. It is the first one, with one
    job, for each program that runs tasks."""
    poison = planted.path(0)
    stand_in = room.write(
        "stand-in",
        f'#!/bin/sh\ncase "$*" in *{poison}*) kill -9 "$PPID";; esac\nexec {program("lockgraph")} "$@"\n',
        0o755,
    )
    for turn, more in enumerate(({}, without_parallel(room))):
        target = room.path(f"poisoned{turn}")
        words = [streams, target, "--jobs", "1"]
        said = night(*words, status=2, more={"LOCKGRAPH": stand_in, **more}, line=None)
        left = read(target, "night.left").decode()
        must(left == f"{poison}: no task has said why\n", f"killed: left is {left}:\n{said}")
        night(*words, status=1, line=planted.summary(SMALL))
        must_be_same(room.path("alone"), target, "killed")


def check_lost(room, _count):
    """A machine that fails may lose what wasn't synced: counts, or their bytes. Their streams are reduced again."""
    streams = made(room, "streams", SMALL)
    night(streams, room.path("alone"), status=1)
    night(streams, room.path("night"), status=1)
    for number, bytes_left in ((9, ""), (14, "\0" * 30)):
        room.write(f"night/map/rack4%2F{os.path.basename(planted.path(number))}.counts", bytes_left)
    os.unlink(room.path("night", "map", f"rack1%2F{os.path.basename(planted.path(21))}.counts"))
    said = night(streams, room.path("night"), status=1, line=planted.summary(SMALL))
    must(f"{SMALL} streams, 3 of them to be reduced" in said, f"lost: another number of streams is reduced:\n{said}")
    must_be_same(room.path("alone"), room.path("night"), "lost")
    # What an earlier call summed up says nothing of one that fails.
    night(streams, room.path("night"), "--known", room.path("none"), status=2)
    must(not os.path.exists(room.path("night", "night.summary")), "lost: a night that failed has an old summary")


def check_full(room, _count):
    """A full disk loses nothing, and is told; with more room the same call goes on."""
    streams = made(room, "streams", SMALL)
    night(streams, room.path("alone"), status=1)
    # No file may have a byte: then not even a fault can be noted.
    names = [planted.path(0), planted.path(planted.FAULTY)]
    words = [fleet("map"), "--folder", streams, room.path("none"), *names]
    none = call("sh", "-c", 'ulimit -f 0; exec "$@"', "sh", *words)
    must(none.returncode == 1 and b"2 of 2 streams are left" in none.stderr, f"full: {none.stderr.decode()}")
    must(os.listdir(room.path("none", "map")) == [], "full: something is left where nothing can be")
    # No file may have more than 4 KiB.
    limited = call("sh", "-c", 'ulimit -f 8; exec "$@"', "sh", fleet("night"), streams, room.path("limited"))
    must(limited.returncode == 2, f"full: status {limited.returncode}: {limited.stderr.decode()}")
    must(
        not [
            it
            for it in os.listdir(room.path("limited", "map"))
            if it.endswith(".reduced") and os.path.getsize(room.path("limited", "map", it)) > 4096
        ],
        "full: a file is larger than files may be",
    )
    must(not parts_in(room.path("limited")), "full: parts are left")
    night(streams, room.path("limited"), status=1, line=planted.summary(SMALL))
    must_be_same(room.path("alone"), room.path("limited"), "full")
    check_full_disk(room, streams)


def check_full_disk(room, streams):
    """The same of a disk."""
    room.new("disk")
    try:
        mounted = subprocess.run(
            ["mount", "-t", "tmpfs", "-o", "size=128k", "tmpfs", room.path("disk")], capture_output=True, check=False
        )
    except OSError:
        mounted = None
    if mounted is None or mounted.returncode != 0:
        say("no disk of its own can be mounted here: a full one isn't checked, files that may not grow are")
        return
    ended = call(fleet("night"), streams, room.path("disk", "night"))
    said = ended.stderr.decode()
    must(ended.returncode == 2, f"full: status {ended.returncode} on a full disk: {said}")
    must("write failed" in said or "No space left" in said, f"full: it isn't told:\n{said}")
    must(
        not [
            it for it in os.listdir(room.path("disk", "night", "map")) if it.endswith(".faulty") and not is_at_fault(it)
        ],
        "full: a stream is told to be faulty",
    )
    must(not parts_in(room.path("disk")), "full: parts are left on the disk")
    # What is full needn't be the night's disk, if nothing of the night is there.
    words = {"TMPDIR": room.path("disk")}
    night(streams, room.path("elsewhere"), status=1, line=planted.summary(SMALL), more=words)
    must_be_same(room.path("alone"), room.path("elsewhere"), "full")
    subprocess.run(["mount", "-o", "remount,size=64m", room.path("disk")], check=True)
    night(streams, room.path("disk", "night"), status=1, line=planted.summary(SMALL))
    must_be_same(room.path("alone"), room.path("disk", "night"), "full")


def is_at_fault(name):
    return planted.is_faulty(int(name.partition("m")[2][:5]))
