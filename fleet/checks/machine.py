"""Nights on one machine."""
import os
import re
import signal
import subprocess

import planted
from rooms import MARK, call, fleet, marked, must, must_be_same, night, parts_in, program, read, unnoted, until

# So many streams have one at least of each kind.
SMALL = 31


def made(room, name, count):
    """A folder of a night's streams."""
    planted.put(room.new(name), count)
    return room.path(name)


def violations(text):
    """The lines of the violations of a stream, with lines counted from the header of each trace."""
    text = unnoted(text)
    headers = {line.split()[1]: at for at, line in enumerate(text.split(b"\n"), 1) if line.startswith(b"trace ")}
    report = call(program("lockcheck"), data=text).stdout.split(b"\n")
    lines = [it for it in report[1:] if not it.startswith(b"refused ")]
    return [re.sub(rb"(\S+):(\d+)", lambda at: b"%s:+%d" % (at[1], int(at[2]) - headers[at[1]]), it) for it in lines]


def kinds(report):
    """How the lines of the violations in a report begin: kind and classes."""
    found = re.findall(
        r"(?m)^(recursion \S+|inversion \S+ -> \S+|conflict \S+ \S+|forbidden \S+ \S+ \S+ in \S+ -> \S+)",
        report.decode(),
    )
    return sorted(found)


def must_be_of_all(streams, count, made_of, name):
    """A night has the violations that were planted, and those of one lockcheck over all streams; its stream is that of
    one call over all."""
    good = sorted(planted.path(it) for it in range(count) if not planted.is_faulty(it))
    text = b"".join(read(streams, it) for it in good)
    left = read(made_of, "night.trace")
    must(
        kinds(read(made_of, "night.report")) == planted.violations(count),
        f"{name}: other violations than those that were planted",
    )
    must(violations(left) == violations(text), f"{name}: other violations than those of one lockcheck over all streams")
    whole = call(program("lockgraph"), "reduce", "--from", "--keep-refused", *good, folder=streams)
    must(whole.stdout == left, f"{name}: another stream than that of one call over all")


def check_night(room, count):
    """A night is that of one call over all; each stream at fault is told; and a second call does nothing."""
    streams, made_of = made(room, "streams", count), room.path("night")
    night(streams, made_of, status=1, line=planted.summary(count))
    must_be_of_all(streams, count, made_of, "night")
    told = [f"lockgraph: {planted.path(it)}:{planted.fault(it)}" for it in range(count) if planted.is_faulty(it)]
    must(sorted(read(made_of, "night.faulty").decode().splitlines()) == sorted(told), "night: other faults are told")
    refused = [f"1 {planted.path(it)}" for it in range(count) if planted.is_refused(it)]
    must(
        sorted(read(made_of, "night.refused").decode().splitlines()) == sorted(refused),
        "night: other refused traces are told",
    )
    must(not parts_in(made_of), f"night: parts are left: {parts_in(made_of)}")
    before = {it: os.stat(os.path.join(made_of, "map", it)).st_ino for it in os.listdir(os.path.join(made_of, "map"))}
    night(streams, made_of, status=1, line=planted.summary(count))
    after = {it: os.stat(os.path.join(made_of, "map", it)).st_ino for it in os.listdir(os.path.join(made_of, "map"))}
    must(before == after, "night: done again, it doesn't do only what is missing")


def check_groups(room, _count):
    """Groups make no difference; a stream that was written anew is reduced anew, and one that was added is added."""
    streams = made(room, "streams", SMALL)
    night(streams, room.path("one"), status=1)
    said = night(streams, room.path("many"), "--group", "0.01", "--each", "1", status=1)
    must("level 4" in said, f"groups: the tree isn't deep:\n{said}")
    must_be_same(room.path("one"), room.path("many"), "groups")
    added = os.path.join(streams, "rack9", "m99999.trace")
    os.makedirs(os.path.dirname(added))
    with open(added, "w", encoding="ascii") as file:
        file.write("trace late-0\nacquire t late_a\nacquire t late_b\n")
    changed = os.path.join(streams, planted.path(0))
    with open(changed, "w", encoding="ascii") as file:
        file.write("trace late-1\nacquire t late_b\nacquire t late_a\n")
    os.utime(changed, (1_000_000_000, 1_000_000_000))
    night(streams, room.path("one"), status=1)
    must(
        b"inversion late_a -> late_b" in read(room.path("one"), "night.report"),
        "groups: streams that came later aren't seen",
    )
    check_some(room, streams)


def check_some(room, streams):
    """A night's stream is that of its last call, whatever others made of other streams, or where they ended."""
    some, target = room.write("some", f"{planted.path(1)}\n{planted.path(2)}\n"), room.path("one")
    left = []
    for words in ([], ["--list", some], []):
        night(streams, target, *words, status=1 if not words else 0)
        left.append(read(target, "night.trace"))
    must(left[0] == left[2] != left[1], "groups: the night's stream is that of another call")
    # As a disk that got full just then leaves it.
    os.unlink(os.path.join(target, "night.trace"))
    night(streams, target, status=1)
    must(read(target, "night.trace") == left[0], "groups: the night's stream isn't made again")


def check_cut(room, _count):
    """Streams whose traces were cut come to the same violations."""
    streams, short = made(room, "streams", SMALL), room.path("short")
    for number in range(SMALL):
        name = planted.path(number)
        cut = call(program("lockgraph"), "cut", "--lines", "20", name, folder=streams)
        faulty = planted.is_faulty(number)
        must(cut.returncode == (2 if faulty else 0), f"cut: {name}: {cut.stderr.decode()}")
        room.write(f"short/{name}", read(streams, name) if faulty else cut.stdout)
    night(short, room.path("night"), status=1, line=planted.summary(SMALL))
    left = re.findall(rb"(?m)^trace \S+\.2\n# from (\S+) \d+$", read(room.path("night"), "night.trace"))
    must(left and all(it.startswith(b"rack") for it in left), f"cut: no piece is left, or of other streams: {left}")
    found = kinds(read(room.path("night"), "night.report"))
    must(found == planted.violations(SMALL), f"cut: other violations than those that were planted: {found}")


def check_before(room, _count):
    """Halves of different nights meet; what was reported before isn't new; refused traces are told in their night."""
    room.new("first")
    room.new("second")
    for number in range(SMALL):
        name = os.path.join(
            room.path("second" if number % planted.PAIR_EVERY == planted.SECOND else "first"), f"m{number:05}.trace"
        )
        with open(name, "w", encoding="latin-1") as file:
            file.write(planted.stream(number))
    night(room.path("first"), room.path("night1"), status=3)
    said = night(
        room.path("second"),
        room.path("night2"),
        "--before",
        room.path("night1"),
        status=1,
        line="streams 2 reduced 2 empty 0 faulty 0 left 0 refused 0 violations 4 new 4",
    )
    must("night.new" in said, "before: it isn't told where to look")
    night(room.path("first"), room.path("night3"), "--before", room.path("night2"), status=3)
    must(b"\nnothing new\n" in read(room.path("night3"), "night.new"), "before: what is known is new")


def check_two(room, _count):
    """Two calls at once make the same, and leave nothing else."""
    streams = made(room, "streams", SMALL)
    night(streams, room.path("alone"), status=1)
    for turn in range(2):
        both = [
            subprocess.Popen(
                [fleet("night"), streams, room.path(f"both{turn}")], stdout=subprocess.PIPE, stderr=subprocess.PIPE
            )
            for _ in range(2)
        ]
        for it in both:
            told, said = it.communicate(timeout=600)
            must(it.returncode == 1, f"two: status {it.returncode}:\n{said.decode()}")
            must(told.decode() == planted.summary(SMALL) + "\n", f"two: the summary is {told.decode()}")
        must_be_same(room.path("alone"), room.path(f"both{turn}"), "two")
        must(not parts_in(room.path(f"both{turn}")), "two: parts are left")


def check_refused(room, _count):
    """Where refused traces are too many for a stream, they are told by the summary alone."""
    streams = room.new("streams")
    room.write("streams/broken.trace", "".join(f"trace b{it}\nrelease t A\n" for it in range(10_001)))
    room.write("streams/good.trace", "trace good\nacquire t A\nacquire t B\n")
    said = night(
        streams,
        room.path("night"),
        status=3,
        line="streams 2 reduced 2 empty 0 faulty 0 left 0 refused 10001 violations 0 new 0",
    )
    must("too many" in said, f"refused: it isn't told:\n{said}")
    must(
        read(room.path("night"), "night.trace") == b"trace good\n# from good.trace 1\nacquire t A\nacquire t B\n",
        "refused: another stream is left",
    )
    must(read(room.path("night"), "night.refused") == b"10001 broken.trace\n", "refused: another list")


def check_words(room, _count):
    """Words that can't be followed are told, and nothing is made."""
    streams = made(room, "streams", 2)
    empty = room.new("empty")
    for words, text in (
        ([empty, room.path("n")], "there is no stream"),
        ([streams, os.path.join(streams, "n")], "below that of the streams"),
        ([room.path("none"), room.path("n")], f"fleet/night: {room.path('none')}: No such file or directory\n"),
        ([streams, room.path("n"), "--group", "1024"], "between 0 and 1024"),
        ([streams, room.path("n"), "--limit", "0"], "--limit: invalid seconds value"),
        ([streams, room.path("n"), "--before", room.path("none")], ": No such file or directory\n"),
        ([streams, room.path("n"), "--before", room.path("n")], "this is the night itself"),
        ([streams, room.path("n"), "--known", room.path("n", "night.report")], "this is the night itself"),
    ):
        said = night(*words, status=2)
        must(text in said, f"words: {words}: {said}")
    said = night(streams, room.path("n"), status=2, more={"LOCKGRAPH": room.path("none")})
    must("lockgraph isn't built" in said, f"words: {said}")
    engines = ["night", "slurm/night", "slurm/map.job", "slurm/join.job", "dask/night"]
    for name in [*engines, "map", "join", "check", "cost"]:
        ended = call(fleet(name), "--help")
        must(ended.returncode == 0 and b"fleet/" in ended.stdout, f"words: {name} --help: {ended.stderr.decode()}")
    check_outputs(room)


def check_outputs(room):
    """The status says that violations are new only if they are, whatever is wrong with the outputs or the program."""
    streams = room.new("other")
    room.write("other/x.trace", "trace x\nacquire t A\nacquire t B\n")
    for closed in ("0<&-", "1>&-", "2>&-", "0<&- 1>&- 2>&-"):
        room.new("closed")
        ended = call("sh", "-c", f'exec "$@" {closed}', "sh", fleet("night"), streams, room.path("closed"))
        must(ended.returncode == 0, f"words: {closed}: status {ended.returncode}: {ended.stderr.decode()}")
        # A text for a closed standard error goes nowhere else.
        lines = 0 if "1>&-" in closed else 1
        must(ended.stdout.count(b"\n") == lines, f"words: {closed}: standard output is {ended.stdout.decode()}")
        must(read(room.path("closed"), "night.report").endswith(b"\nclean\n"), f"words: {closed}: no whole report")
    odd = room.write("odd", "#!/bin/sh\nprintf '\\377\\n'\n", 0o755)
    said = night(streams, room.path("closed"), status=2, more={"LOCKCHECK": odd})
    must("mistake in the program" in said, f"words: {said}")


def check_stopped(room, _count):
    """A call that is ended takes its tasks with it, and what isn't whole; the next one goes on."""
    streams = made(room, "streams", SMALL)
    night(streams, room.path("alone"), status=1)
    slow = room.write("slow", f'#!/bin/sh\nsleep 0.5\nexec {program("lockgraph")} "$@"\n', 0o755)
    command = [fleet("night"), "--jobs", "2", streams, room.path("night")]
    more = {**os.environ, "LOCKGRAPH": slow}
    for number in (signal.SIGTERM, signal.SIGKILL):
        process = subprocess.Popen(command, env=more, stdout=subprocess.DEVNULL, stderr=subprocess.DEVNULL)
        until(lambda: parts_in(room.path("night")), "stopped: nothing begins")
        process.send_signal(number)
        must(process.wait(timeout=60) != 0, "stopped: it went on")
        must(len(results_so_far(room.path("night"))) < SMALL, "stopped: it had ended before")
        if number == signal.SIGTERM:
            until(lambda: not marked(f"{MARK}={room.folder}"), "stopped: tasks go on")
            must(not parts_in(room.path("night")), "stopped: parts are left")
    night(streams, room.path("night"), status=1, line=planted.summary(SMALL))
    must_be_same(room.path("alone"), room.path("night"), "stopped")


def results_so_far(folder):
    try:
        return [it for it in os.listdir(os.path.join(folder, "map")) if it.endswith((".reduced", ".faulty"))]
    except FileNotFoundError:
        return []
