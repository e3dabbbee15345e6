"""What may stand below a folder of streams: any name, links, what can't be read, and streams that are still written."""
import os
import re
import sys

from failures import STAND_IN
from planted import NO_TRACE
from rooms import call, fleet, has_parallel, must, night, program, read, unnoted, without_parallel

TEXT = "trace {0}\nacquire t {0}_a\nacquire t {0}_b\n"
# What is left where files, a folder and links can't be read.
LEFT = """c.trace: Permission denied
f.trace: No such file or directory
closed: Permission denied
rack: it leads nowhere
"""
# Nobody's number, whom files of mode 0 may be kept from.
NOBODY = "65534"


def hostile_names():
    """Names that a script is likely to take for something else, and one of 255 bytes."""
    return [
        b"a b.trace",
        b"new\nline.trace",
        b"-dash.trace",
        b"--help.trace",
        b"sub/x.trace",
        b"sub%2Fx.trace",
        b"other/x.trace",
        b"\xff.trace",
        b"'quote\".trace",
        b"$(touch here);`touch here`.trace",
        b"*.trace",
        b"{}.trace",
        b"%%.trace",
        b".hidden.trace",
        b"tab\t\\.trace",
        b" .trace",
        b"l" * 249 + b".trace",
        b"d" * 200 + b"/" + b"l" * 248 + b".trace",
    ]


def check_names(room, _count):
    """Names of files may be anything; two streams never have one result. Without GNU parallel the same comes of
    it."""
    streams = os.fsencode(room.new("streams of\n'one' night"))
    names = hostile_names()
    for number, name in enumerate(names):
        path = os.path.join(streams, name)
        os.makedirs(os.path.dirname(path), exist_ok=True)
        with open(path, "w", encoding="ascii") as file:
            file.write(f"trace m{number}\nacquire t a{number}\nacquire t b{number}\n")
    with open(os.path.join(streams, b"-faulty\n.trace"), "wb"):
        pass
    os.mkfifo(os.path.join(streams, b"fifo.trace"))
    line = f"streams {len(names) + 2} reduced {len(names)} empty 0 faulty 2 left 0 refused 0 violations 0 new 0"
    for number, more in enumerate(({}, without_parallel(room))):
        target = f"-night {{}} {{#}}\n'{number}"
        said = night(streams, room.path(target), status=3, line=line, more=more, folder=room.folder)
        must(("xargs" in said) == (bool(more) or not has_parallel()), f"names: another engine:\n{said}")
        left = read(room.path(target), "night.trace").decode()
        must(
            sorted(re.findall(r"(?m)^trace (\S+)", left)) == sorted(f"m{it}" for it in range(len(names))),
            "names: a stream is missing",
        )
        faulty = read(room.path(target), "night.faulty").decode()
        must(
            faulty == f"lockgraph: ./-faulty?.trace: {NO_TRACE}\nfifo.trace: not a regular file\n",
            f"names: the faults are told as\n{faulty}",
        )
    must(
        not os.path.exists(room.path("here")) and not os.path.exists(os.path.join(streams, b"here")),
        "names: a name was run",
    )


def check_grows(room, _count):
    """A stream that was written anew is reduced anew, though it has the same size, or the time of the same second. One
    that grows while it is read is left, and is done the next time."""
    room.new("streams")
    for number, text in enumerate(("acquire t A\nacquire t B\n", "acquire t B\nacquire t A\n")):
        stream = room.write("streams/x.trace", f"trace x\n{text}")
        os.utime(stream, ns=(10**18 + number, 10**18 + number))
        night(room.path("streams"), room.path("night"), status=0)
        left = unnoted(read(room.path("night"), "night.trace")).decode()
        must(left == f"trace x\n{text}", f"grows: stream {number} isn't read")
    room.write("streams/x.trace", f"trace x\n{text}release t A\n")
    os.utime(stream, ns=(10**18 + 1, 10**18 + 1))
    night(room.path("streams"), room.path("night"), status=0)
    must(b"release" in read(room.path("night"), "night.trace"), "grows: a longer stream isn't read")
    check_grows_meanwhile(room)


def check_grows_meanwhile(room):
    stream, target = room.write("streams/x.trace", TEXT.format("x")), room.path("night", "map")
    more = TEXT.format("y").replace("\n", "\\n")
    stand_in = room.write(
        "stand-in",
        STAND_IN.format(room=room.folder, does=f"printf '{more}' >>'{stream}'", lockgraph=program("lockgraph")),
        0o755,
    )
    words = [fleet("map"), "--folder", room.path("streams"), room.path("night"), "x.trace"]
    os.utime(stream, ns=(10**18, 10**18))
    ended = call(*words, more={"LOCKGRAPH": stand_in})
    must(ended.returncode == 1 and b"written to meanwhile" in ended.stderr, f"grows: {ended.stderr.decode()}")
    must(os.listdir(target) == [], "grows: something is left of a stream that is still written")
    ended = call(*words)
    must(ended.returncode == 0, f"grows: {ended.stderr.decode()}")
    must(unnoted(read(target, "x.trace.reduced")) == read(stream), "grows: what was written meanwhile is lost")
    # Nothing stays of a stream as it was if its task is killed.
    room.write("streams/x.trace", TEXT.format("z"))
    killed = room.write("killed", '#!/bin/sh\ncase "$*" in *--help) ;; *) kill -9 "$PPID" ;; esac\n', 0o755)
    call(*words, more={"LOCKGRAPH": killed})
    must(
        [it for it in os.listdir(target) if not it.endswith(".part")] == [],
        "grows: something stays of a stream that was written anew",
    )


def as_nobody(*words):
    """Words that run others as a user whom a mode keeps from a file."""
    if os.geteuid() != 0:
        return words
    return "setpriv", f"--reuid={NOBODY}", f"--regid={NOBODY}", "--clear-groups", "--", *words


def check_unread(room, _count):
    """What can't be read is told and left, be it a stream or a folder; the others are done. Once it can be, the same
    call goes on. A link to a folder is followed, and a loop of them ends."""
    for it in (program("lockgraph"), fleet("night"), room.folder):
        if call(*as_nobody("test", "-r", it), folder="/").returncode != 0:
            return f"a user who isn't root can't read {it}"
    streams = room.new("streams")
    for name in ("a", "closed/b", "c"):
        room.write(f"streams/{name}.trace", TEXT.format(os.path.basename(name)))
    room.write("elsewhere/d.trace", TEXT.format("d"))
    room.write("streams/e.text", "")
    os.symlink(room.path("elsewhere"), os.path.join(streams, "link"))
    os.symlink(".", os.path.join(room.path("elsewhere"), "loop"))
    os.symlink("../nights/night", os.path.join(streams, "own"))
    for name in ("f.trace", "rack"):
        os.symlink("none", os.path.join(streams, name))
    os.chmod(room.new("nights/night"), 0o777)
    closed = [os.path.join(streams, "closed"), os.path.join(streams, "c.trace")]
    for it in closed:
        os.chmod(it, 0)
    words = [sys.executable, fleet("night"), streams, room.path("nights", "night")]
    ended = call(*as_nobody(*words), folder="/")
    said = ended.stderr.decode()
    must(ended.returncode == 2, f"unread: status {ended.returncode}: {said}")
    left = read(room.path("nights", "night", "night.left")).decode()
    must(left == LEFT, f"unread: left are {left}: {said}")
    must("doesn't end with .trace: e.text\n" in said, f"unread: another file isn't told: {said}")
    must(b"trace a" in read(room.path("nights", "night", "night.trace")), "unread: another stream isn't done")
    os.chmod(closed[0], 0o755)
    os.chmod(closed[1], 0o644)
    for name in ("f.trace", "rack"):
        os.unlink(os.path.join(streams, name))
    ended = call(*as_nobody(*words), folder="/")
    must(ended.returncode == 0, f"unread: status {ended.returncode}: {ended.stderr.decode()}")
    left = re.findall(r"(?m)^trace (\S+)", read(room.path("nights", "night", "night.trace")).decode())
    must(left == ["a", "c", "b", "d"], f"unread: these are joined: {left}")
    # An old result says nothing of a stream that can't be seen any more.
    os.chmod(closed[0], 0o444)
    ended = call(*as_nobody(*words), folder="/")
    os.chmod(closed[0], 0o755)
    left = read(room.path("nights", "night", "night.left"))
    must(
        ended.returncode == 2 and left == b"closed/b.trace: Permission denied\n",
        f"unread: left are {left}: {ended.stderr.decode()}",
    )
    return None
