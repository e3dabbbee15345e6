"""The folder of a night: which streams it is of, and what was made of each.

A night is of the streams below one folder, each named by its path there. In the night's own folder stand

  streams        the names of the streams, each ended by a NUL
  map/           of each stream NAME.counts with NAME.reduced or NAME.faulty; NAME is its path in percent-encoding
  join/          the same of joined streams, each named by what it was joined of
  left/          of each stream that a task has left NAME, which says why
  lists/, logs/  what the tasks of a cluster read and say
  night.trace    what is left of all streams, as one stream

A file gets its name only once it is whole. NAME.counts has the size and the time of the stream, so a stream that was
written anew since is one without a result.
"""
import contextlib
import hashlib
import os
import re
import signal
import stat
import sys
import urllib.parse
from typing import NamedTuple

# How the names of streams end: those of compressed ones have another ending behind the first.
STREAM, PACKED = ".trace", (".gz", ".xz", ".bz2", ".zst")
STREAMS = (STREAM, *[STREAM + it for it in PACKED])
REDUCED, COUNTS, FAULTY = ".reduced", ".counts", ".faulty"
# How the name of a file ends that isn't whole: it is NAME%%HOST.PID.CHANCE.part.
PART = ".part"
# The stamp of a stream that can't be seen: no result has it.
UNKNOWN = "?"
# The longest name that is used as it is: what is longer is cut. Endings and the name of a part need room.
LONGEST = 150


class Wrong(Exception):
    """Why a night can't go on."""


def shown(name):
    """A name as one line of text, whatever its bytes are."""
    text = os.fsencode(name).decode("utf-8", "backslashreplace")
    return "".join(it if it.isprintable() else it.encode("unicode_escape").decode() for it in text)


def told(error):
    """What went wrong, as one line: if the system says it, the file and the system's text."""
    if isinstance(error, OSError) and error.strerror:
        name = error.filename if isinstance(error.filename, (str, bytes)) else None
        return f"{shown(name)}: {error.strerror}" if name else error.strerror
    return shown(str(error))


def encoded(name):
    """A name for a file, which tells names of streams apart: no two have the same."""
    name = os.fsencode(name)
    text = urllib.parse.quote_from_bytes(name, safe=" ")
    if len(text) <= LONGEST:
        return text
    # No encoding has `%%`.
    return f"{text[:LONGEST - 40]}%%{hashlib.sha256(name).hexdigest()[:32]}"


def names_in(data):
    """The names in a list: each ended by a NUL, as those of `find -print0`, or one a line."""
    return [plain(os.fsdecode(it)) for it in data.split(b"\0" if b"\0" in data else b"\n") if it]


def list_of(names):
    """A list of names."""
    return b"".join(os.fsencode(it) + b"\0" for it in names)


def plain(name):
    """A name as a night has it: `find .` puts `./` before each."""
    return re.sub(r"\A(\./+)+", "", name)


class Found(NamedTuple):
    """What is below a folder, each as a path from there: streams; folders that can't be read, with the reason of each;
    and other files."""

    streams: list
    unread: dict
    others: list


def found_below(folder, night):
    """Looks below a folder, but not into that of the night. A link to a folder counts as one, and a folder that two
    paths lead to counts once. A link that leads nowhere may be one to a folder, on a disk that isn't there."""
    errors, files, seen = [], [], {os.path.realpath(night)}
    for at, folders, names in os.walk(folder, onerror=errors.append, followlinks=True):
        real = os.path.realpath(at)
        if real in seen:
            folders.clear()
            continue
        seen.add(real)
        folders.sort(key=os.fsencode)
        files += [os.path.relpath(os.path.join(at, it), folder) for it in names]
    if errors and errors[0].filename == folder:
        raise errors[0]
    files.sort(key=os.fsencode)
    others = [it for it in files if not it.endswith(STREAMS)]
    unread = {os.path.relpath(it.filename, folder): it.strerror for it in errors}
    unread.update({it: "it leads nowhere" for it in others if not os.path.exists(os.path.join(folder, it))})
    return Found(
        [it for it in files if it.endswith(STREAMS)],
        dict(sorted(unread.items())),
        [it for it in others if it not in unread],
    )


def read(path):
    with open(path, "rb") as file:
        return file.read()


def stamp_of(path):
    """What tells a stream from one that was written anew: its bytes and its time. None if there is no such file, and
    UNKNOWN if it can't be seen."""
    try:
        its = os.stat(path)
    except (FileNotFoundError, NotADirectoryError):
        return None
    except OSError:
        return UNKNOWN
    return f"{its.st_size} {its.st_mtime_ns}"


class Counts(NamedTuple):
    """What stands in PATH.counts: the number of traces in PATH.reduced, and of refused ones among them. The stamp is
    that of the stream that it was made of, or `-` if it was joined."""

    traces: int
    refused: int
    stamp: str

    def text(self):
        return f"traces {self.traces} refused {self.refused} of {self.stamp}\n".encode()

    @staticmethod
    def of(path):
        """Those of PATH, or None. They aren't synced, so a machine that fails may lose them, or their bytes."""
        try:
            match = re.fullmatch(rb"traces (\d+) refused (\d+) of (-|\d+ -?\d+)\n", read(path + COUNTS))
        except FileNotFoundError:
            return None
        return match and Counts(int(match[1]), int(match[2]), match[3].decode())


def is_counted(path):
    """Whether the reduced stream PATH.reduced is there with its counts."""
    return os.path.exists(path + REDUCED) and Counts.of(path) is not None


@contextlib.contextmanager
def whole(path, is_synced=True):
    """A file to be written, which gets this name once it is whole, and on the disk unless it needn't be. Nothing is
    left of it otherwise, unless the process is killed. If its part is gone by then, another process has made the file
    and taken the part away."""
    part = f"{path}%%{os.uname().nodename}.{os.getpid()}.{os.urandom(4).hex()}{PART}"
    try:
        with open(part, "wb") as file:
            yield file
            file.flush()
            if is_synced:
                os.fsync(file.fileno())
        try:
            os.rename(part, path)
        except FileNotFoundError:
            if not os.path.exists(path):
                raise
    finally:
        with contextlib.suppress(FileNotFoundError):
            os.unlink(part)


class Night:
    """The folder of a night, and that of its streams."""

    def __init__(self, path, folder="."):
        self.path, self.folder = os.path.abspath(path), os.path.abspath(folder)

    def file(self, *names):
        return os.path.join(self.path, *names)

    def make(self):
        for name in ("map", "join", "left", "lists", "logs"):
            os.makedirs(self.file(name), exist_ok=True)

    def stream(self, name):
        return os.path.join(self.folder, name)

    def result(self, name, ending=""):
        return self.file("map", encoded(name) + ending)

    def put_names(self, names):
        """Writes which streams the night is of."""
        with whole(self.file("streams")) as file:
            file.write(list_of(names))

    def forget_summary(self):
        """Takes away what an earlier call summed up: it says nothing of this one, if this one fails."""
        with contextlib.suppress(FileNotFoundError):
            os.unlink(self.file("night.summary"))

    def names(self):
        """The streams that the night is of."""
        try:
            return names_in(read(self.file("streams")))
        except FileNotFoundError:
            raise Wrong(f"{shown(self.path)}: there is no night in this folder") from None

    def ending(self, name):
        """`.reduced` or `.faulty` if that was made of the stream as it is, or of one that is gone, else None."""
        stamp, counts = stamp_of(self.stream(name)), Counts.of(self.result(name))
        if counts is None or stamp not in (counts.stamp, None):
            return None
        return next((it for it in (REDUCED, FAULTY) if os.path.exists(self.result(name, it))), None)

    def forget(self, name):
        """Takes away what was made of a stream."""
        for ending in (REDUCED, FAULTY, COUNTS):
            with contextlib.suppress(FileNotFoundError):
                os.unlink(self.result(name, ending))

    def put_reason(self, name, why):
        """Writes why a task leaves a stream, if there is room."""
        with contextlib.suppress(OSError), whole(self.file("left", encoded(name)), is_synced=False) as file:
            file.write(why.encode())

    def reason(self, name):
        """Why a task has left a stream: if it wrote nothing, it was killed, or the disk is full."""
        with contextlib.suppress(OSError):
            return read(self.file("left", encoded(name))).decode()
        return "no task has said why"

    def forget_reasons(self):
        with os.scandir(self.file("left")) as files:
            paths = [it.path for it in files]
        for path in paths:
            with contextlib.suppress(FileNotFoundError):
                os.unlink(path)

    def endings(self, names):
        return {it: self.ending(it) for it in names}

    def count_made(self):
        """About how many results there are: it takes one look at one folder."""
        with os.scandir(self.file("map")) as files:
            ended = [it.name for it in files]
        return sum(it.endswith(REDUCED) for it in ended), sum(it.endswith(FAULTY) for it in ended)

    def forget_parts(self):
        """Takes away what killed tasks left of files that were made since."""
        for folder in ("map", "join"):
            with os.scandir(self.file(folder)) as files:
                parts = [it.path for it in files if it.name.endswith(PART)]
            for part in parts:
                if os.path.exists(part.rpartition("%%")[0]):
                    with contextlib.suppress(FileNotFoundError):
                        os.unlink(part)


def begin_in_order():
    """Has a signal that ends this process take away what isn't whole. A closed standard file becomes an empty one.
    Else a file of the night would get its number, and with it the texts of all processes."""
    for it in (signal.SIGHUP, signal.SIGTERM):
        signal.signal(it, lambda number, _: sys.exit(128 + number))
    while (number := os.open(os.devnull, os.O_RDWR)) <= 2:
        os.set_inheritable(number, True)
    os.close(number)
    sys.stdout = sys.stdout or open(1, "w", encoding="utf-8")
    sys.stderr = sys.stderr or open(2, "w", encoding="utf-8")


def is_regular(path):
    return stat.S_ISREG(os.stat(path).st_mode)
