"""What is left of a stream, or of several that are joined: runs `lockgraph reduce`, and tells a stream that is at fault
from a call that may do better another time."""
import contextlib
import mmap
import os
import re
import shutil
import subprocess
import threading

from nights import COUNTS, FAULTY, REDUCED, Counts, Wrong, is_counted, is_regular, shown, stamp_of, whole
from packing import Broken, Unable, feed_unpacked, folder_of_input, is_packed

ROOT = os.path.dirname(os.path.dirname(os.path.realpath(__file__)))
# `lockgraph reduce` ends with 2 for each fault, and only these are the stream's own: what it lacks memory or room for,
# or can't read, may go well another time or elsewhere.
# An older program says the names of some alone.
OF_STREAM = re.compile(
    rb'\b(NoHeader: .*|BadHeader(: a header is "trace LABEL", with one label of .*)?'
    rb'|NoTrace(: no line "trace LABEL": nothing was recorded, or the file is empty)?'
    rb"|TooManyTraces(: more than 65,535 traces)?|TooLong(: more than 2,147,483,648 bytes)?)\n\Z"
)
REFUSED_LEFT_OUT = 3
HEADER = re.compile(rb"^[ \t]*trace[ \t]", re.M)
# So many seconds may lockgraph take for a stream: one of 2 GiB takes some 15.
LIMIT = 1200


class Faulty(Exception):
    """The stream is at fault: the text says what is wrong, and would do so again."""


class Failed(Exception):
    """A call failed, and may be tried again."""


def program(name):
    """The program that LOCKCHECK or LOCKGRAPH names, or that was built in the tree, or stands at its top, as in a
    release. Nothing is built here: that would take each machine of a cluster many minutes."""
    named = os.environ.get(name.upper())
    built = os.path.join(ROOT, "crates", name, "out", name)
    path = named or (built if os.path.isfile(built) else os.path.join(ROOT, name))
    if not os.access(path, os.X_OK) or not named and path != built and os.path.isdir(os.path.join(ROOT, "crates")):
        raise Wrong(f"{name} isn't built: run tools/build {name}, or let {name.upper()} name it")
    return os.path.abspath(path)


def count_traces(path):
    if os.path.getsize(path) == 0:
        return 0
    with open(path, "rb") as file, mmap.mmap(file.fileno(), 0, access=mmap.ACCESS_READ) as data:
        return sum(1 for _ in HEADER.finditer(data))


def seconds(word):
    """A limit of time as a word gives it."""
    number = float(word)
    if not 0 < number <= 1_000_000:
        raise ValueError
    return number


class Reducer:
    """`lockgraph reduce` with so many workers, which may take so many seconds for a stream if there is a limit."""

    def __init__(self, workers, limit=None):
        self.limit = limit
        self.command = [program("lockgraph"), "reduce", "--workers", str(workers)]
        said = subprocess.run([self.command[0], "reduce", "--help"], capture_output=True, check=False).stdout
        # A program that notes where each trace comes from is asked to.
        self.of_stream = ["--from"] if b"--from" in said else []

    def run(self, words, out, folder=None, source=subprocess.DEVNULL, feed=None):
        """Reduces a stream to a file: what it is given, and as whose standard input, or a function that writes that.
        Answers whether a refused trace was left out."""
        out.seek(0)
        out.truncate()
        source = subprocess.PIPE if feed else source
        command = [*self.command, *words]
        with subprocess.Popen(command, cwd=folder, stdin=source, stdout=out, stderr=subprocess.PIPE) as process:
            try:
                with ended_after(process, self.limit) as is_late:
                    said = said_by(process, feed)
            except BaseException:
                process.kill()
                close(process.stdin)
                raise
        status = process.returncode
        if is_late.is_set():
            raise Failed(f"lockgraph took longer than {self.limit:g} s")
        if status == 2 and OF_STREAM.search(said):
            raise Faulty(one_line(said))
        if status not in (0, REFUSED_LEFT_OUT):
            how = f"ended by signal {-status}" if status < 0 else f"status {status}"
            raise Failed(one_line(said) or f"lockgraph reduce: {how}")
        return status == REFUSED_LEFT_OUT


@contextlib.contextmanager
def ended_after(process, limit):
    """Ends a process if it takes longer than so many seconds, and notes that it did."""
    is_late = threading.Event()

    def end():
        is_late.set()
        process.kill()

    timer = threading.Timer(limit, end) if limit else None
    try:
        if timer:
            timer.start()
        yield is_late
    finally:
        if timer:
            timer.cancel()


def close(pipe):
    """Closes a pipe to a process that has ended, if there is one."""
    with contextlib.suppress(BrokenPipeError):
        if pipe:
            pipe.close()


def said_by(process, feed):
    """What a process says on standard error. If there is a function, it feeds the process' standard input."""
    if feed:
        # If it doesn't read on, its status says why.
        with contextlib.suppress(BrokenPipeError):
            feed(process.stdin)
        close(process.stdin)
    return process.stderr.read()


def one_line(said):
    """A text on standard error as one line: the name of a file may have more."""
    return shown(os.fsdecode(said.removesuffix(b"\n").replace(b"\n", b"?")))


def reduce_stream(reducer, night, name):
    """Makes the result of a stream. `Failed` if that may be tried again; then there is none."""
    stream = night.stream(name)
    stamp, counts = stamp_of(stream), Counts.of(night.result(name))
    if counts is None or counts.stamp != stamp:
        # Else what is made now could be taken together with what was made of the stream as it was.
        night.forget(name)
    try:
        keep_result(reducer, night, name, stamp)
    except OSError as error:
        # Another process may have made the result, and taken the part of this one away.
        if night.ending(name) is None:
            at = "" if error.filename in (None, stream) else f"{shown(error.filename)}: "
            raise Failed(f"{at}{error.strerror}") from None
    if stamp_of(stream) != stamp:
        night.forget(name)
        raise Failed("it was written to meanwhile")


def keep_result(reducer, night, name, stamp):
    """Makes what is left of a stream, or else what is wrong with it."""
    try:
        if stamp is not None and not is_regular(night.stream(name)):
            raise Faulty(f"{shown(name)}: not a regular file")
        keep_stream(reducer, night, name, stamp)
    except Faulty as fault:
        put_counts(night.result(name), Counts(0, 0, stamp))
        with whole(night.result(name, FAULTY)) as file:
            file.write(f"{fault}\n".encode())


def keep_stream(reducer, night, name, stamp):
    """Makes what is left of a stream, with refused traces, so that the report of the night names them."""
    run = run_packed if is_packed(name) else run_plain
    with whole(night.result(name, REDUCED)) as out:
        refused = 0
        if run(reducer, night, name, reducer.of_stream, out):
            read_only = count_traces(out.name)
            run(reducer, night, name, [*reducer.of_stream, "--keep-refused"], out)
            refused = count_traces(out.name) - read_only
        put_counts(night.result(name), Counts(count_traces(out.name), refused, stamp))


def run_plain(reducer, night, name, options, out):
    """Reduces a stream by its name."""
    with open(night.stream(name), "rb") as stream:
        word, source = (word_of(name), subprocess.DEVNULL) if is_utf8(name) else ("-", stream)
        return reducer.run([*options, word], out, night.folder, source)


def run_packed(reducer, night, name, options, out):
    """Reduces what is in a compressed stream. It has the stream's name."""

    def feed(pipe):
        feed_unpacked(night.stream(name), pipe)

    try:
        with folder_of_input(name) as folder:
            return reducer.run([*options, word_of(name) if is_utf8(name) else "-"], out, folder, feed=feed)
    except Broken as why:
        raise Faulty(f"{shown(name)}: it can't be decompressed: {why}") from None
    except Unable as why:
        raise Failed(str(why)) from None


def is_utf8(name):
    """Whether lockgraph takes a name as a word: it is given any other stream as standard input."""
    try:
        os.fsencode(name).decode()
        return True
    except UnicodeDecodeError:
        return False


def word_of(name):
    """A name as a word that isn't taken for an option."""
    return f"./{name}" if name.startswith("-") else name


def put_counts(path, counts):
    """Writes what PATH.reduced has. It gets its name before that does."""
    with whole(path + COUNTS, is_synced=False) as file:
        file.write(counts.text())


def join_streams(reducer, target, paths, keeps_refused):
    """Joins reduced streams, given without their endings, to another one."""

    def feed(pipe):
        for path in paths:
            with open(path + REDUCED, "rb") as file:
                shutil.copyfileobj(file, pipe, 1 << 20)

    try:
        with whole(target + REDUCED) as out:
            reducer.run(["--keep-refused"] if keeps_refused else [], out, feed=feed)
            refused = sum(Counts.of(it).refused for it in paths) if keeps_refused else 0
            put_counts(target, Counts(count_traces(out.name), refused, "-"))
    except OSError as error:
        if not is_counted(target):
            raise Failed(f"{shown(error.filename or target)}: {error.strerror}") from None
