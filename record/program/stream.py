"""The files that `run` writes: what of them may be replaced, and what of them stays if the program can't be started."""

import contextlib
import os

HEAD = 1 << 16  # bytes of a file that are looked at


class Refused(Exception):
    """Why there can be no stream."""


def is_stream(head):
    """Answers whether a file begins as a stream: its first line that is neither blank nor a comment is a header.
    One of comments alone is a recorder's if they begin with a process."""
    for line in head.split(b"\n"):
        words = line.split()
        if words and not words[0].startswith(b"#"):
            return words[0] == b"trace"
    return head.startswith(b"# process ")


def is_map(head):
    return head.startswith(b"places ")


def refuse_other(path, is_expected, name):
    """Refuses a file that is something else than what is to replace it. An empty one is nothing yet."""
    try:
        with open(path, "rb") as file:
            head = file.read(HEAD)
    except OSError as error:
        raise Refused(f"{path}: it can't be read whether this is {name}: {error.strerror}") from error
    if head and not is_expected(head):
        raise Refused(f"{path}: this isn't {name}, so it stays: name another file with -o, or remove it")


def is_own_output(path):
    """Answers whether a file is where standard output or standard error goes."""
    for descriptor in (1, 2):
        try:
            if os.path.samestat(os.stat(path), os.fstat(descriptor)):
                return True
        except OSError:
            continue
    return False


def refuse_unwritable(stream):
    """Refuses a stream that can't be written, or that would take the place of something else."""
    if stream == "-":
        raise Refused("-: standard output is the program's: name a file with -o")
    folder = os.path.dirname(stream) or "."
    if not os.path.isdir(folder):
        raise Refused(f"{stream}: there is no folder {folder}")
    if os.path.isdir(stream):
        raise Refused(f"{stream}: is a folder")
    for path, is_expected, name in ((stream, is_stream, "a stream"), (stream + ".places", is_map, "a map")):
        if os.path.isfile(path) and is_own_output(path):
            raise Refused(f"{path}: the program's output goes there: name another file with -o")
        if os.path.isfile(path):
            refuse_other(path, is_expected, name)
    if not os.path.exists(stream) and not os.access(folder, os.W_OK | os.X_OK):
        raise Refused(f"{stream}: no file can be made in {folder}")


class Earlier:
    """The files of an earlier recording. They would tell of another run if this one ends early, so they have other
    names while the program starts, and are gone then."""

    def __init__(self, stream):
        self.paths = [os.path.realpath(path) for path in (stream, stream + ".places") if os.path.isfile(path)]
        self.moved = []

    def put_aside(self):
        for path in self.paths:
            aside = f"{path}.{os.getpid()}"
            try:
                os.rename(path, aside)
            except OSError as error:
                self.put_back()
                raise Refused(f"{path}: an earlier recording can't be removed: {error.strerror}") from error
            self.moved.append((aside, path))

    def put_back(self):
        for aside, path in self.moved:
            os.rename(aside, path)

    def remove(self):
        for aside, _ in self.moved:
            os.unlink(aside)


def remove_part(stream):
    """Removes a stream that isn't whole, and its map: half of a stream would be judged."""
    for path in (stream, stream + ".places"):
        if os.path.isfile(path):
            with contextlib.suppress(OSError):
                os.unlink(os.path.realpath(path))
