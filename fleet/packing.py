"""Compressed streams, which are decompressed as they are read: no file is made of what is in them."""
import contextlib
import importlib
import os
import shutil
import signal
import subprocess
import tempfile
import zlib

from nights import PACKED, shown

MIB = 1 << 20
# The module of Python that reads what has this ending.
MODULES = {".gz": "gzip", ".xz": "lzma", ".bz2": "bz2"}
# Python has no module for this one, so a program reads it. It takes as much memory as the stream was packed for.
ZSTD = ("zstd", "--decompress", "--stdout", "--quiet", "--long=31")
SHORT_OF_MEMORY = b"not enough memory"


class Broken(Exception):
    """The bytes of a file aren't a whole compressed stream."""


class Unable(Exception):
    """A file can't be decompressed here and now: what does that isn't there, or failed itself."""


def is_packed(name):
    return name.endswith(PACKED)


def module_of(path):
    name = MODULES[os.path.splitext(path)[1]]
    try:
        return importlib.import_module(name)
    except ImportError:
        raise Unable(f"Python's module {name} isn't installed here") from None


def feed_unpacked(path, pipe):
    """Writes what is in a compressed file to a pipe."""
    if os.path.splitext(path)[1] in MODULES:
        feed_by_module(path, pipe)
    else:
        feed_by_zstd(path, pipe)


def feed_by_module(path, pipe):
    module = module_of(path)
    broken = (EOFError, zlib.error, getattr(module, "LZMAError", EOFError))
    with module.open(path, "rb") as file:
        while data := chunk_of(file, broken):
            pipe.write(data)


def chunk_of(file, broken):
    try:
        return file.read(MIB)
    except broken as error:
        raise Broken(error) from None
    except OSError as error:
        # A fault of the disk has a number.
        if error.errno is not None:
            raise
        raise Broken(error) from None


def feed_by_zstd(path, pipe):
    """The file is read here, so that a fault of the disk is told from one of the bytes."""
    with open(path, "rb") as file, tempfile.TemporaryFile() as said:
        try:
            program = subprocess.Popen(ZSTD, stdin=subprocess.PIPE, stdout=pipe, stderr=said)
        except FileNotFoundError:
            raise Unable("the program zstd isn't installed here") from None
        try:
            # Its status says why it doesn't read on.
            with contextlib.suppress(BrokenPipeError):
                shutil.copyfileobj(file, program.stdin, MIB)
        except OSError:
            program.kill()
            raise
        finally:
            with contextlib.suppress(BrokenPipeError):
                program.stdin.close()
            program.wait()
        said.seek(0)
        look_at_end(program.returncode, said.read())


def look_at_end(status, said):
    """Tells how zstd ended, with what it said, as a fault of the bytes or as one of its own."""
    # The reader of what it writes may have read enough.
    if status in (0, -signal.SIGPIPE):
        return
    why = said.decode(errors="replace").strip().rpartition(": ")[2]
    # It ends with 1 if the bytes are at fault, but also if it can't have the memory that they were packed for.
    if status == 1 and SHORT_OF_MEMORY not in said:
        raise Broken(why or "zstd failed")
    how = f"ended by signal {-status}" if status < 0 else f"status {status}"
    raise Unable(f"zstd: {why or how}")


@contextlib.contextmanager
def folder_of_input(name):
    """A folder where this name is that of standard input. So a program that is fed can be given the name of what it is
    fed with."""
    with tempfile.TemporaryDirectory(prefix="fleet-") as folder:
        path = os.path.join(folder, name)
        if not os.path.realpath(path).startswith(os.path.realpath(folder) + os.sep):
            raise Unable(f"{shown(name)}: a compressed stream is named by its path below the folder")
        os.makedirs(os.path.dirname(path), exist_ok=True)
        os.symlink("/dev/stdin", path)
        yield folder
