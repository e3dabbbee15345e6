"""Builds the library and the merger of the recorder, if they aren't there as they have to be."""

import contextlib
import fcntl
import os
import shlex
import subprocess
import sys

HERE = os.path.dirname(os.path.realpath(__file__))
OUT = os.path.join(HERE, "out")
WARNINGS = "-Wall -Wextra -Werror"
# Valgrind doesn't load a library whose debug information is clang's DWARF 5.
LIBRARY_FLAGS = (
    f"-std=gnu11 -O2 -gdwarf-4 {WARNINGS} -fPIC -shared -fvisibility=hidden "
    "-fno-optimize-sibling-calls -static-libgcc -Wl,-z,now -Wl,-Bsymbolic"
)
MERGER_FLAGS = f"-std=gnu11 -O2 -g {WARNINGS}"


class NotBuilt(Exception):
    """The compiler refused."""


def sources_in(directory):
    path = os.path.join(HERE, directory)
    return sorted(os.path.join(path, name) for name in os.listdir(path) if name[0] != ".")


def maker_of(compiler, flags):
    """Gives what builds: the compiler, its version and the flags. It is None if the compiler can't be asked."""
    try:
        answer = subprocess.run([*compiler, "--version"], capture_output=True, text=True, check=True)
    except (OSError, subprocess.CalledProcessError):
        return None
    return f"{shlex.join(compiler)} {flags}\n{answer.stdout}"


def is_current(target, sources, maker):
    """Answers whether a file is newer than its sources, and made by this maker. One without a note of its maker came
    with a package, and is good for all. So is each file if there is no compiler, or if it can't be replaced."""
    if not os.path.exists(target):
        return False
    if os.path.getmtime(target) <= max(os.path.getmtime(path) for path in sources):
        return False
    if maker is None or not os.path.exists(target + ".made") or not os.access(OUT, os.W_OK):
        return True
    with open(target + ".made", encoding="utf-8") as note:
        return note.read() == maker


@contextlib.contextmanager
def alone():
    """Lets one process at a time build. The others then find what it built."""
    os.makedirs(OUT, exist_ok=True)
    folder = os.open(OUT, os.O_RDONLY)
    try:
        fcntl.flock(folder, fcntl.LOCK_EX)
        yield
    finally:
        os.close(folder)


def build(target, command, maker):
    """Puts what a command makes in the place of a file, which may be in use, with a note of its maker."""
    new, note = f"{target}.{os.getpid()}", f"{target}.made"
    try:
        subprocess.run([*command, "-o", new], check=True, stdout=sys.stderr)
    except OSError as error:
        raise NotBuilt(f"{os.path.basename(target)} was not built: {command[0]}: {error.strerror}") from error
    except subprocess.CalledProcessError as error:
        raise NotBuilt(f"{os.path.basename(target)} was not built: {error}") from error
    with open(f"{note}.{os.getpid()}", "w", encoding="utf-8") as file:
        file.write(maker or "")
    os.rename(new, target)
    os.rename(file.name, note)


def built(name, directory, flags):
    """Gives the path of what one command of the C compiler makes, after it was built if it had to be."""
    target = os.path.join(OUT, name)
    compiler = shlex.split(os.environ.get("CC", "cc"))
    maker = maker_of(compiler, flags)
    code = sources_in(directory)
    sources = code + sources_in("library")
    if is_current(target, sources, maker):
        return target
    with alone():
        if not is_current(target, sources, maker):
            build(target, compiler + shlex.split(flags) + [path for path in code if path.endswith(".c")], maker)
    return target


def built_library():
    return built("liblockrecord.so", "library", LIBRARY_FLAGS)


def built_merger():
    return built("merge", "merger", MERGER_FLAGS)
