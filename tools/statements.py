"""Libraries as statements: what the crates above cite of a library, without its proofs.

A check over a library that has its proofs loads the whole proof of each function that it calls. Over statements
it loads none. `rt ci` builds the libraries so, but no command of `rt` does that alone: so `rattle` is called here,
with the words that `rt` has for it.
"""
import contextlib
import fcntl
import functools
import hashlib
import os
import shutil
import subprocess
import sys

from crates import LINES, PARTS, ROOT, USED, copy_kept, files_below, locked, read, write

# Where the statements of a crate are kept, with a sum of all that they were made from: in its out/.
KEPT = "statements"


@functools.lru_cache(maxsize=None)
def toolchain():
    """The toolchain's module that has `rt`'s words for `rattle`."""
    page = subprocess.run(["rt", "doc"], check=True, text=True, stdout=subprocess.PIPE).stdout.strip()
    sys.path.append(f"{os.path.dirname(page)}/bin")
    import rtlib  # pylint: disable=import-outside-toplevel

    # What it starts ends with this process. Its first call starts a process of its own, before any thread does.
    rtlib.guarded()
    # Each crate's stamp once, and not once for each path that leads to it.
    rtlib.Crate.stamp = functools.lru_cache(maxsize=None)(rtlib.Crate.stamp)
    return rtlib


@functools.lru_cache(maxsize=None)
def version():
    return subprocess.run(["rt", "version"], check=True, text=True, stdout=subprocess.PIPE).stdout


class Stamps:
    """Sums of all that a crate's statements are made from, by the sources in the folder crates/ of a tree."""

    def __init__(self, root):
        self.root, self.known = root, {}

    def of(self, name):
        if name not in self.known:
            found = hashlib.sha256(repr((version(), LINES[name], [self.of(it) for it in USED[name]])).encode())
            folder = f"{self.root}/crates/{name}"
            for file in sorted(it for part in PARTS for it in files_below(f"{folder}/{part}")):
                with open(file, "rb") as text:
                    found.update(repr((file[len(folder) :], text.read())).encode())
            self.known[name] = found.hexdigest()
        return self.known[name]


def kept(name):
    """The folder of the tree in which a crate's statements are kept."""
    return f"{ROOT}/crates/{name}/out/{KEPT}"


def put(to, rlib, stamp):
    """Puts a library and its stamp in the place of a folder."""
    shutil.rmtree(f"{to}.new", ignore_errors=True)
    os.makedirs(f"{to}.new")
    copy_kept(rlib, f"{to}.new/{os.path.basename(rlib)}")
    write(f"{to}.new/stamp", stamp)
    shutil.rmtree(to, ignore_errors=True)
    os.rename(f"{to}.new", to)


def keep(name, rlib, stamp):
    """Keeps a library's statements in the tree."""
    put(kept(name), rlib, stamp)


def has_stamp(folder, stamp):
    with contextlib.suppress(OSError):
        return read(f"{folder}/stamp") == stamp
    return False


class Sources:
    """A copy of the sources of some crates and of all below them, as they stand now, in which they are proved and
    built over statements."""

    def __init__(self, top, names):
        self.top, self.stamps = top, Stamps(top)
        write(f"{top}/crates.txt", "".join(f"{line}\n" for it, line in LINES.items() if it in names))
        for name in names:
            for part in PARTS:
                if os.path.isdir(f"{ROOT}/crates/{name}/{part}"):
                    shutil.copytree(f"{ROOT}/crates/{name}/{part}", f"{self.folder(name)}/{part}")
        known = {}
        self.crates = {it: toolchain().Crate(self.folder(it), top, known) for it in names}
        for crate in [*known.values(), *self.crates.values()]:
            crate.rlib = self.rlib(crate.name)

    def folder(self, name):
        return f"{self.top}/crates/{name}"

    def rlib(self, name):
        """Where the statements of a crate stand, alone in a folder."""
        return f"{self.top}/{KEPT}/{name}/{name}.rlib"

    def rattle(self, verb, name, *flags):
        """The words by which `rattle` checks or builds a crate, in its folder or a copy of it."""
        known = toolchain()
        return [*known.guarded(), known.RATTLE, verb, *self.crates[name].words([*flags], keeps=False)]

    def build(self, name, jobs):
        """The words that prove a crate, and make its statements, or a program's code."""
        if self.crates[name].is_program:
            known = ["--toolchain", f"{toolchain().KIT}/toolchain", "--backend", "llvm", "-o", f"out/{name}.o"]
            return self.rattle("build", name, "--jobs", str(jobs)) + known
        return self.rattle("build", name, "--jobs", str(jobs)) + ["--statements", "-o", self.rlib(name)]

    def link(self, name):
        """The words that make a program of its code."""
        at = toolchain().KIT
        words = ["--target", "x86_64-unknown-linux-gnu", "--toolchain", f"{at}/toolchain"]
        words += ["-o", f"out/{name}", f"out/{name}.o", f"{at}/c/libos_c.a", f"{at}/c/liblibc_c.a"]
        return [*toolchain().guarded(), f"{at}/bin/rattle-link", *words]

    def take(self, name):
        """Takes the statements that the tree keeps, where they are of these sources. False where it keeps none."""
        with contextlib.suppress(OSError):
            if not self.is_kept(name):
                return False
            os.makedirs(os.path.dirname(self.rlib(name)))
            copy_kept(f"{kept(name)}/{name}.rlib", self.rlib(name))
            if self.is_kept(name):
                return True
        shutil.rmtree(os.path.dirname(self.rlib(name)), ignore_errors=True)
        return False

    def is_kept(self, name):
        return has_stamp(kept(name), self.stamps.of(name))

    def lend(self):
        """Has `rt` take the libraries that the tree keeps statements of for its own, so that a check of a crate proves
        that crate alone. All or none: statements fit only the libraries that they were made over."""
        libraries = [it for it in self.crates.values() if not it.is_program]
        own = {it.name: f"{ROOT}/crates/{it.name}/out/rlib" for it in libraries}
        if all(has_stamp(own[it.name], it.stamp()) for it in libraries):
            return
        if all(map(self.is_kept, own)):
            for it in libraries:
                with locked(f"{ROOT}/crates/{it.name}", fcntl.LOCK_EX):
                    put(own[it.name], f"{kept(it.name)}/{it.name}.rlib", it.stamp())

    def give(self, name):
        """Has the tree keep the statements that were made of a crate here."""
        keep(name, self.rlib(name), self.stamps.of(name))
