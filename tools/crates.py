"""The crates of the repository, as crates.txt has them, and copies of one, in which `rt` works while another `rt`
does in the tree."""
import contextlib
import fcntl
import os
import shutil

ROOT = os.path.dirname(os.path.dirname(os.path.abspath(__file__)))
PARTS = ("src", "specs", "proofs")


def read(file):
    with open(file, encoding="utf-8") as text:
        return text.read()


def write(file, text):
    os.makedirs(os.path.dirname(file), exist_ok=True)
    with open(file, "w", encoding="utf-8") as it:
        it.write(text)


def lines_of_crates():
    """The lines of crates.txt, by their crates."""
    lines = (it.partition("#")[0] for it in read(f"{ROOT}/crates.txt").splitlines())
    return {it.split()[0].removesuffix(":"): it for it in lines if ":" in it}


LINES = lines_of_crates()
# All libraries that each crate lists, and those of the repository among them.
LISTED = {name: line.partition(":")[2].split() for name, line in LINES.items()}
USED = {name: [it for it in listed if it in LINES] for name, listed in LISTED.items()}


def below(name):
    """A crate and all of the repository that it stands on."""
    return {name}.union(*(below(it) for it in USED[name]))


class Copy:
    """A copy of a crate in a folder, over the libraries below it as they were built. `rt` locks all that a crate
    stands on, so of two crates over one library one would wait for the other in the tree."""

    def __init__(self, top, crate, sources, built):
        """`sources` and `built` give the folders of a crate's sources and of what was built of it, by its name."""
        self.folder = f"{top}/crates/{crate}"
        shutil.rmtree(top, ignore_errors=True)
        write(f"{top}/crates.txt", "".join(f"{line}\n" for it, line in LINES.items() if it in below(crate)))
        shutil.copy(f"{ROOT}/HANDLES", top)
        for it in below(crate):
            for part in PARTS:
                if os.path.isdir(f"{sources(it)}/{part}"):
                    shutil.copytree(f"{sources(it)}/{part}", f"{top}/crates/{it}/{part}")
            if it != crate:
                copy_kept(f"{built(it)}/rlib", f"{top}/crates/{it}/out/rlib")

    def begin_with_kept(self, crate):
        """Begins with what `rt` kept of the crate in the tree, where there is something and no `rt` changes it
        meanwhile. What has changed since is proved anew. A gate that runs puts it aside until its end, and keeps
        nothing of its own that a check can begin with."""
        folders = filter(os.path.isdir, (f"{ROOT}/crates/{crate}/out", f"{ROOT}/.git/rt-aside/{crate}"))
        kept = min(folders, key=lambda it: not os.path.isdir(f"{it}/incremental"), default="")
        before = listing(kept)
        with contextlib.suppress(OSError):
            for part in ("incremental", "rlib"):
                if os.path.isdir(f"{kept}/{part}"):
                    copy_kept(f"{kept}/{part}", f"{self.folder}/out/{part}")
            if listing(kept) == before:
                return
        shutil.rmtree(f"{self.folder}/out", ignore_errors=True)


def files_below(folder):
    return [f"{at}/{name}" for at, _, names in os.walk(folder) for name in names]


def listing(folder):
    """What tells whether something of what `rt` made in a folder was changed, lost or added."""
    files = sorted(it for it in files_below(folder) if it.endswith(".oantt"))
    return [(it, found.st_ino, found.st_size, found.st_mtime_ns) for it in files for found in [os.stat(it)]]


def copy_kept(one, other):
    """Copies a folder that `rt` made. Most of its files are made anew and never written into, so a copy may share
    them."""

    def put(one, other):
        if one.endswith(".oantt") or ".rlib/" in one:
            with contextlib.suppress(OSError):
                return os.link(one, other)
        return shutil.copy2(one, other)

    shutil.copytree(one, other, copy_function=put)


@contextlib.contextmanager
def locked(folder, how):
    """Holds the lock of a folder, as `rt` does of the crates that it works in."""
    held = os.open(folder, os.O_RDONLY)
    try:
        fcntl.flock(held, how)
        yield
    finally:
        os.close(held)
