"""A folder in which a check works, and the processes that it started there: both go however the check ends."""
import contextlib
import os
import re
import shutil
import signal
import subprocess
import sys
import tempfile
import time

FLEET = os.path.dirname(os.path.dirname(os.path.realpath(__file__)))
ROOT = os.path.dirname(FLEET)
# Each process that the check starts has its folder in this variable, and so have those that they start.
MARK = "FLEET_CHECK"
PREFIX = "fleet-check-"
# What says whether Debian may start the services of a package.
POLICY = "/usr/sbin/policy-rc.d"


class Failed(Exception):
    """Something isn't as it must be."""


def must(holds, text):
    if not holds:
        raise Failed(text)


def environment_of(process):
    try:
        with open(f"/proc/{process}/environ", "rb") as file:
            return file.read().split(b"\0")
    except OSError:
        return []


def marked(*wanted):
    """The processes that have all these in their environment."""
    wanted = [os.fsencode(it) for it in wanted]
    numbers = [int(it) for it in os.listdir("/proc") if it.isdigit() and int(it) != os.getpid()]
    return [it for it in numbers if set(wanted) <= set(environment_of(it))]


def kill_marked(*wanted):
    """Ends them, and those that they start meanwhile."""
    for _ in range(100):
        found = marked(*wanted)
        for it in found:
            with contextlib.suppress(ProcessLookupError):
                os.kill(it, signal.SIGKILL)
        if not found:
            return
        time.sleep(0.05)


def forget_policy():
    """Removes a policy that a check has made: a link to a file of a room."""
    with contextlib.suppress(OSError):
        if os.path.basename(os.path.dirname(os.readlink(POLICY))).startswith(PREFIX):
            os.unlink(POLICY)


def clean(folder):
    """Ends what was started in a folder, and takes it away."""
    kill_marked(f"{MARK}={folder}")
    disk = os.path.join(folder, "disk")
    if os.path.ismount(disk):
        subprocess.run(["umount", disk], check=False)
    shutil.rmtree(folder, ignore_errors=True)
    if not os.path.exists(POLICY):
        forget_policy()


class Room:
    """The folder. A process of its own waits until this one has ended, and cleans up then."""

    def __init__(self):
        self.folder = os.path.realpath(tempfile.mkdtemp(prefix=PREFIX))
        os.chmod(self.folder, 0o755)
        kept, self.pipe = os.pipe()
        self.cleaner = os.fork()
        if self.cleaner == 0:
            os.setsid()
            os.close(self.pipe)
            for it in (signal.SIGINT, signal.SIGTERM, signal.SIGHUP):
                signal.signal(it, signal.SIG_IGN)
            os.read(kept, 1)
            clean(self.folder)
            os._exit(0)
        os.close(kept)
        os.environ[MARK] = self.folder

    def end(self):
        os.close(self.pipe)
        os.waitpid(self.cleaner, 0)

    def path(self, *names):
        return os.path.join(self.folder, *names)

    def new(self, name):
        """An empty folder of this name."""
        shutil.rmtree(self.path(name), ignore_errors=True)
        os.makedirs(self.path(name))
        return self.path(name)

    def write(self, name, text, mode=0o644):
        path = self.path(name)
        os.makedirs(os.path.dirname(path), exist_ok=True)
        with open(path, "wb") as file:
            file.write(text if isinstance(text, bytes) else text.encode())
        os.chmod(path, mode)
        return path


def program(name):
    """The program that is checked, as fleet/ looks for it."""
    built = os.path.join(ROOT, "crates", name, "out", name)
    return os.environ.get(name.upper()) or (built if os.path.isfile(built) else os.path.join(ROOT, name))


def call(*words, more=None, folder=None, timeout=600, data=None):
    """Runs a command to its end."""
    return subprocess.run(
        words,
        cwd=folder,
        env={**os.environ, **(more or {})},
        input=data,
        capture_output=True,
        timeout=timeout,
        check=False,
    )


def unnoted(text):
    """A stream without the lines that say where its traces come from."""
    return re.sub(rb"(?m)^# from \S+ \d+\n", b"", text)


def read(*names):
    with open(os.path.join(*names), "rb") as file:
        return file.read()


def fleet(name):
    return os.path.join(FLEET, name)


def night(*words, status, line=None, **how):
    """Makes a night, sees how it ends, and what its summary says; answers what it said."""
    ended = call(fleet("night"), *words, **how)
    said = ended.stderr.decode("utf-8", "backslashreplace")
    told = ended.stdout.decode("utf-8", "backslashreplace")
    must(ended.returncode == status, f"{words}: status {ended.returncode}, not {status}:\n{told}{said}")
    must(line is None or told == line + "\n", f"{words}: the summary is\n{told}and not\n{line}\n{said}")
    return said


def until(holds, text, seconds=60):
    ends = time.monotonic() + seconds
    while not holds():
        must(time.monotonic() < ends, text)
        time.sleep(0.2)


def parts_in(folder):
    """What has no whole name below a folder."""
    return [name for _, _, names in os.walk(folder) for name in names if name.endswith(".part")]


def results(folder):
    """The bytes of what a night made, by name."""
    names = sorted(os.listdir(os.path.join(folder, "map")))
    found = {it: read(folder, "map", it) for it in names}
    return {
        **found,
        **{
            it: read(folder, it) for it in ("night.trace", "night.report", "night.new", "night.faulty", "night.refused")
        },
    }


def must_be_same(one, other, text):
    one, other = results(one), results(other)
    must(one.keys() == other.keys(), f"{text}: other results: {sorted(one.keys() ^ other.keys())[:9]}")
    for name in one:
        must(one[name] == other[name], f"{text}: {name} has other bytes")


def has_parallel():
    return shutil.which("parallel") is not None and call("parallel", "--version").stdout.startswith(b"GNU parallel")


def without_parallel(room):
    """The variables of a machine where GNU parallel isn't installed."""
    folder = room.new("path")
    for name in ("python3", "xargs", "env", "sh"):
        os.symlink(shutil.which(name), os.path.join(folder, name))
    return {"PATH": folder}


def say(text):
    print(f"fleet/check: {text}", file=sys.stderr, flush=True)
