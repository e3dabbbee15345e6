"""Debian's packages of Slurm and Dask, installed without a service being started."""
import contextlib
import fcntl
import functools
import os
import shutil
import subprocess

from rooms import MARK, POLICY, call, forget_policy, say

PACKAGES = ["slurmctld", "slurmd", "slurm-client", "munge", "python3-distributed", "parallel"]
SERVICES = ["munge", "slurmctld", "slurmd"]
# So many seconds may one call of apt-get take.
LONGEST = 300


def missing(commands):
    return [it for it in commands if shutil.which(it) is None]


def install(room, commands):
    """Makes these commands available. Answers why it can't, or None."""
    if not missing(commands):
        return None
    if os.geteuid() != 0 or shutil.which("apt-get") is None:
        return f"{missing(commands)[0]} is missing, and only root can install it by apt-get"
    with one_at_a_time(), no_service_started(room):
        # Another check may have installed them meanwhile.
        why = run_apt() if missing(commands) else None
    if why is None and missing(commands):
        why = f"the packages have no {missing(commands)[0]}"
    return why


@functools.lru_cache(maxsize=None)
def run_apt():
    """Installs the packages. Answers why it can't, or None. What can't be done isn't tried again by another part."""
    say(f"installing {', '.join(PACKAGES)}")
    # A half-done installation would be worse than one that goes on behind the check, so this isn't ended with it.
    more = {"DEBIAN_FRONTEND": "noninteractive", MARK: ""}
    options = ["-q", "-o", "Acquire::Retries=1", "-o", "Acquire::http::Timeout=20", "-o", "DPkg::Lock::Timeout=120"]
    for words in (["update"], ["install", "-y", "--no-install-recommends", *PACKAGES]):
        try:
            ended = call("apt-get", *options, *words, more=more, timeout=LONGEST)
        except subprocess.TimeoutExpired:
            return f"apt-get {words[0]} takes more than {LONGEST} seconds"
        if ended.returncode != 0:
            first = ended.stderr.decode().strip().partition("\n")[0]
            return f"apt-get {words[0]}: {first or f'status {ended.returncode}'}"
    if shutil.which("systemctl"):
        call("systemctl", "--quiet", "disable", *SERVICES)
    return None


@contextlib.contextmanager
def one_at_a_time():
    """Has other checks of this machine wait. The folder is apt-get's, which locks only files in it."""
    folder = os.open("/var/lib/dpkg", os.O_RDONLY)
    try:
        fcntl.flock(folder, fcntl.LOCK_EX)
        yield
    finally:
        os.close(folder)


@contextlib.contextmanager
def no_service_started(room):
    """Has Debian start no service of a package. A policy that is there already stays. This one is a link into the room,
    so it counts as none once the room is gone."""
    if os.path.exists(POLICY):
        yield
        return
    forget_policy()
    os.symlink(room.write("policy", "#!/bin/sh\nexit 101\n", 0o755), POLICY)
    try:
        yield
    finally:
        forget_policy()
