"""A Debian package of a release: what stands where, and what it depends on."""
import gzip
import os
import re
import subprocess
import tempfile

SHARE = "usr/share/lockcheck"
PROGRAMS = ("lockcheck", "lockgraph", "lockconvert")
# Commands beside the programs: what they are of the release.
SCRIPTS = {
    "lockcheck-record": "record/program/run",
    "lockcheck-record-kernel": "record/kernel/record",
    "lockcheck-convert": "record/kernel/convert",
}
COMPLETION = "tools/completion.bash"
CONTROL = """\
Package: lockcheck
Version: {number}
Architecture: amd64
Maintainer: The lockcheck developers
Section: devel
Priority: optional
Installed-Size: {size}
Depends: libc6 (>= {glibc})
Recommends: python3, binutils, xz-utils
Suggests: graphviz
Description: finds lock orders that can deadlock in recorded traces
 lockcheck reads what test runs did with their locks, and reports by the rules
 of lockdep, the lock checker of the Linux kernel, what could deadlock.
 lockgraph explains, draws, lists and compares. The recorders of programs and
 of kernels are there too.
"""


def newest_glibc(files):
    """The newest version of the C library that a file asks for."""
    versions = {
        tuple(int(part) for part in version.split(b"."))
        for data, _ in files.values()
        if data.startswith(b"\x7fELF")
        for version in re.findall(rb"GLIBC_([0-9.]+)\0", data)
    }
    return ".".join(str(part) for part in max(versions))


def placed(files):
    """Where each file of a release stands in the package: of each name the bytes, and whether it is run."""
    found = {}
    for name, (data, is_run) in files.items():
        if name in PROGRAMS:
            found[f"usr/bin/{name}"] = data, is_run
        elif name.startswith("man/"):
            found[f"usr/share/man/man1/{name[4:]}.gz"] = gzip.compress(data, mtime=0), False
        elif name == COMPLETION:
            found["usr/share/bash-completion/completions/lockcheck"] = data, False
        else:
            found[f"{SHARE}/{name}"] = data, is_run
    return found


def links():
    """The links of the package, with what each of them names."""
    found = {f"{SHARE}/{name}": f"../../bin/{name}" for name in PROGRAMS}
    for name, script in SCRIPTS.items():
        found[f"usr/bin/{name}"] = f"../share/lockcheck/{script}"
    for name in ("lockgraph", *SCRIPTS):
        found[f"usr/share/bash-completion/completions/{name}"] = "lockcheck"
    return found


def write(path, data, is_run, time):
    os.makedirs(os.path.dirname(path), exist_ok=True)
    with open(path, "wb") as file:
        file.write(data)
    os.chmod(path, 0o755 if is_run else 0o644)
    os.utime(path, (time, time))


def package(path, number, files, made, time):
    """Writes the package, of the files of a release and of what the recorder of programs makes of its sources. Who
    installs it needs no compiler then, and the recorder finds these newer than the sources."""
    with tempfile.TemporaryDirectory() as room:
        os.chmod(room, 0o755)
        old_mask = os.umask(0o022)
        try:
            for name, (data, is_run) in placed(files).items():
                write(f"{room}/{name}", data, is_run, time - 1)
            for name, (data, is_run) in made.items():
                write(f"{room}/{SHARE}/{name}", data, is_run, time)
            for name, target in links().items():
                os.makedirs(os.path.dirname(f"{room}/{name}"), exist_ok=True)
                os.symlink(target, f"{room}/{name}")
            everything = {**files, **made}
            size = sum(len(data) for data, _ in everything.values()) // 1024 + 1
            control = CONTROL.format(number=number, size=size, glibc=newest_glibc(everything))
            write(f"{room}/DEBIAN/control", control.encode(), False, time)
        finally:
            os.umask(old_mask)
        subprocess.run(["dpkg-deb", "-Zxz", "--root-owner-group", "--build", room, path], check=True,
                       stdout=subprocess.DEVNULL, env={**os.environ, "SOURCE_DATE_EPOCH": str(time)})
