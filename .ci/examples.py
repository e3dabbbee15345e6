"""Wrong bodies on which examples of lockgraph have to fail.

Most of what a trial takes is the build, so there is one for all: of a copy, in which a function that has wrong bodies
begins by asking which body was chosen. `rt try` runs its program in a folder of its own, without an environment. Run
so, the program copies itself out of there; else it takes the body that the environment chooses, by its number. So the
examples run it as they run lockgraph. Body 0 is the right one, with which each example has to pass.
"""
import os
import shutil
import subprocess
import tempfile
from concurrent.futures import ThreadPoolExecutor

from bodies import blamed, sources
from crates import LISTED, below, write
from functions import Wrong
from tries import tried

PROGRAM = "lockgraph"
# The variable that chooses the body.
CHOICE = "LOCKGRAPH_BODY"
# How long an example may take, in seconds. It may run beside proofs.
LONGEST = 300
# What the copy calls.
TRIAL = """\
#![tactic(auto)]

unsafe extern "C" {
    safe fn trial_body() -> u32;
}

pub fn is_body(body: u32) -> bool {
    trial_body() == body
}
"""
TRIAL_C = """\
#include <fcntl.h>
#include <stdint.h>
#include <stdlib.h>
#include <unistd.h>

static uint32_t chosen;

uint32_t trial_body(void) { return chosen; }

static void copy(const char *from, const char *to) {
    static char some[1 << 16];
    int in = open(from, O_RDONLY), out = open(to, O_WRONLY | O_CREAT | O_EXCL, 0755);
    ssize_t count;
    while ((count = read(in, some, sizeof some)) > 0)
        if (write(out, some, (size_t)count) != count) _exit(1);
    if (count < 0 || close(in) || close(out)) _exit(1);
}

__attribute__((constructor)) static void begin(int count, char **words) {
    const char *body = getenv("CHOICE");
    (void)count;
    if (body) {
        chosen = (uint32_t)strtoul(body, NULL, 10);
    } else {
        copy("/proc/self/cmdline", "KEPT/words");
        copy(words[0], "KEPT/program");
    }
}
"""


class Examples:
    """The wrong bodies, by their numbers, and the examples that they name."""

    def __init__(self, root, bodies):
        self.root, self.bodies = root, bodies

    def put(self, copy):
        """Makes the copy that is built, and the folder that the program copies itself into."""
        own = [it for it in LISTED if it in below(PROGRAM)]
        for crate in own:
            for path, text in sources(self.root, crate, self.bodies):
                write(f"{copy}/crates/{crate}/{path}", text)
        lines = [f"{crate}: {' '.join(LISTED[crate])} ld_trial\n" for crate in own]
        write(f"{copy}/crates.txt", "".join(["ld_trial:\n", *lines]))
        shutil.copy(f"{self.root}/HANDLES", copy)
        write(f"{copy}/crates/ld_trial/src/lib.rt", TRIAL)
        trial = TRIAL_C.replace("CHOICE", CHOICE).replace("KEPT", f"{copy}/kept")
        write(f"{copy}/crates/ld_trial/c/trial.c", trial)
        os.mkdir(f"{copy}/kept")

    def build(self, copy):
        """Builds the program, and puts it where the examples look for it."""
        folder = f"{copy}/crates/{PROGRAM}"
        said = tried(folder, "--", "--version")
        if not os.path.isfile(f"{copy}/kept/program"):
            raise Wrong("\n".join([*blamed(said, folder, self.bodies), f"{PROGRAM} wasn't built, or didn't begin"]))
        with open(f"{copy}/kept/words", encoding="utf-8") as file:
            words = file.read().split("\0")
        # The toolchain has a loader of its own, which stands with its words before the program.
        loader = words[: next(it for it, word in enumerate(words) if word.endswith("/program"))]
        script(f"{copy}/{PROGRAM}", *loader, f"{copy}/kept/program")
        # The examples ask for reports too, which have to be right whichever body is chosen.
        script(f"{copy}/lockcheck", "env", f"{CHOICE}=0", f"{copy}/{PROGRAM}", "check")
        shutil.copytree(f"{self.root}/examples", f"{copy}/examples")
        os.mkdir(f"{copy}/docs")
        shutil.copy(f"{self.root}/docs/report.schema.json", f"{copy}/docs")

    def run(self):
        """Builds the program, runs the examples, and tells whatever isn't as it has to be."""
        with tempfile.TemporaryDirectory() as copy:
            self.put(copy)
            self.build(copy)
            runs = [(0, it) for it in sorted(set().union(*(body.examples for body in self.bodies.values())))]
            runs += [(number, it) for number, body in self.bodies.items() for it in sorted(body.examples)]
            with ThreadPoolExecutor(len(os.sched_getaffinity(0))) as pool:
                wrong = list(filter(None, pool.map(lambda it: self.told(copy, *it), runs)))
        if wrong:
            raise Wrong("\n".join(wrong))

    def told(self, copy, number, words):
        """What is wrong about how an example ended with a body, or None."""
        how = {"stdin": subprocess.DEVNULL, "stdout": subprocess.PIPE, "stderr": subprocess.STDOUT}
        how["env"] = {**os.environ, CHOICE: str(number)}
        try:
            done = subprocess.run(
                words, cwd=copy, text=True, errors="replace", timeout=LONGEST, check=False, **how
            )
        except subprocess.TimeoutExpired:
            return f"{self.named(number)}{' '.join(words)} hadn't ended after {LONGEST} seconds"
        if done.returncode == (1 if number else 0):
            return None
        has_to = "has to fail, with status 1, and not" if number else "has to pass, and ends with"
        return f"{done.stdout}{self.named(number)}{' '.join(words)} {has_to} {done.returncode}"

    def named(self, number):
        return f"{self.bodies[number].edit}: " if number else ""


def script(file, *words):
    """Makes a script that goes on with these words and its own."""
    write(file, f"#!/bin/sh\nexec {' '.join(words)} \"$@\"\n")
    os.chmod(file, 0o755)
