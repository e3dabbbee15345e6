"""Wrong bodies that meet every contract, or that no contract speaks of, side by side with the right one in a copy of
a crate, and what such a copy calls."""
import os
import re

from crates import read
from functions import Wrong, functions_of

FOLDER = "must-fail-tests"
# What the commands begin with that `fails:` names besides tests.
EXAMPLES = "examples/"
# What the copy of the tests and of the functions with wrong bodies calls.
TRIAL = """\
#![tactic(auto)]
use std::alloc::Global;
use std::process::Abort;

unsafe extern "C" {
    safe fn trial_choose(body: u32);
    safe fn trial_body() -> u32;
    safe fn trial_each(last: u32) -> u32;
}

pub fn is_body(body: u32) -> bool {
    trial_body() == body
}

fn takes(alloc: Global, count: u32) -> bool {
    (0..count).all(|_| std::boxed::Box::new(alloc, 0u8).is_ok())
}

/// Lets the allocation pass that is refused, and chooses a body.
pub fn choose<R: Abort>(rt: &R, alloc: Global, count: u32, body: u32) {
    if count > 0 {
        assert!(rt; takes(alloc, count - 1), "an allocation was refused too early");
        assert!(rt; !takes(alloc, 1), "an allocation was not counted");
    }
    trial_choose(body);
}

/// In a process of its own for each number from 1 to the last, that number, with so many allocations left
/// that the last of them is refused; then 0 here, with nothing refused. If a process fails, so does this one.
pub fn refuse_each<R: Abort>(rt: &R, alloc: Global, count: u32, last: u32) -> u32 {
    let number = trial_each(last);
    if number == 0 {
        choose(rt, alloc, count, 0);
    } else {
        assert!(rt; takes(alloc, count - number), "an allocation was refused too early");
    }
    number
}

/// Sees that the test took fewer allocations than the last number.
pub fn end<R: Abort>(rt: &R, alloc: Global, number: u32, last: u32) {
    assert!(rt; number < last || !takes(alloc, last), "it takes too many allocations");
}
"""
TRIAL_C = """\
#include <fcntl.h>
#include <stdint.h>
#include <stdio.h>
#include <sys/wait.h>
#include <unistd.h>

static uint32_t chosen;

void trial_choose(uint32_t body) { chosen = body; }

uint32_t trial_body(void) { return chosen; }

uint32_t trial_each(uint32_t last) {
    int failed = 0;
    for (uint32_t number = 1; number <= last; number++) {
        int status = -1;
        pid_t child = fork();
        if (child == 0) {
            dup2(open("/dev/null", O_WRONLY), 1);
            return number;
        }
        if (child < 0 || waitpid(child, &status, 0) != child || status != 0) {
            dprintf(2, "with allocation %u refused\\n", number);
            failed = 1;
        }
    }
    if (failed) _exit(1);
    return 0;
}
"""


class Body:
    """A wrong body: the files that it changes, by their path in its crate, and the tests or the examples that have to
    fail. An example is a command in examples/ with its words."""

    def __init__(self, root, edit):
        self.root, self.edit = root, os.path.relpath(edit, root)
        self.crate = self.edit.split(os.sep)[1]
        self.changed, self.wanted, self.examples = {}, set(), set()
        file = old = None
        for line in read(edit).splitlines():
            word, _, rest = line.partition(": ")
            if word == "file":
                file = rest
                self.changed.setdefault(file, read(f"{root}/crates/{self.crate}/{file}"))
            elif word == "old":
                old = rest
            elif word == "new":
                if self.changed[file].count(old) != 1:
                    raise Wrong(f"{self.edit}: an 'old:' text is not in its file just once")
                self.changed[file] = self.changed[file].replace(old, rest)
            elif word == "fails" and rest.startswith(EXAMPLES):
                self.add_example(tuple(rest.split()))
            elif word == "fails":
                self.add_test(*rest.split())
        if not self.changed or not self.wanted and not self.examples:
            raise Wrong(f"{self.edit}: it needs a pair of 'old:' and 'new:', and a line 'fails:'")
        if self.wanted and self.examples:
            raise Wrong(f"{self.edit}: it names tests and examples")

    def add_test(self, crate, test):
        module = test.partition("::")[0]
        if not os.path.isfile(f"{self.root}/crates/{crate}/src/{module}.rt"):
            raise Wrong(f"{self.edit}: {crate} has no tests {module}")
        self.wanted.add(test)

    def add_example(self, words):
        if not os.path.isfile(f"{self.root}/{words[0]}"):
            raise Wrong(f"{self.edit}: there is no {words[0]}")
        self.examples.add(words)

    def bodies(self, path, lines, functions):
        """The bodies of functions that it changes in a file, by the numbers of their first line and of the line
        after their last."""
        found = {}
        changed = self.changed[path].splitlines()
        for number in (it for it, line in enumerate(lines) if changed[it] != line):
            where = next(((it.head + 1, it.last) for it in functions if it.head < number < it.last), None)
            if where is None:
                raise Wrong(f"{self.edit}: it changes more than the bodies of functions")
            found[where] = changed[slice(*where)]
        return found


def sources(root, crate, bodies):
    """The files of a crate, by their paths in it, in which each function has its wrong bodies. `bodies` has those of
    all crates, by their numbers."""
    folder = f"{root}/crates/{crate}"
    own = [(number, body) for number, body in bodies.items() if body.crate == crate]
    for file in (f"{at}/{name}" for at, _, names in os.walk(f"{folder}/src") for name in names):
        path = os.path.relpath(file, folder)
        yield path, with_bodies(file, path, [it for it in own if path in it[1].changed])


def with_bodies(file, path, bodies):
    """A file in which each function that has wrong bodies has a branch for each."""
    lines = read(file).splitlines()
    functions = functions_of(file) if bodies else []
    branches = {}
    for number, body in bodies:
        for where, changed in body.bodies(path, lines, functions).items():
            branches.setdefault(where, []).append((number, changed))
    for (start, end), wrong in sorted(branches.items(), reverse=True):
        branched = []
        for number, changed in wrong:
            branched += [f"if ld_trial::is_body({number}) {{", *changed, "} else"]
        lines[start:end] = [*branched, "{", *lines[start:end], "}"]
    return "\n".join(lines) + "\n"


def number_at(text, line):
    """The number of the body that has this line in such a file, or None."""
    begins = [it for it in text.splitlines()[:line] if it == "} else" or it.startswith("if ld_trial::is_body(")]
    number = re.search(r"\((\d+)\)", begins[-1]) if begins else None
    return int(number[1]) if number else None


def blamed(said, folder, bodies):
    """What was said of a build in this folder, and the edits in whose bodies its errors are."""
    found = set()
    for path, line in re.findall(r"(?m)^(\S+\.rt):(\d+):\d+: error", said):
        number = number_at(read(os.path.join(folder, path)), int(line))
        if number:
            found.add(bodies[number].edit)
    return [said, *(f"in the body of {it}" for it in sorted(found))]


def all_edits(root):
    for at, _, names in sorted(os.walk(f"{root}/crates")):
        if os.path.basename(at) == FOLDER:
            yield from (f"{at}/{name}" for name in sorted(names))
