"""The end of a night: its report, what is new in it, and the line that sums it up."""
import os
import re
import subprocess

from nights import FAULTY, REDUCED, Counts, Wrong, read, shown, whole
from reducing import one_line, program


def answered(words, out, source=subprocess.DEVNULL):
    """Has a program write its answer to a file."""
    ended = subprocess.run(words, stdin=source, stdout=out, stderr=subprocess.PIPE, check=False)
    if ended.returncode not in (0, 1, 3):
        raise Wrong(one_line(ended.stderr) or f"{shown(words[0])}: status {ended.returncode}")


def last_line(path):
    """The last line of a report, before the comments that say where lines come from."""
    last = b""
    with open(path, "rb") as file:
        for line in file:
            if not line.startswith(b"#"):
                last = line
    return last.rstrip(b"\n").decode()


class Summary:
    """What a night comes to."""

    def __init__(self, night, names, left, tree, known):
        self.night, self.left, self.tree = night, left, tree
        endings = night.endings(names)
        self.faulty = [it for it in names if endings[it] == FAULTY]
        counts = {it: Counts.of(night.result(it)) for it in names if endings[it] == REDUCED}
        self.refused = {it: its.refused for it, its in counts.items() if its.refused}
        self.empty = sum(its.traces == 0 for its in counts.values())
        self.reduced = len(counts) - self.empty
        self.violations = self.report()
        self.new = self.what_is_new(known)
        self.write_lists()
        self.line = (
            f"streams {len(names)} reduced {self.reduced} empty {self.empty} faulty {len(self.faulty)} left {len(left)}"
            f" refused {sum(self.refused.values())} violations {self.violations} new {self.new}"
        )
        self.write("night.summary", [self.line])

    def write(self, name, lines):
        with whole(self.night.file(name)) as file:
            file.write("".join(f"{it}\n" for it in lines).encode())

    def report(self):
        """Writes the report, and gives the number of its violations."""
        path = self.night.file("night.report")
        with open(self.tree.top + REDUCED, "rb") as source, whole(path) as out:
            answered([program("lockcheck")], out, source)
        return number_in(last_line(path), "violations", "clean")

    def what_is_new(self, known):
        """Writes what is new in it, and gives the number of that. Where nothing is left, nothing is new."""
        path, joined = self.night.file("night.new"), self.tree.top + REDUCED
        with whole(path) as out:
            if os.path.getsize(joined) > 0:
                answered([program("lockgraph"), "new", "--known", known or os.devnull, joined], out)
            else:
                out.write(b"nothing new\n")
        return number_in(last_line(path), "new", "nothing new")

    def write_lists(self):
        """Writes which streams are faulty, have refused traces, or are left."""
        said = [read(self.night.result(it, FAULTY)).decode().rstrip("\n") for it in self.faulty]
        self.write("night.faulty", said)
        most = sorted(self.refused.items(), key=lambda it: (-it[1], os.fsencode(it[0])))
        self.write("night.refused", [f"{count} {shown(name)}" for name, count in most])
        self.write("night.left", [f"{shown(it)}: {why}" for it, why in self.left.items()])

    def tell(self, say):
        """Says where to look."""
        for name, count in (
            ("report", self.violations),
            ("new", self.new),
            ("faulty", len(self.faulty)),
            ("refused", len(self.refused)),
            ("left", len(self.left)),
        ):
            if count:
                say(f"see {shown(self.night.file(f'night.{name}'))}")
        if not self.tree.keeps:
            say("refused traces are too many to be kept: the report names none, and they stand in map/ alone")
        if self.left:
            say("the report is of the streams that are done: the same call goes on with those that are left")

    def status(self):
        if self.left:
            return 2
        if self.new:
            return 1
        return 3 if self.faulty or self.refused else 0


def number_in(line, word, none):
    """The number that a last line has behind a word, 0 if it says that there is none."""
    if line == none:
        return 0
    match = re.fullmatch(rf"{word} (\d+)", line)
    if not match:
        raise Wrong(f"a report ends with: {line}")
    return int(match[1])
