"""Streams for lockgraph: the report that lockcheck gives of one, and what it shows by the rules of docs/FORMAT.md."""
import os
import re
import subprocess

from .maps import read as maps_read

TOP = os.path.dirname(os.path.dirname(os.path.dirname(os.path.dirname(os.path.abspath(__file__)))))
KINDS = ("recursion", "inversion", "conflict", "forbidden")


def examples():
    """Each example that has a trace, by its name in the tree."""
    for folder in ("examples", "examples/rows", "examples/lockgraph"):
        for name in sorted(os.listdir(f"{TOP}/{folder}")):
            if name.endswith(".trace"):
                with open(f"{TOP}/{folder}/{name}", "rb") as file:
                    if any(line.split()[:1] == [b"trace"] for line in file):
                        yield f"{folder}/{name}"


class Wrong(Exception):
    """An answer isn't as it must be."""


def must(holds, text):
    if not holds:
        raise Wrong(text)


def same(came, wanted, what):
    must(came == wanted, f"{what} is\n{came!r}\nand must be\n{wanted!r}")


class Line:
    """A line of a trace."""

    def __init__(self, label, number, file, file_number, text):
        self.label, self.number, self.file, self.file_number = label, number, file, file_number
        self.text = text.removesuffix(b"\r")
        # What a map says of it: the calls that led there, or the number of a line of the recording.
        self.known = None

    def fields(self):
        fields = self.text.replace(b"\t", b" ").split(b" ")
        return [it.decode("latin-1") for it in fields if it]

    def place(self):
        place = {"label": self.label, "line": self.number, "file": self.file, "file_line": self.file_number}
        return place

    def said(self):
        return self.text.decode("utf-8", "replace")


class Hold:
    """A lock that a task holds."""

    def __init__(self, name, subclass, frame, line):
        self.name, self.frame, self.line = name, frame, line
        self.lock, _, self.instance = name.partition("@")
        self.subclass = subclass

    def class_of(self):
        return (self.lock, self.subclass)


class Task:
    """What a task has open: its locks, and the handlers that it is in, each with the flags around it."""

    def __init__(self):
        self.holds, self.handlers = [], []
        self.flags = {"hard": True, "soft": True}

    def frame(self):
        return len(self.handlers)


class Seen:
    """An event, with what its task had open just before, and since when interrupts are enabled just after it."""

    def __init__(self, line, name, task):
        self.line, self.task = line, name
        self.holds, self.handlers, self.frame = list(task.holds), [it[:2] for it in task.handlers], task.frame()
        self.flags = None


class Facts:
    """The first occurrence of each dependency and of each use, in the order of the traces."""

    def __init__(self):
        self.dependencies, self.uses, self.classes = {}, {}, set()

    def read(self, lines):
        """Reads the events of a trace."""
        tasks = {}
        for line in lines:
            fields = line.fields()
            if fields and not fields[0].startswith("#"):
                self.event(line, fields, tasks.setdefault(fields[1], Task()))

    def event(self, line, fields, task):
        seen = Seen(line, fields[1], task)
        verb, word = fields[0], fields[2]
        if verb in ("acquire", "nested", "try"):
            hold = Hold(word, int(fields[3]) if verb == "nested" else 0, task.frame(), line)
            self.classes.add(hold.class_of())
            if verb != "try":
                self.waits(seen, task, hold.class_of())
            task.holds.append(hold)
        elif verb == "release":
            at = [it for it, held in enumerate(task.holds) if held.name == word and held.frame == task.frame()]
            del task.holds[at[-1]]
        elif verb == "enter":
            task.handlers.append((word, line, dict(task.flags)))
            task.flags[word] = False
        elif verb == "exit":
            task.flags = task.handlers.pop()[2]
        elif verb == "enable":
            task.flags[word] = task.flags[word] or line
        elif verb == "disable":
            task.flags[word] = False
        else:
            task.flags = {state: line if it == "on" else False for state, it in zip(("hard", "soft"), fields[2:])}
        seen.flags = dict(task.flags)
        for hold in task.holds:
            if task.flags["hard"]:
                self.uses.setdefault((hold.class_of(), "on", "hard"), seen)
                if task.flags["soft"]:
                    self.uses.setdefault((hold.class_of(), "on", "soft"), seen)

    def waits(self, seen, task, class_of):
        for held in task.holds:
            if held.frame == task.frame():
                self.dependencies.setdefault((held.class_of(), class_of), seen)
        for state, _, _ in task.handlers:
            self.uses.setdefault((class_of, "in", state), seen)


class Case:
    """Files that are read as one stream, with words for maps."""

    def __init__(self, *files, words=()):
        self.files, self.words = files, words
        self.read()
        joined = b"".join(it + b"\n" for it in self.lines)
        done = subprocess.run(["./lockcheck"], cwd=TOP, input=joined, stdout=subprocess.PIPE, check=False)
        self.status = done.returncode
        self.report = done.stdout.decode("ascii").splitlines()
        self.refused = [it for it in self.report if it.startswith("refused ")]
        self.violations = [it for it in self.report if it.split(" ")[0] in KINDS]
        self.totals = dict(zip(*[iter(self.report[0].split(" "))] * 2))
        self.facts = Facts()
        refused = {int(re.fullmatch(r"refused \S+ line (\d+) \S+", it)[1]) for it in self.refused}
        for trace in self.traces:
            if not any(it.number in refused for it in trace):
                self.facts.read(trace)

    def __str__(self):
        return " ".join((*self.words, *self.files))

    def read(self):
        """The lines of the stream, and those of each trace behind its header."""
        self.lines, self.traces, self.at = [], [], {}
        maps = [maps_read(it) for word, it in zip(self.words, self.words[1:]) if word == "--map"]
        for place, name in enumerate(self.files):
            known = maps[place] if place < len(maps) else []
            with open(os.path.join(TOP, name), "rb") as file:
                text = file.read()
            for number, line in enumerate(text.removesuffix(b"\n").split(b"\n"), 1):
                self.lines.append(line)
                read = Line(self.traces[-1].label if self.traces else "", len(self.lines), name, number, line)
                read.known = known[number - 1] if number <= len(known) else None
                fields = read.fields()
                if fields[:1] == ["trace"]:
                    self.traces.append(Lines(fields[1]))
                elif self.traces:
                    self.traces[-1].add(read)
                    self.at[read.number] = read

    def run(self, command, *words, status=None):
        """What a command writes, whose status must be that of lockcheck, or this one."""
        words = ["./lockgraph", command, *words, *self.words, *self.files]
        done = subprocess.run(words, cwd=TOP, stdin=subprocess.DEVNULL, capture_output=True, check=False)
        status = self.status if status is None else status
        same((done.returncode, done.stderr), (status, b""), "the status, with standard error")
        return done.stdout


class Lines(list):
    """The lines of a trace. If the first one says where the trace comes from, the others are shown there."""

    def __init__(self, label):
        super().__init__()
        self.label, self.origin = label, None

    def add(self, line):
        if not self:
            self.origin = re.fullmatch(rb"# from ([!-~]+) ([0-9]+)", line.text)
        elif self.origin:
            line.file = self.origin[1].decode("ascii")
            line.file_number = int(self.origin[2]) + line.number - self[0].number
        self.append(line)
