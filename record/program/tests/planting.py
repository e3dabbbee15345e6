"""Planted programs: what they claim, and how they are compiled, recorded and judged."""

import os
import re
import shlex
import shutil
import subprocess

HERE = os.path.dirname(os.path.dirname(os.path.realpath(__file__)))
PLANTED = os.path.join(HERE, "planted")
RUN = os.path.join(HERE, "run")
EXPLAIN = os.path.join(HERE, "explain")
LOCKCHECK = os.environ.get("LOCKCHECK", os.path.join(HERE, "..", "..", "lockcheck"))
PROVED = os.path.join(HERE, "..", "..", "tools", "proved")
COMPILERS = {
    ".c": [*shlex.split(os.environ.get("CC", "cc")), "-std=gnu11"],
    ".cc": [*shlex.split(os.environ.get("CXX", "c++")), "-std=gnu++17"],
}
CLANG = {".c": ["clang", "-std=gnu11"], ".cc": ["clang++", "-std=gnu++17"]}
FLAGS = ["-g", "-Wall", "-Wextra", "-Werror", "-pthread"]
SAYS = "record/program/run: "


class Failed(Exception):
    """Something isn't as it must be."""


def must(holds, text):
    if not holds:
        raise Failed(text)


def call(command, **settings):
    return subprocess.run(command, capture_output=True, text=True, timeout=600, check=False,
                          **settings)


def have_lockcheck():
    """Has lockcheck proved and built, where it is the repository's and isn't yet: until then it takes
    a minute for each stream. A release has it."""
    if "LOCKCHECK" not in os.environ and os.path.exists(PROVED):
        must(subprocess.run([PROVED], check=False).returncode == 0, "lockcheck isn't built")


def said(recorded):
    """Cuts off what `run` itself said, and gives it."""
    lines = recorded.stderr.splitlines(keepends=True)
    recorded.stderr = "".join(line for line in lines if not line.startswith(SAYS))
    return "".join(line for line in lines if line.startswith(SAYS))


def record(stream, label, command, options=(), **settings):
    return call([RUN, "-o", stream, "--label", label, *options] + command, **settings)


def lockcheck(text):
    return subprocess.run([LOCKCHECK], input=text, capture_output=True, text=True, timeout=600,
                          check=False)


def has_clang():
    """Whether clang is there beside the compilers that are set."""
    set_here = {words[0] for words in COMPILERS.values()}
    return all(map(shutil.which, ("clang", "clang++"))) and not set_here & {"clang", "clang++"}


class Planted:
    """A planted program and what its comment claims."""

    def __init__(self, file):
        self.name, self.kind = os.path.splitext(file)
        self.source = os.path.join(PLANTED, file)
        with open(self.source, encoding="ascii") as source:
            comment = source.read().partition("*/")[0]
        lines = [line.removeprefix(" *").strip() for line in comment.splitlines()]
        self.flags = self.values(lines, "Flags: ") or ["-O0", "-O2"]
        by_clang = has_clang() and not self.values(lines, "Not by clang: ")
        self.compilers = [COMPILERS, CLANG] if by_clang else [COMPILERS]
        self.options = " ".join(self.values(lines, "Options: ")).split()
        self.runs = self.values(lines, "Run: ") or [""]
        self.says = self.values(lines, "Says: ")
        self.classes = self.values(lines, "Class: ")
        self.has = self.values(lines, "Has: ")
        self.never = self.values(lines, "Not: ")
        self.unsaid = self.values(lines, "Unsaid: ")
        self.taken = sorted(self.values(lines, "Taken: "))
        self.places = sorted(self.values(lines, "Place: "))
        start = lines.index("Report:") + 1 if "Report:" in lines else len(lines)
        end = lines.index("", start) if "" in lines[start:] else len(lines)
        self.report = "\n".join(lines[start:end]) + "\n"

    def compile(self, flags, target, compilers=None):
        words = (compilers or COMPILERS)[self.kind]
        answer = call([*words, *FLAGS, *flags, "-o", target, self.source])
        must(answer.returncode == 0, f"{self.name} {flags}: {answer.stderr}")

    @staticmethod
    def values(lines, key):
        return [line.removeprefix(key) for line in lines if line.startswith(key)]

    def matches(self, report):
        return re.fullmatch(re.escape(self.report).replace(r"\.\.", r"\S*"), report)
