"""What names classes keep: where a source, the name of a program or the version of a library changes."""

import os
import re
import shutil

from planting import COMPILERS, FLAGS, PLANTED, RUN, Planted, call, lockcheck, must, record


def names_in(stream):
    """Gives the names of the classes that a stream says."""
    with open(stream, encoding="ascii") as lines:
        return re.findall(r"^# class (\S+) ", lines.read(), re.M)


def names_of(program, planted, flags, compiler):
    """Compiles a planted program, and gives the names of the classes of all its runs."""
    must_compile(planted.source, flags, program, compiler)
    names = set()
    for words in planted.runs:
        record(program + ".trace", planted.name, [program, *words.split()], planted.options)
        names.update(names_in(program + ".trace"))
    return names


def must_compile(source, flags, target, compiler):
    answer = call([compiler, "-std=gnu11", *FLAGS, f"-I{PLANTED}", *flags, "-o", target, source])
    must(answer.returncode == 0, f"{compiler} {source} {flags}: {answer.stderr}")


def with_comments(source, target):
    """Writes a source with one more comment at its begin and at the begin of each function."""
    with open(source, encoding="ascii") as lines:
        text = lines.read()
    with open(target, "w", encoding="ascii") as lines:
        lines.write("/* One line more. */\n" + text.replace("\n{\n", "\n{\n    /* And one. */\n"))


def compilers():
    """Gives the C compiler that is set, and the others that are there."""
    return [COMPILERS[".c"][0]] + [name for name in ("clang",) if shutil.which(name)]


def check_comments(name, directory):
    """The classes of a planted program keep their names where lines are put before them, in their functions or
    above."""
    old, new = os.path.join(directory, f"{name}-before"), os.path.join(directory, f"{name}-after")
    for place in (old, new):
        os.mkdir(place)
    planted, changed = Planted(f"{name}.c"), Planted(f"{name}.c")
    changed.source = os.path.join(new, f"{name}.c")
    with_comments(planted.source, changed.source)
    for compiler in compilers():
        for flags in (["-O0"], ["-O2"]):
            names = [names_of(os.path.join(place, name), program, flags, compiler)
                     for place, program in ((old, planted), (new, changed))]
            # What a compiler made of several calls has no line, and goes by its address.
            names = [{name for name in some if "+0x" not in name} for some in names]
            must(names[0] == names[1] and names[0],
                 f"{name} {compiler} {flags}: classes are {names[1]} and before {names[0]}")


def check_links(directory):
    """A program goes by the name that it was started by, also where that is a link; a script by that of the
    program that runs it."""
    program = os.path.join(directory, "conns-0", "conns")
    link = os.path.join(directory, "linked")
    script = os.path.join(directory, "script")
    os.symlink(program, link)
    with open(script, "w", encoding="ascii") as lines:
        lines.write(f"#!{program}\n")
    os.chmod(script, 0o755)
    for started, name in ((program, "conns"), (link, "linked"), (script, "conns")):
        record(os.path.join(directory, "linked.trace"), "linked", [started])
        names = names_in(os.path.join(directory, "linked.trace"))
        must(f"{name}:table" in names, f"{started}: the classes are {names}")


def check_versions(directory):
    """A library goes by the name that programs are linked with, whatever its file is called."""
    program = os.path.join(directory, "opens-0", "opens")
    source = os.path.join(PLANTED, "module.c")
    for version in ("1.0", "1.1"):
        library = os.path.join(directory, f"libplanted.so.{version}")
        must_compile(source, ["-fPIC", "-shared", "-Wl,-soname,libplanted.so.1"], library, COMPILERS[".c"][0])
        record(library + ".trace", "opens", [program, library])
        names = names_in(library + ".trace")
        must(sorted(names) == ["libplanted.so.1:inside", "opens:outside"],
             f"{library}: the classes are {names}")


def check_labels(directory):
    """A trace has the name of its program, and a comment has the words that it was started with."""
    program = os.path.join(directory, "two-runs-0", "two-runs")
    stream = os.path.join(directory, "labels.trace")
    answer = call([RUN, "-o", stream, "sh", "-c", f"{program} forth; exec {program} back"])
    with open(stream, encoding="ascii") as lines:
        text = lines.read()
    must(answer.returncode == 0, f"labels: {answer.stderr}")
    must(re.findall("^trace (.*)$", text, re.M) == ["two-runs-2", "two-runs-3"], f"labels: {text}")
    for number, word in ((2, "forth"), (3, "back")):
        must(f"# process {number} {program} {word}\n" in text, f"labels: the words aren't there: {text}")


def check_single_locks(directory):
    """With --instances each lock is a class of its own, and the order of addresses is no recursion."""
    program = os.path.join(directory, "accounts-0", "accounts")
    stream = os.path.join(directory, "instances.trace")
    record(stream, "single", [program], ["--instances"])
    with open(stream, encoding="ascii") as lines:
        report = lockcheck(lines.read()).stdout.splitlines()
    cells = [f"new_cell:accounts.c[{number}]" for number in (1, 2, 3)]
    circle = dict(zip(cells, cells[1:] + cells[:1]))
    found = {tuple(line.split()[1:4:2]) for line in report if line.startswith("inversion ")}
    must(found == set(circle.items()) and report[-1] == "violations 3", f"--instances: {report}")
