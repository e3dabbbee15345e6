"""The functions through which a program makes and takes its locks: `run` names them, and --through passes them."""

import os
import re

from planting import SAYS, Planted, must, record, said


def check_through(directory):
    """The places of locks that one function takes are those of its callers, where --through names it, also where
    that isn't inlined. Where nothing tells how frames are passed `run` says so."""
    planted = Planted("wrapped.c")
    stream = os.path.join(directory, "through.trace")
    line = SAYS + "1 places are in functions of --through, since their callers aren't known\n"
    for flags, expected in (([], {"push", "pop", "sized"}), (["-fno-asynchronous-unwind-tables"], {"take"})):
        program = os.path.join(directory, f"through-{len(flags)}", "wrapped")
        os.mkdir(os.path.dirname(program))
        planted.compile(["-O2", *flags], program)
        notes = said(record(stream, "wrapped", [program], ["--through", "take"]))
        with open(stream + ".places", "rb") as file:
            functions = set(re.findall(r"^place \d+ (\S+)", file.read().decode("latin-1"), re.M))
        must(functions == expected, f"--through: the places are in {functions}")
        must((line in notes) == bool(flags), f"--through: run says {notes}")


def check_nameless_maker(directory):
    """Makers of locks that have no name are said by the places that stand as the class of all locks: here
    one function makes them, and another calls it. `run` names each where its locks are held together."""
    planted = Planted("maker.c")
    program = os.path.join(directory, "nameless", "maker")
    os.mkdir(os.path.dirname(program))
    planted.compile(["-O0", "-g0", "-s"], program)
    found, options, hints = [], [], []
    for _ in range(3):
        notes = said(record(program + ".trace", "maker", [program], options))
        hints.append(re.findall(r"say --through (\S+)$", notes, re.M))
        with open(program + ".trace", encoding="ascii") as stream:
            found.append(re.findall(r"^# class (maker:\+0x[0-9a-f]+) init ", stream.read(), re.M))
        options += ["--through", found[-1][0]]
    must([len(names) for names in found] == [1, 1, 2], f"makers without a name: the classes are {found}")
    must(hints == [found[0], found[1], []], f"makers without a name: run names {hints}, and not {found}")


def check_maker_named(directory):
    """`run` names the function through which locks of several kinds are made, where two of them are held
    together, and no function that makes locks of one kind in one place."""
    def hints(name, options):
        program = os.path.join(directory, name + "-0", name)
        notes = said(record(os.path.join(directory, "hints.trace"), name, [program], options))
        return re.findall(r"^" + SAYS + r"(.* times a lock of .*)$", notes, re.M)

    # Two threads take both locks, one under the other.
    line = ("2 times a lock of %s was taken under another one; all calls of %s are one class: if its locks "
            "are of several kinds, say --through %s")
    must(hints("maker", []) == [line % ("begin:maker.c", "begin", "begin")], "maker: begin isn't named")
    found = hints("maker", ["--through", "begin"])
    must(found == [line % ("lock_new:maker.c", "lock_new", "lock_new")], f"maker: run says {found}")
    for name, options in (("maker", ["--through", "lock_new"]), ("recursion", []), ("conns", [])):
        must(hints(name, options) == [], f"{name}: run names a maker")
