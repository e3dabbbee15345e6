"""What `explain` has to say of planted programs and other reports."""

import os
import re
import signal
import subprocess

from planting import EXPLAIN, Planted, call, lockcheck, must, record

def witness(line, lock, place, since, held, place_of_held):
    """What `explain` says of a witness of the pairs."""
    return (f"    pairs-1:{line} takes {lock} in {place}\n"
            f"        and holds {held} since line {since}, taken in {place_of_held}\n")


def both_ways(forth, back, lock, other):
    """What `explain` says of the two violations of the pairs, by the places of the first and the second
    lock where one is taken after the other."""
    return (f"inversion {lock} -> {other} at pairs-1:12 via {other} -> {lock}\n"
            + witness(12, other, forth[1], 11, lock, forth[0])
            + f"inversion {other} -> {lock} at pairs-1:16 via {lock} -> {other}\n"
            + witness(16, lock, back[1], 15, other, back[0]))


def callers(maker):
    """What `explain` says of a class of which several callers of a function made locks."""
    return (f"    all calls of {maker} are this class: if its locks are of several kinds, record with "
            f"--through {maker}\n")


SOURCE = "../planted"
# The symbol of Pair::open(int), and a place in the program, whose path has an address behind it.
OPEN = "pairs:_ZN4Pair4openEi+HEX"
TAKE_BOTH = "take_both(pthread_mutex_t*, pthread_mutex_t*)"
LINKS = f"at {SOURCE}/links.cc"
KINDS = f"at {SOURCE}/kinds.c"
EXPLAINED = [
    ("recursion.c", None, f"""\
recursion new_lock:recursion.c at recursion-1:4
    recursion-1:4 takes new_lock:recursion.c in take_both at {SOURCE}/planted.h:21, from main at {SOURCE}/recursion.c:33
        and holds new_lock:recursion.c since line 3, taken in take_both at {SOURCE}/planted.h:20, from main \
at {SOURCE}/recursion.c:33
new_lock:recursion.c
    initialised in new_lock at {SOURCE}/recursion.c:18
    taken under itself once, 2 instances, one order, by addresses that grow
"""),
    ("pairs.cc", None,
     both_ways([f"Pair::forth() at {SOURCE}/pairs.cc:{line}, from forth(void*) at {SOURCE}/pairs.cc:70"
                for line in (55, 56)],
               [f"Pair::back() at {SOURCE}/pairs.cc:{line}, from back(void*) at {SOURCE}/pairs.cc:76"
                for line in (61, 62)],
               "Pair::in", "Pair::out") + f"""\
Pair::in
    first locked in Pair::open(int) at {SOURCE}/pairs.cc:44
Pair::out
    first locked in Pair::open(int) at {SOURCE}/pairs.cc:48
"""),
    # A variable, whose symbol isn't its name.
    ("links.cc", ["-O0"], f"""\
inversion conn_init:links.cc -> links:_ZL5table at links-1:8 via links:_ZL5table -> conn_init:links.cc
    links-1:8 takes links:_ZL5table in {TAKE_BOTH} at {SOURCE}/planted.h:21, from back(void*) {LINKS}:40
        and holds conn_init:links.cc since line 7, taken in {TAKE_BOTH} at {SOURCE}/planted.h:20, from back(void*) \
{LINKS}:40
inversion links:_ZL5table -> conn_init:links.cc at links-1:4 via conn_init:links.cc -> links:_ZL5table
    links-1:4 takes conn_init:links.cc in {TAKE_BOTH} at {SOURCE}/planted.h:21, from forth(void*) {LINKS}:34
        and holds links:_ZL5table since line 3, taken in {TAKE_BOTH} at {SOURCE}/planted.h:20, from forth(void*) \
{LINKS}:34
conn_init:links.cc
    initialised in conn_init.. at {SOURCE}/links.cc:28
{callers("conn_init")}links:_ZL5table
    is the variable table of ../links
"""),
    # Locks of two kinds by one function, which isn't said: the inversion is none.
    ("kinds.c", ["-O2"], f"""\
inversion kinds:table -> lock_new:kinds.c at kinds-1:8 via lock_new:kinds.c -> kinds:table
    kinds-1:8 takes lock_new:kinds.c in take_both at {SOURCE}/planted.h:21, from back {KINDS}:37
        and holds kinds:table since line 7, taken in take_both at {SOURCE}/planted.h:20, from back {KINDS}:37
inversion lock_new:kinds.c -> kinds:table at kinds-1:4 via kinds:table -> lock_new:kinds.c
    kinds-1:4 takes kinds:table in take_both at {SOURCE}/planted.h:21, from forth {KINDS}:31
        and holds lock_new:kinds.c since line 3, taken in take_both at {SOURCE}/planted.h:20, from forth {KINDS}:31
kinds:table
    is the variable table of ../kinds
lock_new:kinds.c
    initialised in lock_new at {SOURCE}/kinds.c:25
{callers("lock_new")}"""),
    # Without debug information there are functions where there are symbols, and no lines.
    ("pairs.cc", ["-O0", "-g0"],
     both_ways(("Pair::forth() at ../pairs+HEX, from forth(void*) at ../pairs+HEX",) * 2,
               ("Pair::back() at ../pairs+HEX, from back(void*) at ../pairs+HEX",) * 2,
               OPEN, OPEN)
     + f"{OPEN}\n    first locked in Pair::open(int) at ../pairs+HEX\n{callers('Pair::open')}" * 2),
]


ORDERED = """\
new_account:accounts.c
    initialised in new_account at ../planted/accounts.c:28
    taken under itself 6 times, 3 instances, one order, by addresses that grow
new_cell:accounts.c
    initialised in new_cell at ../planted/accounts.c:33
    taken under itself 3 times, 3 instances, CYCLE @1 -> @2 -> @3 -> @1
"""


def check_explain_orders(directory):
    """Of a recursion the order of its locks is said."""
    answer = explained(directory, "accounts.c")
    end = answer.stdout[answer.stdout.index("\nnew_account:accounts.c\n") + 1:]
    must(re.fullmatch(re.escape(ORDERED).replace(r"\.\./", r"\S*/"), end), f"explain of orders: {answer.stdout}")


def explained(directory, name, flags=None):
    """Gives what `explain` says of a planted program's report, compiled anew where there are flags."""
    planted = Planted(name)
    program = os.path.join(directory, f"{planted.name}-0", planted.name)
    if flags:
        program = os.path.join(directory, f"explained-{name}" + "".join(flags), planted.name)
        os.makedirs(os.path.dirname(program))
        planted.compile(flags, program)
        record(program + ".trace", planted.name, [program])
    with open(program + ".trace", encoding="ascii") as stream, \
            open(program + ".report", "w", encoding="ascii") as report:
        report.write(lockcheck(stream.read()).stdout)
    return call([EXPLAIN, program + ".report"])


def check_explain(directory):
    """Functions and lines are those that the source has, or none; also in C++."""
    for name, flags, expected in EXPLAINED:
        answer = explained(directory, name, flags)
        expected = re.escape(expected).replace(r"\.\.", r"\S*").replace("HEX", "0x[0-9a-f]+")
        must(re.fullmatch(expected, answer.stdout),
             f"explain {name} {flags}: {answer.stdout}{answer.stderr}")


RUNS = f"at {SOURCE}/two-runs.c"
JOINED = f"""\
inversion two-runs:A -> two-runs:B at two-runs-1:4 via two-runs:B -> two-runs:A
    two-runs-1:4 takes two-runs:B in take_both at {SOURCE}/planted.h:21, from main {RUNS}:24
        and holds two-runs:A since line 3, taken in take_both at {SOURCE}/planted.h:20, from main {RUNS}:24
inversion two-runs:B -> two-runs:A at two-runs.2-1:12 via two-runs:A -> two-runs:B
    two-runs.2-1:12 takes two-runs:A in take_both at {SOURCE}/planted.h:21, from main {RUNS}:26
        and holds two-runs:B since line 11, taken in take_both at {SOURCE}/planted.h:20, from main {RUNS}:26
two-runs:A
    is the variable A of ../two-runs
two-runs:B
    is the variable B of ../two-runs
"""


def check_explain_joined(directory):
    """Of streams that were put together each has its own places. A file of these that was cut off is
    named, and the places of its stream are left out."""
    program = os.path.join(directory, "two-runs-0", "two-runs")
    streams = [os.path.join(directory, f"joined.{number}") for number in (1, 2)]
    text = ""
    for stream, label, word in zip(streams, ("two-runs", "two-runs.2"), ("forth", "back")):
        record(stream, label, [program, word])
        with open(stream, encoding="ascii") as lines:
            text += lines.read()
    report = os.path.join(directory, "joined.report")
    with open(report, "w", encoding="ascii") as lines:
        lines.write(lockcheck(text).stdout)
    answer = call([EXPLAIN, report, *streams])
    expected = re.escape(JOINED).replace(r"\.\./", r"\S*/")
    must(re.fullmatch(expected, answer.stdout), f"explain of two streams: {answer.stdout}")
    places = streams[0] + ".places"
    os.truncate(places, os.path.getsize(places) - 1)
    answer = call([EXPLAIN, report, *streams])
    must(answer.stderr == f"record/program/explain: {places}: no such file as record/program/run "
         "writes, or cut off\n", f"explain with places that were cut: {answer.stderr}")
    rest = re.escape("\n".join(JOINED.splitlines()[3:]) + "\n").replace(r"\.\./", r"\S*/")
    must(re.fullmatch(rest, answer.stdout), f"explain with places that were cut: {answer.stdout}")


def check_explain_nameless(directory):
    """Where there are no symbols no function is said: the nearest ones never ran."""
    answer = explained(directory, "pairs.cc", ["-O0", "-g0", "-s"])
    functions = set(re.findall(r" (?:in|from) (.*?) at \S*/pairs\+0x[0-9a-f]+", answer.stdout, re.M))
    must(functions == {"?"}, f"explain without symbols: {answer.stdout}{answer.stderr}")


def check_explain_ends(directory):
    """A name of which there is no more is there once, a file that isn't there or is no report is named, without a
    report there is the usage, and who reads may stop early."""
    answer = call([EXPLAIN])
    must((answer.returncode, answer.stdout, answer.stderr) ==
         (2, "", "record/program/explain: usage: record/program/explain REPORT [STREAM ..]\n"),
         f"explain of nothing: {answer.returncode} {answer.stdout} {answer.stderr}")
    report = os.path.join(directory, "kernel.report")
    with open(report, "w", encoding="ascii") as lines:
        lines.write("traces 1 refused 0 events 8 classes 2 dependencies 2\n"
                    "inversion &a->lock -> &b at k:4 via &b -> &a->lock\n"
                    "inversion &b -> &a->lock at k:8 via &a->lock -> &b\nviolations 2\n")
    answer = call([EXPLAIN, report])
    must(answer.stdout == "&a->lock\n&b\n", f"explain of a kernel's report: {answer.stdout}")
    none = os.path.join(directory, "none.report")
    answer = call([EXPLAIN, none])
    must((answer.returncode, answer.stderr) ==
         (2, f"record/program/explain: {none}: No such file or directory\n"),
         f"explain of no file: {answer.returncode} {answer.stderr}")
    stream = os.path.join(directory, "kernel.trace")
    with open(stream, "w", encoding="ascii") as lines:
        lines.write("trace k\nacquire t &a->lock\nacquire t &b\n")
    for path in (stream, os.devnull):
        answer = call([EXPLAIN, path])
        must((answer.returncode, answer.stdout, answer.stderr) ==
             (2, "", f"record/program/explain: {path}: no report of lockcheck\n"),
             f"explain of a stream: {answer.returncode} {answer.stdout} {answer.stderr}")
    reader, writer = os.pipe()
    os.close(reader)
    answer = subprocess.run([EXPLAIN, report, report], stdout=writer, stderr=subprocess.PIPE,
                            timeout=600, check=False)
    os.close(writer)
    must((answer.returncode, answer.stderr) == (-signal.SIGPIPE, b""),
         f"explain to nobody: {answer.returncode} {answer.stderr}")
