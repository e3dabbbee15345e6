"""A night from its streams to its report, whatever engine runs the tasks."""
import argparse
import math
import os
import shutil
import sys
import time
import traceback

from joining import GROUP, LARGEST_GROUP, MIB, Tree, keep_before
from nights import STREAM, Found, Night, Wrong, found_below, list_of, names_in, read, shown, told
from reducing import LIMIT, ROOT, Reducer, program, seconds
from summing import Summary

HERE = os.path.join(ROOT, "fleet")
# So many rounds without a stream that got done, or without the join, are the last ones.
ROUNDS = 3
# For so many seconds nothing need be said.
QUIET = 10
# At most so many streams are one task's.
EACH = 32
ABOUT = """
The command makes the folder NIGHT if there is none. A second call with the same arguments does only what is missing.
A stream that was rewritten counts as missing. Two calls may work on one night.

Standard output and NIGHT/night.summary have one line at the end:

  streams N reduced N empty N faulty N left N refused N violations N new N

  reduced     streams of which traces are left
  empty       streams of which no trace is left, since their traces show nothing
  faulty      streams with a fault: NIGHT/night.faulty names it for each
  left        streams without a result yet, and folders that can't be read: NIGHT/night.left has the reason of each
  refused     rejected traces: NIGHT/night.refused has the number for each stream
  violations  violations in NIGHT/night.report, the report of all streams
  new         those of them in NIGHT/night.new

NIGHT/night.trace has the traces that the report names.

Exit status:

  0  nothing is new
  1  violations are new
  2  the report isn't whole: a stream is left, or something failed
  3  nothing is new, and a stream is faulty or a trace is rejected

LOCKGRAPH and LOCKCHECK name other programs than those that were built here.
"""


class Engine:
    """What runs tasks. A task is a call of a command, for each list of streams with `--list` and that list."""

    # The program's name, with which its texts begin.
    name = ""
    # How many tasks there are at most.
    most_tasks = 1000

    def say(self, text):
        print(f"{self.name}: {text}", file=sys.stderr, flush=True)

    def each(self, _count):
        """How many of so many streams are one task's, at most."""
        return EACH

    def start(self, command, lists=None, behind=None):
        """Starts a call of the command for each list, or one call if there are none. An engine that can starts another
        command behind them, if they all end well."""
        raise NotImplementedError

    def is_running(self):
        raise NotImplementedError

    def state(self):
        """What the tasks that were started are at, if the engine knows, for whoever waits for them."""
        return ""

    def stop(self):
        """Ends what still runs."""


def parser_of(name, about, example):
    parser = argparse.ArgumentParser(
        prog=name, description=f"{about}\n{ABOUT}\n  {example}\n", formatter_class=argparse.RawDescriptionHelpFormatter
    )
    parser.add_argument(
        "folder",
        metavar="FOLDER",
        help="the folder of the streams: all files NAME.trace below it, and compressed ones, as NAME.trace.gz",
    )
    parser.add_argument("night", metavar="NIGHT", help="the folder of what is made of them; not below FOLDER")
    parser.add_argument(
        "--list",
        metavar="FILE",
        help="the streams, by their paths below FOLDER, each ended by a NUL or one a line, in place of all",
    )
    parser.add_argument(
        "--before",
        metavar="NIGHT",
        help="the night before: what was left of it is joined too, and what it reported isn't new",
    )
    parser.add_argument(
        "--known", metavar="REPORT", help="a report of violations that aren't new, in place of the night's before"
    )
    parser.add_argument(
        "--group",
        metavar="MIB",
        type=float,
        default=GROUP / MIB,
        help="how many MiB are joined at once, at most, below 1024; %(default)g without it",
    )
    parser.add_argument("--each", metavar="N", type=int, help="how many streams a task has, at most")
    parser.add_argument(
        "--limit",
        metavar="SECONDS",
        type=seconds,
        default=LIMIT,
        help="how long lockgraph may take for a stream until it is ended; %(default)s without it",
    )
    return parser


class Driver:
    """Makes a night."""

    def __init__(self, words, engine):
        self.words, self.engine, self.say = words, engine, engine.say
        self.began = time.monotonic()
        # One that names another program has to name it to the tasks too.
        for it in ("lockgraph", "lockcheck"):
            os.environ[it.upper()] = program(it)
        self.night = Night(words.night, words.folder)
        self.group = int(words.group * MIB)
        self.names, self.unread = [], {}

    def begin(self):
        """Makes the folder of the night, and writes which streams it is of."""
        if not 0 < self.group < LARGEST_GROUP:
            raise Wrong("--group: between 0 and 1024")
        real = [os.path.realpath(it) for it in (self.night.folder, self.night.path)]
        if os.path.commonpath(real) == real[0]:
            raise Wrong("the night's folder is below that of the streams: choose another one")
        self.refuse_own_results()
        found = self.find()
        self.names, self.unread = sorted(set(found.streams), key=os.fsencode), found.unread
        if not self.names:
            raise Wrong(f"{shown(self.night.folder)}: there is no stream in this folder")
        self.night.make()
        self.night.forget_summary()
        self.night.put_names(self.names)
        keep_before(Reducer(4), self.night, self.words.before)

    def refuse_own_results(self):
        """What this night reports would else be taken for what was known before."""
        for word, path in (("--before", self.words.before), ("--known", self.words.known)):
            folder = path and os.path.realpath(path if word == "--before" else os.path.dirname(os.path.abspath(path)))
            if folder == os.path.realpath(self.night.path):
                raise Wrong(f"{word}: this is the night itself: name another one")

    def find(self):
        """What is below the folder, or in the list. What is no stream is told."""
        if self.words.list:
            return Found(names_in(read(self.words.list)), {}, [])
        found = found_below(self.night.folder, self.night.path)
        for it, why in found.unread.items():
            self.say(f"{shown(it)}: this folder can't be read, so its streams are left: {why}")
        if found.others:
            more = f", and {len(found.others) - 1} more" if len(found.others) > 1 else ""
            self.say(f"not read, since its name doesn't end with {STREAM}: {shown(found.others[0])}{more}")
        return found

    def missing(self):
        return [it for it, how in self.night.endings(self.names).items() if how is None]

    def lists_of(self, missing, number):
        """Writes the lists of a round. Streams that are left over are each a task's own, as far as there are tasks:
        one that its task can't survive holds up no other."""
        each = self.words.each or self.engine.each(len(missing))
        size = max(math.ceil(len(missing) / self.engine.most_tasks), each if number == 0 else 1)
        folder = self.night.file("lists", f"{os.uname().nodename}.{os.getpid()}.{number}")
        os.makedirs(folder, exist_ok=True)
        parts = [missing[at : at + size] for at in range(0, len(missing), size)]
        lists = [os.path.join(folder, str(at)) for at in range(1, len(parts) + 1)]
        for path, names in zip(lists, parts):
            with open(path, "wb") as file:
                file.write(list_of(names))
        return lists

    def wait(self, progress=None):
        """Waits for the engine, and says how far it is, about once for each twentieth. If nothing can be said for some
        seconds, it says what the tasks are at, and then each time after twice as long."""
        told, quiet, said_at = -1, QUIET, time.monotonic()
        while self.engine.is_running():
            time.sleep(0.2)
            done, now = progress() if progress else 0, time.monotonic()
            if progress and done * 20 // len(self.names) != told:
                told, quiet, said_at = done * 20 // len(self.names), QUIET, now
                self.say(f"{done} of {len(self.names)} streams are done, {now - self.began:.0f} s")
            elif now - said_at > quiet:
                quiet, said_at = 2 * quiet, now
                if state := self.engine.state():
                    self.say(f"waiting: {state}")

    def map(self):
        """Goes round until no stream is missing, or nothing gets done any more."""
        options = ["--counted", "--limit", str(self.words.limit), "--folder", self.night.folder]
        command = [os.path.join(HERE, "map"), *options, self.night.path]
        number = idle = 0
        missing = self.missing()
        while missing and idle < ROUNDS:
            if number > 0:
                self.say(f"round {number + 1}: {len(missing)} streams are missing")
            self.night.forget_reasons()
            lists = self.lists_of(missing, number)
            self.engine.start(command, lists, self.join_command())
            self.wait(lambda: min(sum(self.night.count_made()), len(self.names)))
            shutil.rmtree(os.path.dirname(lists[0]), ignore_errors=True)
            left = self.missing()
            idle = 0 if len(left) < len(missing) else idle + 1
            missing, number = left, number + 1
        return missing

    def join_command(self):
        # A group takes longer than one stream of it: a short limit is for the streams alone.
        limit = str(max(self.words.limit, LIMIT))
        options = ["--folder", self.night.folder, "--group", str(self.words.group), "--limit", limit]
        return [os.path.join(HERE, "join"), *options, self.night.path]

    def join(self):
        """Joins what is left of all streams, and answers what they were joined to."""
        tree = Tree(self.night, self.group)
        for _ in range(ROUNDS):
            if not tree.is_made():
                self.engine.start(self.join_command())
                self.wait()
        if not tree.is_made():
            raise Wrong("the streams could not be joined")
        return tree

    def run(self):
        self.begin()
        self.say(f"{len(self.names)} streams, {len(self.missing())} of them to be reduced")
        left = {it: self.night.reason(it) for it in self.map()}
        left.update(self.unread)
        tree = self.join()
        known = self.words.known or (self.words.before and os.path.join(self.words.before, "night.report"))
        summary = Summary(self.night, self.names, left, tree, known)
        self.night.forget_parts()
        print(summary.line, flush=True)
        summary.tell(self.say)
        return summary.status()


def drive(words, engine):
    """The exit status of a night."""
    try:
        return Driver(words, engine).run()
    except (Wrong, OSError) as error:
        engine.say(told(error))
        return 2
    except Exception:
        # Python would end with 1, which says that violations are new.
        engine.say(f"this is a mistake in the program:\n{traceback.format_exc()}")
        return 2
    except KeyboardInterrupt:
        engine.say("stopped: the same call goes on")
        return 130
    finally:
        engine.stop()
