"""What `lockgraph list`, `stats` and `new` write, by docs/OUTPUT.md, and a look at these, `explain` and `dot`."""
import collections

from .explained import Explained
from .graphs import Graphs
from .shown import USES, Shown, by_locks, held, lock_of_readers, name_of, waited
from .streams import KINDS, Task, same

VERBS = ("acquire", "nested", "try", "release", "enter", "exit", "enable", "disable", "begin")
FAULTS = (
    "BadVerb", "BadCount", "BadName", "BadState", "TooManyTasks", "TooManyClasses", "TooDeep", "NotHeld", "BadNest",
    "Masked", "BadExit", "HeldAtExit", "BadEnable", "LateBegin",
)
# How many classes of a stream are looked at one by one.
MOST = 5


class Counts:
    """What is counted of the traces that are read."""

    def __init__(self, traces):
        self.verbs, self.acquired = collections.Counter(), collections.Counter()
        self.chains, self.depth = set(), 0
        for trace in traces:
            tasks = collections.defaultdict(Task)
            for line in trace:
                fields = line.fields()
                if fields and not fields[0].startswith("#"):
                    self.event(tasks[fields[1]], fields)

    def event(self, task, fields):
        """Here a handler is the number of locks that were held when it began."""
        verb, word = fields[0], fields[2]
        self.verbs[verb] += 1
        if verb in ("acquire", "nested", "try"):
            class_of = (word.partition("@")[0], int(fields[3]) if verb == "nested" else 0)
            self.acquired[class_of] += 1
            task.holds.append((word, class_of))
            self.depth = max(self.depth, len(task.holds))
            self.chains.add(tuple(it[1] for it in task.holds[self.began(task) :]))
        elif verb == "release":
            own = range(self.began(task), len(task.holds))
            del task.holds[max(it for it in own if task.holds[it][0] == word)]
        elif verb == "enter":
            task.handlers.append(len(task.holds))
        elif verb == "exit":
            task.handlers.pop()

    def began(self, task):
        return task.handlers[-1] if task.handlers else 0


class Lists(Shown):
    """What is counted and listed of a case."""

    def __init__(self, case):
        super().__init__(case)
        refused = {int(it.rsplit(" ", 2)[1]) for it in case.refused}
        self.counts = Counts(it for it in case.traces if not any(line.number in refused for line in it))
        self.reached = self.closure()

    def closure(self):
        """To which classes a path leads from each."""
        follow = collections.defaultdict(set)
        for one, other in self.edges:
            follow[one].add(other)
        found = {}
        for begin in self.classes:
            met, left = set(), [begin]
            while left:
                new = follow[left.pop()] - met
                met |= new
                left += new
            found[begin] = met
        return found

    def row(self, class_of):
        before = sum(class_of in it for it in self.reached.values())
        count = self.counts.acquired[class_of]
        return f" {self.marks(class_of)} acquired {count} reached-from {before} reaches {len(self.reached[class_of])}"

    def list(self, with_dependencies=False):
        above = None
        for class_of in sorted(self.classes, key=by_locks):
            under = above is not None and lock_of_readers(class_of) == above[0] and above[1] == 0
            margin = "    " if under else "  "
            yield ("  !read" if under else name_of(class_of)) + self.row(class_of)
            for edge in self.edges if with_dependencies else ():
                if edge[0] == class_of:
                    yield f"{margin}-> {waited(edge[1])} at {self.at(self.facts.dependencies[edge])}"
            above = class_of

    def class_list(self, class_of):
        yield name_of(class_of) + self.row(class_of)
        for use, state in USES:
            if (class_of, use, state) in self.facts.uses:
                yield f"  {use} {state} at {self.at(self.facts.uses[class_of, use, state])}"
        for one, other in self.edges:
            if other == class_of:
                yield f"  under {held(one)} at {self.at(self.facts.dependencies[one, other])}"
        for one, other in self.edges:
            if one == class_of:
                yield f"  over {waited(other)} at {self.at(self.facts.dependencies[one, other])}"

    def stats(self):
        totals, kinds = self.case.totals, collections.Counter((it.kind, it.state) for it in self.violations)
        faults = collections.Counter(it.rsplit(" ", 1)[1] for it in self.case.refused)
        parts = {frozenset(it for it in self.reached[one] if one in self.reached[it]) for one in self.classes}
        sizes = collections.Counter(len(it) for it in parts if it)
        uses = collections.Counter(f"{use}-{state}" for _, use, state in self.facts.uses)
        yield from (("files", len(self.case.files)), ("traces", totals["traces"]), ("refused", totals["refused"]))
        yield from ((f"refused-{it}", faults[it]) for it in FAULTS)
        yield ("events", sum(self.counts.verbs.values()))
        yield from ((f"events-{it}", self.counts.verbs[it]) for it in VERBS)
        yield from (("classes", len(self.classes)), ("subclasses", sum(it[1] > 0 for it in self.classes)))
        yield from ((f"classes-{use}-{state}", uses[f"{use}-{state}"]) for use, state in USES)
        yield from (("dependencies", len(self.edges)), ("chains", len(self.counts.chains)))
        yield ("depth", self.counts.depth)
        yield ("cyclic-components", sum(sizes.values()))
        yield from ((f"cyclic-components-of-{size}", count) for size, count in sorted(sizes.items()))
        yield from (("violations", len(self.violations)), ("recursions", kinds["recursion", None]))
        yield ("inversions", kinds["inversion", None])
        yield from ((f"{it}s-{state}", kinds[it, state]) for it in ("conflict",) for state in ("hard", "soft"))
        yield from ((f"forbidden-{state}", kinds["forbidden", state]) for state in ("hard", "soft"))

    def new(self):
        """With nothing known."""
        count = len(self.case.violations)
        lines = [*self.case.report[:-1], f"new {count}" if count else "nothing new"]
        yield from lines
        if len(self.case.files) > 1:
            named = [number for it in lines for number in lines_named(it)]
            for number in dict.fromkeys(named):
                line = self.case.at[number]
                yield f"# line {number} is {line.file}:{line.file_number}"


def lines_named(text):
    """The numbers of the lines that a line of a report names."""
    words = text.split(" ")
    places = {"recursion": (3,), "inversion": (5,), "conflict": (5, 7), "forbidden": (5, 10)}.get(words[0], ())
    return [int(words[3])] if words[0] == "refused" else [int(words[it].rpartition(":")[2]) for it in places]


def wrote(case, wanted, command, *words, status=None):
    came = case.run(command, *words, status=status).decode("latin-1")
    same(came, "".join(f"{it}\n" for it in wanted), " ".join((command, *words)))


def read_status(case):
    """The status of what doesn't look for violations."""
    return 3 if case.refused else 0


def look_at_explain(case):
    texts = Explained(case)
    for kind in KINDS:
        wrote(case, texts.explained(kind=kind), "explain", "--most", "0", "--only", kind)
    if not case.refused:
        wrote(case, texts.explained(), "explain", "--most", "0")
        wrote(case, texts.explained(most=1), "explain", "--most", "1")


def look_at_dot(case):
    texts = Graphs(case)
    wrote(case, texts.graph(), "dot")
    wrote(case, texts.graph(is_whole=True), "dot", "--all")


def look_at_list(case):
    texts = Lists(case)
    wrote(case, texts.list(), "list", status=read_status(case))
    wrote(case, texts.list(with_dependencies=True), "list", "--dependencies", status=read_status(case))


def look_at_stats(case):
    texts = Lists(case)
    wrote(case, (f"{name} {figure}" for name, figure in texts.stats()), "stats", status=read_status(case))


def look_at_new(case):
    texts = Lists(case)
    wrote(case, texts.new(), "new", "--known", "/dev/null")


def explain_of(case, class_of):
    texts = Explained(case)
    name = name_of(class_of)
    wrote(case, texts.explained(name=name), "explain", "--most", "0", "--class", name)


def dot_of(case, class_of):
    texts = Graphs(case)
    for steps in (1, 3):
        wrote(case, texts.graph(class_of, steps), "dot", "--class", name_of(class_of), "--around", str(steps))


def list_of(case, class_of):
    texts = Lists(case)
    wrote(case, texts.class_list(class_of), "list", "--class", name_of(class_of), status=read_status(case))


WHOLE = {
    "explain": look_at_explain,
    "dot": look_at_dot,
    "list": look_at_list,
    "stats": look_at_stats,
    "new": look_at_new,
}
# What is said of a class.
OF_CLASS = {"explain": explain_of, "dot": dot_of, "list": list_of}


def look(case, command, name=None):
    """Looks at what a command writes, of the class of this name if there is one."""
    if name is None:
        WHOLE[command](case)
    else:
        OF_CLASS[command](case, Shown(case).named[name])


def look_at_all(case):
    """What all commands write, of each of the first few classes too."""
    for look_at in WHOLE.values():
        look_at(case)
    for class_of in Shown(case).classes[:MOST]:
        for look_at in OF_CLASS.values():
            look_at(case, class_of)
