"""The edits of a crate that the prover has to refuse: where they stand, which functions they change, and
what a check of some of them together says of each."""
import os
import re

from crates import read
from functions import FUNCTION, TAKEN, Function, Wrong, block_of, functions_in, functions_of, modules_of, owner_of

FOLDER = "must-fail-proofs"
# Those that the gate doesn't try.
MORE = "must-fail-more"
OPEN = re.compile(r"note: (src/\S+?):(\d+):\d+: (it is not proved .*)")
ERROR = re.compile(r"(?:\./)?(proofs|specs|src)/(\S+?):(\d+):\d+: error: (.*)")
# How an error goes on in the next line, where it first shows a record with all its fields.
REST = re.compile(r"  (has no field `.*)")
UNCOMPILED = re.compile(r"(?m)^(src/\S+?):(\d+):\d+: error\[")
# What is said where goals of a function have other names than before.
ANEW = "(goals of this function are named anew)"
# The most edits of a round: one with more gains little, and others would wait for its end.
MOST = 16
# What is said where a proof file names what an edit took away.
NAMES = re.compile(
    r"has no (`|field|constructor|member)|is not (in scope|a (field|constructor) of)|was not admitted|\(nearest: "
)
# What is said of an answer that rests on one that a missing name had refused.
UNREAD = "which was rejected, w"
# Nothing is told of the goals of such a function.
UNTOLD = "which antt refuses"
# Such a function calls one that isn't proved.
RESTS = "it calls `"


class Edit:
    """An edit: the lines that it changes, by file and number, the functions that they stand in, and those whose bodies
    they stand in; none, where it changes something else."""

    def __init__(self, folder, modules, crate, kind, name):
        self.folder, self.modules, self.crate, self.label = folder, modules, crate, f"{crate}/{name}"
        self.text = read(f"{folder}/{kind}/{name}")
        self.changed, self.functions = {}, []
        file = old = None
        texts = {}
        for line in self.text.splitlines():
            word, _, rest = line.partition(":")
            rest = rest.removeprefix(" ")
            if word == "file":
                file = rest.strip()
                texts[file] = texts.get(file) or self.unedited(file)
            elif word == "old":
                old = rest
            elif word == "new":
                if not old or texts[file].count(old) != 1:
                    raise Wrong(f"{self.label}: BAD EDIT: an 'old:' text is not in its file just once")
                texts[file], old = texts[file].replace(old, rest), None
        for file, text in texts.items():
            lines = zip(self.unedited(file).split("\n"), text.split("\n"))
            self.changed.update({(file, at): new for at, (was, new) in enumerate(lines) if was != new})
        if not self.changed:
            raise Wrong(f"{self.label}: BAD EDIT: it changes nothing")
        found = [self.function(file, at, new) for (file, at), new in self.changed.items()]
        self.touched = [it for it, _ in found] if all(it for it, _ in found) else []
        self.functions = self.touched if all(is_body for _, is_body in found) else []

    def unedited(self, file):
        try:
            return read(f"{self.folder}/{file}")
        except OSError as why:
            raise Wrong(f"{self.label}: BAD EDIT: {why}") from why

    def lines(self, file):
        return self.unedited(file).split("\n")

    def function(self, file, at, new):
        """The function that has this line, and whether the line is its body's; none, if no function has it."""
        was = self.lines(file)[at]
        found = functions_of(f"{self.folder}/{file}") if file.startswith("src/") else []
        for it in found:
            it.file, it.module = file, self.modules.get(it.owner.partition("+")[0])
            if it.has(file, at):
                return it, at > it.head or at == it.head and new.startswith(was)
        # A function more, before the comment of another one.
        added = FUNCTION.match(new)
        if added and was.strip().startswith("///") and new.endswith(was.strip()):
            owner = owner_of(file, block_of(self.lines(file), at, added[1]))
            found = Function(file, added[2], owner, True, (at, at, at))
            found.module, found.is_added = self.modules.get(owner), True
            return found, True
        return None, False

    def places(self):
        return {it.place() for it in self.functions}

    def has(self, file, line):
        return any(it.has(file, line) for it in self.touched)

    def has_proofs(self, path):
        return any(it.has_proofs(path) for it in self.touched)


def edits_of(folder, crate, kind):
    """The edits of a crate in a folder, of the kind FOLDER or MORE, and why others can't be applied."""
    found, bad, modules = [], [], modules_of(folder)
    for name in sorted(os.listdir(f"{folder}/{kind}")) if os.path.isdir(f"{folder}/{kind}") else []:
        try:
            found.append(Edit(folder, modules, crate, kind, name))
        except Wrong as why:
            bad.append(str(why))
    return found, bad


def rounds_of(edits):
    """Rounds of edits no two of which change one function, that one first over which the crate is proved: it changes
    the fewest bodies, since they are proved anew. What changes more than bodies is alone."""
    places = [place for edit in edits for place in edit.places()]
    rounds, alone = [], [[it] for it in edits if not it.functions]
    # Those of a function with many edits first, each into the round that has the fewest.
    for edit in sorted(edits, key=lambda it: -max(map(places.count, it.places()), default=0)):
        taken = [set().union(*(it.places() for it in some)) for some in rounds]
        fits = [some for some, of in zip(rounds, taken) if len(some) < MOST and not of & edit.places()]
        if edit.functions and fits:
            min(fits, key=len).append(edit)
        elif edit.functions:
            rounds.append([edit])
    return sorted(rounds + alone, key=lambda it: (not it[0].functions, len(it)))


def paths_of(edits):
    """The functions, as `--only` takes them, whose check tells of some edits of one crate: those that they change,
    and if one of these calls another, also the shortest caller that no edit changes. Said judges by such a one
    whether goals of callers count. No functions, if an edit changes more than functions."""
    if not all(edit.touched for edit in edits):
        return []
    functions = functions_in(edits[0].folder, edits[0].modules)
    places = {it.place() for edit in edits for it in edit.touched}
    changed = [it for it in functions if it.place() in places]
    if any(it.calls(other) for it in changed for other in changed if it is not other):
        others = [it for it in functions if it not in changed and any(map(it.calls, changed))]
        changed += sorted(others, key=lambda it: it.last - it.head)[:1]
    added = [it for edit in edits for it in edit.touched if it.is_added]
    return sorted(it.path() for it in changed + added)


def edited(edits):
    """The texts of the files that some edits change, by their path in the crate."""
    texts = {}
    for edit in edits:
        for (file, at), new in edit.changed.items():
            texts.setdefault(file, edit.unedited(file).split("\n"))[at] = new
    return {file: "\n".join(lines) for file, lines in texts.items()}


def closed(text):
    """The functions of which a check of a crate says that nothing is open, by their paths below the crate."""
    taken = rf"depends on a hole in `\S+\.{TAKEN}\.taken_as_proved`"
    return set(re.findall(rf"(?m)^fn \w+::(\S+): (?:proved|no holes|{taken})$", text))


def weight(goal):
    """What a goal shows: most, that values make it false; then, that an answer to it doesn't fit any more; least, that
    an answer wasn't read."""
    if "values at which this goal is false" in goal:
        return 0
    return 3 if UNREAD in goal else 1 if goal.startswith("proofs/") else 2


class Said:
    """What `rt check --allow-holes` said of some edits: the goals that each left open in its own functions,
    what is wrong by a name alone, and the goals of functions that none of them changes.

    A goal knows of the functions that are called what their contracts say, be they proved or not. That this is so
    is seen of the functions that no edit changes: where one of them calls a function that isn't proved, and has an
    open goal, none counts that is of a caller of such a function."""

    def __init__(self, edits, status, text):
        self.edits, self.text = edits, text
        self.goals, self.names, self.strange = {it: [] for it in edits}, {it: [] for it in edits}, []
        self.has_ended = bool(re.search(r"(?m)^(only=\d+ )?holes=\d+$", text))
        self.is_proved = self.has_ended and status == 0
        self.closed = closed(text)
        uncompiled = [] if self.has_ended else UNCOMPILED.findall(text)
        self.is_uncompiled = bool(uncompiled)
        self.uncompiled = [it for it in edits if any(it.has(file, int(line) - 1) for file, line in uncompiled)]
        notes, errors, self.resting = [], [], []
        for line in text.splitlines():
            if note := OPEN.match(line):
                notes.append(note.groups())
            elif error := ERROR.match(line):
                errors.append(error.groups())
            elif errors and (rest := REST.match(line)):
                errors[-1] = (*errors[-1][:3], f"{errors[-1][3]} {rest[1]}")
            elif function := re.match(r"fn (\S+): (.*)", line):
                self.add_notes(notes if UNTOLD not in function[2] else [], RESTS in function[2])
                notes = []
        self.add_notes(notes, False)
        self.is_alone = not all(owners for owners, _ in self.resting)
        for owners, goal in self.resting if not self.is_alone else []:
            self.add(owners, self.goals, goal, True)
        for error in errors:
            self.add_error(*error)

    def add_notes(self, notes, rests):
        for file, line, why in notes:
            owners, goal = [it for it in self.edits if it.has(file, int(line) - 1)], f"{file}:{line}: {why}"
            if rests:
                self.resting.append((owners, goal))
            else:
                self.add(owners, self.goals, goal, False)

    def add_error(self, part, path, line, why):
        owners = [it for it in self.edits if part == "proofs" and it.has_proofs(path)]
        is_name = NAMES.search(why)
        self.add(owners, self.names if is_name else self.goals, f"{part}/{path}:{line}: {why}", is_name)

    def shown(self, edit):
        """The goal that tells most of an edit, and whether it may be open for want of an answer alone, since
        goals of its function have other names than before."""
        goal = min(self.goals[edit], key=weight)
        is_anew = self.names[edit] and weight(goal) >= 2
        return f"{goal} {ANEW}" if is_anew else goal

    def why_not(self, edit):
        """Why an edit that was tried alone isn't refused."""
        if self.is_proved or self.has_ended and {it.path() for it in edit.functions} <= self.closed and edit.functions:
            return "NOT REFUSED: nothing is open of what it changes"
        if self.is_uncompiled:
            return "BAD EDIT: it does not compile:\n" + "\n".join(self.text.splitlines()[:6])
        if self.names[edit] and self.has_ended:
            return f"refused only by a name, so nothing is seen of what it means: {self.names[edit][0]}"
        return f"NO VERDICT: it is neither proved nor refused by a goal:\n{self.text[-2000:]}"

    def add(self, owners, to, goal, is_expected):
        # What changes more than bodies may leave any goal of the crate open.
        if len(self.edits) == 1 and not self.edits[0].functions:
            owners = self.edits
        for it in owners:
            to[it].append(goal)
        if not owners and not is_expected:
            self.strange.append(goal)
