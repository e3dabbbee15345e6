"""What stands behind a violation, as messages tell it: lines, from a replay of the stream."""
import re

from .shown import Shown, grouped, name_of

# Texts that each form writes as they are.
PLAIN = re.compile(r"[ !$&-\[\]-~]*")


class Stories:
    """The stories of a case."""

    def __init__(self, case):
        self.case, self.facts = case, case.facts
        self.shown = Shown(case)
        self.violations = self.shown.violations

    def are_plain(self):
        """Whether each form has them as they are."""
        lines = [it for it in self.case.at.values() if not it.text.lstrip().startswith(b"#")]
        calls = [it for line in lines if isinstance(line.known, list) for call in line.known for it in call[:2]]
        texts = [*(line.text.decode("latin-1") for line in lines), *(line.label for line in lines), *calls]
        return all(map(PLAIN.fullmatch, [*texts, *self.case.files]))

    def line(self, line):
        """A line, with the calls that led there on lines of their own."""
        text = f"{line.file}:{line.file_number}: {line.text.decode('latin-1')}"
        if isinstance(line.known, int):
            return [f"{text}, line {line.known} of the recording"]
        return [text, *(f"    {told(it)}" for it in line.known or ())]

    def seen(self, seen, holds):
        first, *calls = self.line(seen.line)
        found = [f"{seen.line.label}, task {seen.task}, {first}", *calls]
        for name, line in holds:
            found += behind(f"  holds {name}, ", self.line(line))
        return found

    def step(self, step):
        seen = self.facts.dependencies[step]
        return behind(f"{name_of(step[0])} -> {name_of(step[1])}: ", self.seen(seen, frame(seen)))

    def safe(self, class_of, state):
        seen = self.facts.uses[class_of, "in", state]
        found = behind(f"{state} handlers acquire {name_of(class_of)}: ", self.seen(seen, ()))
        for handler, line in seen.handlers:
            found += behind(f"  in a {handler} handler, ", self.line(line))
        return found

    def exposed(self, class_of, state):
        seen = self.facts.uses[class_of, "on", state]
        words = f"{name_of(class_of)} is held where {state} handlers can interrupt: "
        found = behind(words, self.seen(seen, of_class(seen, class_of)))
        for each in ("hard", "soft"):
            since = seen.flags[each]
            if since is True:
                found.append(f"  {each} on since the trace began")
            elif since:
                found += behind(f"  {each} on since ", self.line(since))
        return found

    def of(self, violation):
        """All but the line that says what its kind means."""
        found = [it for step in violation.steps for it in self.step(step)]
        if violation.ends:
            found += self.safe(violation.ends[0], violation.state) + self.exposed(violation.ends[1], violation.state)
        return found


    def groups(self):
        return grouped(self.violations)

    def flows(self, violation):
        """The flows of a violation: what each is, and its locations."""
        found = []
        for one, other in violation.steps:
            seen = self.facts.dependencies[one, other]
            name = f"{name_of(one)} -> {name_of(other)}"
            found.append((name, self.locations(seen, other, frame(seen), ())))
        if violation.ends:
            (safe, exposed), state = violation.ends, violation.state
            seen = self.facts.uses[safe, "in", state]
            name = f"{state} handlers acquire {name_of(safe)}"
            found.append((name, self.locations(seen, safe, (), seen.handlers)))
            seen = self.facts.uses[exposed, "on", state]
            name = f"{name_of(exposed)} is held where {state} handlers can interrupt"
            held = of_class(seen, exposed)
            found.append((name, self.locations(seen, exposed, held, seen.handlers)))
        return found

    def locations(self, seen, class_of, held, handlers):
        found = [(f"holds {name}", line) for name, line in held]
        found += [(f"in a {state} handler", line) for state, line in handlers]
        at = f"{seen.line.label}, task {seen.task}, {seen.line.file}:{seen.line.file_number}"
        found.append((f"{name_of(class_of)}: {at}", seen.line))
        return [(text, spot(line), [call(*it) for it in calls(line)]) for text, line in found]


def calls(line):
    """The calls that led to a line, as far as a map names them."""
    return line.known if isinstance(line.known, list) else []


def call(function, file, line):
    """A call, and its line of source. Without one its file is no file either."""
    return (function, file, line) if line is not None else (function, None, None)


def spot(line):
    """Where a line comes from: the innermost call that has a line of source, or else the line of the trace."""
    found = [it[1:] for it in calls(line) if it[2] is not None]
    return found[0] if found else (line.file, line.file_number)


def told(frame):
    function, file, line = frame
    return f"{function} at {file}" + (f":{line}" if line is not None else "")


def behind(words, lines):
    return [words + lines[0], *lines[1:]]


def lock_name(hold):
    """The class that a lock was acquired as: that of the lock where readers wait for it."""
    name, subclass = hold.class_of()
    return name.removesuffix("!read") if is_of_readers(hold) else name_of((name, subclass))


def is_of_readers(hold):
    name, subclass = hold.class_of()
    return name.endswith("!read") and name != "!read" and not subclass


def frame(seen):
    """The locks that are held in the innermost handler, or outside any: what a writer holds, L and L!read, is one."""
    found = []
    for hold in seen.holds:
        if hold.frame == seen.frame:
            line = hold.line
            if found and is_of_readers(hold) and is_writer(found[-1][2], hold):
                line = found.pop()[1]
            found.append((lock_name(hold), line, hold))
    return [it[:2] for it in found]


def is_writer(last, hold):
    return last.class_of() == (lock_name(hold), 0) and last.instance == hold.instance


def of_class(seen, class_of):
    return [(lock_name(it), it.line) for it in seen.holds if it.class_of() == class_of]
