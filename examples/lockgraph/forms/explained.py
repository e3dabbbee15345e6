"""What `lockgraph explain` writes, by docs/OUTPUT.md, but for what maps say, and why traces are rejected."""
import collections

from .common import frame, in_common
from .shown import Shown, grouped, held, lock_of_readers, waited


class Explained(Shown):
    """What is explained of a case."""

    def explained(self, kind=None, name=None, most=0):
        chosen = [it for it in self.violations if kind in (None, it.kind) and (name is None or it.has(name))]
        groups = grouped(chosen)
        ordered = [(group, it) for group in groups for it in group]
        told = ordered[: most or None]
        above = set()
        for group, violation in told:
            if len(group) > 1 and violation is group[0]:
                counts = collections.Counter(step for it in group for step in set(it.steps))
                steps = dict.fromkeys(step for it in group for step in it.steps)
                first = max(steps, key=lambda it, counts=counts: counts[it])
                yield f"together {len(group)}, of which {counts[first]} have {held(first[0])} -> {waited(first[1])}"
                yield ""
            yield from self.violation(violation, above)
            yield ""
        yield f"explained {len(told)}, not explained {len(chosen) - len(told)}"

    def violation(self, violation, above):
        yield violation.line
        if len(violation.steps) > 1 and above.issuperset(violation.steps):
            yield "  its dependencies are above"
        else:
            for step in violation.steps:
                is_above = step in above
                above.add(step)
                yield f"  {held(step[0])} -> {waited(step[1])}" + (", above" if is_above else "")
                if not is_above:
                    seen = self.facts.dependencies[step]
                    yield self.seen(seen)
                    yield from map(self.hold, frame(seen))
                    yield from self.handlers(seen)
        yield from (f"  {it}" for it in in_common(self.case, violation))
        if violation.ends:
            yield from self.ends(violation)

    def line(self, line):
        return f"{line.file}:{line.file_number}: {line.text.decode('latin-1')}"

    def seen(self, seen):
        return f"    {seen.line.label}, task {seen.task}, {self.line(seen.line)}"

    def hold(self, one):
        lock, is_written, line = one
        return f"    holds {lock}{' (written)' if is_written else ''}, {self.line(line)}"

    def handlers(self, seen):
        return (f"    in a {state} handler, {self.line(line)}" for state, line in seen.handlers)

    def ends(self, violation):
        safe, exposed = violation.ends
        seen = self.facts.uses[safe, "in", violation.state]
        yield f"  {violation.state} handlers acquire {waited(safe)}"
        yield self.seen(seen)
        yield from self.handlers(seen)
        seen = self.facts.uses[exposed, "on", violation.state]
        yield f"  {held(exposed)} is held where {violation.state} handlers can interrupt"
        yield self.seen(seen)
        for it in seen.holds:
            if it.class_of() == exposed:
                lock = lock_of_readers(exposed)
                name = lock + it.name.removeprefix(it.lock) if lock else it.name
                yield self.hold((name, bool(lock), it.line))
        yield from self.handlers(seen)
        for state in ("hard", "soft")[: 1 if violation.state == "hard" else 2]:
            since = seen.flags[state]
            if since:
                yield f"    {state} on since " + ("the trace began" if since is True else self.line(since))
