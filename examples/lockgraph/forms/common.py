"""What the first occurrences of an inversion's dependencies have in common, by a replay of the stream."""
from .shown import lock_of_readers


def frame(seen):
    """The locks that are held in the innermost handler, or outside any: what a writer holds is one. Of each its name,
    whether readers wait for it, and where it was acquired."""
    found = []
    for hold in seen.holds:
        lock = lock_of_readers(hold.class_of())
        if hold.frame != seen.frame:
            continue
        if not lock:
            found.append((hold.name, False, hold.line, hold.subclass == 0))
            continue
        name = lock + hold.name.removeprefix(hold.lock)
        line = found.pop()[2] if found and found[-1] == (name, False, found[-1][2], True) else hold.line
        found.append((name, True, line, False))
    return [it[:3] for it in found]


def common(case, violation):
    """Whether one task has all of them, in one trace; and the locks, each with whether it is written."""
    if violation.kind != "inversion":
        return False, []
    seen = [case.facts.dependencies[it] for it in violation.steps]
    is_one_trace = any(all(it.line in trace for it in seen) for trace in case.traces)
    locks = []
    for name in dict.fromkeys(it[0] for it in frame(seen[0])):
        found = [[it for it in frame(one) if it[0] == name] for one in seen]
        if all(found) and ("@" not in name or is_one_trace):
            is_written = any(it[1] for one in found for it in one[:1])
            # Recursive readers of a lock are let in together.
            if is_written or (name.partition("@")[0] + "!read", 0) not in case.facts.classes:
                locks.append((name, is_written))
    return is_one_trace and len({it.task for it in seen}) == 1, locks


def in_common(case, violation):
    """The same as `explain` says it."""
    word = "both" if len(violation.steps) == 2 else "all"
    is_one_task, locks = common(case, violation)
    if is_one_task:
        yield f"{word} by one task"
    for name, is_written in locks:
        yield f"{word} under {name}{' (written)' if is_written else ''}"
