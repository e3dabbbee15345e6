"""What a stream shows, by a replay of it: classes, dependencies, violations; and how names of classes are written."""

# A class's uses, in the order in which they are listed.
USES = (("in", "hard"), ("on", "hard"), ("in", "soft"), ("on", "soft"))


def name_of(class_of):
    name, subclass = class_of
    return f"{name}/{subclass}" if subclass else name


def lock_of_readers(class_of):
    """The lock whose readers wait for a class, if it is one of theirs."""
    name, subclass = class_of
    return name.removesuffix("!read") if name.endswith("!read") and name != "!read" and not subclass else None


def waited(class_of):
    lock = lock_of_readers(class_of)
    return f"{lock} (read)" if lock else name_of(class_of)


def held(class_of):
    lock = lock_of_readers(class_of)
    return f"{lock} (written)" if lock else name_of(class_of)


def in_bytes(class_of):
    """What classes are ordered by."""
    return class_of[0].encode("latin-1"), class_of[1]


def by_locks(class_of):
    """The same, but that the class of readers stands behind that of their lock."""
    lock = lock_of_readers(class_of)
    return (lock.encode("latin-1"), 0, True) if lock else (*in_bytes(class_of), False)


class Violation:
    """A violation, by its line in the report."""

    def __init__(self, line, classes):
        words = line.split(" ")
        self.line, self.kind = line, words[0]
        self.state = words[1] if self.kind in ("conflict", "forbidden") else None
        path = words[words.index("via") + 1 :: 2] if "via" in words else []
        path = {"recursion": [words[1]] * 2, "inversion": [words[1], *path], "forbidden": path}.get(self.kind, [])
        path = [classes[it] for it in path]
        self.steps = list(zip(path, path[1:]))
        # The class that handlers acquire, and that which is held where they can interrupt.
        self.ends = self.state and ((path[0], path[-1]) if path else (classes[words[2]],) * 2)

    def has(self, name):
        return name in map(name_of, [*(it for step in self.steps for it in step), *(self.ends or ())])


def grouped(violations):
    """Two are in one group if they share a step, or if others lead from one to the other so."""
    groups = []
    for violation in violations:
        shared = [it for it in groups if any(set(one.steps) & set(violation.steps) for one in it)]
        groups = [it for it in groups if it not in shared]
        groups.append([*(one for it in shared for one in it), violation])
    order = {id(it): place for place, it in enumerate(violations)}
    groups = [sorted(it, key=lambda one: order[id(one)]) for it in groups]
    return sorted(groups, key=lambda it: order[id(it[0])])


class Shown:
    """What the stream of a case shows."""

    def __init__(self, case):
        self.case, self.facts = case, case.facts
        self.classes = sorted(self.facts.classes, key=in_bytes)
        self.edges = sorted(self.facts.dependencies, key=lambda it: tuple(map(in_bytes, it)))
        self.named = {name_of(it): it for it in self.classes}
        self.violations = [Violation(it, self.named) for it in case.violations]

    def at(self, seen):
        return f"{seen.line.label} {seen.line.file}:{seen.line.file_number}"

    def marks(self, class_of):
        """The usage characters of a class."""
        signs = {(False, False): ".", (True, False): "-", (False, True): "+", (True, True): "?"}
        uses = [tuple((class_of, use, state) in self.facts.uses for use in ("in", "on")) for state in ("hard", "soft")]
        return "{" + "".join(signs[it] + "." for it in uses) + "}"
