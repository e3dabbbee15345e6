"""What `lockgraph dot` writes, by docs/OUTPUT.md, but for what maps say."""
from .shown import Shown, by_locks, lock_of_readers, name_of


class Graphs(Shown):
    """The graphs of a case."""

    def graph(self, around=None, steps=1, is_whole=False):
        """What stands on violations, what is at most so many steps away from a class, or all."""
        red = {it for violation in self.violations if violation.kind != "forbidden" for it in violation.steps}
        marked = {it: it in red for violation in self.violations for it in violation.steps}
        ends = {it for violation in self.violations for it in violation.ends or ()}
        drawn, edges = {it for step in marked for it in step} | ends, set(marked)
        if around or is_whole:
            drawn = self.near(around, steps) if around else set(self.classes)
            edges = set(self.edges)
        yield "digraph lockgraph {"
        yield "  node [shape=box fontname=monospace];"
        yield "  edge [fontname=monospace fontsize=10];"
        yield from self.boxes([it for it in sorted(self.classes, key=by_locks) if it in drawn])
        for one, other in self.edges:
            if (one, other) in edges and one in drawn and other in drawn:
                seen = self.facts.dependencies[one, other]
                label = f"{quoted(seen.line.label, True)}\\n{quoted(seen.line.file, True)}:{seen.line.file_number}"
                colour = {True: " color=red", False: " color=orange"}.get(marked.get((one, other)), "")
                yield f'  "{quoted(name_of(one))}" -> "{quoted(name_of(other))}" [label="{label}"{colour}];'
        yield "}"

    def near(self, begin, steps):
        found = set()
        for way in (0, 1):
            met = {begin}
            for _ in range(steps):
                met |= {edge[1 - way] for edge in self.edges if edge[way] in met}
            found |= met
        return found

    def boxes(self, drawn):
        conflicts = {it.ends[0] for it in self.violations if it.kind == "conflict"}
        for place, class_of in enumerate(drawn):
            lock = lock_of_readers(class_of)
            behind = drawn[place + 1 : place + 2]
            before_readers = behind and class_of[1] == 0 and lock_of_readers(behind[0]) == class_of[0]
            after_lock = lock and place and drawn[place - 1] == (lock, 0)
            if before_readers or lock and not after_lock:
                name = lock or class_of[0]
                yield f'  subgraph "cluster_{quoted(name)}" {{'
                yield f'    label="{quoted(name, True)}";'
                yield "    fontname=monospace;"
            shown = "!read" if lock else quoted(name_of(class_of), True)
            twice = " peripheries=2" if class_of in conflicts else ""
            margin = "    " if lock or before_readers else "  "
            yield f'{margin}"{quoted(name_of(class_of))}" [label="{shown}\\n{self.marks(class_of)}"{twice}];'
            if lock:
                yield "  }"


def quoted(text, is_label=False):
    """A text between the quotes of a graph; a label may have entities."""
    text = text.replace("\\", "\\\\").replace('"', '\\"')
    return text.replace("&", "&amp;") if is_label else text
