"""How the locks of one class were acquired one under another."""


class Nesting:
    """The locks of a class, by their addresses."""

    def __init__(self):
        self.times = 0
        self.orders = set()  # pairs of an outer lock and an inner one

    def add(self, outer, inner):
        self.times += 1
        self.orders.add((outer, inner))

    def text(self, lock_class):
        name = '%s/%d' % lock_class if lock_class.subclass else lock_class.name
        count = len({lock for order in self.orders for lock in order})
        return f'# instances {name} {self.times} {count} {self.how()}\n'

    def how(self):
        """In which order: by the addresses, in another one without a cycle, or with a cycle."""
        if all(outer < inner for outer, inner in self.orders):
            return 'upwards'
        if all(outer > inner for outer, inner in self.orders):
            return 'downwards'
        cycle = cycle_of(self.orders)
        return ' '.join(['cycle', *(f"@{lock.lstrip('0') or '0'}" for lock in cycle)]) if cycle else 'order'


def cycle_of(pairs):
    """A cycle of the pairs, its first one at both ends; None where there is none."""
    after = {}
    for outer, inner in sorted(pairs):
        after.setdefault(outer, []).append(inner)
    done = set()
    for first in after:
        way, nexts = [first], [iter(after[first])]
        while way:
            inner = next(nexts[-1], None)
            if inner is None:
                done.add(way.pop())
                nexts.pop()
            elif inner in way:
                return [*way[way.index(inner):], inner]
            elif inner not in done:
                way.append(inner)
                nexts.append(iter(after.get(inner, ())))
    return None
