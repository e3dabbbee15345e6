"""Streams whose dependencies have a shape that a search or a repair of the order can make dear.

Each shows its shape once, which grows as the size does, and then pieces of it again. In the shapes with forbidden
paths a hard handler acquires each safe class, and each unsafe class is held where handlers can interrupt. All
dependencies are shown where they can't.
"""
from math import isqrt

from parts import MOST_TRACES, Locks, again, dependency, task_names

EACH = 1000          # pieces of a trace
BYTES_PAIR = 180     # of a dependency, at most, on average


def safe(task, lock):
    return b'enter %b hard\nacquire %b %b\nrelease %b %b\nexit %b hard\n' % (task, task, lock, task, lock, task)


def unsafe(task, lock):
    return b'acquire %b %b\nrelease %b %b\n' % (task, lock, task, lock)


def masked(task, locks, pair):
    return b'disable %b hard\n%benable %b hard\n' % (task, dependency(task, locks, pair), task)


def told(draws, size, pieces):
    """The pieces in traces, and then some of them again, without end."""
    each = max(EACH, size // MOST_TRACES // 60)
    for number, piece in enumerate(again(draws, pieces)):
        yield piece if number % each else b'trace run-%d\n%b' % (number // each, piece)


def ordered(draws, size, classes, pairs):
    locks, task = Locks(draws, classes), task_names()[0]
    return told(draws, size, [dependency(task, locks, pair) for pair in pairs])


def halves(size):
    """Half of as many classes as a stream of the size can show two dependencies of."""
    return max(4, size // BYTES_PAIR // 2)


def joined_pairs(draws, size):
    """Pairs, and then from the last one on the dependency of each pair's second class on the next one's first."""
    half = halves(size)
    pairs = [(2 * number, 2 * number + 1) for number in range(half)]
    return ordered(draws, size, 2 * half, pairs + [(2 * number - 1, 2 * number) for number in range(half - 1, 0, -1)])


def pairs_back(draws, size):
    """Pairs, and then the dependency of each pair's second class on the first class of the pair before."""
    half = halves(size)
    pairs = [(2 * number, 2 * number + 1) for number in range(half)]
    return ordered(draws, size, 2 * half, pairs + [(2 * number + 3, 2 * number) for number in range(half - 1)])


def chain_moves(draws, size):
    """A chain, pairs behind it, and then the dependency of each pair's first class on the head of the chain."""
    half = halves(size)
    firsts = range(half, 2 * half - 1, 2)
    pairs = [(number, number + 1) for number in range(half - 1)]
    pairs += [(number, number + 1) for number in firsts]
    return ordered(draws, size, 2 * half, pairs + [(number, 0) for number in firsts])


def tail_moves(draws, size):
    """Pairs, a chain behind them, and then from the last pair on the dependency of the chain's end on each second
    class."""
    half = halves(size)
    firsts = range(half, 2 * half - 1, 2)
    pairs = [(number, number + 1) for number in firsts]
    pairs += [(number, number + 1) for number in range(half - 1)]
    return ordered(draws, size, 2 * half, pairs + [(half - 1, number + 1) for number in reversed(firsts)])


def merges(draws, size):
    """Paths of one class, joined two by two in rounds: the later one of two leads to the other."""
    paths, pairs = [(number, number) for number in range(2 * halves(size))], []
    classes = len(paths)
    while len(paths) > 1:
        longer = []
        for at in range(0, len(paths) - 1, 2):
            (first, last), (other_first, other_last) = paths[at:at + 2]
            pairs.append((other_last, first))
            longer.append((other_first, last))
        paths = longer + paths[len(paths) - len(paths) % 2:]
    return ordered(draws, size, classes, pairs)


def sparse(draws, size):
    """As many dependencies as classes, along a hidden order of these."""
    classes = 2 * halves(size)
    pairs = set()
    while len(pairs) < classes:
        first, second = draws.below(classes), draws.below(classes)
        if first != second:
            pairs.add((min(first, second), max(first, second)))
    hidden = list(range(classes))
    draws.shuffle(hidden)
    pairs = sorted(pairs)
    draws.shuffle(pairs)
    return ordered(draws, size, classes, [(hidden[first], hidden[second]) for first, second in pairs])


def walks(draws, size, classes, ends, pairs):
    """What has these safe and unsafe classes, and these dependencies."""
    locks, task = Locks(draws, classes), task_names()[0]
    pieces = [safe(task, locks.names[number]) for number in ends[0]]
    pieces += [unsafe(task, locks.names[number]) for number in ends[1]]
    return told(draws, size, pieces + [masked(task, locks, pair) for pair in pairs])


def count_of(size):
    """How many times a safe class, an unsafe one and three dependencies have room."""
    return max(2, size // 1000)


def separate_walks(draws, size):
    """Safe classes, each before one unsafe class of its own."""
    count = count_of(size)
    pairs = [(number, count + number) for number in range(count)]
    return walks(draws, size, 2 * count, (range(count), range(count, 2 * count)), pairs)


def dead_end(draws, size):
    """A chain leads to a class, as the safe class 0 does. That one leads to each unsafe class, and the safe class 1
    nowhere."""
    count = count_of(size)
    joint, unsafe_ones = 2 + count, range(3 + count, 3 + 2 * count)
    pairs = [(number, number + 1) for number in range(2, joint)]
    pairs += [(0, joint)] + [(joint, number) for number in unsafe_ones]
    return walks(draws, size, 3 + 2 * count, ((0, 1), unsafe_ones), pairs)


def before_joint(draws, size):
    """Others lead to the class by which the safe class 0 leads to each unsafe one."""
    count = count_of(size)
    joint, unsafe_ones = 1 + count, range(2 + count, 2 + 2 * count)
    pairs = [(number, joint) for number in range(joint)] + [(joint, number) for number in unsafe_ones]
    return walks(draws, size, 2 + 2 * count, ((0,), unsafe_ones), pairs)


def behind_joint(draws, size):
    """The same class leads to others, and each of these to one unsafe class."""
    count = count_of(size)
    others = range(2, 2 + count)
    pairs = [(0, 1)] + [(1, number) for number in others] + [(number, number + count) for number in others]
    return walks(draws, size, 2 + 2 * count, ((0,), range(2 + count, 2 + 2 * count)), pairs)


def through_joint(draws, size):
    """Safe classes lead to unsafe ones through one class: a path for each pair, a million on 10 MB."""
    count = max(2, isqrt(size // 10))
    pairs = [(number, 2 * count) for number in range(count)] + [(2 * count, count + number) for number in range(count)]
    return walks(draws, size, 2 * count + 1, (range(count), range(count, 2 * count)), pairs)
