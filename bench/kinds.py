"""The kinds of stream that lockcheck is timed on.

A stream depends on its kind, size and seed alone. Nothing is written that a trace may not have, so no
trace is refused. Classes have numbers, and a task acquires them in rising order (in `hub` and `chain` in
falling order): so all kinds but `cycles`, `conflicts`, the two `lone` ones and some of shapes.py have no
violation. Handlers, except in `conflicts`, `lone-walk` and shapes.py, acquire the greatest numbers alone, and what
leads to those is held where the handlers can't interrupt.
"""
from collections import namedtuple

import shapes
from parts import (BYTES_EACH, LAYER, LAYERS, MB, MOST_DEPENDENCIES, MOST_TRACES, TASK, Draws, Locks, Program, again,
                   dependency, dive, interrupt, mixed, paced, programs, shown, taken_alone, task_names, walk)

BLOCK = 1 << 20   # of a stream, at least, that is written at once


def wide(draws, size):
    made = programs(draws, 1500, 300, lambda program: walk(program, 0, 300, 6, 40, 16))
    return mixed(draws, made, size, 10_000)


def deep(draws, size):
    made = programs(draws, 150, 300, lambda program: dive(program, 300, 20 + draws.below(21)))
    return mixed(draws, made, size, 20_000)


def interrupts(draws, size):
    return mixed(draws, programs(draws, 1500, 300, interrupt), size, 10_000)


def small(draws, size):
    made = programs(draws, 1500, 300, lambda program: walk(program, 0, 300, 4, 40, 6))
    texts = [program.text() for program in made]
    return paced(draws, size, lambda task: texts[draws.below(len(texts))].replace(TASK, task))


def layered(draws, size):
    """Dependencies of classes on those of a deeper layer, each once: the deepest ones first, and a fifth
    of all in no order at the end. Then some of them again, without end."""
    count = min(MOST_DEPENDENCIES, size // BYTES_EACH)
    pairs = {}
    while len(pairs) < count:
        layer = len(pairs) * (LAYERS - 1) // count
        deeper = layer + 1 if draws.chance(80) else layer + 1 + draws.below(LAYERS - 1 - layer)
        pairs[layer * LAYER + draws.below(LAYER), deeper * LAYER + draws.below(LAYER)] = None
    pairs = list(pairs)
    draws.shuffle(pairs)
    cut = count * 4 // 5
    return again(draws, sorted(pairs[:cut], key=lambda pair: -(pair[0] // LAYER)) + pairs[cut:])


def layers(draws, size):
    return shown(draws, size, Locks(draws, LAYERS * LAYER), layered(draws, size), 100)


def layers_small(draws, size):
    locks, pairs = Locks(draws, LAYERS * LAYER), layered(draws, size)
    return paced(draws, size, lambda task: dependency(task, locks, next(pairs)))


def layers_handlers(draws, size):
    locks, pairs = Locks(draws, LAYERS * LAYER), layered(draws, size)
    safe = 16 * LAYER
    acquired = [safe + draws.below(4 * LAYER) for _ in range(200)]

    def piece(task):
        if draws.chance(10):
            lock = locks.lock(acquired[draws.below(len(acquired))])
            return (b'enter %b hard\nacquire %b %b\nrelease %b %b\nexit %b hard\n'
                    % (task, task, lock, task, lock, task))
        pair = next(pairs)
        shows = dependency(task, locks, pair)
        return shows if pair[1] < safe else b'disable %b hard\n%benable %b hard\n' % (task, shows, task)

    return paced(draws, size, piece)


def cycles(draws, size):
    """A circle of all classes, and shorter ways through it: each dependency is on a cycle."""
    count = min(12_000, size // BYTES_EACH)
    classes = count // 6
    pairs = {(number, (number + 1) % classes): None for number in range(classes)}
    while len(pairs) < count:
        first = draws.below(classes)
        second = draws.below(classes) if draws.chance(3) else (first + 1 + draws.below(40)) % classes
        if first != second:
            pairs[first, second] = None
    pairs = list(pairs)
    draws.shuffle(pairs)
    return shown(draws, size, Locks(draws, classes), again(draws, pairs), 50)


def inversion(task, locks):
    return dependency(task, locks, (0, 1)) + dependency(task, locks, (1, 0))


def unsafe_walk(task, locks):
    """Class 0 is acquired by a handler, and class 1, which is held where handlers can interrupt, under it."""
    safe = locks.lock(0)
    return (b'enter %b hard\nacquire %b %b\nrelease %b %b\nexit %b hard\n' % (task, task, safe, task, safe, task)
            + b'disable %b hard\n%benable %b hard\n' % (task, dependency(task, locks, (0, 1)), task))


def chain(draws, size):
    """A chain of up to 100,000 classes from its end: each new class is held over the one before it."""
    count = min(100_000, size // BYTES_EACH)
    pairs = [(number + 1, number) for number in range(count)]
    return shown(draws, size, Locks(draws, count + 1), again(draws, pairs), 100)


def over_others(draws, size, most, other):
    """Up to so many classes that a task holds alone, and then as many new ones, each held over one of those."""
    count = min(most, size // 250)
    locks, task = Locks(draws, 2 * count), task_names()[0]
    pieces = [taken_alone(task, locks, number) for number in range(count)]
    pieces += [dependency(task, locks, (count + number, other(number))) for number in range(count)]
    each = max(100, size // MOST_TRACES // 60)
    for number, piece in enumerate(again(draws, pieces)):
        yield piece if number % each else b'trace run-%d\n%b' % (number // each, piece)


def hub(draws, size):
    return over_others(draws, size, 80_000, lambda number: 0)


def far_apart(draws, size):
    return over_others(draws, size, 32_768, lambda number: number)


def lone(draws, size, violation):
    """Up to 100,000 classes that no dependency leaves or enters, and one violation of two others."""
    count = min(100_000, size // BYTES_EACH)
    locks, names = Locks(draws, count), task_names()
    others = again(draws, list(range(1, count)))
    each = max(100, size // MOST_TRACES // 60)
    number = 0
    while True:
        task = names[draws.below(len(names))]
        pieces = [b'trace run-%d\n' % number]
        if number == 0:
            pieces.append(violation(task, locks))
        pieces += [taken_alone(task, locks, next(others)) for _ in range(each)]
        yield b''.join(pieces)
        number += 1


def lone_cycle(draws, size):
    return lone(draws, size, inversion)


def lone_walk(draws, size):
    return lone(draws, size, unsafe_walk)


def hand_over_hand(draws, size):
    """One trace, in which a task goes up through all classes again and again, and holds 95 of them: from
    the 95th on it releases the oldest one before it acquires the next."""
    task, program = task_names()[0], Program(draws, Locks(draws, 1500))
    pieces, done, number = [b'trace hand\n'], 0, 0
    while done < size:
        if number >= 1500:
            while program.held:
                program.release()
            number = 0
        if len(program.held) == 95:
            program.release(0)
        program.acquire(number)
        number += 1 + draws.below(3)
        pieces.append(program.text().replace(TASK, task))
        done += len(pieces[-1])
        program.lines.clear()
    yield b''.join(pieces)


def conflicts(draws, size):
    """As many classes as there is room for, up to a million: hard handlers acquire each, and so does a task
    that they can interrupt there."""
    task, count = task_names()[0], min(1_000_000, size // 250)
    numbers, done = list(range(count)), 0
    draws.shuffle(numbers)
    for first in range(0, count, 4000):
        pieces = [b'trace run-%d\n' % first]
        for number in numbers[first:first + 4000]:
            taken = b'acquire %b dev%d_lock\nrelease %b dev%d_lock\n' % (task, number, task, number)
            pieces.append(b'enter %b hard\n%bexit %b hard\n%b' % (task, taken, task, taken))
        yield b''.join(pieces)
        done += sum(len(piece) for piece in pieces)
    while done < size:
        taken = b'acquire %b dev0_lock\nrelease %b dev0_lock\n' % (task, task)
        done += len(taken) * 100 + 10
        yield b'trace more\n' + taken * 100


def carriage_returns(draws, size):
    return (trace.replace(b'\n', b'\r\n') for trace in wide(draws, size * 95 // 100))


def empty_lines(draws, size):
    return (trace.replace(b'\n', b'\n\n') for trace in wide(draws, size * 95 // 100))


def line_ends(draws, size):
    """Traces of line ends alone, each with two events at its begin."""
    ends = b'\n' * max(100, size // MOST_TRACES)
    task, lock = task_names()[0], Locks(draws, 1).lock(0)
    for number in range(MOST_TRACES):
        yield b'trace run-%d\nacquire %b %b\nrelease %b %b\n%b' % (number, task, lock, task, lock, ends)


Kind = namedtuple('Kind', 'traces is_clean what')
KINDS = {
    'wide': Kind(wide, True, '300 classes, up to 6 tasks in turn, up to 6 locks held'),
    'deep': Kind(deep, True, '200 classes, up to 6 tasks in turn, 20 to 40 locks held'),
    'interrupts': Kind(interrupts, True, 'a third of the events are of handlers and flags'),
    'small': Kind(small, True, 'up to 60,000 small traces'),
    'layers': Kind(layers, True, '8,000 classes, up to 60,000 dependencies, the deepest first'),
    'layers-small': Kind(layers_small, True, 'the same in up to 60,000 small traces'),
    'layers-handlers': Kind(layers_handlers, True, 'the same, and handlers that acquire deep classes'),
    'chain': Kind(chain, True, 'up to 100,000 classes in a chain that grows at its begin'),
    'hub': Kind(hub, True, 'up to 80,000 classes alone, and as many that are held over one of them'),
    'far-apart': Kind(far_apart, True, 'up to 32,768 classes alone, and as many, each held over another of them'),
    'lone-cycle': Kind(lone_cycle, False, 'up to 100,000 classes without a dependency, and one inversion'),
    'lone-walk': Kind(lone_walk, False, 'the same, and one forbidden walk'),
    'hand-over-hand': Kind(hand_over_hand, True, 'one trace of one task, which holds 95 locks and releases the oldest one'),
    'conflicts': Kind(conflicts, False, 'up to a million classes, each of them a conflict'),
    'cycles': Kind(cycles, False, 'up to 12,000 dependencies of 2,000 classes, all of them inversions'),
    'carriage-returns': Kind(carriage_returns, True, '`wide` with a CR before each LF'),
    'empty-lines': Kind(empty_lines, True, '`wide` with an empty line behind each one'),
    'line-ends': Kind(line_ends, True, 'empty lines, and two events for each trace'),
    'joined-pairs': Kind(shapes.joined_pairs, True, 'pairs, joined to a chain from its end'),
    'pairs-back': Kind(shapes.pairs_back, True, 'pairs, each of which is put before the one before it'),
    'chain-moves': Kind(shapes.chain_moves, True, 'pairs behind a chain, each of which is put before it'),
    'tail-moves': Kind(shapes.tail_moves, True, 'pairs before a chain, each of which is put behind it'),
    'merges': Kind(shapes.merges, True, 'paths joined two by two, the later one before the other'),
    'sparse': Kind(shapes.sparse, True, 'as many dependencies as classes, along a hidden order'),
    'separate-walks': Kind(shapes.separate_walks, False, 'safe classes, each before one unsafe class'),
    'dead-end': Kind(shapes.dead_end, False, 'a chain and a safe class lead to unsafe ones, another one nowhere'),
    'before-joint': Kind(shapes.before_joint, False, 'classes before that by which a safe class leads to unsafe ones'),
    'behind-joint': Kind(shapes.behind_joint, False, 'classes behind it, each before one unsafe class'),
    'through-joint': Kind(shapes.through_joint, False, 'safe classes lead to as many unsafe ones through one class'),
}
LEAST, MOST = 20_000, 2_100 * MB  # bytes of a stream


def blocks(kind, size, seed):
    """A stream of at least so many bytes, in blocks; it has at most one trace more than needed."""
    block, done = bytearray(), 0
    for trace in KINDS[kind].traces(Draws(f'{kind} {seed}'), size):
        block += trace
        done += len(trace)
        if len(block) >= BLOCK or done >= size:
            yield block
            block = bytearray()
        if done >= size:
            return
    yield block
