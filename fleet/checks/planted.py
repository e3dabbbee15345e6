"""A night's streams, each made by its number alone, and what has to be said of them.

All locks are taken in one order, and those of handlers with interrupts disabled. Nothing is wrong but what is planted.
Some pairs of locks are taken in one order on one machine, and in the other order on another one. One class is acquired
by handlers on one machine, and held with interrupts enabled on another one.
"""
import os
import random

CLASSES, DRIVERS, PAIRS = 60, 40, 10
# Of each so many streams, those of these numbers have the first or the second half of a pair or of the conflict. Others
# are at fault, have a refused trace, or show nothing.
PAIR_EVERY, FIRST, SECOND = 20, 5, 7
CONFLICT_EVERY, IN, ON = 100, 3, 64
FAULTY_EVERY, FAULTY = 25, 13
REFUSED_EVERY, REFUSED = 40, 11
EMPTY_EVERY, EMPTY = 50, 30
# What lockgraph says of a stream without a trace.
NO_TRACE = 'NoTrace: no line "trace LABEL": nothing was recorded, or the file is empty'


def is_faulty(number):
    return number % FAULTY_EVERY == FAULTY


def is_refused(number):
    return number % REFUSED_EVERY == REFUSED and not is_faulty(number)


def is_empty(number):
    return number % EMPTY_EVERY == EMPTY


def nested(names, task):
    """Locks taken one in the other, and released in turn."""
    return [f"acquire {task} {it}" for it in names] + [f"release {task} {it}" for it in reversed(names)]


def episode(chance, number):
    """What a task does from nothing held to nothing held."""
    task, kind = f"t{chance.randrange(9)}", chance.random()
    if kind < 0.6:
        found = sorted(chance.sample(range(CLASSES), chance.randrange(2, 5)))
        return nested([f"c{it:02}@{chance.randrange(4)}" for it in found], task)
    if kind < 0.75:
        driver = (number * 7 + chance.randrange(3)) % DRIVERS
        return nested([f"driver{driver}", f"driver{driver}_queue@{chance.randrange(4)}", "pages"], task)
    irq = f"irq{chance.randrange(6)}"
    if kind < 0.85:
        return [f"enter {task} hard", *nested([irq], task), f"exit {task} hard"]
    return [f"disable {task} hard", *nested([f"c{chance.randrange(CLASSES):02}", irq], task), f"enable {task} hard"]


def halves(number):
    """What is planted on this machine."""
    lines, pair = [], number // PAIR_EVERY % PAIRS
    both = [f"planted{pair}_a", f"planted{pair}_b"]
    if number % PAIR_EVERY == FIRST:
        lines += nested(both, "p")
    if number % PAIR_EVERY == SECOND:
        lines += nested(both[::-1], "p")
    if number % CONFLICT_EVERY == IN:
        lines += ["enter p hard", *nested(["planted_irq"], "p"), "exit p hard"]
    if number % CONFLICT_EVERY == ON:
        lines += nested(["planted_irq"], "p")
    return lines


def stream(number, traces=4, episodes=20):
    """The stream of a machine, of so many traces with so many episodes each."""
    chance = random.Random(number * 7919 + 13)
    name = f"m{number:05}-boot"
    if is_empty(number):
        return f"trace {name}-0\nenable t hard\n"
    lines = []
    for trace in range(traces):
        lines.append(f"trace {name}-{trace}")
        for _ in range(episodes):
            lines += episode(chance, number)
        if trace == 2:
            lines += halves(number)
    if is_refused(number):
        # The half in it mustn't count.
        lines += [f"trace {name}-refused", *nested(["c02", "c01", "c00"], "p"), "release p never_held"]
    text = "\n".join(lines) + "\n"
    if is_faulty(number):
        kinds = ["acquire t A\n" + text, "# nothing was recorded\n", text + "trace\n", "\x1f\x8b\x08" + text[1000:]]
        return kinds[number // FAULTY_EVERY % 4]
    return text


def fault(number):
    """What lockgraph says is wrong with a stream at fault, behind its name."""
    lines = stream(number).count("\n")
    said = '1: NoHeader: no line "trace LABEL" is above this line: "acquire t A"'
    packed = "1: NoHeader: it looks like a file that gzip made: decompress it first"
    header = f'{lines}: BadHeader: a header is "trace LABEL", with one label of 1 to 64 bytes from ! to ~: "trace"'
    return [said, f" {NO_TRACE}", header, packed][number // FAULTY_EVERY % 4]


def path(number):
    return f"rack{number % 5}/m{number:05}.trace"


def put(folder, count):
    """Writes a night's streams below a folder."""
    for number in range(count):
        name = os.path.join(folder, path(number))
        os.makedirs(os.path.dirname(name), exist_ok=True)
        with open(name, "w", encoding="latin-1") as file:
            file.write(stream(number))


def violations(count):
    """The violations of such a night, as lines begin."""
    numbers = range(count)
    found = []
    for pair in range(PAIRS):
        seen = {it % PAIR_EVERY for it in numbers if it // PAIR_EVERY % PAIRS == pair}
        if {FIRST, SECOND} <= seen:
            found += [f"inversion planted{pair}_a -> planted{pair}_b", f"inversion planted{pair}_b -> planted{pair}_a"]
    if {IN, ON} <= {it % CONFLICT_EVERY for it in numbers}:
        found.append("conflict hard planted_irq")
    return sorted(found)


def summary(count, new=None):
    """The line that sums such a night up."""
    faulty, empty = sum(map(is_faulty, range(count))), sum(map(is_empty, range(count)))
    refused, wrong = sum(map(is_refused, range(count))), len(violations(count))
    return (
        f"streams {count} reduced {count - faulty - empty} empty {empty} faulty {faulty} left 0 refused {refused}"
        f" violations {wrong} new {wrong if new is None else new}"
    )
