"""What a stream shows of classes, by docs/FORMAT.md, and what a copy of /proc/lockdep shows of them.

Both are dependencies, as pairs of names of classes, and marks, as pairs of a class and one of the four
below. Of a stream the dependencies are those that lockdep calls direct: from the locks that are held, from
the innermost out, up to the first one that wasn't got by a trylock. Those of a class NAME!read, which stands
for recursive readers, are dependencies of NAME; its marks are its own.
"""
import re

from classes import lockdep_classes

IN_HARD, ON_HARD, IN_SOFT, ON_SOFT = 'in hard', 'on hard', 'in soft', 'on soft'
CLASS_LINE = re.compile(r'([0-9a-f]+)(?: OPS: *\d+)? FD: *\d+ BD: *\d+ (\S{4}): .*\n').fullmatch
DEPENDENCY = re.compile(r' -> \[([0-9a-f]+)\] .*\n').fullmatch


READERS = '!read'


def lockdep_name(name, subclass=None):
    """What lockdep calls a class of a stream."""
    name = re.sub('!([1-7])$', r'/\1', name.removesuffix(READERS))
    return f'{name}/{subclass}' if subclass else name


class Frame:
    """A handler, or what runs outside any, with its flags and the locks that are held there."""

    def __init__(self, kind, hard, soft):
        self.kind = kind
        self.hard = hard
        self.soft = soft
        self.held = []  # of each lock: its class, its name, and whether it was got by a trylock
        self.waited = None  # the lock that a recursive reader has waited for


class Shown:
    """Goes through the lines of a stream."""

    def __init__(self, lines):
        self.dependencies = set()
        self.marks = set()
        self.split = set()  # classes with a class NAME!read
        self.tasks = {}
        for line in lines:
            verb, *words = line.split(' ')
            if verb == 'trace':
                self.tasks = {}
            else:
                frames = self.tasks.setdefault(words[0], [Frame(None, True, True)])
                getattr(self, verb, self.flag)(frames, verb, *words[1:])
                self.mark_held(frames)

    def begin(self, frames, _, hard, soft):
        frames[0].hard, frames[0].soft = hard == 'on', soft == 'on'

    def acquire(self, frames, verb, lock, subclass=None):
        stream_name = lock.split('@')[0]
        name, frame = lockdep_name(stream_name, subclass), frames[-1]
        if stream_name.endswith(READERS):
            self.split.add(name)
        tried = verb == 'try' and lock != frame.waited
        frame.waited = None
        if verb != 'try':
            for held, _, got_by_trylock in reversed(frame.held):
                self.dependencies.add((lockdep_name(held), name))
                if not got_by_trylock:
                    break
            kinds = {each.kind for each in frames}
            marked = stream_name if stream_name.endswith(READERS) else name
            self.marks |= {(marked, mark) for kind, mark in (('hard', IN_HARD), ('soft', IN_SOFT)) if kind in kinds}
        frame.held.append((stream_name if stream_name.endswith(READERS) else name, lock, tried))

    def nested(self, frames, verb, lock, subclass):
        self.acquire(frames, verb, lock, subclass)

    def release(self, frames, _, lock):
        held = frames[-1].held
        del held[max(number for number, each in enumerate(held) if each[1] == lock)]
        frames[-1].waited = lock.replace(READERS + '@', '@') if READERS + '@' in lock else None

    def enter(self, frames, _, kind):
        outer = frames[-1]
        frames.append(Frame(kind, outer.hard and kind != 'hard', outer.soft and kind != 'soft'))

    def exit(self, frames, _, kind):
        ended = frames.pop()
        assert ended.kind == kind and not ended.held

    def flag(self, frames, verb, state):
        """Of a try, an enable or a disable."""
        setattr(frames[-1], state, verb == 'enable')

    def mark_held(self, frames):
        hard, soft = frames[-1].hard, frames[-1].soft
        names = {name for frame in frames for name, _, _ in frame.held}
        self.marks |= {(name, mark) for name in names
                       for on, mark in ((hard, ON_HARD), (hard and soft, ON_SOFT)) if on}


setattr(Shown, 'try', Shown.acquire)


def lockdep(lines):
    """The dependencies and the marks of a copy of /proc/lockdep.

    Readers and writers give a class its marks where it is held, and recursive readers those where NAME!read is
    acquired, which is held by writers.
    """
    names = {key: '/'.join([name, str(subclass)]) if subclass else name
             for key, (name, subclass) in lockdep_classes(lines).items()}
    dependencies, marks, here = set(), set(), None
    for line in lines:
        heading, dependency = CLASS_LINE(line), DEPENDENCY(line)
        if heading:
            here = names.get(int(heading[1], 16))
            for at, within, on in ((0, IN_HARD, ON_HARD), (2, IN_SOFT, ON_SOFT)):
                writes, reads = heading[2][at:at + 2]
                marks |= {(here, mark) for mark, signs, found in (
                    (within, '-?', writes), (on, '+?', writes), (on, '+?', reads)) if found in signs}
                marks |= {(f'{here}{READERS}', mark) for mark, signs, found in (
                    (within, '-?', reads), (on, '+?', writes)) if found in signs}
        elif dependency:
            dependencies.add((here, names.get(int(dependency[1], 16))))
    return dependencies, marks


def of_stream(marks, shown):
    """The marks without those of a class NAME!read that the stream doesn't have."""
    return {(name, mark) for name, mark in marks
            if not name.endswith(READERS) or name.removesuffix(READERS) in shown.split}
