"""The stream of traces: tasks with their handlers, flags and held locks, and the lines about them.

Whatever this writes is a trace without fault by the trace format: what an `enter` needs is enabled
before it, a release stands in the handler that acquired, a handler ends with nothing held, a task
says at its first line in a trace which flags it had, and a new trace begins before a limit would be
passed.
"""
import math

from nesting import Nesting
from tasks import READ, Frame, Held, TakenBack, forget
from text import Damaged

MOST_TASKS = 1024    # of one trace
MOST_CLASSES = 8191  # of one trace
MOST_HELD = 96       # of one task
MOST_TRACES = 65535  # of one stream
MOST_CUTS = 60000    # of these, so that a trace which has no room left can end all the same
WORDS = {True: 'on', False: 'off'}


class Stream:
    """The lines of the stream, and the state that makes the next one right."""

    def __init__(self, label, cut=None, with_dependencies=False, with_places=False):
        self.label = label
        self.cut = cut        # after how many lines a trace ends, or None
        self.end = math.inf   # the number of lines at which the present one does
        self.dependencies = {} if with_dependencies else None  # pairs of keys to those of names
        self.lines = []       # not yet taken by the caller
        self.early = []       # lines that belong before the one with this number among them
        self.taken = 0        # how many the caller took, without those
        # Of acquisitions among the lines: the line's number, the site, and the class that was acquired there.
        self.places = [] if with_places else None
        self.trace = 0        # the number of the present trace, from 1
        self.tasks = 0        # in the present trace
        self.classes = set()  # of the present trace
        self.nestings = {}    # of a class, its locks that were acquired under another one of it
        self.left_held = 0    # locks that a handler still held when it ended
        self.too_deep = 0     # acquisitions left out since the task held as many as a trace may
        self.begin()

    def begin(self):
        """Begins a trace, unless the present one has no line yet."""
        if self.trace and not self.tasks:
            return
        if self.trace == MOST_TRACES:
            raise Damaged(f'a stream may not have more than {MOST_TRACES} traces')
        self.trace += 1
        self.tasks = 0
        self.classes = set()
        if self.cut is not None:
            self.end = self.taken + len(self.lines) + self.cut if self.trace < MOST_CUTS else math.inf
        label = self.label if self.trace == 1 else f'{self.label}.{self.trace}'
        self.lines.append(f'trace {label}\n')

    def lose(self, tasks):
        """Events are missing here: begins a trace in which no task holds or runs anything."""
        for task in tasks:
            task.forget()
        self.begin()

    def take(self, sources=None, numbers=None):
        """The lines that were not taken yet. Lists with the source and the number of each get those of early lines."""
        lines, early = self.lines, sorted(self.early, key=lambda each: each[0])
        self.taken += len(lines)
        self.lines, self.early = [], []
        for at, more in reversed(early):
            lines[at:at] = more
            if sources is not None:
                sources[at:at] = [sources[at - 1]] * len(more)
            if numbers is not None:
                numbers[at:at] = [0] * len(more)
        return lines

    # What happens to a task

    def acquire(self, task, verb, held, context):
        """Writes that a task acquired what `held` is, unless it holds too many locks already."""
        if task.kept + held.slots > MOST_HELD:
            self.too_deep += 1
            task.held.append(Held(held.address, held.site, held.since))
            return
        if self.cut is not None and self.taken + len(self.lines) >= self.end:
            self.begin()
        if (task.trace != self.trace or held.lock_class not in self.classes
                or held.reader is not None and held.reader.lock_class not in self.classes):
            self.admit(task, held.classes())
        if task.context is not context:
            self.settle(task, context)
        held.depth = len(task.frames)
        held.verb = verb
        if self.dependencies is not None and verb != 'try':
            self.depend(task, held)
        if task.held and verb != 'try':
            self.nest(task, held)
        if verb == READ:
            self.wait_as_reader(task, held)
            verb = 'try'
        self.write(task, verb, held)
        held.seen = self.taken + len(self.lines)
        if task.held and len(task.frames) == 1:
            task.held[-1].seen = held.seen
        task.held.append(held)
        task.kept += held.slots

    def depend(self, task, wanted):
        """Notes the dependencies on a lock that lockdep looks for: from the innermost lock out, up to a first
        one that was no trylock."""
        for held in reversed(task.held):
            if held.name is not None and held.depth == wanted.depth:
                self.dependencies[held.key(), wanted.key()] = held.name, wanted.name
                if held.verb != 'try':
                    break

    def nest(self, task, wanted):
        """Notes a lock that is acquired under another one of its class, which is a recursion."""
        lock_class = wanted.lock_class
        for held in reversed(task.held):
            # Who reads holds nothing that a recursive reader would wait for.
            if (held.lock_class == lock_class and held.depth == wanted.depth
                    and (wanted.verb != READ or held.slots == 2)):
                name = wanted.reader.lock_class if wanted.verb == READ else lock_class
                self.nestings.setdefault(name, Nesting()).add(held.address, wanted.address)
                break

    def write(self, task, verb, held, is_new=True):
        """The lines of an acquisition: `nested` for one of a subclass, which is never a `try`."""
        subclass = held.lock_class.subclass
        if self.places is not None:
            self.place(held, held.lock_class, is_new)
        if subclass:
            self.lines.append(f'nested {task.name} {held.name} {subclass}\n')
        else:
            self.lines.append(f'{verb} {task.name} {held.name}\n')
        if held.slots == 2:
            if self.places is not None:
                self.place(held, held.reader.lock_class, is_new)
            self.lines.append(f'try {task.name} {held.reader.name}\n')

    def place(self, held, lock_class, is_new):
        """Notes who acquired what the next line acquires."""
        self.places.append((len(self.lines), held.site, lock_class.name if is_new else None))

    def wait_as_reader(self, task, held):
        """Writes that a recursive reader waits: as if it acquired what it does not hold afterwards.

        Interrupts are disabled meanwhile, as it gives the class no moment at which it is held. Where nothing is
        held, outside handlers, there is nothing that it could show.
        """
        if not task.kept and len(task.frames) == 1:
            return
        hard, name = task.frames[-1].hard, held.reader.name
        if hard:
            self.lines.append(f'disable {task.name} hard\n')
        if self.places is not None:
            self.place(held, held.reader.lock_class, True)
        self.lines.append(f'acquire {task.name} {name}\n')
        self.lines.append(f'release {task.name} {name}\n')
        if hard:
            self.lines.append(f'enable {task.name} hard\n')

    def let_go(self, task, held):
        """Writes that a task releases a lock."""
        if held.slots == 2:
            self.lines.append(f'release {task.name} {held.reader.name}\n')
        self.lines.append(f'release {task.name} {held.name}\n')
        task.kept -= held.slots

    def release(self, task, held, context):
        """Writes that a task released one of its locks, in the handler that acquired it."""
        if task.trace != self.trace or task.context is not context:
            self.observe(task, context)
        while len(task.frames) > held.depth:
            self.leave(task)
            task.context = None
        # A lock that a handler left held was written as released where the handler ended.
        if held.name is not None:
            self.let_go(task, held)
        forget(task.held, held)

    def take_back(self, task, held, context):
        """Writes a lock of the task as released, since lockdep does not have it.

        The release stands where the lock was last known to be held, unless those lines are taken already.
        """
        place, at = task.held.index(held), held.seen - self.taken
        if at > 0:
            rest, self.lines = self.lines, []
            self.let_go(task, held)
            self.early.append((at, self.lines))
            self.lines = rest
            forget(task.held, held)
        else:
            self.release(task, held, context)
        task.held.insert(place, TakenBack(held))

    def give_again(self, task, held, context):
        """Writes that the task acquires a lock that was taken back."""
        place = task.held.index(held)
        del task.held[place]
        held.lock.before = held.before  # locks below it may have been released meanwhile
        self.acquire(task, held.lock.verb, held.lock, context)
        task.held.insert(place, task.held.pop())

    def observe(self, task, context):
        """Writes how handlers and flags have changed up to this event of a task that holds locks."""
        if task.trace != self.trace:
            self.admit(task)
        if task.context is not context:
            self.settle(task, context)

    def enable_hard(self, task):
        """Writes that a task enables interrupts, which no event's columns need ever show."""
        if task.frames[-1].kind != 'hard':
            self.flag(task, 'hard', True)
            task.context = None

    # Handlers and flags

    def settle(self, task, context):
        """Makes the task's handlers and flags what an event's columns say."""
        if task.starts and not context.kinds:
            self.start(task, context.hard, context.soft)
        task.starts = False
        if task.kinds != context.kinds:
            while task.kinds != context.kinds[:len(task.kinds)]:
                self.leave(task)
            for kind in context.kinds[len(task.kinds):]:
                self.enter(task, kind)
        frame = task.frames[-1]
        # In a hard handler both flags are without effect; in a soft one softirqs stay disabled.
        if frame.hard != context.hard and frame.kind != 'hard':
            self.flag(task, 'hard', context.hard)
        if frame.soft != context.soft and frame.kind is None:
            self.flag(task, 'soft', context.soft)
        task.context = context

    def start(self, task, hard, soft):
        """The first line of a task in a trace, where its flags outside handlers aren't both on."""
        if not (hard and soft):
            task.frames[0].hard, task.frames[0].soft = hard, soft
            self.lines.append(f'begin {task.name} {WORDS[hard]} {WORDS[soft]}\n')

    def flag(self, task, state, value):
        """Writes that a flag of the task changes, where it does."""
        frame = task.frames[-1]
        if getattr(frame, state) != value:
            setattr(frame, state, value)
            self.lines.append(f'{"enable" if value else "disable"} {task.name} {state}\n')

    def enter(self, task, kind):
        """A handler begins: what can't be while its interrupts are disabled, so they are enabled."""
        self.flag(task, 'hard', True)
        if kind == 'soft':
            self.flag(task, 'soft', True)
        outer = task.frames[-1]
        task.frames.append(Frame(kind, kind != 'hard', outer.soft and kind != 'soft'))
        task.kinds += (kind,)
        self.lines.append(f'enter {task.name} {kind}\n')

    def leave(self, task):
        """The innermost handler ends; what it still holds is released, and left out from here on."""
        depth = len(task.frames)
        for held in reversed(task.held):
            if held.depth == depth and held.name is not None:
                self.left_held += 1
                self.let_go(task, held)
                held.name = held.lock_class = held.reader = None
        kind = task.frames.pop().kind
        task.kinds = task.kinds[:-1]
        self.lines.append(f'exit {task.name} {kind}\n')

    # The limits of a trace

    def admit(self, task, classes=()):
        """Makes the task part of the present trace, or where it has no room left, of the next."""
        if not self.has_room(task, classes):
            self.begin()
        if task.trace != self.trace:
            task.trace = self.trace
            self.tasks += 1
            self.carry(task)
        self.classes.update(classes)

    def has_room(self, task, classes):
        wanted = set(classes)
        if task.trace != self.trace:
            wanted.update(*(held.classes() for held in task.held))
            wanted.discard(None)
            if self.tasks == MOST_TASKS:
                return False
        return len(self.classes | wanted) <= MOST_CLASSES

    def carry(self, task):
        """Takes over from an earlier trace what the task's handlers, flags and held locks are.

        A `nested` tells again what the earlier trace tells of it, as here too the same is held before it.
        """
        frames = task.frames
        task.frames, task.kinds = [Frame(None, True, True)], ()
        task.starts = not task.kept
        if not task.kept:
            task.context = None  # nothing is held: the next event's columns say the rest
            return
        self.start(task, frames[0].hard, frames[0].soft)
        for depth, frame in enumerate(frames, 1):
            if depth > 1:
                self.enter(task, frame.kind)
            self.flag(task, 'hard', frame.hard)
            self.flag(task, 'soft', frame.soft)
            for held in task.held:
                if held.depth == depth and held.name is not None:
                    self.classes.update(held.classes())
                    self.write(task, 'try', held, is_new=False)
                    if depth == 1:
                        held.seen = self.taken + len(self.lines)
