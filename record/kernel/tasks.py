"""What a task is, holds and runs in, as a trace has it so far."""
from collections import namedtuple

READ = 'read'  # of a recursive reader that waits: no verb of a stream, but lines of a class of its own

# The class NAME!read that stands beside a class that recursive readers wait for, and its lock.
Reader = namedtuple('Reader', 'name lock_class')


class Frame:
    """A handler that runs over a task, or (of kind None) what runs outside any; and its flags."""
    __slots__ = ('kind', 'hard', 'soft')

    def __init__(self, kind, hard, soft):
        self.kind = kind
        self.hard = hard
        self.soft = soft


class Held:
    """A lock that is held; one without a name is left out of the stream, its release too.

    With a `reader` it is of a class that recursive readers wait for. A writer then holds that lock too.
    """
    __slots__ = ('address', 'site', 'since', 'name', 'lock_class', 'depth', 'before', 'verb', 'reader', 'slots',
                 'seen')

    def __init__(self, address, site, since, name=None, lock_class=None, before=None):
        self.address = address
        self.site = site    # what its event has in common with others
        self.since = since  # the time of that event
        self.name = name
        self.lock_class = lock_class
        self.depth = 0  # of the frame that acquired it: 1 outside handlers
        self.before = before  # how many locks lockdep has of the task before it; None where that isn't known
        self.reader = None
        self.slots = 1  # how many locks it is in the stream
        self.seen = 0   # behind which line of the stream it surely was held, outside handlers

    def key(self):
        """Lockdep's key of its class."""
        return self.site.key or int(self.address, 16) + self.site.subclass

    def classes(self):
        return (self.lock_class,) if self.reader is None else (self.lock_class, self.reader.lock_class)


class TakenBack(Held):
    """Stands where a lock stood that lockdep doesn't have: not yet, or not any more."""
    __slots__ = ('lock',)

    def __init__(self, lock):
        super().__init__(lock.address, lock.site, lock.since, before=lock.before)
        self.lock = lock


class Task:
    """One task as the trace has it so far."""
    __slots__ = ('name', 'first', 'processor', 'time', 'trace', 'starts', 'context', 'kinds', 'frames', 'held', 'kept')

    def __init__(self, name, first):
        self.name = name
        self.first = first   # the time of its first event
        self.processor = self.time = None  # of its latest event
        self.trace = 0       # the number of the trace that it was last in
        self.starts = False  # that trace has no line of it yet
        self.forget()

    def forget(self):
        """As a task is at the begin of a trace: outside handlers, both flags on, nothing held."""
        self.context = None  # the one that frames and flags were last made to agree with
        self.kinds = ()      # of the handlers that run, the outer one first
        self.frames = [Frame(None, True, True)]
        self.held = []
        self.kept = 0        # how many locks the stream has it hold


class Nesting:
    """How the locks of a class were acquired one under another."""

    def __init__(self):
        self.times = 0
        self.locks = set()
        self.orders = set()

    def add(self, outer, inner):
        self.times += 1
        self.locks.update((outer, inner))
        self.orders.add('same' if inner == outer else 'up' if inner > outer else 'down')

    def text(self, lock_class):
        name = '%s/%d' % lock_class if lock_class.subclass else lock_class.name
        order = self.orders.pop() if len(self.orders) == 1 else 'both'
        return f'# instances {name} times {self.times} locks {len(self.locks)} order {order}\n'


def forget(locks, held):
    """Takes a lock out of those held: mostly it is the last one."""
    if locks[-1] is held:
        locks.pop()
    else:
        locks.remove(held)
