"""From the events of a recording to the stream: what is kept, under which class, and what is not."""
import re
from collections import Counter

from classes import SPECIAL_OF_TASK, LockClass, apart, escape
from sites import Sites
from tasks import READ, Held, Reader, TakenBack, Task, forget
from text import COLUMNS_INSIDE, EVENT, NMI, Contexts, Damaged, Header, fault, is_begun, quote

MOST_PLACES = 500000  # remembered at once
ADDRESS = re.compile(r'[0-9a-f]{8}(?:[0-9a-f]{8})?').fullmatch
CALLER = re.compile(r'caller=\S+(?: \[\S+\])? parent=\S+(?: \[\S+\])?\n').fullmatch
STEP = re.compile(r' *cpu: (\d+) +(?:target|state): +-?\d+ step: +(\d+) (?:\((\S+)\)|ret: (-?\d+))\n').fullmatch


class Events:
    """Takes the lines of a recording, and gives what they say to a stream."""

    def __init__(self, stream, classes, split=False, unchecked=frozenset(), recursive=frozenset(), no_readers=False,
                 symbols=None):
        self.stream = stream
        self.classes = classes
        self.split = split      # recursions of a class into classes of their own
        self.levels = {}        # such a class to the class that it was split from, and its level
        self.header = Header()
        self.contexts = Contexts()
        self.width = 0          # of what stands before the time in a line
        self.places = {}        # text before the time to task, context and processor
        self.tasks = {}         # by pid, or for the idle tasks by processor
        self.sites = Sites(classes, recursive, no_readers, unchecked, symbols)
        self.kinds = self.sites.kinds
        self.instances = {}     # address to its shortest form
        self.digits = None      # of each address, by the first one
        self.texts = set()      # the rests of releases and irq events that were looked at
        self.time = ''          # the latest, as text and as a number
        self.seconds = 0.0
        self.asides = 0         # lines that are no event's
        self.leaving = {}       # a processor that is being taken away to the number of that step
        self.counts = Counter()
        self.handlers = {
            'acquire': self.module_acquire, 'release': self.module_release,
            'lock_acquire': self.stock_acquire, 'lock_release': self.stock_release,
            'irq_enable': self.irq_enable, 'irq_disable': self.irq_disable,
            'cpuhp_enter': self.step, 'cpuhp_exit': self.step}

    def take(self, lines):
        """Takes lines of the text, and gives way after each. Damaged where one can't be read."""
        places, handlers, width = self.places, self.handlers, self.width
        lines = iter(lines)
        for line in lines:
            place = places.get(line[:width])
            if place is None:
                yield from self.take_new(line, lines)
                width = self.width
                continue
            try:
                time, event, rest = line[width:].split(': ', 2)
            except ValueError:
                time, event, rest = self.time, None, None
            if time != self.time:
                self.proceed(time, line)
            handle = handlers.get(event)
            task, context, processor = place
            if task.processor != processor:
                self.move(task, processor, time)
            task.time = time
            if handle is None:
                self.other(line)
            elif context is NMI:
                self.counts['in NMI'] += 1
            else:
                handle(task, context, rest)
            yield

    def take_new(self, line, lines):
        """Takes a line whose columns, up to its time, were not seen before. Of a task's name with a line end it takes
        the lines behind it too."""
        match = EVENT(line)
        while match is None and is_begun(line) and (more := next(lines, None)):
            yield
            line += more
            match = EVENT(line)
        if match is None:
            self.beside(line)
            yield
            return
        comm, pid, processor, columns = match.groups()[:4]
        if len(self.places) == MOST_PLACES:
            self.places.clear()
        self.width = match.end(4)
        task = self.task(comm, pid, processor, match[5])
        self.places[line[:self.width]] = task, self.contexts[columns], processor
        yield from self.take((line,))

    def beside(self, line):
        """A line that is no event's: of the header, or where events are missing."""
        self.asides += 1
        if self.header.read(line):
            self.counts['losses'] += 1
            self.stream.lose(self.tasks.values())

    def proceed(self, time, line):
        """The time of the lines goes on; it may not go back."""
        try:
            seconds = float(time)
        except ValueError:
            raise Damaged(fault(line)) from None
        if not seconds >= self.seconds:
            raise Damaged(f'time goes back from {self.time.strip()} to {time.strip()}: lines out of '
                          'order, or a clock that processors do not share (trace_clock wants counter or global)')
        self.time, self.seconds = time, seconds

    def move(self, task, processor, time):
        """A task goes on on another processor: which of its events came first is told by their times alone."""
        if task.time == time:
            self.counts['moves at one time'] += 1
        task.processor = processor

    def other(self, line):
        """An event of no interest, unless it is damaged or has the rest of another line in it."""
        if EVENT(line) is None:
            raise Damaged(fault(line))
        if COLUMNS_INSIDE(line, self.width):
            raise Damaged('two lines in one: bytes between them are missing')
        self.counts['other events'] += 1

    def task(self, comm, pid, processor, time):
        """A task that is new, or the idle task of a processor."""
        key = pid if pid != '0' else 'idle/%d' % int(processor)
        task = self.tasks.get(key)
        if task is None:
            name = key if pid == '0' else escape(f'{comm.lstrip()}-{pid}', SPECIAL_OF_TASK)
            task = self.tasks[key] = Task(name, time)
        return task

    def instance(self, address):
        """The shortest form of an address, which is looked at when it is new."""
        if not ADDRESS(address) or len(address) != (self.digits or len(address)):
            hint = ' (boot with no_hash_pointers)' if 'ptrval' in address else ''
            raise Damaged(f'no address of a lock: {quote(address)}{hint}')
        self.digits = len(address)
        short = self.instances[address] = address.lstrip('0') or '0'
        return short

    # Acquisitions

    def module_acquire(self, task, context, rest):
        address, _, tail = rest.partition(' ')
        site = self.sites.by_text.get(tail) or self.sites.of_module(tail)
        if task.held and not context.kinds:
            last, before = task.held[-1], site.before
            if last.__class__ is TakenBack or before is not None and last.before is not None and before <= last.before:
                self.judge(task, context, before, address)
        if site.left_out:
            self.leave_out(task, context, address, site)
            return
        lock_class, reader_class = site.lock_class, site.reader_class
        if lock_class is None:  # a static lock's first acquisition
            self.instance(address)
            lock_class, reader_class = self.sites.classes_of(site, int(address, 16) + site.subclass)
        verb = site.verb
        if site.nest and is_nested(task, site.nest, lock_class):
            verb = 'try'
        if site.reads:
            self.counts[site.reads] += 1
            if verb == 'try':
                reader_class = None  # a reader that does not wait is none of NAME!read
        self.keep(task, context, verb, address, site, lock_class, reader_class)

    def judge(self, task, context, before, address):
        """Whether lockdep has the task's last locks, by how many it has before the task acquires another.

        An event tells of an acquisition right before lockdep takes it up. A task that is preempted in
        between acquires the scheduler's locks without holding that one. And where the event of a release is
        missing, lockdep has fewer locks than are held here. Either way they are taken back. If lockdep has
        even fewer later on, or the task acquires such a lock again, its release is missing.
        """
        doubtful = []
        for held in reversed(task.held):
            if held.__class__ is not TakenBack and (
                    before is None or held.before is None or held.before < before or held.depth != 1):
                break
            doubtful.append(held)
        for held in reversed(doubtful):
            if held.__class__ is not TakenBack:
                self.stream.take_back(task, held, context)
            elif before is None or held.before is None or before > held.before:
                self.stream.give_again(task, held, context)
                self.counts['taken back'] += 1
            elif before < held.before or held.address == address:
                forget(task.held, held)
                self.counts['lost releases'] += 1

    def stock_acquire(self, task, context, rest):
        address, _, tail = rest.partition(' ')
        site = self.sites.by_text.get(tail) or self.sites.of_stock(tail)
        if site.left_out:
            self.leave_out(task, context, address, site)
            return
        lock_class = site.lock_class
        if self.split and task.kept:
            self.stream.observe(task, context)
            lock_class = self.split_class(task, lock_class, address)
        self.keep(task, context, site.verb, address, site, lock_class)

    def split_class(self, task, lock_class, address):
        """A class one level above every lock of the class that the present handler holds.

        The class itself where there is none, or where the lock is one of them: then it is a recursion.
        """
        level = 0
        for held in task.held:
            base, its_level = self.levels.get(held.lock_class, (held.lock_class, 0))
            if base == lock_class and held.depth == len(task.frames):
                if held.address == address:
                    return lock_class
                level = max(level, its_level + 1)
        if level == 0:
            return lock_class
        self.counts['split recursions'] += 1
        split = apart(LockClass(lock_class.name, level))
        self.levels[split] = lock_class, level
        return split

    def keep(self, task, context, verb, address, site, lock_class, reader_class=None):
        instance = self.instances.get(address) or self.instance(address)
        if lock_class.subclass and verb == 'try':  # `nested` is for what a task waits for
            lock_class = apart(lock_class)
            self.counts['tried subclasses'] += 1
        # Many of a class under the lock that orders them are one of lockdep's.
        held = Held(address, site, self.time, f'{lock_class.name}@{instance}', lock_class,
                    None if site.nest else site.before)
        if reader_class is not None:
            held.reader = Reader(f'{reader_class.name}@{instance}', reader_class)
            held.slots = 1 if verb == READ else 2
        self.stream.acquire(task, verb, held, context)

    def leave_out(self, task, context, address, site):
        """Remembers a lock that the stream doesn't have, so that its release is left out too."""
        if address not in self.instances:
            self.instance(address)
        if task.kept:
            self.stream.observe(task, context)
        task.held.append(Held(address, site, self.time))
        self.counts[site.left_out] += 1

    # Releases, and flags of interrupts

    def module_release(self, task, context, rest):
        """Closes the task's latest acquisition of this address."""
        address = rest[:-1]
        for held in reversed(task.held):
            if held.address == address:
                break
        else:
            self.unseen(task, context, address)
            return
        if held is not task.held[-1]:
            self.counts['lost releases'] += lower(task.held, held)
        if held.name is not None:
            self.stream.release(task, held, context)
            return
        forget(task.held, held)
        self.counts['taken back' if held.__class__ is TakenBack else 'released of these'] += 1
        if task.kept:
            self.stream.observe(task, context)

    def stock_release(self, task, context, rest):
        address, _, text = rest.partition(' ')
        if text not in self.texts:
            if not text.strip() or COLUMNS_INSIDE(text):
                raise Damaged(f'not what lock_release writes: {quote(rest)}')
            self.texts.add(text)
        self.module_release(task, context, address + '\n')

    def unseen(self, task, context, address):
        """A release whose acquisition isn't in the recording."""
        if address not in self.instances:
            self.instance(address)
        if task.kept:
            self.stream.observe(task, context)
        for held in task.held:
            held.before = None  # was that lock below it?
        self.counts['unseen'] += 1

    def irq_enable(self, task, context, rest):
        """The columns show the state before it."""
        self.irq_disable(task, context, rest)
        if task.kept:
            self.stream.enable_hard(task)

    def irq_disable(self, task, context, rest):
        if rest not in self.texts:
            if not CALLER(rest):
                raise Damaged(f'not what irq_enable and irq_disable write: {quote(rest)}')
            self.texts.add(rest)
        if task.kept:
            self.stream.observe(task, context)

    # Processors that are taken away

    def step(self, task, context, rest):
        """Begin or end of a step by which a processor is taken away or comes back."""
        match = STEP(rest)
        if match is None:
            raise Damaged(f'not what cpuhp_enter and cpuhp_exit write: {quote(rest)}')
        processor, number, function, status = match.groups()
        if function and self.sites.symbols.name(function) == 'takedown_cpu':
            self.leaving[processor] = number
        elif function is None and self.leaving.get(processor) == number:
            del self.leaving[processor]
            if int(status) == 0:
                self.take_away(int(processor))
        if task.kept:
            self.stream.observe(task, context)

    def take_away(self, processor):
        """A processor shows no event from the moment in which it is taken away, not even of a release.

        So what the task that ran on it last still holds is released here: it can't be held any more.
        """
        there = [task for task in self.tasks.values() if int(task.processor) == processor]
        task = max(there, key=lambda task: float(task.time), default=None)
        while task is not None and task.held:
            held = task.held[-1]
            if held.name is None:
                task.held.pop()
            else:
                self.counts['taken away'] += 1
                self.stream.release(task, held, task.context)


def lower(locks, released):
    """Of the locks that are held above one that is released, lockdep has one less before each.

    What was taken back there isn't held any more: lockdep can't be about to take it up. Answers how many.
    A lock that was itself taken back was none of those before the others.
    """
    above = locks.index(released) + 1
    gone, less = 0, released.__class__ is not TakenBack
    for held in locks[above:]:
        if held.__class__ is TakenBack:
            locks.remove(held)
            gone += 1
        elif held.before is not None:
            held.before -= less
    return gone


def is_nested(task, nest, lock_class):
    """Whether the task holds the lock that orders many of a class, and one of the class."""
    return (any(held.address == nest for held in task.held)
            and any(held.lock_class == lock_class for held in task.held))
