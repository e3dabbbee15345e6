"""What the streams of kinds.py and shapes.py are made of: draws, names of locks and tasks, and pieces of traces."""
import random

MB = 1_000_000
TASK = b'\0'               # where a task's name is still to be put in
MOST_TRACES = 60_000       # a stream may have 65,535
MOST_DEPENDENCIES = 60_000
BYTES_EACH = 165          # of a trace with one new dependency, at most, on average
LAYERS, LAYER = 20, 400    # of `layers` and the two like it: how many, and how many classes in each
HEADS = ('rq', 'inode', 'dentry', 'page', 'zone', 'lru', 'mmap', 'sb', 'tty', 'sock', 'timer', 'work', 'cgroup',
         'futex', 'pipe', 'epoll', 'slab', 'vma', 'file', 'mnt', 'net', 'dev', 'skb', 'route', 'sem', 'shm',
         'sighand', 'console', 'blk', 'bio', 'nvme', 'irq')
TAILS = ('lock', 'mutex', 'rwsem', 'list', 'hash', 'wait', 'seq', 'key')


class Draws:
    """Numbers by chance: the same ones for the same seed, whichever Python it is."""

    def __init__(self, seed):
        self.draw = random.Random(seed).random

    def below(self, count):
        return int(self.draw() * count)

    def chance(self, percent):
        return self.draw() * 100 < percent

    def shuffle(self, items):
        for last in range(len(items) - 1, 0, -1):
            other = self.below(last + 1)
            items[last], items[other] = items[other], items[last]

    def some(self, items, count):
        """So many of them, each once."""
        items = list(items)
        self.shuffle(items)
        return items[:count]


class Locks:
    """The names of classes, by number, and of locks."""

    def __init__(self, draws, count):
        self.draws = draws
        self.names = []
        for number in range(count):
            head, rest = HEADS[number % len(HEADS)], number // len(HEADS)
            tail, more = TAILS[rest % len(TAILS)], rest // len(TAILS)
            self.names.append(f'{head}_{tail}#{more}'.encode() if more else f'{head}_{tail}'.encode())
        draws.shuffle(self.names)
        self.instances = [b'@%d' % number for number in range(7)]
        self.instances[0] = b''

    def lock(self, number):
        return self.names[number] + self.instances[self.draws.below(7)]


def task_names():
    """30 tasks, as a kernel names them."""
    forms = ('kworker/%d', 'bash-12%02d', 'swapper/%d', 'nginx-34%02d')
    return [(forms[number % 4] % number).encode() for number in range(30)]


class Program:
    """What a task does. It is cut into turns, in which no other task has one."""

    def __init__(self, draws, locks):
        self.draws = draws
        self.locks = locks
        self.lines = []
        self.held = []

    def acquire(self, number, verb=b'acquire'):
        lock = self.locks.lock(number)
        self.held.append((number, lock))
        self.lines.append(b'%b %b %b\n' % (verb, TASK, lock))

    def release(self, place=-1):
        self.lines.append(b'release %b %b\n' % (TASK, self.held.pop(place)[1]))

    def say(self, verb, state):
        self.lines.append(b'%b %b %b\n' % (verb, TASK, state))

    def release_one(self, base, percent):
        """Of the locks held since there were `base`: mostly the last one."""
        others = len(self.held) - base
        self.release(base + self.draws.below(others) if self.draws.chance(percent) else -1)

    def least(self, base):
        """The least class above all acquired since `base` locks were held, or none."""
        return max((number + 1 for number, _ in self.held[base:]), default=None)

    def turns(self):
        lines, turns = self.lines, []
        while lines:
            length = 1 + self.draws.below(8)
            turns.append(b''.join(lines[:length]))
            lines = lines[length:]
        return turns

    def text(self):
        return b''.join(self.lines)


def walk(program, first, end, depth, step, length):
    """Up and down a stack of at most so many classes from `first` to below `end`, each at most `step`
    above the one before, in about so many lines."""
    draws = program.draws
    base, start = len(program.held), len(program.lines)
    while True:
        written, held = len(program.lines) - start, len(program.held) - base
        least = program.least(base) if held else first + draws.below((end - first) // 2)
        if written < length and held < depth and least < end and (not held or draws.chance(55)):
            number = least + draws.below(min(step, end - least))
            program.acquire(number, b'try' if draws.chance(4) else b'acquire')
        elif held:
            program.release_one(base, 8)
            if held == 1 and written >= length // 2:
                return
        else:
            return


def dive(program, classes, depth):
    """Four times down to so many held locks, and up again by some."""
    draws = program.draws
    step = classes // (depth + 1)
    for _ in range(4):
        while len(program.held) < depth:
            least = program.least(0) or 0
            if least >= classes:
                break
            program.acquire(least + draws.below(min(step, classes - least)))
        for _ in range(1 + draws.below(depth // 2)):
            program.release_one(0, 5)
    while program.held:
        program.release()


def interrupt(program):
    """A piece with handlers and flags. Of 300 classes hard handlers acquire those from 220 on, which
    are never held with the hard flag on; soft ones those from 150 on, never held with both flags on."""
    draws = program.draws

    def handler():
        program.say(b'enter', b'hard')
        walk(program, 220, 300, 2, 20, 3)
        program.say(b'exit', b'hard')

    def masked():
        program.say(b'disable', b'hard')
        walk(program, 220, 300, 2, 20, 3)
        program.say(b'enable', b'hard')

    which = draws.below(6)
    if which == 0:
        handler()
    elif which == 1:
        masked()
    elif which == 2:
        program.say(b'enter', b'soft')
        program.acquire(150 + draws.below(70))
        handler() if draws.chance(50) else masked()
        program.release()
        program.say(b'exit', b'soft')
    elif which == 3:
        program.say(b'disable', b'soft')
        program.acquire(150 + draws.below(70))
        masked()
        if draws.chance(50):
            handler()
        program.release()
        program.say(b'enable', b'soft')
    elif which == 4:
        program.acquire(draws.below(150))
        handler()
        masked()
        program.release()
    else:
        walk(program, 0, 150, 4, 30, 6)


def programs(draws, count, classes, write):
    locks = Locks(draws, classes)
    made = []
    for _ in range(count):
        program = Program(draws, locks)
        write(program)
        made.append(program)
    return made


def mixed(draws, made, size, usual):
    """Traces of about `usual` bytes, in which one to six tasks have turns: each runs one program after
    another, some of them more often. A trace may end with locks held."""
    made = [program.turns() for program in made]
    names = task_names()
    length = max(usual, size // MOST_TRACES)
    number = 0
    while True:
        pieces = [b'trace cpu-%d\n' % number]
        number += 1
        running = [[name, iter(())] for name in draws.some(names, 1 + draws.below(6))]
        written = 0
        while written < length:
            task = running[draws.below(len(running))]
            turn = next(task[1], None)
            if turn is None:
                task[1] = iter(made[min(draws.below(len(made)), draws.below(len(made)))])
                continue
            turn = turn.replace(TASK, task[0])
            written += len(turn)
            pieces.append(turn)
        yield b''.join(pieces)


def paced(draws, size, piece):
    """Up to 60,000 traces, each of one task's pieces, which have the size together."""
    names = task_names()
    count = min(MOST_TRACES, size // BYTES_EACH)
    done = 0
    for number in range(count):
        task, pieces = names[draws.below(len(names))], [b'trace t%d\n' % number]
        done += len(pieces[0])
        while len(pieces) == 1 or done < size * (number + 1) // count:
            pieces.append(piece(task))
            done += len(pieces[-1])
        yield b''.join(pieces)


def again(draws, pairs):
    yield from pairs
    while True:
        yield pairs[draws.below(len(pairs))]


def dependency(task, locks, pair):
    first, second = locks.lock(pair[0]), locks.lock(pair[1])
    return (b'acquire %b %b\nacquire %b %b\nrelease %b %b\nrelease %b %b\n'
            % (task, first, task, second, task, second, task, first))


def shown(draws, size, locks, pairs, usual):
    """Traces in which one task shows so many dependencies."""
    names = task_names()
    each = max(usual, size // MOST_TRACES // 100)
    number = 0
    while True:
        task = names[draws.below(len(names))]
        yield b'trace run-%d\n' % number + b''.join(
            dependency(task, locks, next(pairs)) for _ in range(each))
        number += 1


def taken_alone(task, locks, number):
    lock = locks.lock(number)
    return b'acquire %b %b\nrelease %b %b\n' % (task, lock, task, lock)
