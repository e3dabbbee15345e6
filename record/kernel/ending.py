"""What tasks hold and wait for where a recording ends."""
from tasks import TakenBack

MOST_SAID = 20  # of one kind


def ending(tasks):
    """Lines about the tasks that hold a lock for suspiciously long, and about those that wait for one."""
    yield from few(waiting(tasks), 'more tasks waited')
    yield from few(held_long(tasks), 'more locks were held so long')


def few(lines, more):
    lines = list(lines)
    yield from lines[:MOST_SAID]
    if len(lines) > MOST_SAID:
        yield f'{len(lines) - MOST_SAID} {more}'


def lock_of(held):
    """A lock that the stream has, or had before it was taken back; None where it is left out."""
    lock = held.lock if isinstance(held, TakenBack) else held
    return lock if lock.name is not None else None


def held_long(tasks):
    """A lock that a task held at the end, and had before that for longer than it was recorded without it."""
    for task in tasks:
        for held in task.held:
            since, lock = float(held.since), lock_of(held)
            if lock is not None and float(task.time) - since > since - float(task.first):
                yield (f'{task.name} held {lock.name} from {held.since.strip()} to its last event at '
                       f'{task.time.strip()}, longer than the rest of its recording: a release may be missing')


def waiting(tasks):
    """A task whose last lock was held by another one when it began to wait, and still is.

    An event tells of an acquisition before the task waits, so the stream has it already.
    """
    holders = {}
    for task in tasks:
        for held in task.held:
            holders.setdefault(held.address, []).append((task, held))
    for task in tasks:
        last = task.held[-1] if task.held else None
        if last is None or last.name is None or last.verb == 'try':
            continue
        for other, held in holders[last.address]:
            if other is not task and keeps_waiting(held, last):
                yield (f'the recording ended while {task.name} waited for {last.name}, held by {other.name} '
                       f'since {held.since.strip()}')
                break


def keeps_waiting(held, wanted):
    """Whether the one who holds a lock lets the other one wait."""
    if held.name is None or held.site.reads and wanted.site.reads:
        return False
    return float(held.since) < float(wanted.since)
