"""What the converter says of a stream on standard error."""
from ending import ending
from output import VERBS
from stream import MOST_CUTS, MOST_HELD

SPLIT_HIDES = ('--split-recursion: %d acquisitions under another lock of their class became a class '
               'of their own; a real recursion between two locks of one class is hidden by it')


def summary(events, output, number, options):
    """The counts, and what is to be known of the stream, line by line."""
    counts, stream = events.counts, events.stream
    yield '%d lines read, %d written, in %d %s' % (
        number, output.lines, stream.trace, 'trace' if stream.trace == 1 else 'traces')
    yield 'of these lines: ' + ', '.join(f'{output.verbs[verb]} {verb}' for verb in VERBS)
    why = ''
    if counts['readers']:
        why = ' (--no-readers)' if 'module' in events.kinds else ', whose kind these events do not tell'
    yield 'left out: %d acquisitions by readers%s, %d unchecked, and %d releases of these' % (
        counts['readers'], why, counts['unchecked'], counts['released of these'])
    if counts['reads'] or counts['recursive reads']:
        yield '%d acquisitions by readers, %d more by recursive readers; %d classes have a class NAME!read' % (
            counts['reads'], counts['recursive reads'], len(events.sites.recursive))
    yield 'dropped: %d releases that were never seen acquired, %d events in NMI context, %d other events' % (
        counts['unseen'], counts['in NMI'], counts['other events'])
    yield from doubts(counts, stream)
    entries, told = number - events.asides, events.header.entries
    if told is not None and told > entries:
        yield "the text's header tells of %d events, and %d were read" % (told, entries)
    if options.cut is not None and stream.trace >= MOST_CUTS:
        yield 'the stream has %d traces: --cut ended none after that' % MOST_CUTS
    yield from ending(events.tasks.values())
    yield from precision(events, options)


def doubts(counts, stream):
    """Where the stream may say another order than there was, or less."""
    if counts['losses']:
        yield 'events are missing at %d places: nothing is held after each' % counts['losses']
    if counts['moves at one time']:
        yield ('%d times a task went on on another processor at the same time: its events there may be out of '
               'order (record with trace_clock counter)' % counts['moves at one time'])
    if counts['taken back']:
        yield ('%d locks were acquired for lockdep only after their task had been preempted: not held before'
               % counts['taken back'])
    if counts['lost releases']:
        yield ('%d releases are missing, by the number of locks that lockdep has: released there'
               % counts['lost releases'])
    if stream.left_held:
        yield '%d locks were still held where a handler ended: released there' % stream.left_held
    if counts['taken away']:
        yield '%d locks were held where their processor was taken away: released there' % counts['taken away']
    if counts['tried subclasses']:
        yield '%d trylocks of a subclass: a class NAME!N of its own' % counts['tried subclasses']
    if stream.too_deep:
        yield '%d acquisitions by tasks that held %d locks already were left out' % (stream.too_deep, MOST_HELD)


def precision(events, options):
    """What the kind of the events means for the classes."""
    if 'stock' in events.kinds:
        yield ('the events show no class: locks of one name count as one class, '
               'and recursions and inversions may be false')
        if options.map:
            yield '--map tells no places: these events do not show the function that acquired'
        if options.split_recursion:
            yield SPLIT_HIDES % events.counts['split recursions']
        for option in 'lockdep', 'check':
            if getattr(options, option):
                yield f'--{option} has no effect on these events: they show no class'
        return
    if options.split_recursion:
        yield "--split-recursion has no effect on the module's events: they show the class"
    if options.unchecked:
        yield "--unchecked has no effect on the module's events: they show what lockdep checks"
    if options.lockdep and events.classes.unknown:
        yield '%d classes are not in the file of --lockdep: numbered here' % events.classes.unknown
