"""The reader tests of the kernel's own lib/locking-selftest.c, retold, with its table of what lockdep has to say.

Each case is a list of steps: `w A` acquires A as a writer, `r A` as a recursive reader, `n A` as another reader,
and `/ A` releases it. `on`, `off` and `bh` say the flags of interrupts from there on, `hard` and `soft` that a
handler of this kind runs, and `enable` is the event of enabling hardware interrupts. Each case has locks and a
task of its own, so one report tells of all of them.
"""
import itertools
import re
import unittest

from texts import acquire, irq, release, run
from test_planted import report

FAILS, PASSES = True, False
COLUMNS = {'on': '.....', 'off': 'd....', 'bh': 'b....', 'hard': 'd.h1.', 'soft': '..s..'}
KINDS = {'w': 0, 'n': 1, 'r': 2}
# Of a state: the handler, and what keeps it out.
STATES = {'hard': ('hard', 'off'), 'soft': ('soft', 'bh')}
# What kinds of locks the tests take, and how they are acquired. The kernel's `LOCK` is one of these.
LOCKS = {'spin': 'w', 'wlock': 'w', 'rlock': 'r', 'mutex': 'w', 'wsem': 'w', 'rsem': 'n'}


def nested(*steps):
    """These locks one under the other, and all of them released."""
    return [*steps, *(f'/ {step[-1]}' for step in reversed(steps))]


def within(before, steps, after='on'):
    return [before, *steps, after]


def cycles():
    """DO_TESTCASE_6R: with recursive readers alone none of them is a deadlock."""
    for orders in ('AB BA', 'AB BC CA', 'AB CA BC', 'AB BC CD DA', 'AB CD BD DA', 'AB CD BC DA'):
        for lock, how in LOCKS.items():
            steps = [step for pair in orders.split() for step in nested(f'{how} {pair[0]}', f'{how} {pair[1]}')]
            yield f'{orders} {lock}', how != 'r', steps
    for lock, how in LOCKS.items():
        yield f'AA {lock}', how != 'r', [f'{how} A', f'{how} A']


def pairs():
    """One class twice, and two in both orders; the other lock is a spin lock or a mutex."""
    for how, reads, fails in ('w', 'r', PASSES), ('w', 'n', FAILS):
        yield f'{reads}A {reads}A', fails, [f'{reads} A', f'{reads} A']
        yield f'{reads}A wA', FAILS, [f'{reads} A', 'w A']
        yield f'wA {reads}A', FAILS, ['w A', f'{reads} A']
        yield f'{reads}A wB, wB wA', FAILS, [*nested(f'{reads} A', 'w B'), *nested('w B', 'w A')]
        yield f'{reads}A wB, wB {reads}A', fails, [*nested(f'{reads} A', 'w B'), *nested('w B', f'{reads} A')]
        yield 'wA wB, wB wA', FAILS, [*nested('w A', 'w B'), *nested('w B', 'w A')]
    yield 'rA wB, wB rA, wB wA', FAILS, [
        *nested('r A', 'w B'), *nested('w B', 'r A'), *nested('w B', 'w A')]


def three_orders(name, fails, *parts):
    for order in itertools.permutations(parts):
        yield f'{name} {[parts.index(part) + 1 for part in order]}', fails, list(itertools.chain(*order))


def triangles():
    for name, fails, *parts in (
            ('W1R2 W2R3 W3R1', FAILS, ('w X', 'r Y'), ('w Y', 'r Z'), ('w Z', 'r X')),
            ('W1W2 R2R3 W3R1', FAILS, ('w X', 'w Y'), ('r Y', 'r Z'), ('w Z', 'r X')),
            ('W1W2 R2R3 R3W1', PASSES, ('w X', 'w Y'), ('r Y', 'r Z'), ('r Z', 'w X')),
            ('W1R2 R2R3 W3W1', PASSES, ('w X', 'r Y'), ('r Y', 'r Z'), ('w Z', 'w X'))):
        yield from three_orders(name, fails, *(nested(*part) for part in parts))


def two_events(state, lock, how):
    handler, disabled = STATES[state]
    fails = how != 'r'
    yield from three_orders(f'irqsafe1 {state} {lock}', fails,
                            within(handler, nested(f'{how} A')), within('on', nested(f'{how} A')))
    yield from three_orders(f'irqsafe2B {state} {lock}', fails, within(handler, nested(f'{how} A')),
                            [disabled, f'{how} A', *(['enable'] if state == 'hard' else []), 'on', '/ A'])
    if state == 'soft':
        yield from three_orders(f'irqsafe2A {lock}', fails, within('soft', nested(f'{how} A')),
                                ['off', f'{how} A', 'enable', 'on', '/ A'])


def three_events(state, lock, how):
    handler, disabled = STATES[state]
    safe, unsafe = within(handler, nested(f'{how} A')), within('on', nested(f'{how} B'))
    fails = how != 'r'
    yield from three_orders(f'irqsafe3 {state} {lock}', fails, within('on', nested(f'{how} A', f'{how} B')), unsafe,
                            safe)
    yield from three_orders(f'irqsafe4 {state} {lock}', fails, within(disabled, nested(f'{how} A', f'{how} B')),
                            unsafe, safe)
    yield from three_orders(f'irq_inversion {state} {lock}', fails, within(disabled, nested('w A', f'{how} B')),
                            unsafe, within(handler, nested('r A')))


def read_recursions(state, lock, how):
    handler, disabled = STATES[state]
    fails = how != 'r'
    reads = within('on', nested('r A'))
    yield from three_orders(f'irq_read_recursion {state} {lock}', fails, within(disabled, nested('w A')), reads,
                            within(handler, nested(f'{how} A', 'w B')))
    yield from three_orders(f'irq_read_recursion2 {state} {lock}', fails, within(disabled, nested('w B', f'{how} A')),
                            reads, within(handler, nested('w B')))
    yield from three_orders(f'irq_read_recursion3 {state} {lock}', fails, within(disabled, nested('w B', f'{how} A')),
                            reads, within(handler, nested('r B')))


def queued():
    """A reader waits for waiting writers, but not in a handler."""
    yield 'RE Er', FAILS, [*within('hard', nested('r A', 'w B')), *within('off', nested('w B', 'n A'))]
    yield 'ER rE', PASSES, [*within('hard', nested('w B', 'r A')), *within('off', nested('n A', 'w B'))]
    yield 'inversion', FAILS, [*within('hard', nested('w B')), *within('off', nested('w B', 'n A')), *nested('n A')]


def cases():
    yield from cycles()
    yield from pairs()
    yield from triangles()
    for state in STATES:
        for lock in 'spin', 'wlock', 'rlock':
            yield from two_events(state, lock, LOCKS[lock])
            yield from three_events(state, lock, LOCKS[lock])
        for lock in 'wlock', 'rlock':
            yield from read_recursions(state, lock, LOCKS[lock])
    yield from queued()


def text_of(number, steps):
    """What the module writes of the steps of a case."""
    columns, lines, task = COLUMNS['on'], [], f't-{number + 1}'
    for step in steps:
        verb, _, lock = step.partition(' ')
        address = 0x100000 + 0x100 * number + ord(lock or '?')
        if verb in COLUMNS:
            columns = COLUMNS[verb]
        elif verb == 'enable':
            lines.append(irq('irq_enable', task=task, columns=columns))
        elif verb == '/':
            lines.append(release(address, task=task, columns=columns))
        else:
            lines.append(acquire(f'c{number}.{lock}', address, key=address, read=KINDS[verb], task=task,
                                 columns=columns))
    return ''.join(lines)


class Selftests(unittest.TestCase):

    @classmethod
    def setUpClass(cls):
        cls.cases = list(cases())
        converted = run(''.join(text_of(number, steps) for number, (_, _, steps) in enumerate(cls.cases)))
        _, rows = report(converted.stream)
        assert ' refused 0 ' in rows[0], rows[0]
        cls.reported = {int(number) for number in re.findall(r'\bc(\d+)\.', '\n'.join(rows[1:]))}

    def test_what_lockdep_has_to_report_is_reported_and_nothing_else(self):
        for number, (name, fails, _) in enumerate(self.cases):
            with self.subTest(name=name):
                self.assertEqual(number in self.reported, fails)

    def test_none_is_left_out(self):
        self.assertEqual(len(self.cases), 42 + 13 + 24 + 12 + 6 + 12 + 3 * 36 + 72 + 3)


if __name__ == '__main__':
    unittest.main()
