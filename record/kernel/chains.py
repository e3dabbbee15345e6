"""A copy of /proc/lockdep_chains, and whether it has the dependencies of a stream."""
import re
from itertools import combinations

from text import Damaged, quote

MOST_SAID = 20
HEADING = re.compile(r'(?:\(buggered\) )?all lock chains:\n|irq_context: .*\n').fullmatch
CLASS = re.compile(r'\[([0-9a-f]+)\] .*\n?').fullmatch


def chained(lines):
    """The pairs of keys of which a chain has the second one behind the first one."""
    pairs, chain = set(), []
    for number, line in enumerate(lines, 1):
        match = CLASS(line)
        if match:
            chain.append(int(match[1], 16))
        elif line == '\n' or HEADING(line):
            pairs.update(combinations(chain, 2))
            chain = []
        else:
            hint = ' (boot with no_hash_pointers)' if 'ptrval' in line else ''
            raise Damaged(f'the file of --check, line {number}: not a line of /proc/lockdep_chains: '
                          f'{quote(line.strip())}{hint}')
    pairs.update(combinations(chain, 2))
    if not pairs:
        raise Damaged('the file of --check has no chain of two classes')
    return pairs


def check(dependencies, pairs):
    """Lines that say which dependencies lockdep has."""
    missing = [names for keys, names in dependencies.items() if keys not in pairs]
    yield "%d of %d dependencies are in this boot's lockdep_chains" % (
        len(dependencies) - len(missing), len(dependencies))
    for held, acquired in missing[:MOST_SAID]:
        yield "not in lockdep_chains: %s -> %s" % (held.split('@')[0], acquired.split('@')[0])
    if len(missing) > MOST_SAID:
        yield 'and %d more are not' % (len(missing) - MOST_SAID)
