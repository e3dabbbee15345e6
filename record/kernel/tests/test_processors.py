"""A recording of a kernel with four processors, held against what its own lockdep learned meanwhile.

It is of a kernel 6.1.192 for x86-64 (emulated by qemu), by the module, under a load on all four processors,
while the third was taken away and came back. `processors/` has of its text those lines that show a class,
a dependency or a usage bit first, with the acquisitions around them; /proc/lockdep as it was right before
the recording and right after it; and of /proc/lockdep_chains, right after it, a chain for each dependency
that /proc/lockdep doesn't show: it leaves out those between which a lock stood that was got by a trylock,
or isn't checked.
"""
import collections
import itertools
import lzma
import os
import re
import unittest

from texts import FOLDER, file_with, run  # finds the converter, so it comes first
from classes import lockdep_classes
from shown import Shown, lockdep, of_stream
from test_planted import report

# What lockdep learned of code that runs on a processor that is taken away, of which no event shows.
TAKEN_AWAY = {('&irq_desc_lock_class', 'tmp_mask_lock'), ('hrtimer_bases.lock', 'hrtimer_bases.lock/1')}
# The lines were chosen by what writers show, so some between these, and some of their chains, aren't here.
BETWEEN = {('sb_internal', name) for name in (
    '&____s->seqcount', '&rq->__lock', 'mount_lock.seqcount', 'rcu_node_0', 'rename_lock.seqcount')} | {
    ('&sbi->s_writepages_rwsem', '&base->lock'), ('&sbi->s_writepages_rwsem', '&lo->lo_work_lock'),
    ('&sig->cred_guard_mutex', '&____s->seqcount'), ('&type->i_mutex_dir_key#7', '&wb->list_lock'),
    ('&type->i_mutex_dir_key#7', 'mount_lock'), ('sb_writers#8', '&kernfs_locks->open_file_mutex[count]')}
# What it learned after the copy of /proc/lockdep, before the recording began.
BEFORE = {('event_mutex', '&rq->__lock'), *(('&child->perf_event_mutex', name) for name in (
    '&rq->__lock', '&cfs_rq->removed.lock', 'pgd_lock', 'slob_lock'))}


def file(name, folder='processors'):
    with lzma.open(os.path.join(FOLDER, 'tests', folder, name + '.xz')) as packed:
        return packed.read().decode('latin-1')


def chained(text, names):
    """Of a text of /proc/lockdep_chains, the pairs of classes that are held together."""
    chains = [[names.get(int(key, 16)) for key in re.findall(r'^\[(\w+)\]', chain, re.M)]
              for chain in text.split('\n\n')]
    return {pair for chain in chains for pair in itertools.combinations(chain, 2)}


def names_of(text):
    """Of a text of /proc/lockdep: key to name, that of a subclass as lockdep prints it."""
    return {key: '/'.join([name, str(subclass)]) if subclass else name
            for key, (name, subclass) in lockdep_classes(text.splitlines(True)).items()}


def reaches(dependencies, first, last):
    """Whether a walk over the dependencies goes from a class to another."""
    after = collections.defaultdict(set)
    for held, acquired in dependencies:
        after[held].add(acquired)
    reached, todo = set(), [first]
    while todo:
        todo = [name for each in todo for name in after.pop(each, ())]
        reached.update(todo)
    return last in reached


class Processors(unittest.TestCase):

    @classmethod
    def setUpClass(cls):
        cls.text, after = file('trace'), file('after')
        with file_with(after) as name:
            cls.converted = run(cls.text, '--lockdep', name)
        cls.shown = Shown(cls.converted.stream)
        cls.names = names_of(after)
        cls.before, cls.after = lockdep(file('before').splitlines(True)), lockdep(after.splitlines(True))

    def test_four_processors(self):
        self.assertEqual(self.converted.status, 0)
        counts = collections.Counter(re.findall(r'^.{16}-\d+ +\[(\d+)\]', self.text, re.M))
        self.assertEqual(set(counts), {'000', '001', '002', '003'})
        self.assertGreater(min(counts.values()), 100)
        self.assertIn('1 locks were held where their processor was taken away', self.converted.errors)

    def test_every_dependency_is_one_of_lockdep(self):
        self.assertEqual(self.shown.dependencies - self.after[0] - chained(file('chains'), self.names), BETWEEN)

    def test_every_dependency_that_lockdep_learned_is_in_the_stream_or_explained(self):
        missing = self.after[0] - self.before[0] - self.shown.dependencies
        # Where a lock is released before a later one, lockdep acquires the later one anew under those before.
        anew = {pair for pair in missing if reaches(self.shown.dependencies, *pair)}
        self.assertEqual(missing - anew, TAKEN_AWAY | BEFORE)
        self.assertEqual(anew, {
            ('&type->s_vfs_rename_key', '&type->i_mutex_dir_key#5/5'), ('rename_lock.seqcount', '&dentry->d_lock/1'),
            ('&type->s_vfs_rename_key#2', '&type->i_mutex_dir_key#7/5')})

    def test_every_usage_bit_is_one_of_lockdep(self):
        self.assertEqual(self.shown.marks - self.after[1], set())

    def test_every_usage_bit_that_lockdep_learned_is_in_the_stream(self):
        self.assertEqual(of_stream(self.after[1] - self.before[1], self.shown) - self.shown.marks, set())
        self.assertEqual(self.shown.split, {
            '&____s->seqcount', '&____s->seqcount#3', '&p->sequence', 'jiffies_seq.seqcount', 'mount_lock.seqcount',
            'rename_lock.seqcount', 'tk_core.seq.seqcount'})

    def test_the_report_is_clean(self):
        status, rows = report(self.converted.stream)
        self.assertEqual((status, rows[1:]), (0, ['clean']))


if __name__ == '__main__':
    unittest.main()
