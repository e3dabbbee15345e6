"""Recordings of a newer kernel with four processors, held against what its own lockdep learned meanwhile.

They are of two boots of a kernel 6.12.117 for x86-64 (emulated by qemu, with a thread for each processor),
preemptible, under a load on all four processors, while the third was taken away and came back: `linux-6.12/`
by the module, `linux-6.12-stock/` by the kernel's own events. Each has of its text those lines that show
first what concerns a part of the classes (of the scheduler, memory, timers, names of files, UNIX sockets, and
in the first one terminals), with the acquisitions around them; that part of /proc/lockdep, as it was at the
begin of the recording and at its end; and of /proc/lockdep_chains a chain for each dependency that
/proc/lockdep doesn't show.
"""
import collections
import re
import unittest
import zlib

from texts import file_with, run  # finds the converter, so it comes first
from classes import escape, fitted
from shown import Shown, lockdep, of_stream
from test_planted import report
from test_processors import chained, file, names_of, reaches

ACQUIRE = re.compile(
    r'.{16}-(\d+) +\[(\d+)\] ..(.).. +\d+: acquire: (\S+) k=(\S+) s=\d t=(\d) r=(\d) c=(\d) .*').fullmatch
RELEASE = re.compile(r'.{16}-(\d+) +\[(\d+)\] \S{5} +\d+: release: (\S+)').fullmatch

# `synchronize_srcu` tells lockdep of what it waits for by a call that has no event.
NO_EVENT = {('(reaper_work).work', '&fsnotify_mark_srcu'), ('connector_reaper_work', '&fsnotify_mark_srcu')}
# What lockdep learned of code that runs on a processor that is taken away, of which no event shows.
TAKEN_AWAY = {('hrtimer_bases.lock', 'hrtimer_bases.lock/1'), ('vector_lock', '&base->lock')}
# Where a lock is released before a later one, lockdep acquires the later one anew under those before.
ANEW = {('&type->s_vfs_rename_key', '&type->i_mutex_dir_key#5/5'), ('rename_lock.seqcount', '&dentry->d_lock/1'),
        ('&type->s_vfs_rename_key#2', '&type->i_mutex_dir_key#6/5'), ('rename_lock.seqcount', '&dentry->d_lock/2'),
        ('(work_completion)(&(&ssp->srcu_sup->work)->work)', '&ssp->srcu_sup->srcu_cb_mutex')}
# The lines were chosen by what writers show. In these a reader stands between the two, or lines between others
# and some of their chains are missing.
BEHIND = {('&mark->lock', '&conn->lock'), ('&type->i_mutex_dir_key#6/5', 'fs_reclaim')}
BETWEEN = {('&tty->ldisc_sem', '&tty->files_lock'), ('&vma->vm_lock->lock', '&zone->lock'),
           ('&vma->vm_lock->lock', 'ptlock_ptr(ptdesc)#2')}
# The task was preempted between the event of an acquisition and lockdep's own step.
PREEMPTED = {('sched_map-wait-type-override', '&rq->__lock'),
             ('sched_map-wait-type-override', '&cfs_rq->removed.lock')}


class Newer(unittest.TestCase):

    @classmethod
    def setUpClass(cls):
        cls.text, cls.lockdep = file('trace', 'linux-6.12'), file('after', 'linux-6.12')
        cls.names = names_of(cls.lockdep)
        cls.part = set(cls.names.values())
        cls.before = lockdep(file('before', 'linux-6.12').splitlines(True))
        cls.after = lockdep(cls.lockdep.splitlines(True))
        cls.known = cls.after[0] | chained(file('chains', 'linux-6.12'), cls.names)
        cls.converted = cls.convert(cls.text)
        cls.shown = Shown(cls.converted.stream)

    @classmethod
    def convert(cls, text):
        with file_with(cls.lockdep) as name:
            return run(text, '--lockdep', name)

    def unknown(self, dependencies):
        """Of the part's classes, the dependencies that lockdep doesn't have."""
        return {pair for pair in dependencies if self.part.issuperset(pair)} - self.known

    def test_four_processors(self):
        self.assertEqual(self.converted.status, 0)
        counts = collections.Counter(re.findall(r'^.{16}-\d+ +\[(\d+)\]', self.text, re.M))
        self.assertEqual(set(counts), {'000', '001', '002', '003'})
        self.assertGreater(min(counts.values()), 300)
        self.assertIn('1 locks were held where their processor was taken away', self.converted.errors)

    def test_every_dependency_is_one_of_lockdep(self):
        self.assertEqual(self.unknown(self.shown.dependencies), BETWEEN)

    def test_every_dependency_that_lockdep_learned_is_in_the_stream_or_explained(self):
        missing = self.after[0] - self.before[0] - self.shown.dependencies
        self.assertEqual(missing, NO_EVENT | TAKEN_AWAY | ANEW | BEHIND)
        self.assertEqual({pair for pair in missing if reaches(self.shown.dependencies, *pair)}, ANEW | BEHIND)

    def test_every_usage_bit_is_one_of_lockdep(self):
        self.assertEqual({mark for mark in self.shown.marks if mark[0] in self.part} - self.after[1], set())

    def test_every_usage_bit_that_lockdep_learned_is_in_the_stream(self):
        self.assertEqual(of_stream(self.after[1] - self.before[1], self.shown) - self.shown.marks, set())
        self.assertEqual(self.shown.split, {
            '&____s->seqcount#3', '&fsnotify_mark_srcu', 'rename_lock.seqcount', 'tk_core.seq.seqcount'})

    def test_the_report_is_clean(self):
        status, rows = report(self.converted.stream)
        self.assertEqual((status, rows[1:]), (0, ['clean']))

    def test_a_lock_that_lockdep_has_not_taken_up_is_not_held(self):
        self.assertIn('locks were acquired for lockdep only after their task had been preempted', self.converted.errors)
        # The same without the numbers of locks that lockdep has.
        without = self.convert(re.sub(r' h=\d+ ', ' ', self.text))
        self.assertNotIn('had been preempted', without.errors)
        self.assertEqual(self.unknown(Shown(without.stream).dependencies), PREEMPTED | BETWEEN)

    def test_locks_that_a_function_of_their_class_orders_are_no_recursion(self):
        # The same where no lock is named under which the next one may be held.
        text, count = re.subn(r' n=(?!0{16})[0-9a-f]{16} ', f' n={0:016x} ', self.text)
        status, rows = report(self.convert(text).stream)
        self.assertGreater(count, 0)
        self.assertEqual((status, [row.split(' at ')[0] for row in rows[1:]]),
                         (1, ['recursion &net->unx.table.locks[i]', 'recursion &u->lock', 'violations 2']))


def of_readers(text, names):
    """Of the text, the dependencies that lockdep learns by a reader at one end; `names` are by keys."""
    found, held = set(), collections.defaultdict(list)
    for line in text.split('\n'):
        match = ACQUIRE(line)
        if match:
            pid, processor, context, lock, key, tried, read, checked = match.groups()
            new = lock, names.get(int(key, 16)), context, tried == '1', read != '0', checked == '1'
            locks = held[pid if pid != '0' else 'idle ' + processor]
            if not new[3] and new[5]:
                found |= with_reader(new, locks)
            locks.append(new)
            continue
        match = RELEASE(line)
        if match:
            locks = held[match[1] if match[1] != '0' else 'idle ' + match[2]]
            numbers = [number for number, each in enumerate(locks) if each[0] == match[3]]
            if numbers:
                del locks[numbers[-1]]
    return found


def with_reader(new, locks):
    """Of one acquisition: lockdep goes inwards out up to a lock that was waited for, in one context."""
    found = set()
    for _, name, context, tried, reads, checked in reversed(locks):
        if context != new[2]:
            break
        if checked and (reads or new[4]):
            found.add((name, new[1]))
        if checked and not tried:
            break
    return found


def plain(sets):
    """Dependencies and marks by the names of classes without their numbers and subclasses."""
    return [{(bare(first), bare(second)) for first, second in each} for each in sets]


def bare(name):
    return re.sub(r'(#\d+)?(/\d)?$', '', name)


def as_module(text):
    """The text as the module would write it where each name were one class, with its checksum as the key."""
    def acquisition(match):
        address, tried, read, name = match.groups()
        checked = not name.startswith('rcu_')
        return (f'acquire: {address} k={zlib.crc32(name.encode()):x} s=0 t={tried is not None:d} '
                f'r={read is not None:d} c={checked:d} n=0 i=0x0 {name}')

    return re.sub(r'lock_acquire: (\S+) (try )?(read )?(.+)', acquisition,
                  re.sub(r'lock_release: (\S+) .*', r'release: \1', text))


class NewerByItsOwnEvents(unittest.TestCase):
    """The kernel's own events show no class, so all is compared by names without numbers and subclasses."""

    # Lockdep doesn't check this lock, which the events don't tell.
    UNCHECKED = {('cpuhp_state-down', '&dev->mutex'), ('cpuhp_state-up', '&dev->mutex')}
    PREEMPTED = {('&root->kernfs_iattr_rwsem', '&rq->__lock'), ('fs_reclaim', '&cfs_rq->removed.lock'),
                 ('sched_map-wait-type-override', '&cfs_rq->removed.lock')}
    # The task was preempted between the event of a release and lockdep's own step, and moved away from there.
    RELEASED = {('tty_mutex', '&stopper->lock'), ('tty_mutex', '&stop_pi_lock')}
    ANEW = {('(work_completion)(&(&ssp->srcu_sup->work)->work)', '&ssp->srcu_sup->srcu_cb_mutex')}

    @classmethod
    def setUpClass(cls):
        before, after = (file(name, 'linux-6.12-stock') for name in ('before', 'after'))
        names = {key: bare(name) for key, name in names_of(after).items()}
        cls.part = set(names.values())
        cls.before, cls.after = (plain(lockdep(text.splitlines(True))) for text in (before, after))
        cls.known = cls.after[0] | chained(file('chains', 'linux-6.12-stock'), names)
        cls.text = file('trace', 'linux-6.12-stock')
        cls.shown = Shown(run(cls.text).stream)

    def unknown(self, dependencies):
        """Of the part's classes, the dependencies that lockdep doesn't have."""
        return {pair for pair in dependencies if self.part.issuperset(pair)} - self.known

    def test_every_dependency_is_one_of_lockdep_or_explained(self):
        self.assertEqual(self.unknown(self.shown.dependencies), self.UNCHECKED | self.PREEMPTED)
        checked = Shown(run(self.text, '--unchecked', '&dev->mutex').stream)
        self.assertEqual(self.unknown(checked.dependencies), self.PREEMPTED)

    def test_every_dependency_that_lockdep_learned_is_in_the_stream_or_explained(self):
        names = {zlib.crc32(name.encode()): fitted(escape(name))
                 for name in re.findall(r'lock_acquire: \S+ (?:try )?(?:read )?(.+)', self.text)}
        missing = self.after[0] - self.before[0] - self.shown.dependencies - of_readers(as_module(self.text), names)
        taken_away = {(bare(first), bare(second)) for first, second in TAKEN_AWAY}
        self.assertEqual(missing, NO_EVENT | taken_away | self.RELEASED | self.ANEW)

    def test_every_usage_bit_is_one_of_lockdep_but_those_of_the_unchecked_lock(self):
        marks = {mark for mark in self.shown.marks if mark[0] in self.part}
        self.assertEqual(marks - self.after[1], {('&dev->mutex', 'on hard'), ('&dev->mutex', 'on soft')})
        self.assertEqual(of_stream(self.after[1] - self.before[1], self.shown) - self.shown.marks, set())


if __name__ == '__main__':
    unittest.main()
