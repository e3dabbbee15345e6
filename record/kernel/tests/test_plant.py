"""The self-test's comparison, over a recording of its module's recursion with lockdep's own words.

The recording is of a kernel 6.1 in user mode, by the module: `trace`, `lockdep` and `stats` as
`record stop` wrote them, and of `dmesg` what lockdep said of the plant, without the backtrace.
"""
import lzma
import os
import shutil
import subprocess
import tempfile
import unittest

from texts import FOLDER, run

PLANT = os.path.join(FOLDER, 'plant', 'plant')
RECORDING = os.path.join(FOLDER, 'tests', 'recursion')


class Compare(unittest.TestCase):

    def setUp(self):
        self.folder = tempfile.mkdtemp()
        self.addCleanup(shutil.rmtree, self.folder)
        for name in ('trace', 'lockdep'):
            with lzma.open(os.path.join(RECORDING, name + '.xz')) as packed, open(self.path(name), 'wb') as file:
                file.write(packed.read())
        for name in ('dmesg', 'stats'):
            shutil.copy(os.path.join(RECORDING, name), self.folder)

    def path(self, name):
        return os.path.join(self.folder, name)

    def compare(self, fault, lockcheck=None):
        environment = dict(os.environ, LOCKCHECK=lockcheck) if lockcheck else None
        end = subprocess.run([PLANT, 'compare', fault, self.folder], capture_output=True, text=True, env=environment)
        return end.returncode, end.stdout, end.stderr

    def reporter(self, *report):
        """A program that gives this report for every stream."""
        program = self.path('reporter')
        with open(program, 'w') as file:
            file.write('\n'.join(['#!/bin/sh', 'cat >/dev/null', "cat <<'END'", *report, 'END', 'exit 1', '']))
        os.chmod(program, 0o755)
        return program

    def test_lockdep_and_lockcheck_agree(self):
        for name in ('stream', 'report'):
            with open(self.path(name), 'w') as file:
                file.write('of before\n')
        self.assertEqual(self.compare('recursion')[:2], (0, 'plant: recursion: lockdep and lockcheck agree\n'))
        for name in ('stream', 'report'):
            with open(self.path(name)) as file:
                self.assertEqual(file.read(), 'of before\n')
        self.assertEqual({name for name in os.listdir(self.folder) if 'plant' in name}, {'plant.stream', 'plant.report'})

    def test_another_fault_is_in_neither(self):
        status, out, errors = self.compare('hard')
        self.assertEqual((status, out), (1, ''))
        self.assertIn("lockdep did not say 'inconsistent {IN-HARDIRQ-W} -> {HARDIRQ-ON-W} usage'", errors)
        self.assertIn('missing: conflict hard plant_h', errors)
        self.assertIn('more: recursion &object->lock at hard:', errors)

    def test_a_fault_where_none_was_planted(self):
        status, out, errors = self.compare('clean')
        self.assertEqual((status, out), (1, ''))
        self.assertIn('possible recursive locking', errors)
        self.assertIn('more: recursion &object->lock at clean:', errors)

    def test_lockdep_that_says_nothing(self):
        with open(self.path('dmesg'), 'w') as file:
            file.write('lockcheck_plant: recursion\n')
        status, out, errors = self.compare('recursion')
        self.assertEqual((status, out), (1, ''))
        self.assertIn('had it stopped before', errors)
        self.assertNotIn('missing', errors)

    def test_a_recording_that_can_not_be_read(self):
        os.truncate(self.path('trace'), 5000)
        status, out, errors = self.compare('recursion')
        self.assertEqual((status, out), (2, ''))
        self.assertIn('cut', errors)
        os.remove(self.path('trace'))
        self.assertEqual(self.compare('recursion')[0], 2)

    def test_what_readers_wait_for_is_shown_as_their_lock(self):
        reporter = self.reporter(
            'traces 1 refused 0 events 9 classes 6 dependencies 5',
            'inversion plant_a -> a!read at hard:7 via a!read -> b!read -> c!read -> plant_a',
            'inversion a!read -> plant_a at hard:9 via plant_a -> a!read',
            'recursion plant_a!read at hard:8',
            'conflict soft plant_a!read {....} in hard:7 on hard:9',
            'forbidden hard a!read {-...} in hard:5 -> plant_a!read {+...} on hard:6 via a!read -> plant_a!read',
            'violations 5')
        status, out, errors = self.compare('hard', reporter)
        self.assertEqual((status, out), (1, ''))
        self.assertEqual([line for line in errors.splitlines() if line.startswith('  more: ')], [
            '  more: inversion plant_a -> a (read) at hard:7 via a (written) -> b (read, written) -> c (read, written)'
            ' -> plant_a',
            '  more: inversion a (written) -> plant_a at hard:9 via plant_a -> a (read)',
            '  more: recursion plant_a (read, written) at hard:8',
            '  more: conflict soft plant_a (read, written) {....} in hard:7 on hard:9',
            '  more: forbidden hard a (read) {-...} in hard:5 -> plant_a (written) {+...} on hard:6'
            ' via a (written) -> plant_a (read)'])

    def test_names_by_the_lockdep_file_of_the_same_boot(self):
        with open(self.path('trace'), 'rb') as file:
            text = file.read()
        named, plain = run(text, '--lockdep', self.path('lockdep')), run(text)
        self.assertEqual((named.status, plain.status), (0, 0))
        # The first class of this name that is recorded is the eleventh that lockdep knows.
        self.assertIn('&sb->s_type->i_lock_key#11', classes(named.stream))
        self.assertNotIn('&sb->s_type->i_lock_key#11', classes(plain.stream))
        self.assertEqual(len(classes(named.stream)), len(classes(plain.stream)))


def classes(stream):
    """The classes that a stream acquires, those of a `nested` with its number."""
    events = [line.split(' ') for line in stream]
    return {'/'.join([event[2].split('@')[0], *event[3:]]) for event in events
            if event[0] in ('acquire', 'nested', 'try')}


if __name__ == '__main__':
    unittest.main()
