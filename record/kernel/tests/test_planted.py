"""A recording of a real kernel with planted faults, through the converter and through lockcheck.

plant-all is the boot of a kernel 6.1 (user mode, one processor) in which a module planted an
inversion of plant_a and plant_b, a hard and a soft conflict of plant_h and plant_s, an order from
plant_w (taken by a hard handler) to plant_x, and a recursion of &o->lock, after two such locks that
were nested as lockdep wants it; plant-clean is one in which it did the like without a fault. The
numbers of lines below are those of the text, as read in it.
"""
import lzma
import os
import re
import subprocess
import unittest

from texts import FOLDER, acquire, file_with, release, run

LOCKCHECK = os.environ.get('LOCKCHECK') or os.path.join(FOLDER, '..', '..', 'lockcheck')

ROWS_OF_ALL = [
    'recursion &o->lock at all:6884',
    'inversion plant_a -> plant_b at all:3584 via plant_b -> plant_a',
    'inversion plant_b -> plant_a at all:4736 via plant_a -> plant_b',
    'conflict hard plant_h {?.+.} in all:6548 on all:6703',
    'conflict soft plant_s {+.?.} in all:6406 on all:6513',
    'forbidden hard plant_w {-...} in all:6738 -> plant_x {+.+.} on all:6875 via plant_w -> plant_x',
    # The kernel's pseudo-lock of a timer's handler is held around plant_s.
    'forbidden soft drivers%2Fplant.c:64 {+.-.} in all:6405 -> plant_s {+.?.} on all:6513 '
    'via drivers%2Fplant.c:64 -> plant_s',
]


def recording(name):
    with lzma.open(os.path.join(FOLDER, 'tests', name + '.ftrace.xz')) as file:
        return file.read()


def report(stream):
    """lockcheck's status, and the lines of its report."""
    end = subprocess.run([LOCKCHECK], input='\n'.join(stream).encode() + b'\n', capture_output=True)
    return end.returncode, end.stdout.decode().splitlines()


class Planted(unittest.TestCase):

    def test_every_planted_fault_is_reported_at_its_line_and_nothing_else(self):
        with file_with('') as name:
            converted = run(recording('plant-all'), '--label', 'all', '--lines', name)
            with open(name) as file:
                lines = file.read().split()
        status, rows = report(converted.stream)
        self.assertEqual((converted.status, status), (0, 1))
        self.assertTrue(rows[0].startswith('traces 1 refused 0 '), rows[0])
        # Each witness as a line of the recording, by the map.
        there = [re.sub(r'all:(\d+)', lambda witness: 'all:' + lines[int(witness[1]) - 1], row) for row in rows]
        self.assertEqual(there[1:], [*ROWS_OF_ALL, 'violations 7'])

    def test_the_nested_lock_is_one_of_the_subclass(self):
        with file_with('') as name:
            converted = run(recording('plant-all'), '--lines', name)
            with open(name) as file:
                there = dict(zip(file.read().split(), converted.stream))
        self.assertEqual([there['6221'], there['6222']],
                         ['acquire insmod-29 &o->lock@d380ce20', 'nested insmod-29 &o->lock@d380cd80 1'])
        # All events of subclasses in this recording are exclusive acquisitions of subclass 1.
        nested = [line for line in converted.stream if line.startswith('nested ')]
        self.assertEqual(len(nested), recording('plant-all').count(b' s=1 t=0 r=0 c=1 n=0000000000000000 '))
        self.assertEqual({line[-2:] for line in nested}, {' 1'})

    def test_a_run_without_a_fault_is_clean(self):
        converted = run(recording('plant-clean'))
        status, rows = report(converted.stream)
        self.assertEqual((status, rows[1:]), (0, ['clean']))
        # The shell's own two, of the write that began the recording.
        self.assertIn('dropped: 2 releases that were never seen acquired, 0 events in NMI', converted.errors)

    def test_a_whole_stream_has_a_line_for_each_line_of_its_map(self):
        with file_with('') as name:
            converted = run(recording('plant-clean'), '--lines', name)
            with open(name) as file:
                numbers = [int(number) for number in file]
        self.assertEqual(len(numbers), len(converted.stream))
        self.assertEqual(numbers, sorted(numbers))


class Limits(unittest.TestCase):
    """The converter never passes a limit that lockcheck refuses a trace for."""

    def test_streams_that_were_cut_are_read(self):
        text = acquire('a', 0x1000, columns='d.s..') + ''.join(
            acquire('k%d' % number, 0x2000, key=0x100000 + number, task='t-%d' % (number % 1500 + 2), columns=columns)
            for number, columns in zip(range(9000), ('.....', 'D....', '..s..', 'd.h..', 'd.H..') * 1800))
        text += ''.join(acquire('deep', 0x3000 + 16 * number, task='u-9999') for number in range(120))
        text += release(0x1000, columns='d.s..')
        status, rows = report(run(text).stream)
        self.assertIn(' refused 0 ', rows[0])
        self.assertIn(status, (0, 1))


if __name__ == '__main__':
    unittest.main()
