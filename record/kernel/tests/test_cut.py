"""`--cut N`: a new trace after N lines of one, with what is held carried over; and labels."""
import os
import tempfile
import unittest
from unittest import mock

from texts import CONVERT, acquire, release, run  # finds the converter, so it comes first
import stream as streams
from test_planted import recording, report
from test_processors import file

A, B, C = 0x1000, 0x2000, 0x3000  # addresses of locks


class Cut(unittest.TestCase):

    def test_a_new_trace_begins_after_so_many_lines(self):
        text = ''.join(acquire('a', A) + release(A) for _ in range(5))
        self.assertEqual(run(text, '--cut', '4').stream, [
            'trace kernel', *['acquire t-1 a@1000', 'release t-1 a@1000'] * 2,
            'trace kernel.2', *['acquire t-1 a@1000', 'release t-1 a@1000'] * 2,
            'trace kernel.3', 'acquire t-1 a@1000', 'release t-1 a@1000'])

    def test_what_is_held_goes_over(self):
        self.assertEqual(
            run(acquire('a', A, key=0x500, columns='b....') + acquire('a', B, key=0x501, subclass=1, columns='d.h..')
                + acquire('b', C, columns='d.h..'), '--cut', '4').stream[1:],
            ['begin t-1 on off', 'acquire t-1 a@1000', 'enter t-1 hard', 'nested t-1 a@2000 1', 'trace kernel.2',
             'begin t-1 on off', 'try t-1 a@1000', 'enter t-1 hard', 'nested t-1 a@2000 1', 'acquire t-1 b@3000'])

    def test_a_writer_of_a_class_with_recursive_readers_holds_both_there(self):
        lines = run(acquire('a', A) + acquire('b', B) + release(B) + release(A) + acquire('a', C, read=2), '--cut', '2')
        self.assertEqual(lines.stream[3:], [
            'trace kernel.2', 'try t-1 a@1000', 'try t-1 a!read@1000', 'acquire t-1 b@2000', 'release t-1 b@2000',
            'release t-1 a!read@1000', 'release t-1 a@1000', 'trace kernel.3', 'try t-1 a@3000'])

    def test_nothing_is_lost(self):
        for name, text in (('plant-all', recording('plant-all').decode('latin-1')),
                           ('processors', file('trace')), ('linux-6.12', file('trace', 'linux-6.12'))):
            whole = report(run(text).stream)[1]
            for lines in '7', '50', '500':
                with self.subTest(name=name, lines=lines):
                    converted = run(text, '--cut', lines)
                    cut = report(converted.stream)[1]
                    self.assertGreater(sum(line.startswith('trace ') for line in converted.stream), 1)
                    self.assertIn(' refused 0 ', cut[0])
                    self.assertEqual(cut[0].split()[-4:], whole[0].split()[-4:])  # classes and dependencies
                    self.assertEqual([row.split(' at ')[0].split(' in ')[0] for row in cut[1:]],
                                     [row.split(' at ')[0].split(' in ')[0] for row in whole[1:]])

    def test_no_more_traces_than_a_stream_may_have(self):
        text = ''.join(acquire('a', A) + release(A) for _ in range(9))
        with mock.patch.object(streams, 'MOST_CUTS', 3):
            result = run(text, '--cut', '2')
        self.assertEqual([line for line in result.stream if line.startswith('trace ')],
                         ['trace kernel', 'trace kernel.2', 'trace kernel.3'])
        self.assertEqual(len(result.stream), 3 + 18)

    def test_numbers_that_are_none(self):
        for number in '0', '-1', 'x', '':
            with self.subTest(number=number):
                self.assertEqual(run(acquire('a', A), '--cut', number).status, 2)


class Labels(unittest.TestCase):

    def label(self, folder, file_name, *words):
        with tempfile.TemporaryDirectory() as above:
            os.mkdir(os.path.join(above, folder))
            name = os.path.join(above, folder, file_name)
            with open(name, 'w') as text:
                text.write(acquire('a', A))
            return CONVERT.options_of([*words, name]).label

    def test_of_the_folder_that_record_wrote(self):
        self.assertEqual(self.label('run-1', 'trace'), 'run-1')
        self.assertEqual(self.label('run-1', 'trace', '--label', 'other'), 'other')

    def test_of_other_texts(self):
        self.assertEqual(self.label('run-1', 'text'), 'kernel')
        self.assertEqual(self.label('two words', 'trace'), 'kernel')
        self.assertEqual(self.label('x' * 59, 'trace'), 'kernel')
        self.assertEqual(CONVERT.options_of([]).label, 'kernel')


if __name__ == '__main__':
    unittest.main()
