"""`--map`: the function that acquired, in the form of the places of a program."""
import re
import unittest
from unittest import mock

from texts import acquire, file_with, line, release, run, stock  # finds the converter, so it comes first
import places
from test_planted import recording
from test_processors import file

A, B, C = 0x1000, 0x2000, 0x3000  # addresses of locks


def by(function, name, lock, **words):
    """An acquisition by a function, as the module writes it."""
    return acquire(name, lock, **words).replace('i=caller+0x1/0x2', f'i={function}')


def mapped(text, *words):
    """The stream, and of the map its lines, the bytes of a number, and the numbers."""
    with file_with('') as name:
        result = run(text, '--map', name, *words)
        with open(name, 'rb') as file:
            head, _, numbers = file.read().partition(b'\nnumbers\n')
    lines = head.decode('ascii').split('\n')
    count, width = re.fullmatch(r'lines (\d+) bytes ([24])', lines[1]).groups()
    width = int(width)
    assert len(numbers) == int(count) * width
    return result, lines, width, [int.from_bytes(numbers[at:at + width], 'little')
                                  for at in range(0, len(numbers), width)]


class Map(unittest.TestCase):

    def test_says_who_acquired(self):
        result, lines, width, numbers = mapped(
            by('f+0x1/0x20', 'a', A) + by('g+0x2/0x30 [ext4]', 'b', B) + release(B) + by('f+0x1/0x20', 'b', B)
            + release(B) + by('g+0x2/0x30 [ext4]', 'b', B))
        self.assertEqual(lines, [
            'places 1', 'lines 7 bytes 2', 'place 1 f f+0x1/0x20', 'place 2 g g+0x2/0x30%20[ext4]', 'taken a 1 1',
            'taken b 2 2', 'taken b 1 1'])
        self.assertEqual((width, numbers), (2, [0, 1, 2, 0, 1, 0, 2]))

    def test_a_function_that_is_not_known(self):
        self.assertIn('place 1 ? 0xffffffff81000000', mapped(by('0xffffffff81000000', 'a', A))[1])

    def test_of_a_class_with_recursive_readers(self):
        _, lines, _, numbers = mapped(by('w+0x1/0x2', 'a', A) + by('r+0x1/0x2', 'a', C, read=2))
        self.assertEqual(lines[4:], ['taken a 1 1', 'taken a 2 1', 'taken a!read 1 1', 'taken a!read 2 1'])
        # trace, acquire, try; disable, acquire, release, enable, try; and a comment
        self.assertEqual(numbers, [0, 1, 1, 0, 2, 0, 0, 2, 0])

    def test_what_goes_over_into_another_trace_was_acquired_there(self):
        result, lines, _, numbers = mapped(by('f+0x1/0x2', 'a', A) + by('g+0x1/0x2', 'b', B), '--cut', '1')
        self.assertEqual(result.stream, ['trace kernel', 'acquire t-1 a@1000', 'trace kernel.2', 'try t-1 a@1000',
                                         'acquire t-1 b@2000'])
        self.assertEqual(numbers, [0, 1, 0, 1, 2])
        self.assertEqual(lines[4:], ['taken a 1 1', 'taken b 2 1'])

    def test_a_release_that_belongs_before_other_lines(self):
        result, _, _, numbers = mapped(by('f+0x1/0x2', 'a', A, before=0) + by('g+0x1/0x2', 'b', B, before=1)
                                       + release(B) + by('g+0x1/0x2', 'c', C, before=0))
        self.assertEqual(result.stream[3:5], ['release t-1 a@1000', 'release t-1 b@2000'])
        self.assertEqual(numbers, [0, 1, 2, 0, 0, 2])

    def test_numbers_of_four_bytes(self):
        text = ''.join(by(f'f{number}+0x1/0x2', 'a', A) + release(A) for number in range(3))
        with mock.patch.object(places, 'MOST_OF_TWO_BYTES', 2):
            _, _, width, numbers = mapped(text)
        self.assertEqual((width, numbers), (4, [0, 1, 0, 2, 0, 3, 0]))

    def test_events_that_do_not_show_it(self):
        result, lines, _, numbers = mapped(stock('acquire', A, 'a'))
        self.assertEqual((lines, numbers), (['places 1', 'lines 2 bytes 2'], [0, 0]))
        self.assertIn('--map tells no places', result.errors)

    def test_of_a_recording(self):
        text = file('trace')
        result, lines, _, numbers = mapped(text)
        self.assertEqual(len(numbers), len(result.stream + result.comments))
        there = {int(words[1]): words[2:] for words in map(str.split, lines) if words[0] == 'place'}
        for number, event in zip(numbers, result.stream):
            self.assertEqual(number != 0, event.split()[0] in ('acquire', 'nested', 'try'), event)
        found = {tuple(there[number]) for number, event in zip(numbers, result.stream)
                 if re.match('(acquire|try) \\S+ &p->pi_lock@', event)}
        callers = set(re.findall(r' r=0 .* i=(\S+) &p->pi_lock\n', text))
        self.assertGreater(len(callers), 1)
        self.assertEqual(found, {(caller.partition('+')[0], caller) for caller in callers})

    def test_of_a_recording_without_names_of_functions(self):
        _, lines, _, _ = mapped(recording('plant-clean'))
        self.assertEqual({line.split()[2] for line in lines if line.startswith('place ')}, {'?'})


class Lines(unittest.TestCase):

    def test_are_of_the_recording(self):
        with file_with('') as name:
            result = run(line('other: x') + acquire('a', A) + acquire('b', B, columns='d....'), '--lines', name)
            with open(name) as file:
                self.assertEqual(file.read(), '1\n2\n3\n3\n')
        self.assertEqual(result.stream[2], 'disable t-1 hard')


if __name__ == '__main__':
    unittest.main()
