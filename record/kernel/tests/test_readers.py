"""How readers are told, by the table of docs/FORMAT.md: one test for each of its rows."""
import unittest
from unittest import mock

from texts import CONVERT, acquire, file_with, release, run, stock, stream
from test_planted import report

A, B, C, N = 0x1000, 0x2000, 0x3000, 0x4000  # addresses of locks
READER, RECURSIVE = 1, 2
# What the last lines of a text may be, so that a class has a class NAME!read: another task waits as a reader.
LATER = acquire('a', C, read=RECURSIVE, task='u-2') + release(C, task='u-2')
OF_LATER = ['try u-2 a@3000', 'release u-2 a@3000']


class Writers(unittest.TestCase):

    def split(self, *lines):
        """The stream of lines where a recursive reader waits for the class later."""
        whole = stream(*lines, LATER)
        self.assertEqual(whole[-2:], OF_LATER)
        return whole[:-2]

    def test_of_a_class_without_recursive_readers(self):
        self.assertEqual(stream(acquire('a', A), release(A)), ['acquire t-1 a@1000', 'release t-1 a@1000'])

    def test_one_that_waits_holds_both(self):
        self.assertEqual(self.split(acquire('a', A), release(A)), [
            'acquire t-1 a@1000', 'try t-1 a!read@1000', 'release t-1 a!read@1000', 'release t-1 a@1000'])

    def test_a_trylock_holds_both(self):
        self.assertEqual(self.split(acquire('a', A, trylock=1), release(A)), [
            'try t-1 a@1000', 'try t-1 a!read@1000', 'release t-1 a!read@1000', 'release t-1 a@1000'])

    def test_under_the_lock_that_orders_them(self):
        self.assertEqual(
            self.split(acquire('n', N), acquire('a', A, nest=N), acquire('a', B, nest=N)),
            ['acquire t-1 n@4000', 'acquire t-1 a@1000', 'try t-1 a!read@1000', 'try t-1 a@2000',
             'try t-1 a!read@2000'])

    def test_a_handler_leaves_both(self):
        self.assertEqual(self.split(acquire('a', A, columns='d.h..'), acquire('b', B)), [
            'enter t-1 hard', 'acquire t-1 a@1000', 'try t-1 a!read@1000', 'release t-1 a!read@1000',
            'release t-1 a@1000', 'exit t-1 hard', 'acquire t-1 b@2000'])

    def test_both_are_taken_back_and_given_again(self):
        both = ['acquire t-1 a@1000', 'try t-1 a!read@1000']
        self.assertEqual(
            self.split(acquire('a', A, before=0), acquire('b', B, before=0), release(B),
                       acquire('b', B, before=1)),
            [*both, 'release t-1 a!read@1000', 'release t-1 a@1000', 'acquire t-1 b@2000', 'release t-1 b@2000',
             *both, 'acquire t-1 b@2000'])

    def test_both_go_over_into_the_next_trace(self):
        many = ''.join(acquire(f'k{number}', B, key=0x100000 + number, task='v-3') + release(B, task='v-3')
                       for number in range(8190))
        whole = stream(acquire('a', A), many, release(A), LATER)
        self.assertEqual(whole[-6:], [
            'try t-1 a@1000', 'try t-1 a!read@1000', 'release t-1 a!read@1000', 'release t-1 a@1000', *OF_LATER])
        self.assertIn('trace kernel.2', whole)

    def test_two_of_the_96_that_a_task_may_hold(self):
        text = ''.join(acquire('a', A + 16 * number) for number in range(49)) + LATER
        converted = run(text)
        self.assertEqual(converted.stream[96], 'try t-1 a!read@12f0')  # the 48th
        self.assertEqual(converted.stream[97:], OF_LATER)
        self.assertIn('1 acquisitions by tasks that held 96 locks already were left out', converted.errors)
        self.assertIn(' refused 0 ', report(converted.stream)[1][0])

    def test_there_has_to_be_room_for_two(self):
        text = ''.join(acquire('b', B + 16 * number) for number in range(95)) + acquire('a', A) + LATER
        converted = run(text)
        self.assertEqual(converted.stream[96:], OF_LATER)
        self.assertIn('1 acquisitions by tasks that held 96 locks already were left out', converted.errors)
        self.assertIn(' refused 0 ', report(converted.stream)[1][0])


class Readers(unittest.TestCase):

    def test_one_that_waits_for_waiting_writers_is_as_a_writer(self):
        self.assertEqual(stream(acquire('a', A, read=READER), release(A)), ['acquire t-1 a@1000', 'release t-1 a@1000'])
        self.assertEqual(stream(acquire('a', A, read=READER), release(A), LATER)[:-2],
                         ['acquire t-1 a@1000', 'release t-1 a@1000'])
        self.assertEqual(stream(acquire('a', A, read=READER, columns='d.h..'), LATER)[:-2],
                         ['enter t-1 hard', 'acquire t-1 a@1000'])

    def test_a_trylock(self):
        for read in READER, RECURSIVE:
            with self.subTest(read=read):
                self.assertEqual(stream(acquire('a', A, read=read, trylock=1), release(A)),
                                 ['try t-1 a@1000', 'release t-1 a@1000'])
                self.assertEqual(stream(acquire('a', A, read=read, trylock=1), release(A), LATER)[:-2],
                                 ['try t-1 a@1000', 'release t-1 a@1000'])

    def test_a_recursive_one_with_nothing_held(self):
        self.assertEqual(stream(acquire('a', A, read=RECURSIVE), release(A)), ['try t-1 a@1000', 'release t-1 a@1000'])

    def test_a_recursive_one_that_waits_with_a_lock_held(self):
        self.assertEqual(
            stream(acquire('b', B), acquire('a', A, read=RECURSIVE), release(A)),
            ['acquire t-1 b@2000', 'disable t-1 hard', 'acquire t-1 a!read@1000', 'release t-1 a!read@1000',
             'enable t-1 hard', 'try t-1 a@1000', 'release t-1 a@1000'])

    def test_a_recursive_one_where_interrupts_are_disabled_already(self):
        self.assertEqual(
            stream(acquire('b', B, columns='d....'), acquire('a', A, read=RECURSIVE, columns='d....'))[2:],
            ['acquire t-1 a!read@1000', 'release t-1 a!read@1000', 'try t-1 a@1000'])

    def test_a_recursive_one_that_waits_in_a_handler(self):
        waits = ['acquire t-1 a!read@1000', 'release t-1 a!read@1000']
        self.assertEqual(stream(acquire('a', A, read=RECURSIVE, columns='d.h..')),
                         ['enter t-1 hard', *waits, 'try t-1 a@1000'])
        self.assertEqual(stream(acquire('a', A, read=RECURSIVE, columns='..s..')),
                         ['enter t-1 soft', 'disable t-1 hard', *waits, 'enable t-1 hard', 'try t-1 a@1000'])

    def test_a_recursive_one_of_what_its_task_reads_already(self):
        self.assertEqual(
            stream(acquire('a', A, read=RECURSIVE), acquire('a', A, read=RECURSIVE), release(A), release(A)),
            ['try t-1 a@1000', 'disable t-1 hard', 'acquire t-1 a!read@1000', 'release t-1 a!read@1000',
             'enable t-1 hard', 'try t-1 a@1000', 'release t-1 a@1000', 'release t-1 a@1000'])

    def test_a_recursive_one_under_the_lock_that_orders_them(self):
        self.assertEqual(
            stream(acquire('n', N), acquire('a', A, read=RECURSIVE, nest=N),
                   acquire('a', B, read=RECURSIVE, nest=N))[5:],
            ['try t-1 a@1000', 'try t-1 a@2000'])

    def test_a_recursive_one_that_is_given_again_waits_again(self):
        self.assertEqual(
            stream(acquire('n', N, before=0), acquire('a', A, before=1, read=RECURSIVE), acquire('b', B, before=1),
                   release(B), acquire('c', C, before=2))[6:],
            ['release t-1 a@1000', 'acquire t-1 b@2000', 'release t-1 b@2000', 'disable t-1 hard',
             'acquire t-1 a!read@1000', 'release t-1 a!read@1000', 'enable t-1 hard', 'try t-1 a@1000',
             'acquire t-1 c@3000'])

    def test_they_are_counted(self):
        self.assertIn('1 acquisitions by readers, 2 more by recursive readers; 1 classes have a class NAME!read',
                      run(acquire('b', B, read=READER) + acquire('a', A, read=RECURSIVE) + LATER).errors)


class LeftOut(unittest.TestCase):

    def test_what_lockdep_does_not_check(self):
        converted = run(acquire('rcu_read_lock', A, read=RECURSIVE, check=0) + acquire('b', B) + release(A))
        self.assertEqual(converted.stream[1:], ['acquire t-1 b@2000'])
        self.assertIn('left out: 0 acquisitions by readers, 1 unchecked, and 1 releases of these', converted.errors)

    def test_all_readers_if_that_is_asked_for(self):
        text = (acquire('a', A) + acquire('b', B, read=READER) + acquire('a', C, read=RECURSIVE) + release(C)
                + release(B))
        converted = run(text, '--no-readers')
        self.assertEqual(converted.stream[1:], ['acquire t-1 a@1000'])
        self.assertIn('left out: 2 acquisitions by readers (--no-readers), 0 unchecked, and 2 releases of these',
                      converted.errors)

    def test_those_of_events_that_do_not_tell_their_kind(self):
        converted = run(stock('acquire', A, 'a') + stock('acquire', B, 'b', 'read ') + stock('release', B, 'b')
                        + stock('acquire', C, 'b', 'try read '))
        self.assertEqual(converted.stream[1:], ['acquire t-1 a@1000'])
        self.assertIn('left out: 2 acquisitions by readers, whose kind these events do not tell, 0 unchecked',
                      converted.errors)


class FirstLook(unittest.TestCase):
    """Which classes recursive readers wait for has to be known before the first line is written."""

    TEXT = acquire('a', A, cpu=1) + acquire('b', B) + acquire('a', C, read=RECURSIVE)

    def test_no_further_than_the_stream_goes(self):
        with file_with('cpu1\ndropped events: 1\n') as name:
            self.assertEqual(run(self.TEXT, '--stats', name).stream, ['trace kernel', 'acquire t-1 a@1000'])
        with file_with('cpu0\ndropped events: 1\n') as name:
            self.assertEqual(run(self.TEXT, '--stats', name).stream[:3],
                             ['trace kernel', 'acquire t-1 a@1000', 'try t-1 a!read@1000'])

    def test_in_blocks_of_any_size(self):
        whole = run(self.TEXT).stream
        for size in 1, 50, 130, 131, 200:
            with mock.patch.object(CONVERT, 'BLOCK', size):
                self.assertEqual(run(self.TEXT).stream, whole)


class Names(unittest.TestCase):

    def test_a_subclass_that_recursive_readers_wait_for_is_a_class_by_its_name(self):
        self.assertEqual(
            stream(acquire('a', A, key=0x501, subclass=1), release(A), acquire('a', A, key=0x500), release(A),
                   acquire('b', B), acquire('a', A, key=0x501, subclass=1, read=RECURSIVE)),
            ['acquire t-1 a!1@1000', 'try t-1 a!1!read@1000', 'release t-1 a!1!read@1000', 'release t-1 a!1@1000',
             'acquire t-1 a@1000', 'release t-1 a@1000', 'acquire t-1 b@2000', 'disable t-1 hard',
             'acquire t-1 a!1!read@1000', 'release t-1 a!1!read@1000', 'enable t-1 hard', 'try t-1 a!1@1000'])

    def test_a_subclass_without_recursive_readers_stays_one(self):
        self.assertEqual(
            stream(acquire('a', A, key=0x500, read=RECURSIVE), release(A), acquire('a', A, key=0x501, subclass=1)),
            ['try t-1 a@1000', 'release t-1 a@1000', 'nested t-1 a@1000 1'])

    def test_a_static_lock_that_has_no_key_yet(self):
        self.assertEqual(
            stream(acquire('a', A, key=A), release(A), acquire('a', A, key=0, read=RECURSIVE))[:2],
            ['acquire t-1 a@1000', 'try t-1 a!read@1000'])

    def test_a_name_that_would_be_too_long(self):
        lines = stream(acquire('b', B), acquire('n' * 60, A, read=RECURSIVE))
        self.assertRegex(lines[2], '^acquire t-1 n{55}~[0-9a-f]{8}@1000$')
        self.assertEqual(lines[-1], 'try t-1 %s@1000' % ('n' * 60))


if __name__ == '__main__':
    unittest.main()
