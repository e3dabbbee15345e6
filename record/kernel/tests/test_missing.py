"""Releases that are missing, and what tasks hold and wait for where the recording ends."""
import unittest
from unittest import mock

from texts import CONVERT, acquire, file_with, irq, line, release, run, stock, stream

A, B, C, D = 0x1000, 0x2000, 0x3000, 0x4000  # addresses of locks
MISSING = '%d releases are missing, by the number of locks that lockdep has'


class MissingReleases(unittest.TestCase):
    """`before` is how many locks lockdep has: fewer than are held, where a release is missing."""

    def test_the_lock_is_not_held_any_more(self):
        self.assertEqual(
            stream(acquire('a', A, before=0), acquire('b', B, before=0), release(B), acquire('c', C, before=0)),
            ['acquire t-1 a@1000', 'release t-1 a@1000', 'acquire t-1 b@2000', 'release t-1 b@2000',
             'acquire t-1 c@3000'])

    def test_it_is_released_where_it_was_last_known_to_be_held(self):
        # Else it would seem to be held while interrupts are enabled.
        disabled = {'columns': 'd....'}
        text = (acquire('a', A, before=0, **disabled) + acquire('b', B, before=1, **disabled)
                + release(B, **disabled) + irq('irq_enable', **disabled) + acquire('c', C, before=0))
        with file_with('') as name:
            converted = run(text, '--lines', name)
            with open(name) as file:
                lines = file.read().split()
        self.assertEqual(converted.stream[1:], [
            'begin t-1 off on', 'acquire t-1 a@1000', 'acquire t-1 b@2000', 'release t-1 a@1000',
            'release t-1 b@2000', 'enable t-1 hard', 'acquire t-1 c@3000'])
        self.assertEqual(lines, ['1', '1', '1', '2', '2', '3', '4', '5'])

    def test_it_is_released_later_if_those_lines_are_written_already(self):
        text = acquire('a', A, before=0) + acquire('b', B, before=1) + release(B) + acquire('c', C, before=0)
        with mock.patch.object(CONVERT, 'LINES_AT_ONCE', 1):
            self.assertEqual(run(text).stream[1:], [
                'acquire t-1 a@1000', 'acquire t-1 b@2000', 'release t-1 b@2000', 'release t-1 a@1000',
                'acquire t-1 c@3000'])

    def test_a_handler_in_between_is_no_place_for_it(self):
        inside = {'columns': 'd.h..'}
        self.assertEqual(
            stream(acquire('a', A, before=0), acquire('b', B, before=1, **inside), release(B, **inside),
                   acquire('c', C, before=0)),
            ['acquire t-1 a@1000', 'release t-1 a@1000', 'enter t-1 hard', 'acquire t-1 b@2000',
             'release t-1 b@2000', 'exit t-1 hard', 'acquire t-1 c@3000'])

    def test_what_went_over_into_another_trace_is_released_there(self):
        text = (acquire('a', A, before=0) + acquire('b', B, before=1) + release(B) + acquire('c', C, before=0))
        self.assertEqual(run(text, '--cut', '2').stream, [
            'trace kernel', 'acquire t-1 a@1000', 'trace kernel.2', 'try t-1 a@1000', 'acquire t-1 b@2000',
            'release t-1 a@1000', 'release t-1 b@2000', 'trace kernel.3', 'acquire t-1 c@3000'])
        text = (acquire('a', A, before=0, columns='d....') + acquire('b', B, columns='d.h..')
                + release(B, columns='d.h..') + acquire('c', C, before=0, columns='d....'))
        self.assertEqual(run(text, '--cut', '3').stream[3:7], [
            'trace kernel.2', 'begin t-1 off on', 'try t-1 a@1000', 'release t-1 a@1000'])

    def test_where_it_is_not_known_which_locks_are_below(self):
        # The release of d was never seen acquired, so it may have been below a.
        text = acquire('a', A, before=0) + acquire('b', B, before=0) + release(B) + release(D)
        self.assertEqual(
            run(text + acquire('c', C, before=1) + release(C) + acquire('c', C, before=0)).stream[4:],
            ['release t-1 b@2000', 'acquire t-1 a@1000', 'acquire t-1 c@3000', 'release t-1 c@3000',
             'acquire t-1 c@3000'])

    def test_a_writer_releases_both_of_its_locks_there(self):
        self.assertEqual(
            stream(acquire('a', A, before=0), line('other: x'), acquire('b', B, before=0),
                   acquire('a', A, read=2, task='u-2'))[:5],
            ['acquire t-1 a@1000', 'try t-1 a!read@1000', 'release t-1 a!read@1000', 'release t-1 a@1000',
             'acquire t-1 b@2000'])

    def test_several_are_released_and_those_that_lockdep_misses_twice_are_counted(self):
        result = run(acquire('a', A, before=0) + acquire('b', B, before=1) + acquire('c', C, before=0) + release(C)
                     + acquire('d', D, before=0))
        self.assertEqual(result.stream[1:], [
            'acquire t-1 a@1000', 'acquire t-1 b@2000', 'release t-1 a@1000', 'release t-1 b@2000',
            'acquire t-1 c@3000', 'release t-1 c@3000', 'acquire t-1 d@4000'])
        self.assertIn(MISSING % 1, result.errors)

    def test_once_is_not_enough(self):
        result = run(acquire('a', A, before=0) + acquire('b', B, before=1) + acquire('c', C, before=0) + release(C)
                     + acquire('d', D, before=2))
        self.assertEqual(result.stream[-3:], ['acquire t-1 a@1000', 'acquire t-1 b@2000', 'acquire t-1 d@4000'])
        self.assertNotIn('releases are missing', result.errors)

    def test_it_does_not_come_back_once_one_below_it_is_released(self):
        result = run(acquire('a', A, before=0) + acquire('b', B, before=1) + acquire('c', C, before=1) + release(C)
                     + release(A) + acquire('d', D, before=1))
        self.assertEqual(result.stream[-2:], ['release t-1 a@1000', 'acquire t-1 d@4000'])
        self.assertIn(MISSING % 1, result.errors)

    def test_it_does_not_come_back_once_its_task_acquires_it_again(self):
        result = run(acquire('a', A, before=0) + acquire('b', B, before=0) + release(B) + acquire('a', A, before=0)
                     + release(A) + acquire('d', D, before=1))
        self.assertEqual(result.stream[-3:], ['acquire t-1 a@1000', 'release t-1 a@1000', 'acquire t-1 d@4000'])
        self.assertIn(MISSING % 1, result.errors)

    def test_of_a_lock_of_the_scheduler_over_one_that_lockdep_had_not_taken_up(self):
        # The task was preempted at the event of a; the release of b is missing.
        self.assertEqual(
            stream(acquire('a', A, before=0), acquire('b', B, before=0), release(A), acquire('c', C, before=0)),
            ['acquire t-1 a@1000', 'release t-1 a@1000', 'acquire t-1 b@2000', 'release t-1 b@2000',
             'acquire t-1 c@3000'])

    def test_handlers_tell_nothing_of_it(self):
        self.assertEqual(
            stream(acquire('a', A, before=0), acquire('b', B, before=0, columns='d.h..'))[:2],
            ['acquire t-1 a@1000', 'enter t-1 hard'])


class HeldLong(unittest.TestCase):

    SAYS = ('t-1 held a@1000 from 5.000000 to its last event at 9.000000, longer than the rest of its recording: '
            'a release may be missing')

    def test_a_lock_that_is_held_longer_than_the_rest(self):
        result = run(acquire('b', B, time=2) + release(B, time=3) + acquire('a', A, time=5) + line('x: y', time=9))
        self.assertIn(self.SAYS, result.errors)
        result = run(stock('acquire', B, 'b', time=2) + stock('acquire', A, 'a', time=5)
                     + stock('release', B, 'b', time=9))
        self.assertIn(self.SAYS, result.errors)

    def test_one_that_is_held_no_longer_than_that(self):
        result = run(acquire('b', B, time=1) + release(B, time=3) + acquire('a', A, time=5) + line('x: y', time=9))
        self.assertNotIn('longer than the rest', result.errors)

    def test_one_that_is_the_last_event_of_its_task(self):
        result = run(acquire('a', A, time=5) + line('x: y', time=9, task='u-2'))
        self.assertNotIn('longer than the rest', result.errors)

    def test_one_that_is_left_out(self):
        result = run(acquire('b', B, time=4) + release(B, time=4) + acquire('a', A, check=0, time=5)
                     + line('x: y', time=9))
        self.assertNotIn('longer than the rest', result.errors)

    def test_no_more_than_twenty_are_told(self):
        text = ''.join(acquire('k%d' % number, A + 16 * number, time=number) for number in range(40))
        errors = run(text + line('x: y', time=100)).errors
        self.assertEqual(errors.count('longer than the rest'), 20)
        self.assertIn('20 more locks were held so long', errors)


class Waiting(unittest.TestCase):

    SAYS = 'the recording ended while t-1 waited for b@2000, held by u-2 since 1.000000'

    def ends(self, *lines):
        return run(''.join(lines)).errors

    def held(self, **words):
        return acquire('b', B, task='u-2', time=1, **words)

    def test_a_task_that_waits_for_another_one(self):
        text = self.held(), acquire('a', A, time=2), acquire('b', B, time=3)
        self.assertIn(self.SAYS, self.ends(*text))
        # Its acquisition is in the stream.
        self.assertEqual(run(''.join(text)).stream[-1], 'acquire t-1 b@2000')

    def test_two_tasks_that_wait_for_each_other(self):
        errors = self.ends(self.held(), acquire('a', A, time=2), acquire('b', B, time=3),
                           acquire('a', A, task='u-2', time=4))
        self.assertIn(self.SAYS, errors)
        self.assertIn('while u-2 waited for a@1000, held by t-1 since 2.000000', errors)

    def test_readers_and_writers(self):
        for kinds, waits in (((0, 1), True), ((1, 0), True), ((2, 0), True), ((0, 2), True), ((1, 1), False),
                             ((1, 2), False), ((2, 2), False)):
            with self.subTest(kinds=kinds):
                errors = self.ends(self.held(read=kinds[0]), acquire('b', B, read=kinds[1], time=3))
                self.assertEqual(self.SAYS in errors, waits)

    def test_the_scheduler_s_locks_in_between(self):
        errors = self.ends(self.held(), acquire('b', B, time=3), acquire('rq', C, time=4), release(C, time=4))
        self.assertIn(self.SAYS, errors)

    def test_who_waits_no_more(self):
        self.assertNotIn('waited', self.ends(self.held(), acquire('b', B, time=3), release(B, task='u-2', time=4)))
        self.assertNotIn('waited', self.ends(self.held(), acquire('b', B, time=3), acquire('c', C, time=4)))
        self.assertNotIn('waited', self.ends(self.held(), acquire('b', B, trylock=1, time=3)))

    def test_the_kernel_s_own_events(self):
        errors = self.ends(stock('acquire', B, 'b', task='u-2', time=1), stock('acquire', B, 'b', time=2))
        self.assertIn(self.SAYS, errors)


if __name__ == '__main__':
    unittest.main()
