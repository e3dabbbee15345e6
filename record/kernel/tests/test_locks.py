"""Which acquisitions and releases a stream has, and under which names."""
import unittest

from texts import HEADER, acquire, line, release, run, stock, stream

A, B, C, N = 0x1000, 0x2000, 0x3000, 0x4000  # addresses of locks


class Kept(unittest.TestCase):

    def test_exclusive_acquisition_and_its_release(self):
        self.assertEqual(stream(acquire('a', A), release(A)), ['acquire t-1 a@1000', 'release t-1 a@1000'])

    def test_the_first_line_is_the_header_of_the_trace(self):
        self.assertEqual(run(acquire('a', A)).stream[0], 'trace kernel')
        self.assertEqual(run(acquire('a', A), '--label', 'run-7').stream[0], 'trace run-7')

    def test_unchecked_acquisitions_and_their_releases_are_left_out(self):
        result = run(acquire('a', A, check=0) + acquire('b', B) + release(A))
        self.assertEqual(result.stream[1:], ['acquire t-1 b@2000'])
        self.assertIn('0 acquisitions by readers, 1 unchecked, and 1 releases of these', result.errors)

    def test_trylock_is_a_try(self):
        self.assertEqual(stream(acquire('a', A, trylock=1)), ['try t-1 a@1000'])

    def test_acquisition_that_fails_is_an_acquire_and_a_release(self):
        self.assertEqual(stream(acquire('a', A), acquire('b', B), release(B), release(A)),
                         ['acquire t-1 a@1000', 'acquire t-1 b@2000', 'release t-1 b@2000', 'release t-1 a@1000'])

    def test_stock_events(self):
        self.assertEqual(
            stream(stock('acquire', A, 'a'), stock('acquire', B, 'b', 'try '), stock('acquire', C, 'c', 'read '),
                   stock('acquire', N, 'c', 'try read '), stock('release', N, 'c'), stock('release', C, 'c'),
                   stock('release', B, 'b'), stock('release', A, 'a')),
            ['acquire t-1 a@1000', 'try t-1 b@2000', 'release t-1 b@2000', 'release t-1 a@1000'])


class Nested(unittest.TestCase):
    """A lock named by nest_lock orders the locks of a class that are held together."""

    def outcome(self, *lines):
        return stream(*lines, acquire('a', B, nest=N))[-1]

    def test_nest_lock_held_and_one_of_the_class_held(self):
        self.assertEqual(self.outcome(acquire('n', N), acquire('a', A)), 'try t-1 a@2000')

    def test_nest_lock_held_by_a_reader(self):
        self.assertEqual(self.outcome(acquire('n', N, read=1), acquire('a', A)), 'try t-1 a@2000')

    def test_nest_lock_held_and_none_of_the_class(self):
        self.assertEqual(self.outcome(acquire('n', N)), 'acquire t-1 a@2000')

    def test_nest_lock_not_held(self):
        self.assertEqual(self.outcome(acquire('a', A)), 'acquire t-1 a@2000')
        self.assertEqual(self.outcome(acquire('n', N), acquire('a', A), release(N)), 'acquire t-1 a@2000')


class Unchecked(unittest.TestCase):
    """The kernel's own events don't tell which locks lockdep doesn't check: a name of them is an option."""

    def test_locks_of_the_names_are_left_out(self):
        result = run(
            stock('acquire', A, '&dev->mutex') + stock('acquire', B, 'b') + stock('acquire', C, 'c')
            + stock('release', B, 'b') + stock('release', A, '&dev->mutex') + stock('release', C, 'c'),
            '--unchecked', '&dev->mutex', '--unchecked', 'c')
        self.assertEqual(result.stream[1:], ['acquire t-1 b@2000', 'release t-1 b@2000'])
        self.assertIn('0 acquisitions by readers, 2 unchecked, and 2 releases of these', result.errors)

    def test_the_events_of_the_module_tell_it_themselves(self):
        result = run(acquire('a', A), '--unchecked', 'a')
        self.assertEqual(result.stream[1:], ['acquire t-1 a@1000'])
        self.assertIn('--unchecked has no effect', result.errors)


class TakenUp(unittest.TestCase):
    """An event tells of an acquisition before lockdep takes it up; `before` says how many locks lockdep has."""

    def test_a_lock_that_lockdep_has_is_held(self):
        self.assertEqual(
            stream(acquire('a', A, before=0), acquire('b', B, before=1), acquire('c', C, before=2)),
            ['acquire t-1 a@1000', 'acquire t-1 b@2000', 'acquire t-1 c@3000'])

    def test_a_task_that_is_preempted_does_not_hold_the_lock_until_lockdep_has_it(self):
        # The scheduler's own lock b, with c under it, and b again; then the task goes on, and holds a under d.
        result = run(
            acquire('n', N, before=0) + acquire('a', A, before=1) + acquire('b', B, before=1)
            + acquire('c', C, before=2) + release(C) + release(B) + acquire('b', B, before=1) + release(B)
            + acquire('c', C, before=2))
        self.assertEqual(result.stream[1:], [
            'acquire t-1 n@4000', 'acquire t-1 a@1000', 'release t-1 a@1000', 'acquire t-1 b@2000',
            'acquire t-1 c@3000', 'release t-1 c@3000', 'release t-1 b@2000', 'acquire t-1 b@2000',
            'release t-1 b@2000', 'acquire t-1 a@1000', 'acquire t-1 c@3000'])
        self.assertIn('1 locks were acquired for lockdep only after their task had been preempted', result.errors)

    def test_it_is_acquired_as_it_was(self):
        for words, written in (({'trylock': 1}, 'try t-1 a@1000'), ({'subclass': 2}, 'nested t-1 a@1000 2')):
            with self.subTest(written=written):
                self.assertEqual(
                    stream(acquire('a', A, before=0, **words), acquire('b', B, before=0), release(B),
                           acquire('b', B, before=1)),
                    [written, 'release t-1 a@1000', 'acquire t-1 b@2000', 'release t-1 b@2000', written,
                     'acquire t-1 b@2000'])

    def test_it_is_released_without_another_acquisition(self):
        result = run(acquire('a', A, before=0) + acquire('b', B, before=0) + release(B) + release(A)
                     + acquire('c', C, before=0))
        self.assertEqual(result.stream[1:], [
            'acquire t-1 a@1000', 'release t-1 a@1000', 'acquire t-1 b@2000', 'release t-1 b@2000',
            'acquire t-1 c@3000'])
        self.assertIn('and 0 releases of these', result.errors)

    def test_a_handler_in_between_is_of_no_account(self):
        inside = {'columns': 'd.h..'}
        self.assertEqual(
            stream(acquire('a', A, before=0), acquire('b', B, before=0, **inside), release(B, **inside),
                   acquire('c', C, before=1)),
            ['acquire t-1 a@1000', 'enter t-1 hard', 'acquire t-1 b@2000', 'release t-1 b@2000', 'exit t-1 hard',
             'acquire t-1 c@3000'])

    def test_a_lock_that_a_handler_left_held_stays_released(self):
        self.assertEqual(
            stream(acquire('a', A, before=0, columns='d.h..'), acquire('b', B, before=0), release(B),
                   acquire('c', C, before=1)),
            ['enter t-1 hard', 'acquire t-1 a@1000', 'release t-1 a@1000', 'exit t-1 hard', 'acquire t-1 b@2000',
             'release t-1 b@2000', 'acquire t-1 c@3000'])

    def test_a_lock_below_it_that_was_released_first(self):
        held = ['acquire t-1 a@1000', 'acquire t-1 b@2000', 'release t-1 a@1000', 'acquire t-1 c@3000']
        self.assertEqual(
            stream(acquire('a', A, before=0), acquire('b', B, before=1), release(A), acquire('c', C, before=1)), held)
        self.assertEqual(
            stream(acquire('a', A, before=0), acquire('b', B, before=1), release(A), acquire('c', C, before=0)),
            [*held[:2], 'release t-1 b@2000', *held[2:]])

    def test_a_lock_from_before_the_recording_that_is_released(self):
        self.assertEqual(
            stream(acquire('a', A, before=1), release(B), acquire('c', C, before=1)),
            ['acquire t-1 a@1000', 'acquire t-1 c@3000'])

    def test_locks_of_a_class_under_the_one_that_orders_them_are_one_of_lockdep(self):
        self.assertEqual(
            stream(acquire('n', N, before=0), acquire('a', A, before=1, nest=N), acquire('a', B, before=2, nest=N),
                   acquire('c', C, before=2)),
            ['acquire t-1 n@4000', 'acquire t-1 a@1000', 'try t-1 a@2000', 'acquire t-1 c@3000'])

    def test_where_lockdep_has_stopped_it_tells_nothing(self):
        self.assertEqual(stream(acquire('a', A, before=255), acquire('b', B, before=255)),
                         ['acquire t-1 a@1000', 'acquire t-1 b@2000'])
        # It is held again as soon as nothing is known of it.
        self.assertEqual(
            stream(acquire('a', A, before=0), acquire('b', B, before=0), release(B), acquire('c', C, before=255)),
            ['acquire t-1 a@1000', 'release t-1 a@1000', 'acquire t-1 b@2000', 'release t-1 b@2000',
             'acquire t-1 a@1000', 'acquire t-1 c@3000'])


class Releases(unittest.TestCase):

    def test_closes_the_latest_acquisition_of_the_address(self):
        self.assertEqual(
            stream(acquire('a', A, key=0x500), acquire('a', A, key=0x501, subclass=1), release(A), release(A)),
            ['acquire t-1 a@1000', 'nested t-1 a@1000 1', 'release t-1 a@1000', 'release t-1 a@1000'])

    def test_closes_a_reader_where_that_came_last(self):
        self.assertEqual(stream(acquire('a', A), acquire('a', A, read=1, trylock=1), release(A), acquire('b', B)),
                         ['acquire t-1 a@1000', 'try t-1 a@1000', 'release t-1 a@1000', 'acquire t-1 b@2000'])

    def test_goes_by_the_class_of_the_acquisition(self):
        # A static lock's first acquisition shows no key, and the later ones the lock's address.
        self.assertEqual(
            stream(acquire('a', A, key=0), release(A), acquire('a', A, key=A), release(A)),
            ['acquire t-1 a@1000', 'release t-1 a@1000', 'acquire t-1 a@1000', 'release t-1 a@1000'])
        self.assertEqual(stream(stock('acquire', A, 'old'), stock('release', A, 'new')),
                         ['acquire t-1 old@1000', 'release t-1 old@1000'])

    def test_in_any_order(self):
        self.assertEqual(stream(acquire('a', A), acquire('b', B), release(A), release(B))[2:],
                         ['release t-1 a@1000', 'release t-1 b@2000'])

    def test_never_seen_acquired(self):
        result = run(release(A) + acquire('a', A, task='u-2') + release(A) + release(A, task='u-2'))
        self.assertEqual(result.stream[1:], ['acquire u-2 a@1000', 'release u-2 a@1000'])
        self.assertIn('dropped: 2 releases that were never seen acquired', result.errors)


class Subclasses(unittest.TestCase):
    """The key of a subclass is the key of the class and the number of the subclass."""

    def test_are_nested(self):
        for number in range(1, 8):
            with self.subTest(number=number):
                self.assertEqual(stream(acquire('a', A, key=0x500 + number, subclass=number), release(A)),
                                 ['nested t-1 a@1000 %d' % number, 'release t-1 a@1000'])

    def test_have_the_name_of_their_class(self):
        self.assertEqual(
            stream(acquire('a', A, key=0x500), acquire('a', B, key=0x601, subclass=1),
                   acquire('a', C, key=0x501, subclass=1), acquire('a', N, key=0x600)),
            ['acquire t-1 a@1000', 'nested t-1 a#2@2000 1', 'nested t-1 a@3000 1', 'acquire t-1 a#2@4000'])
        self.assertEqual(stream(acquire('n' * 64, A, key=0x501, subclass=1)), ['nested t-1 %s@1000 1' % ('n' * 64)])

    def test_of_a_static_lock_that_has_no_key_yet(self):
        self.assertEqual(
            stream(acquire('a', A, key=0, subclass=1), release(A), acquire('a', A, key=A + 1, subclass=1), release(A),
                   acquire('a', A, key=A))[::2],
            ['nested t-1 a@1000 1', 'nested t-1 a@1000 1', 'acquire t-1 a@1000'])

    def test_unchecked_ones_are_left_out(self):
        self.assertEqual(
            stream(acquire('a', B, key=0x501, subclass=1, check=0), acquire('b', C)), ['acquire t-1 b@3000'])

    def test_no_verb_says_a_trylock_of_one(self):
        result = run(acquire('a', A, key=0x501, subclass=1, trylock=1) + release(A)
                     + acquire('a', B, key=0x501, subclass=1))
        self.assertEqual(result.stream[1:], ['try t-1 a!1@1000', 'release t-1 a!1@1000', 'nested t-1 a@2000 1'])
        self.assertIn('1 trylocks of a subclass: a class NAME!N of its own', result.errors)

    def test_under_a_lock_that_orders_them(self):
        self.assertEqual(
            stream(acquire('n', N), acquire('a', A, key=0x501, subclass=1, nest=N),
                   acquire('a', B, key=0x501, subclass=1, nest=N))[1:], ['nested t-1 a@1000 1', 'try t-1 a!1@2000'])

    def test_lockdep_has_none_above_7(self):
        self.assertEqual(stream(acquire('a', A, key=0x508, subclass=8)), ['acquire t-1 a!8@1000'])


class SplitRecursion(unittest.TestCase):

    def split(self, *lines):
        return stream(*lines, words=('--split-recursion',))

    def test_another_instance_of_the_class_gets_a_class_by_its_level(self):
        self.assertEqual(
            self.split(stock('acquire', A, 'a'), stock('acquire', B, 'a'), stock('acquire', C, 'a', 'try '),
                       stock('release', B, 'a')),
            ['acquire t-1 a@1000', 'acquire t-1 a!1@2000', 'try t-1 a!2@3000', 'release t-1 a!1@2000'])

    def test_a_level_is_above_every_one_that_is_held(self):
        self.assertEqual(
            self.split(stock('acquire', A, 'a'), stock('acquire', B, 'a'), stock('release', A, 'a'),
                       stock('acquire', C, 'a'))[-1], 'acquire t-1 a!2@3000')

    def test_the_same_instance_stays_a_recursion(self):
        self.assertEqual(self.split(stock('acquire', A, 'a'), stock('acquire', A, 'a'))[-1], 'acquire t-1 a@1000')

    def test_other_classes_and_other_handlers_stay(self):
        self.assertEqual(
            self.split(stock('acquire', A, 'a'), stock('acquire', B, 'b'), stock('acquire', C, 'a', columns='d.h..')),
            ['acquire t-1 a@1000', 'acquire t-1 b@2000', 'enter t-1 hard', 'acquire t-1 a@3000'])

    def test_it_says_what_it_hides(self):
        text = stock('acquire', A, 'a') + stock('acquire', B, 'a')
        self.assertIn('1 acquisitions under another lock of their class became a class of their own; a real recursion '
                      'between two locks of one class is hidden', run(text, '--split-recursion').errors)

    def test_without_it_the_classes_are_the_names(self):
        result = run(stock('acquire', A, 'a') + stock('acquire', B, 'a'))
        self.assertEqual(result.stream[1:], ['acquire t-1 a@1000', 'acquire t-1 a@2000'])
        self.assertIn('locks of one name count as one class', result.errors)

    def test_it_leaves_the_events_of_the_module_alone(self):
        result = run(acquire('a', A) + acquire('a', B), '--split-recursion')
        self.assertEqual(result.stream[1:], ['acquire t-1 a@1000', 'acquire t-1 a@2000'])
        self.assertIn('--split-recursion has no effect', result.errors)


class OtherLines(unittest.TestCase):

    def test_other_events_are_counted(self):
        result = run(HEADER + line('sched_waking: comm=x pid=1') + acquire('a', A)
                     + line('tracing_mark_write: ' + 'a: b') + line('<stack trace>') + ' => schedule\n')
        self.assertEqual(result.stream[1:], ['acquire t-1 a@1000'])
        self.assertIn('3 other events', result.errors)

    def test_column_of_the_thread_group(self):
        text = acquire('a', A).replace(' [000]', ' (     12) [000]')
        self.assertEqual(stream(text), ['acquire t-1 a@1000'])

    def test_a_header_that_tells_of_more_events(self):
        self.assertIn("header tells of 2 events, and 1 were read", run(HEADER + acquire('a', A)).errors)


if __name__ == '__main__':
    unittest.main()
