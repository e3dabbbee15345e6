"""Handlers, flags and the limits of a trace."""
import unittest

from texts import acquire, file_with, irq, line, release, run, stream

A, B, C = 0x1000, 0x2000, 0x3000  # addresses of locks


class Handlers(unittest.TestCase):

    def at(self, columns):
        """What a task's first acquisition writes under these columns."""
        return stream(acquire('a', A, columns=columns))[:-1]

    def test_none(self):
        self.assertEqual(self.at('.....'), [])
        self.assertEqual(self.at('.n.2f'), [])

    def test_soft(self):
        self.assertEqual(self.at('..s..'), ['enter t-1 soft'])

    def test_hard(self):
        self.assertEqual(self.at('d.h1.'), ['enter t-1 hard'])

    def test_hard_over_soft(self):
        self.assertEqual(self.at('d.H..'), ['enter t-1 soft', 'enter t-1 hard'])

    def test_ends_before_the_next_event(self):
        self.assertEqual(
            stream(acquire('a', A, columns='d.H..'), release(A, columns='d.H..'), acquire('b', B)),
            ['enter t-1 soft', 'enter t-1 hard', 'acquire t-1 a@1000', 'release t-1 a@1000',
             'exit t-1 hard', 'exit t-1 soft', 'acquire t-1 b@2000'])

    def test_hard_after_soft(self):
        self.assertEqual(stream(acquire('a', A, columns='..s..'), release(A, columns='..s..'),
                                acquire('b', B, columns='d.h..'))[3:],
                         ['exit t-1 soft', 'enter t-1 hard', 'acquire t-1 b@2000'])

    def test_soft_over_hard_is_hard_over_soft(self):
        self.assertEqual(stream(acquire('a', A, columns='d.h..'), release(A, columns='d.h..'),
                                acquire('b', B, columns='d.H..'))[3:],
                         ['exit t-1 hard', 'enter t-1 soft', 'enter t-1 hard', 'acquire t-1 b@2000'])

    def test_each_task_has_its_own(self):
        self.assertEqual(stream(acquire('a', A, columns='d.h..'), acquire('b', B, task='u-2')),
                         ['enter t-1 hard', 'acquire t-1 a@1000', 'acquire u-2 b@2000'])

    def test_nmi_is_dropped_and_counted(self):
        for columns in ('d.z..', 'd.Z..'):
            with self.subTest(columns=columns):
                result = run(acquire('a', A) + acquire('b', B, columns=columns) + release(B, columns=columns)
                             + release(A))
                self.assertEqual(result.stream[1:], ['acquire t-1 a@1000', 'release t-1 a@1000'])
                self.assertIn('2 events in NMI context', result.errors)

    def test_a_lock_that_a_handler_leaves_held_is_released_at_its_end(self):
        result = run(acquire('a', A, columns='d.h..') + acquire('b', B) + release(A))
        self.assertEqual(result.stream[1:], ['enter t-1 hard', 'acquire t-1 a@1000', 'release t-1 a@1000',
                                             'exit t-1 hard', 'acquire t-1 b@2000'])
        self.assertIn('1 locks were still held where a handler ended', result.errors)
        self.assertIn('dropped: 0 releases', result.errors)

    def test_a_release_in_a_handler_over_the_one_that_acquired_ends_the_handler(self):
        self.assertEqual(
            stream(acquire('a', A), acquire('b', B, columns='d.h..'), release(B, columns='d.h..'),
                   release(A, columns='d.h..'), acquire('b', B, columns='d.h..')),
            ['acquire t-1 a@1000', 'enter t-1 hard', 'acquire t-1 b@2000', 'release t-1 b@2000', 'exit t-1 hard',
             'release t-1 a@1000', 'enter t-1 hard', 'acquire t-1 b@2000'])


class Flags(unittest.TestCase):

    def test_are_written_before_the_event(self):
        self.assertEqual(stream(acquire('a', A), acquire('b', B, columns='d....'))[1:],
                         ['disable t-1 hard', 'acquire t-1 b@2000'])
        self.assertEqual(stream(acquire('a', A), acquire('b', B, columns='b....'))[1:],
                         ['disable t-1 soft', 'acquire t-1 b@2000'])
        self.assertEqual(stream(acquire('a', A), acquire('b', B, columns='D....'))[1:],
                         ['disable t-1 hard', 'disable t-1 soft', 'acquire t-1 b@2000'])

    def test_a_task_starts_with_those_that_it_has(self):
        for columns, words in (('d....', 'off on'), ('b....', 'on off'), ('D....', 'off off')):
            with self.subTest(columns=columns):
                self.assertEqual(stream(acquire('a', A, columns=columns)),
                                 ['begin t-1 ' + words, 'acquire t-1 a@1000'])
        self.assertEqual(stream(acquire('a', A, columns='.....')), ['acquire t-1 a@1000'])

    def test_each_task_starts_by_itself(self):
        self.assertEqual(
            stream(acquire('a', A), acquire('b', B, task='u-2', columns='d....')),
            ['acquire t-1 a@1000', 'begin u-2 off on', 'acquire u-2 b@2000'])

    def test_in_a_handler_a_task_starts_with_both_on(self):
        # What the flags outside are doesn't show, but that they let the handler begin.
        self.assertEqual(stream(acquire('a', A, columns='D.h..')), ['enter t-1 hard', 'acquire t-1 a@1000'])
        self.assertEqual(stream(acquire('a', A, columns='d.s..')),
                         ['enter t-1 soft', 'disable t-1 hard', 'acquire t-1 a@1000'])

    def test_a_task_starts_once_in_a_trace(self):
        self.assertEqual(
            stream(acquire('a', A, columns='d....'), release(A, columns='d....'), acquire('a', A, columns='b....')),
            ['begin t-1 off on', 'acquire t-1 a@1000', 'release t-1 a@1000', 'enable t-1 hard', 'disable t-1 soft',
             'acquire t-1 a@1000'])

    def test_only_where_they_differ(self):
        self.assertEqual(
            stream(acquire('a', A, columns='d....'), acquire('b', B, columns='d....'),
                   release(B, columns='b....'), release(A)),
            ['begin t-1 off on', 'acquire t-1 a@1000', 'acquire t-1 b@2000', 'enable t-1 hard', 'disable t-1 soft',
             'release t-1 b@2000', 'enable t-1 soft', 'release t-1 a@1000'])

    def test_what_an_enter_needs_is_enabled_first(self):
        self.assertEqual(
            stream(acquire('a', A, columns='D....'), release(A, columns='D....'), acquire('b', B, columns='d.h..'))[3:],
            ['enable t-1 hard', 'enter t-1 hard', 'acquire t-1 b@2000'])
        self.assertEqual(
            stream(acquire('a', A, columns='D....'), release(A, columns='D....'), acquire('b', B, columns='..s..'))[3:],
            ['enable t-1 hard', 'enable t-1 soft', 'enter t-1 soft', 'acquire t-1 b@2000'])
        self.assertEqual(
            stream(acquire('a', A, columns='d.s..'), release(A, columns='d.s..'), acquire('b', B, columns='d.H..'))[4:],
            ['enable t-1 hard', 'enter t-1 hard', 'acquire t-1 b@2000'])

    def test_in_a_hard_handler_no_flag_is_written(self):
        for columns in ('..h..', 'b.h..', 'D.h..'):
            with self.subTest(columns=columns):
                self.assertEqual(stream(acquire('a', A, columns='d.h..'), acquire('b', B, columns=columns))[2:],
                                 ['acquire t-1 b@2000'])

    def test_in_a_soft_handler_the_hard_flag_alone_is_written(self):
        self.assertEqual(
            stream(acquire('a', A, columns='b.s..'), acquire('b', B, columns='D.s..'), release(B, columns='..s..')),
            ['enter t-1 soft', 'acquire t-1 a@1000', 'disable t-1 hard', 'acquire t-1 b@2000', 'enable t-1 hard',
             'release t-1 b@2000'])

    def test_are_again_after_a_handler_what_they_were_before(self):
        self.assertEqual(
            stream(acquire('a', A, columns='b....'), acquire('b', B, columns='D.h..'), release(B, columns='D.h..'),
                   release(A, columns='b....'))[2:],
            ['enter t-1 hard', 'acquire t-1 b@2000', 'release t-1 b@2000', 'exit t-1 hard', 'release t-1 a@1000'])

    def test_an_event_that_is_left_out_shows_them_too_where_a_lock_is_held(self):
        self.assertEqual(stream(acquire('a', A, columns='d....'), acquire('b', B, check=0), release(A))[2:],
                         ['enable t-1 hard', 'release t-1 a@1000'])
        self.assertEqual(stream(acquire('b', B, check=0, columns='d....'), acquire('a', A)), ['acquire t-1 a@1000'])


class Processors(unittest.TestCase):
    """What runs on several processors at once, and goes from one to another."""

    def test_each_task_has_its_own_handlers_and_flags(self):
        self.assertEqual(
            stream(acquire('a', A, cpu=0), acquire('b', B, task='u-2', columns='d.s..', cpu=1),
                   acquire('b', C, columns='..s..', cpu=0), release(B, task='u-2', columns='d.s..', cpu=1),
                   release(C, columns='..s..', cpu=0), release(A, cpu=0)),
            ['acquire t-1 a@1000', 'enter u-2 soft', 'disable u-2 hard', 'acquire u-2 b@2000', 'enter t-1 soft',
             'acquire t-1 b@3000', 'release u-2 b@2000', 'release t-1 b@3000', 'exit t-1 soft', 'release t-1 a@1000'])

    def test_a_task_goes_on_on_another_processor(self):
        result = run(acquire('a', A, cpu=0, time=1.0) + acquire('b', B, cpu=3, time=1.000001)
                     + release(A, cpu=3, time=1.000001))
        self.assertEqual(result.stream[1:], ['acquire t-1 a@1000', 'acquire t-1 b@2000', 'release t-1 a@1000'])
        self.assertNotIn('another processor', result.errors)

    def test_a_task_that_goes_on_at_the_same_time_may_be_out_of_order(self):
        result = run(acquire('a', A, cpu=0) + acquire('a', B, task='u-2', cpu=2) + release(A, cpu=3))
        self.assertIn('1 times a task went on on another processor at the same time', result.errors)

    def test_numbers_in_place_of_times(self):
        text = acquire('a', A, cpu=0) + release(A, cpu=1)
        text = text.replace('1.000000', '      99', 1).replace('1.000000', '     100', 1)
        result = run(text)
        self.assertEqual(result.stream[1:], ['acquire t-1 a@1000', 'release t-1 a@1000'])
        self.assertNotIn('another processor', result.errors)


class TakenAway(unittest.TestCase):
    """A processor that is taken away shows no event from that moment on, as of the release of a lock.

    The events of the steps are as a kernel 6.1 wrote them.
    """
    BEGIN = 'cpuhp_enter: cpu: 0001 target:   0 step: 153 (takedown_cpu)'
    END = 'cpuhp_exit:  cpu: 0001  state:  92 step: 153 ret: 0'

    def taken_away(self, *between, end=END):
        return run(acquire('a', A, task='migration/1-20', cpu=1, columns='d....') + line(self.BEGIN, cpu=0)
                   + ''.join(between) + line(end, cpu=0)
                   + acquire('b', B, task='migration/1-20', cpu=1, columns='d....'))

    def test_what_its_last_task_held_is_released(self):
        result = self.taken_away()
        self.assertEqual(result.stream[1:], ['begin migration/1-20 off on', 'acquire migration/1-20 a@1000',
                                             'release migration/1-20 a@1000', 'acquire migration/1-20 b@2000'])
        self.assertIn('1 locks were held where their processor was taken away', result.errors)

    def test_a_lock_that_is_left_out_is_forgotten_too(self):
        result = self.taken_away(acquire('c', C, check=0, task='migration/1-20', cpu=1, columns='d....'))
        self.assertEqual(result.stream[3:], ['release migration/1-20 a@1000', 'acquire migration/1-20 b@2000'])

    def test_what_others_hold_stays_held(self):
        # The one slept on this processor before its last task ran there, the other is elsewhere.
        text = (acquire('s', C, task='s-2', cpu=1) + acquire('t', B, task='t-3', cpu=2)
                + acquire('a', A, task='migration/1-20', cpu=1, time=1.1) + line(self.BEGIN, time=1.2)
                + line(self.END, time=1.3) + release(C, task='s-2', cpu=0, time=1.4)
                + release(B, task='t-3', cpu=2, time=1.5))
        self.assertEqual(run(text).stream[4:], ['release migration/1-20 a@1000', 'release s-2 s@3000',
                                                'release t-3 t@2000'])

    def test_one_that_refused_to_go_still_holds_it(self):
        result = self.taken_away(end=self.END.replace('ret: 0', 'ret: -16'))
        self.assertEqual(result.stream[3:], ['acquire migration/1-20 b@2000'])

    def test_the_end_of_another_step_or_of_another_processor_says_nothing(self):
        for end in (self.END.replace('step: 153', 'step: 152'), self.END.replace('0001', '0002')):
            with self.subTest(end=end):
                self.assertEqual(self.taken_away(end=end).stream[3:], ['acquire migration/1-20 b@2000'])

    def test_other_steps_say_nothing(self):
        steps = line('cpuhp_enter: cpu: 0001 target: 238 step:  36 (rcutree_prepare_cpu)') + line(
            'cpuhp_exit:  cpu: 0001  state:  35 step:  36 ret: 0')
        self.assertEqual(run(acquire('a', A, cpu=1) + steps + release(A, cpu=1)).stream[1:],
                         ['acquire t-1 a@1000', 'release t-1 a@1000'])

    def test_a_step_that_is_damaged(self):
        result = run(acquire('a', A) + line(self.BEGIN.replace('step', 'stp')))
        self.assertEqual((result.status, result.stream), (2, []))
        self.assertIn('line 2: not what cpuhp_enter and cpuhp_exit write', result.errors)


class IrqEvents(unittest.TestCase):

    def test_irq_enable_shows_the_state_before_it(self):
        # Between two events that show interrupts disabled they were enabled, with the lock held.
        self.assertEqual(
            stream(acquire('a', A, columns='d....'), irq('irq_enable', columns='d....'),
                   irq('irq_disable', columns='d....'), release(A, columns='d....')),
            ['begin t-1 off on', 'acquire t-1 a@1000', 'enable t-1 hard', 'disable t-1 hard', 'release t-1 a@1000'])

    def test_write_nothing_where_no_lock_is_held(self):
        self.assertEqual(
            stream(irq('irq_disable', columns='d....'), irq('irq_enable', columns='d....'), acquire('b', B, check=0),
                   irq('irq_disable', columns='d....'), irq('irq_disable', columns='d.s..'), acquire('a', A)),
            ['acquire t-1 a@1000'])

    def test_no_enable_inside_a_hard_handler(self):
        self.assertEqual(stream(acquire('a', A, columns='d.h..'), irq('irq_enable', columns='d.h..'))[2:], [])

    def test_an_enable_inside_a_soft_handler(self):
        self.assertEqual(stream(acquire('a', A, columns='d.s..'), irq('irq_enable', columns='d.s..'))[3:],
                         ['enable t-1 hard'])

    def test_show_handlers_where_a_lock_is_held(self):
        self.assertEqual(stream(acquire('a', A), irq('irq_disable', columns='d.s..'), irq('irq_enable', columns='d....'))
                         [1:], ['enter t-1 soft', 'disable t-1 hard', 'exit t-1 soft', 'disable t-1 hard',
                                'enable t-1 hard'])


class Limits(unittest.TestCase):

    def test_a_trace_has_1024_tasks_at_most(self):
        # The first task holds a lock in a soft handler with interrupts disabled, over one that it
        # holds with softirqs enabled; the second task holds nothing.
        lines = stream(acquire('a', A), acquire('b', B, columns='d.s..'),
                       acquire('c', C, task='u-2'), release(C, task='u-2'),
                       *[acquire('c', C, task='t-%d' % pid) for pid in range(3, 1026)],
                       acquire('c', C, columns='d.s..'), acquire('a', A, task='u-2'), release(B, columns='d.s..'))
        begin = lines.index('trace kernel.2')
        self.assertEqual(len({text.split(' ')[1] for text in lines[:begin]}), 1024)
        self.assertEqual(
            lines[begin + 1:],
            ['acquire t-1025 c@3000', 'try t-1 a@1000', 'enter t-1 soft', 'disable t-1 hard', 'try t-1 b@2000',
             'acquire t-1 c@3000', 'acquire u-2 a@1000', 'release t-1 b@2000'])

    def test_flags_go_over_before_the_locks(self):
        lines = stream(acquire('a', A, columns='D....'),
                       *[acquire('c', C, task='t-%d' % pid) for pid in range(2, 1026)],
                       release(A, columns='D....'))
        self.assertEqual(lines[-4:], ['acquire t-1025 c@3000', 'begin t-1 off off', 'try t-1 a@1000',
                                      'release t-1 a@1000'])

    def test_flags_outside_go_over_before_a_handler(self):
        lines = stream(acquire('a', A, columns='b....'), acquire('b', B, columns='d.h..'),
                       *[acquire('c', C, task='t-%d' % pid) for pid in range(2, 1026)],
                       release(B, columns='d.h..'))
        self.assertEqual(lines[-5:], ['begin t-1 on off', 'try t-1 a@1000', 'enter t-1 hard', 'try t-1 b@2000',
                                      'release t-1 b@2000'])

    def test_a_task_that_holds_nothing_starts_anew(self):
        lines = stream(acquire('a', A, columns='D....'), release(A, columns='D....'),
                       *[acquire('c', C, task='t-%d' % pid) for pid in range(2, 1026)],
                       acquire('a', A, columns='d....'))
        self.assertEqual(lines[-3:], ['acquire t-1025 c@3000', 'begin t-1 off on', 'acquire t-1 a@1000'])

    def test_a_nested_lock_goes_over_as_one(self):
        lines = stream(acquire('a', A, key=0x500), acquire('a', B, key=0x501, subclass=1, columns='d....'),
                       *[acquire('c', C, task='t-%d' % pid) for pid in range(2, 1026)],
                       release(B, columns='d....'))
        self.assertEqual(lines[-5:], ['acquire t-1025 c@3000', 'begin t-1 off on', 'try t-1 a@1000',
                                      'nested t-1 a@2000 1', 'release t-1 a@2000'])

    def test_a_trace_has_8191_classes_at_most(self):
        lines = stream(acquire('a', A),
                       *[text for key in range(8190)
                         for text in (acquire('k%d' % key, B, key=0x100000 + key), release(B))],
                       acquire('last', C))
        begin = lines.index('trace kernel.2')
        self.assertEqual(len({text.split(' ')[2] for text in lines[:begin]}), 8191)
        self.assertEqual(lines[begin + 1:], ['try t-1 a@1000', 'acquire t-1 last@3000'])

    def test_a_subclass_counts_among_the_classes(self):
        lines = stream(*[text for key in range(0x100000, 0x110000, 16)
                         for subclass in (0, 1)
                         for text in (acquire('k%x' % key, A, key=key + subclass, subclass=subclass), release(A))])
        begin = lines.index('trace kernel.2')
        self.assertEqual(begin, 2 * 8191)
        self.assertEqual(lines[begin + 1:], ['nested t-1 k10fff0@1000 1', 'release t-1 k10fff0@1000'])

    def test_what_goes_over_counts_among_the_classes(self):
        # A task with two classes comes back to a trace that has room for one of them.
        other = [acquire('k%d' % key, C, key=0x100000 + key, task='u-2') + release(C, task='u-2')
                 for key in range(8192)]
        lines = stream(acquire('a', A), acquire('b', B), *other[:8190], *other[:8189], release(A))
        self.assertEqual([text for text in lines if text.startswith('trace')], ['trace kernel.2', 'trace kernel.3'])
        self.assertEqual(lines[-4:], ['trace kernel.3', 'try t-1 a@1000', 'try t-1 b@2000', 'release t-1 a@1000'])

    def test_a_task_holds_96_locks_at_most(self):
        result = run(''.join(acquire('a', 0x1000 + 16 * number) for number in range(98))
                     + release(0x1000 + 16 * 97) + release(0x1000) + acquire('b', B))
        self.assertEqual(len(result.stream), 1 + 96 + 2)
        self.assertEqual(result.stream[-2:], ['release t-1 a@1000', 'acquire t-1 b@2000'])
        self.assertIn('2 acquisitions by tasks that held 96 locks already were left out', result.errors)


class Losses(unittest.TestCase):

    def test_after_lost_events_nothing_is_held(self):
        for loss in ('CPU:1 [LOST 12 EVENTS]\n', 'CPU:1 [LOST EVENTS]\n', '##### CPU 1 buffer started ####\n'):
            with self.subTest(loss=loss):
                result = run(acquire('a', A, columns='d.s..') + loss + release(A) + acquire('b', B), '--label', 'run')
                self.assertEqual(result.stream, ['trace run', 'enter t-1 soft', 'disable t-1 hard', 'acquire t-1 a@1000',
                                                 'trace run.2', 'acquire t-1 b@2000'])
                self.assertIn('events are missing at 1 places', result.errors)
                self.assertIn('dropped: 1 releases', result.errors)

    def test_a_loss_before_the_first_event_begins_no_other_trace(self):
        self.assertEqual(run('##### CPU 0 buffer started ####\n' + acquire('a', A)).stream,
                         ['trace kernel', 'acquire t-1 a@1000'])

    def test_dropped_events_end_the_stream(self):
        stats = ('cpu0\nentries: 3\ndropped events: 0\ncpu1\nentries: 1\ndropped events: 7\n'
                 'cpu2\noldest event ts:     1.000000\ndropped events: 5\n')
        text = ''.join(acquire('a', 0x1000 + cpu, task='t-%d' % (cpu + 1), cpu=cpu) for cpu in (0, 1, 2, 2, 0, 1, 0))
        with file_with(stats) as name:
            result = run(text, '--stats', name)
        # Processor 2 has its last line in line 4, and processor 1 in line 6.
        self.assertEqual(len(result.stream), 1 + 4)
        self.assertIn('12 events were dropped, by 2 processors: the stream stops at line 4', result.errors)

    def test_without_dropped_events_the_stats_change_nothing(self):
        with file_with('cpu0\nentries: 3\ndropped events: 0\n') as name:
            self.assertEqual(stream(acquire('a', A), words=('--stats', name)), ['acquire t-1 a@1000'])


class Map(unittest.TestCase):

    def test_tells_the_input_line_of_each_output_line(self):
        text = (acquire('a', A, columns='d....') + irq('irq_enable', columns='d....') + line('other: x')
                + release(B) + release(A) + 'CPU:0 [LOST 1 EVENTS]\n' + acquire('b', B))
        with file_with('') as name:
            result = run(text, '--lines', name)
            with open(name) as file:
                numbers = [int(number) for number in file]
        self.assertEqual(
            list(zip(numbers, result.stream)),
            [(1, 'trace kernel'), (1, 'begin t-1 off on'), (1, 'acquire t-1 a@1000'), (2, 'enable t-1 hard'),
             (5, 'release t-1 a@1000'), (6, 'trace kernel.2'), (7, 'acquire t-1 b@2000')])


if __name__ == '__main__':
    unittest.main()
