"""The recording script, over a folder of plain files in the place of tracefs."""
import os
import shutil
import subprocess
import tempfile
import unittest
from unittest import mock

from texts import FOLDER

RECORD = os.path.join(FOLDER, 'record')
FILES = ('trace', 'tracing_on', 'current_tracer', 'set_event', 'trace_clock', 'saved_cmdlines_size', 'buffer_size_kb',
         'options/overwrite', 'options/irq-info', 'options/context-info', 'options/hash-ptr', 'options/latency-format')
STOCK = ('lock/lock_acquire', 'lock/lock_release')
MODULE = ('lockcheck/acquire', 'lockcheck/release')
IRQ = ('preemptirq/irq_enable', 'preemptirq/irq_disable')
STEPS = ('cpuhp/cpuhp_enter', 'cpuhp/cpuhp_exit')


class Record(unittest.TestCase):

    def setUp(self):
        self.folder = tempfile.mkdtemp()
        self.addCleanup(shutil.rmtree, self.folder)
        for name in FILES:
            self.write('tracefs/' + name, 'old\n')

    def write(self, name, text):
        path = os.path.join(self.folder, name)
        os.makedirs(os.path.dirname(path), exist_ok=True)
        with open(path, 'w') as file:
            file.write(text)

    def read(self, name):
        with open(os.path.join(self.folder, name)) as file:
            return file.read()

    def events(self, *names):
        for name in names:
            self.write('tracefs/events/%s/enable' % name, '0\n')

    def record(self, *words):
        end = subprocess.run(
            [RECORD, *words], capture_output=True, text=True,
            env={**os.environ, 'TRACEFS': self.folder + '/tracefs', 'PROC': self.folder + '/proc'})
        return end.returncode, end.stderr

    def enabled(self):
        return {name for name in (*STOCK, *MODULE, *IRQ, *STEPS)
                if os.path.exists('%s/tracefs/events/%s/enable' % (self.folder, name))
                and self.read('tracefs/events/%s/enable' % name) == '1\n'}

    def clock(self, *words):
        self.events(*STOCK)
        self.write('tracefs/trace_clock', 'old\n')
        status, _ = self.record('start', '123', *words)
        return status, self.read('tracefs/trace_clock')

    def test_events_of_several_processors_are_numbered(self):
        self.write('tracefs/per_cpu/cpu0/stats', '')
        self.assertEqual(self.clock(), (0, 'global\n'))
        self.write('tracefs/per_cpu/cpu1/stats', '')
        self.assertEqual(self.clock(), (0, 'counter\n'))

    def test_a_clock_that_is_asked_for(self):
        self.write('tracefs/per_cpu/cpu1/stats', '')
        self.assertEqual(self.clock('global'), (0, 'global\n'))
        self.assertEqual(self.clock('local'), (2, 'old\n'))

    def test_start_prepares_the_ring_and_begins(self):
        self.events(*STOCK, *IRQ)
        status, said = self.record('start', '123')
        self.assertEqual(status, 0)
        for name, text in (('options/overwrite', '0'), ('options/irq-info', '1'), ('trace_clock', 'global'),
                           ('saved_cmdlines_size', '4096'), ('buffer_size_kb', '123'), ('current_tracer', 'nop'),
                           ('tracing_on', '1'), ('trace', ''), ('options/hash-ptr', 'old')):
            with self.subTest(name=name):
                self.assertEqual(self.read('tracefs/' + name), text + '\n')
        self.assertEqual(self.enabled(), {*STOCK, *IRQ})
        self.assertIn('locks of one name count as one class', said)

    def test_start_takes_the_events_of_the_module_where_it_is_loaded(self):
        self.events(*STOCK, *MODULE, *IRQ)
        status, said = self.record('start')
        self.assertEqual((status, self.enabled()), (0, {*MODULE, *IRQ}))
        self.assertIn('each acquisition shows its lockdep class', said)

    def test_start_takes_the_steps_by_which_processors_are_taken_away(self):
        self.events(*STOCK, *IRQ, *STEPS)
        self.assertEqual((self.record('start')[0], self.enabled()), (0, {*STOCK, *IRQ, *STEPS}))
        self.events(*STOCK, *MODULE, *IRQ, *STEPS)
        self.assertEqual((self.record('start')[0], self.enabled()), (0, {*MODULE, *IRQ, *STEPS}))

    def test_start_says_what_the_kernel_has_not(self):
        status, said = self.record('start')
        self.assertEqual(status, 2)
        for option in ('CONFIG_LOCKDEP', 'CONFIG_PROVE_LOCKING', 'CONFIG_LOCK_STAT', 'CONFIG_DEBUG_LOCK_ALLOC'):
            self.assertIn(option, said)
        self.events(*STOCK)
        status, said = self.record('start')
        self.assertEqual(status, 0)
        self.assertIn('no irq events', said)
        self.assertIn('/proc/lockdep', said)

    def test_start_without_tracefs(self):
        os.remove(self.folder + '/tracefs/trace')
        status, said = self.record('start')
        self.assertEqual(status, 2)
        self.assertIn('no tracefs', said)

    def stop(self, dropped):
        self.write('tracefs/trace', 'the text\n')
        for cpu in (0, 1):
            self.write('tracefs/per_cpu/cpu%d/stats' % cpu, 'entries: 20000000\ndropped events: %d\n' % dropped)
        self.write('proc/lockdep', 'all lock classes:\n')
        self.write('proc/lockdep_chains', 'all lock chains:\n')
        return self.record('stop', self.folder + '/out')

    def test_stop_writes_the_recording(self):
        status, said = self.stop(0)
        self.assertEqual(status, 0)
        self.assertEqual(self.read('tracefs/tracing_on'), '0\n')
        self.assertEqual(self.read('out/trace'), 'the text\n')
        self.assertEqual(self.read('out/stats'),
                         'cpu0\nentries: 20000000\ndropped events: 0\ncpu1\nentries: 20000000\ndropped events: 0\n')
        self.assertEqual(self.read('out/lockdep'), 'all lock classes:\n')
        self.assertEqual(self.read('out/lockdep_chains'), 'all lock chains:\n')
        self.assertNotIn('dropped', said)

    def stop_pages(self, **sizes):
        """`stop --pages` in a folder whose processors have these pages, with the files that tracefs has of them."""
        for number, pages in enumerate((b'a' * 4096, b'b' * 8192)):
            path = '%s/tracefs/per_cpu/cpu%d/trace_pipe_raw' % (self.folder, number)
            os.makedirs(os.path.dirname(path), exist_ok=True)
            with open(path, 'wb') as file:
                file.write(pages)
            self.write('tracefs/per_cpu/cpu%d/stats' % number,
                       'entries: 1\nbytes: %d\ndropped events: 0\n' % sizes.get('size', len(pages)))
        for name in ('events/header_page', 'saved_cmdlines', 'events/lockcheck/acquire/format',
                     'events/sched/sched_switch/format'):
            self.write('tracefs/' + name, name + '\n')
        self.write('proc/kallsyms', 'symbols\n')
        return self.record('stop', '--pages', self.folder + '/out')

    def test_stop_writes_raw_pages(self):
        status, said = self.stop_pages()
        self.assertEqual(status, 0, said)
        self.assertEqual(self.read('out/per_cpu/cpu0/trace_pipe_raw'), 'a' * 4096)
        self.assertEqual(self.read('out/per_cpu/cpu1/trace_pipe_raw'), 'b' * 8192)
        for name in ('events/header_page', 'saved_cmdlines', 'events/lockcheck/acquire/format', 'trace_clock'):
            self.assertEqual(self.read('out/' + name), self.read('tracefs/' + name))
        self.assertEqual(self.read('out/kallsyms'), 'symbols\n')
        for name in ('trace', 'per_cpu.part', 'events/sched'):
            self.assertFalse(os.path.exists(self.folder + '/out/' + name), name)
        # Nothing of it is written over.
        status, said = self.record('stop', '--pages', self.folder + '/out')
        self.assertEqual(status, 2)
        self.assertIn('/out/per_cpu is there already', said)

    def test_stop_goes_on_behind_pages_that_were_read_before(self):
        self.write('out/per_cpu.part/cpu0/trace_pipe_raw', 'c' * 4096)
        self.write('out/stats', 'of the first stop\n')
        self.assertEqual(self.stop_pages()[0], 0)
        self.assertEqual(self.read('out/per_cpu/cpu0/trace_pipe_raw'), 'c' * 4096 + 'a' * 4096)
        self.assertEqual(self.read('out/stats'), 'of the first stop\n')

    def test_stop_reads_no_page_without_room_for_all(self):
        status, said = self.stop_pages(size=1 << 60)
        self.assertEqual(status, 2)
        self.assertRegex(said, '/out has [0-9]+ KB free, .*; the ring still has the recording')
        self.assertFalse(os.path.exists(self.folder + '/out/per_cpu.part'))

    def test_stop_tells_pages_that_could_not_be_copied(self):
        self.write('bin/dd', '#!/bin/sh\necho "dd: error writing: No space left on device" >&2\nexit 1\n')
        os.chmod(self.folder + '/bin/dd', 0o755)
        with mock.patch.dict(os.environ, PATH='%s/bin:%s' % (self.folder, os.environ['PATH'])):
            status, said = self.stop_pages()
        self.assertEqual(status, 2)
        self.assertIn('No space left on device. What was read is in', said)
        self.assertFalse(os.path.exists(self.folder + '/out/per_cpu'))

    def test_stop_ends_where_the_ring_has_no_page_left(self):
        self.write('bin/dd', '#!/bin/sh\necho "dd: error reading: Resource temporarily unavailable" >&2\nexit 1\n')
        os.chmod(self.folder + '/bin/dd', 0o755)
        with mock.patch.dict(os.environ, PATH='%s/bin:%s' % (self.folder, os.environ['PATH'])):
            status, said = self.stop_pages()
        self.assertEqual(status, 0, said)

    def test_stop_says_how_much_it_is_going_to_read(self):
        # 40,000,000 events of 135 bytes each.
        self.assertRegex(self.stop(0)[1], 'reading 40000000 events, about 5149 MB of text; .*/out has [0-9]+ MB free')

    def test_stop_without_files_of_lockdep(self):
        self.write('tracefs/trace', 'the text\n')
        self.write('tracefs/per_cpu/cpu0/stats', 'entries: 1\n')
        status, said = self.record('stop', self.folder + '/out')
        self.assertEqual((status, os.path.exists(self.folder + '/out/lockdep_chains')), (0, False))
        self.assertIn("lockdep_chains can't be read (CONFIG_PROVE_LOCKING)", said)

    def vm(self, *words, loaded=False):
        """`record vm` in a folder of its own, with a module and an insmod that writes down what it loads."""
        for name in ('per_cpu/cpu0/stats', 'trace'):
            self.write('tracefs/' + name, 'entries: 1\n')
        self.write('proc/modules', 'lockcheck_events 1 0\n' if loaded else '')
        self.write('kernel/module/lockcheck_events.ko', '')
        shutil.copy(RECORD, self.folder + '/kernel/record')
        self.write('bin/insmod', '#!/bin/sh\necho "$1" >>%s/loaded\nexit "${INSMOD:-0}"\n' % self.folder)
        os.chmod(self.folder + '/bin/insmod', 0o755)
        end = subprocess.run(
            [self.folder + '/kernel/record', 'vm', *words], capture_output=True, text=True,
            env={**os.environ, 'TRACEFS': self.folder + '/tracefs', 'PROC': self.folder + '/proc',
                 'PATH': self.folder + '/bin:' + os.environ['PATH'], **self.settings})
        return end.returncode, end.stdout, end.stderr

    settings = {}

    def test_vm_records_a_command(self):
        self.events(*STOCK, *MODULE)
        status, out, said = self.vm(self.folder + '/out', 'sh', '-c', 'cat "$TRACEFS/tracing_on"; echo "$@"; exit 7',
                                    'sh', 'two words')
        self.assertEqual((status, out), (7, '1\ntwo words\n'))
        self.assertEqual(self.read('loaded'), self.folder + '/kernel/module/lockcheck_events.ko\n')
        self.assertEqual((self.read('tracefs/tracing_on'), self.read('tracefs/buffer_size_kb')), ('0\n', '65536\n'))
        self.assertEqual(self.read('out/stats'), 'cpu0\nentries: 1\n')
        self.assertIn('wrote', said)

    def test_vm_with_a_ring_of_another_size_and_a_module_that_is_loaded(self):
        self.events(*STOCK, *MODULE)
        self.settings = {'KB': '123'}
        self.assertEqual(self.vm(self.folder + '/out', 'true', loaded=True)[0], 0)
        self.assertEqual(self.read('tracefs/buffer_size_kb'), '123\n')
        self.assertFalse(os.path.exists(self.folder + '/loaded'))

    def test_vm_runs_no_command_where_there_would_be_no_recording(self):
        self.events(*STOCK)
        command = 'touch', self.folder + '/ran'
        self.settings = {'INSMOD': '1'}
        status, _, said = self.vm(self.folder + '/out', *command)
        self.assertEqual(status, 2)
        self.assertIn('could not be loaded', said)
        self.settings = {}
        self.write('out/trace', 'another\n')
        status, _, said = self.vm(self.folder + '/out', *command)
        self.assertEqual((status, self.read('out/trace')), (2, 'another\n'))
        shutil.rmtree(self.folder + '/tracefs/events')
        self.assertEqual(self.vm(self.folder + '/other', *command)[0], 2)
        self.assertFalse(os.path.exists(self.folder + '/ran'))

    def test_stop_says_that_events_were_dropped(self):
        status, said = self.stop(4)
        self.assertEqual(status, 0)
        self.assertIn('8 events were dropped', said)

    def test_stop_overwrites_nothing(self):
        for name in ('trace', 'lockdep', 'lockdep_chains', 'dmesg', 'stats'):
            with self.subTest(name=name):
                self.write('out/' + name, 'another\n')
                status, said = self.stop(0)
                self.assertEqual((status, os.listdir(self.folder + '/out')), (2, [name]))
                self.assertEqual(self.read('out/' + name), 'another\n')
                self.assertIn('another folder', said)
                os.remove(self.folder + '/out/' + name)

    def test_stop_again_after_one_that_failed(self):
        self.write('out/stats', 'cpu0\nof the first stop\n')
        self.assertEqual(self.stop(0)[0], 0)
        self.assertNotIn('first', self.read('out/stats'))

    def test_other_words(self):
        for words in ((), ('begin',), ('start', 'x'), ('start', '1', '2'), ('stop',), ('stop', ''), ('stop', 'a', 'b'),
                      ('vm',), ('vm', 'a'), ('vm', '', 'b')):
            with self.subTest(words=words):
                status, said = self.record(*words)
                self.assertEqual(status, 2)
                self.assertIn('usage', said)


if __name__ == '__main__':
    unittest.main()
