"""Texts that can't be read: status 2, a message with the line's number, and nothing written."""
import bz2
import glob
import gzip
import lzma
import os
import subprocess
import tempfile
import unittest

from texts import FOLDER, HEADER, acquire, file_with, irq, line, release, run, stock

A, B = 0x1000, 0x2000
CONVERT = os.path.join(FOLDER, 'convert')
# What `trace-cmd report` and `trace-cmd report -l` of trace-cmd 3.1.6 print of a lock that is acquired
# with softirqs disabled, and then with both kinds of interrupts disabled: the flags don't tell the first.
TRACE_CMD = '''\
cpus=1
              sh-28    [000]     0.580005: lock_acquire:         0xffff888003d7d600 &p->pi_lock
              sh-28    [000]     0.580006: lock_release:         0xffff888003d7d600 &p->pi_lock
              sh-28    [000]     0.580007: lock_acquire:         0xffff888003d7d600 &p->pi_lock
'''
TRACE_CMD_LATENCY = '''\
cpus=1
      sh-28      0...11     0.580005: lock_acquire:         0xffff888003d7d600 &p->pi_lock
      sh-28      0...1.     0.580006: lock_release:         0xffff888003d7d600 &p->pi_lock
      sh-28      0d..11     0.580007: lock_acquire:         0xffff888003d7d600 &p->pi_lock
'''
# What `perf script`, `perf script -L` and `perf script --ns` of perf 6.1 print of the same: no flags.
PERF = '''\
              sh    28 [000]     0.580002: lock:lock_acquire: 0xffff888003d7d600 &p->pi_lock
      sh    28   0     0.580002: lock:lock_acquire: 0xffff888003d7d600 &p->pi_lock
              sh    28 [000]     0.580002000: lock:lock_acquire: 0xffff888003d7d600 &p->pi_lock
'''
GOOD = HEADER + acquire('a', A)  # the header has 12 lines


class Refused(unittest.TestCase):

    def refused(self, text, number, words):
        """The text is refused at this line, in these words, and nothing is written."""
        with tempfile.TemporaryDirectory() as folder:
            result = run(text, '--lines', os.path.join(folder, 'map'))
            self.assertEqual(os.listdir(folder), [])
        self.assertEqual((result.status, result.stream), (2, []), result.errors)
        self.assertRegex(result.errors, 'convert: /.*/file: line %d: ' % number)
        self.assertIn(words, result.errors)

    def test_cut_at_any_byte_of_the_last_line(self):
        text = GOOD + acquire('b', B)
        begin = len(GOOD)
        for end in range(begin + 1, len(text)):
            with self.subTest(end=end):
                self.refused(text[:end], 14, 'cut')

    def test_a_line_broken_at_any_byte(self):
        lines = [acquire('two words', B), release(A), stock('acquire', A, 'a'), stock('release', A, 'a'),
                 irq('irq_enable')]
        for text in lines:
            for place in range(1, len(text) - 1):
                with self.subTest(text=text, place=place):
                    result = run(GOOD + text[:place] + '\n' + text[place:])
                    self.assertEqual((result.status, result.stream), (2, []))
                    self.assertRegex(result.errors, 'line 1[45]: ')

    def test_a_missing_end_of_a_line(self):
        for text in (acquire('b', B), release(A), stock('acquire', B, 'b'), irq('irq_enable'), line('other: x')):
            for length in range(1, len(text)):
                with self.subTest(text=text[:length]):
                    result = run(GOOD + text[:length] + release(B) + release(A))
                    self.assertEqual((result.status, result.stream), (2, []))
                    self.assertIn('line 14: ', result.errors)

    def test_a_missing_part_of_an_address(self):
        self.refused(GOOD + line('release: 00000000'), 14, 'no address of a lock')
        self.refused(GOOD + acquire('b', B).replace('acquire: 0000', 'acquire: '), 14, 'no address of a lock')
        self.refused(GOOD + line('lock_acquire: (____ptrval____) a'), 14, 'boot with no_hash_pointers')

    def test_a_missing_part_of_an_event(self):
        self.refused(GOOD + line('acquire: %016x k=0' % B), 14, 'the module')
        self.refused(GOOD + line('lock_acquire: %016x ' % B), 14, 'lock_acquire')
        self.refused(GOOD + line('lock_release: %016x ' % B), 14, 'lock_release')
        self.refused(GOOD + line('irq_enable: caller=x'), 14, 'irq_enable')

    def test_the_text_of_another_tracer(self):
        self.refused('# tracer: function\n#\n' + line('schedule <-worker_thread'), 1, "tracer 'function'")
        self.refused(line('schedule <-worker_thread'), 1, 'another tracer')
        self.refused(' 0)   1.250 us    |  schedule();\n', 1, 'no line of a recording')
        self.refused(GOOD + "t-1       0d.... 1us : schedule\n", 14, 'no line of a recording')

    def test_the_texts_of_other_programs(self):
        for text in TRACE_CMD, TRACE_CMD_LATENCY:
            self.refused(text, 1, 'the text of `trace-cmd report`')
            self.refused(text, 1, 'trace-cmd show')
            self.refused(text.partition('\n')[2], 1, 'the text of `trace-cmd report`')
        for text in PERF.splitlines(keepends=True):
            self.refused(text, 1, 'the text of `perf script`')
            self.refused(HEADER + text, 13, "tracefs' file `trace`")

    def test_a_stream(self):
        self.refused('trace ab\nacquire t A\n', 1, 'it is a stream already')
        self.refused('# a comment\ntrace ab\n', 2, 'it is a stream already')

    def test_a_compressed_text(self):
        # Also one that the program made with no line end in it, and that of an option.
        zstd = b'\x28\xb5\x2f\xfd\x04\x58'
        for maker, begin in (('xz', lzma.compress(GOOD.encode())), ('gzip', gzip.compress(GOOD.encode())),
                             ('bzip2', bz2.compress(GOOD.encode())), ('zstd', zstd)):
            told = f'it looks like a file that {maker} made: decompress it first\n'
            with self.subTest(maker=maker), file_with(begin) as name:
                result = run(begin)
                self.assertEqual((result.status, result.stream), (2, []))
                self.assertRegex(result.errors, rf'\Aconvert: /.*/file: {told}\Z')
                for option in ('--lockdep', '--stats', '--check'):
                    result = run(GOOD, option, name)
                    self.assertEqual((result.status, result.stream, result.errors), (2, [], f'convert: {name}: {told}'))
                end = subprocess.run([CONVERT], input=begin, capture_output=True)
                self.assertEqual((end.returncode, end.stdout, end.stderr), (2, b'', b'convert: ' + told.encode()))

    def test_no_column_of_flags(self):
        self.refused(acquire('a', A).replace('] ..... ', '] '), 1, 'irq-info')

    def test_a_column_of_another_width(self):
        self.refused(acquire('a', A).replace(' ..... ', ' .... '), 1, 'flags of 4 characters')
        self.refused(GOOD + acquire('a', A).replace(' ..... ', ' ...... '), 14, 'flags of 6 characters')

    def test_flags_that_say_too_little(self):
        self.refused(acquire('a', A, columns='X....'), 1, 'whether interrupts are enabled')
        self.refused(HEADER.replace('irqs-off/BH-disabled', 'irqs-off'), 5, 'softirqs')

    def test_flags_that_are_none(self):
        for columns in ('q....', '..q..', '...q.', '....q'):
            with self.subTest(columns=columns):
                self.refused(acquire('a', A, columns=columns), 1, 'column of flags')

    def test_lines_out_of_order(self):
        self.refused(acquire('a', A, time=2.000001) + acquire('b', B, cpu=1, time=2.0), 2,
                     'time goes back from 2.000001 to 2.000000')

    def test_a_time_that_is_none(self):
        self.refused(GOOD + acquire('b', B).replace('1.000000', '1.00x000'), 14, 'no line of a recording')
        self.refused(GOOD + acquire('b', B).replace('1.000000', '     nan'), 14, 'time goes back')

    def test_binary_garbage(self):
        garbage = bytes(range(256)) * 4
        for text in (garbage, GOOD.encode() + garbage + b'\n', b'\0' * 100 + b'\n'):
            with self.subTest(text=text[:8]):
                self.refused(text, 14 if text.startswith(b'#') else 1, '')

    def test_an_empty_line(self):
        self.refused(GOOD + '\n' + release(A), 14, 'empty line')

    def test_nothing_was_recorded(self):
        self.refused('', 1, 'empty')
        self.refused(HEADER, 12, 'without an acquisition')
        self.refused(HEADER + release(A), 13, 'without an acquisition')
        self.refused(HEADER + line('sched_waking: comm=x'), 13, 'without an acquisition')

    def test_both_kinds_of_lock_events(self):
        self.refused(acquire('a', A) + stock('acquire', A, 'a'), 2, 'twice')


class OtherFiles(unittest.TestCase):
    """Files that options name, and words of the command line."""

    def refused(self, words, *messages):
        result = run(GOOD, *words)
        self.assertEqual((result.status, result.stream), (2, []))
        for message in messages:
            self.assertIn(message, result.errors)

    def test_lockdep_file(self):
        for text in ('', 'all lock classes:\n', '0500 FD:    1 BD:    1 ....: a\nx\n', '0500 FD:    1 BD:  '):
            with self.subTest(text=text), file_with(text) as name:
                self.refused(('--lockdep', name), 'the file of --lockdep')
        with file_with('0500 FD:    1 BD:    1 ....: a\nx\n') as name:
            self.refused(('--lockdep', name), 'line 2')

    def test_stats_file(self):
        for text in ('', 'dropped events: 1\n', 'cpu0\nx\n', 'cpu0\ndropped events: 1'):
            with self.subTest(text=text), file_with(text) as name:
                self.refused(('--stats', name), 'the file of --stats')

    def test_files_that_are_not_there(self):
        for option in ('--lockdep', '--stats'):
            with self.subTest(option=option):
                self.refused((option, '/nowhere/file'), '/nowhere/file')
        self.refused(('--lines', '/nowhere/map'), '/nowhere/map')

    def test_files_that_are_something_else(self):
        # No stream is written, and they stay; one of the option is replaced, as is an empty one.
        for option, kept, replaced in (('--lines', ('a\n', '1\nb\n', '\n'), ('', '7\n8\n')),
                                       ('--map', ('a\n', '1\n', '#\n'), ('', 'places 1\nold\n'))):
            for text in kept:
                with self.subTest(option=option, text=text), file_with(text) as name:
                    self.refused((option, name), "this isn't a file of " + option)
                    with open(name) as file:
                        self.assertEqual(file.read(), text)
            for text in replaced:
                with self.subTest(option=option, text=text), file_with(text) as name:
                    self.assertEqual(run(GOOD, option, name).status, 0)
                    with open(name) as file:
                        self.assertNotIn(file.read(), ('', 'places 1\nold\n', '7\n8\n'))
                    self.assertEqual(glob.glob(name + '?*'), [])
        self.refused(('--lines', '/dev/null', '--map', '/dev/null'), 'a file each')

    def test_files_that_are_no_regular_ones(self):
        with tempfile.TemporaryDirectory() as folder:
            link, target, pipe = (os.path.join(folder, name) for name in ('link', 'target', 'pipe'))
            os.symlink(target, link)
            self.assertEqual(run(GOOD, '--lines', link).status, 0)
            self.assertTrue(os.path.islink(link) and os.path.getsize(target) > 0)
            os.mkfifo(pipe)
            reading = os.open(pipe, os.O_RDONLY | os.O_NONBLOCK)
            self.assertEqual(run(GOOD, '--lines', pipe).status, 0)
            with open(reading) as file, open(target) as same:
                self.assertEqual(file.read(), same.read())
            self.assertFalse(os.path.isfile(pipe))

    def test_a_folder_of_a_text(self):
        with file_with(GOOD) as name:
            folder = os.path.dirname(name)
            result = subprocess.run([CONVERT, folder], capture_output=True, text=True)
        self.assertEqual((result.returncode, result.stdout), (2, ''))
        self.assertIn(f'{folder}: a folder without raw pages: name the text in it, as {folder}/trace', result.stderr)

    def test_labels(self):
        for label in ('', 'two words', 'x' * 59, 'é'):
            with self.subTest(label=label):
                self.refused(('--label', label), 'LABEL')
        self.assertEqual(run(GOOD, '--label', 'x' * 58).status, 0)


class Program(unittest.TestCase):
    """The converter as a program of its own."""

    def test_standard_input(self):
        for words in ([], ['-']):
            end = subprocess.run([CONVERT, *words], input=GOOD.encode(), capture_output=True)
            self.assertEqual((end.returncode, end.stdout), (0, b'trace kernel\nacquire t-1 a@1000\n'))

    def test_standard_input_is_read_again(self):
        # What is acquired first is known to have recursive readers by the last line.
        text = GOOD + acquire('a', A, read=2)
        expected = b'trace kernel\nacquire t-1 a@1000\ntry t-1 a!read@1000\n'
        with file_with(text) as name, open(name, 'rb') as file:
            for end in (subprocess.run([CONVERT], input=text.encode(), capture_output=True),
                        subprocess.run([CONVERT], stdin=file, capture_output=True)):
                self.assertEqual((end.returncode, end.stdout[:len(expected)]), (0, expected))

    def test_standard_input_with_dropped_events(self):
        with file_with('cpu0\ndropped events: 1\n') as name:
            end = subprocess.run([CONVERT, '--stats', name], input=GOOD.encode() + acquire('b', B, cpu=1).encode(),
                                 capture_output=True)
        self.assertEqual((end.returncode, end.stdout), (0, b'trace kernel\nacquire t-1 a@1000\n'))
        self.assertIn(b'the stream stops at line 13', end.stderr)

    def test_an_output_that_fails(self):
        with open('/dev/full', 'wb') as full:
            end = subprocess.run([CONVERT], input=GOOD.encode(), stdout=full, stderr=subprocess.PIPE)
        self.assertEqual(end.returncode, 2)
        self.assertIn(b'No space left', end.stderr)

    def test_a_text_that_is_not_there(self):
        end = subprocess.run([CONVERT, '/nowhere/trace'], capture_output=True)
        self.assertEqual((end.returncode, end.stdout), (2, b''))
        self.assertIn(b'/nowhere/trace', end.stderr)


if __name__ == '__main__':
    unittest.main()
