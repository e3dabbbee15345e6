"""Recordings as raw pages: the same stream as of their text, and what is wrong with damaged ones."""
import contextlib
import io
import itertools
import lzma
import os
import random
import shutil
import subprocess
import tempfile
import unittest

from ring import Ring
from texts import CONVERT, FOLDER, HEADER, Result, acquire, irq, line, release, run

TESTS = os.path.join(FOLDER, 'tests')
LOCKCONVERT = os.environ.get('LOCKCONVERT', os.path.join(FOLDER, os.pardir, os.pardir, 'lockconvert'))
RECORDINGS = ('linux-6.12/trace.xz', 'linux-6.12-stock/trace.xz', 'processors/trace.xz', 'recursion/trace.xz',
              'plant-all.ftrace.xz', 'plant-clean.ftrace.xz')


def text_of(name):
    with lzma.open(os.path.join(TESTS, name), 'rt', encoding='latin-1', newline='\n') as file:
        return file.read()


def counts(errors):
    """What the converter says, but for how many lines the text had, and what its header tells: pages have none."""
    lines = errors.partition(' written, ')[2].splitlines()
    return [line for line in lines if "the text's header" not in line]


def first_difference(lines, wanted):
    """The first line that isn't as wanted, with that; None where all are."""
    return next((both for both in itertools.zip_longest(lines, wanted) if both[0] != both[1]), None)


class Pages(unittest.TestCase):

    def setUp(self):
        self.folder = tempfile.mkdtemp()
        self.addCleanup(shutil.rmtree, self.folder)

    def write(self, text, **how):
        folder = os.path.join(self.folder, 'kernel')
        shutil.rmtree(folder, ignore_errors=True)
        ring = Ring(folder, **how)
        ring.write(text.splitlines(True))
        return ring.folder

    def run_on(self, folder, *words):
        output, errors = io.TextIOWrapper(io.BytesIO(), encoding='ascii'), io.StringIO()
        with contextlib.redirect_stdout(output), contextlib.redirect_stderr(errors):
            status = CONVERT.main([*words, folder])
        return Result(status, output.buffer.getvalue().decode('ascii').splitlines(), errors.getvalue())

    def damaged(self, folder, name, change):
        """What the converter says of the folder with one file changed."""
        with open(os.path.join(folder, name), 'r+b') as file:
            data = bytearray(file.read())
            change(data)
            file.seek(0)
            file.write(data)
            file.truncate()
        return self.run_on(folder)

    def test_recordings_give_the_stream_of_their_text(self):
        for name in RECORDINGS:
            for how in ({}, {'page': 65536}, {'page': 512, 'word': 4}):
                with self.subTest(name=name, **how):
                    text = text_of(name)
                    folder = self.write(text, **how)
                    pages, wanted = self.run_on(folder), run(text)
                    self.assertEqual(pages.status, 0, pages.errors)
                    self.assertEqual(first_difference(pages.stream, wanted.stream), None)
                    self.assertEqual(pages.comments, wanted.comments)
                    self.assertEqual(counts(pages.errors), counts(wanted.errors))

    def test_the_map_names_the_functions_of_the_text(self):
        text = text_of('linux-6.12/trace.xz')
        maps = []
        for words in ((self.write(text),), None):
            name = os.path.join(self.folder, f'map-{len(maps)}')
            result = self.run_on(*words, '--map', name) if words else run(text, '--map', name)
            self.assertEqual(result.status, 0, result.errors)
            with open(name, 'rb') as file:
                maps.append(file.read())
        self.assertEqual(*maps)

    def test_without_kallsyms_the_map_has_no_function(self):
        folder = self.write(HEADER + acquire('a', 0x10) + release(0x10))
        os.remove(os.path.join(folder, 'kallsyms'))
        name = os.path.join(self.folder, 'map')
        self.assertEqual(self.run_on(folder, '--map', name).status, 0)
        with open(name, 'rb') as file:
            self.assertIn(b'place 1 ? ', file.read())

    def test_a_module_that_does_not_tell_how_many_locks_are_held(self):
        text = text_of('processors/trace.xz')
        folder = self.write(text, with_held=False)
        self.assertEqual(first_difference(self.run_on(folder).stream, run(text).stream), None)

    def test_the_trace_has_the_label_of_the_folder(self):
        folder = self.write(HEADER + acquire('a', 0x10) + release(0x10))
        named = os.path.join(self.folder, 'run-1')
        os.rename(folder, named)
        with open(os.path.join(named, 'lockdep'), 'w') as file:
            file.write('all lock classes:\n%016x FD: 1 BD: 1 .+.+: b#2\n' % (0x9000 + 0x100 * sum(b'a')))
        result = self.run_on(named, '--lockdep', os.path.join(named, 'lockdep'))
        self.assertEqual(result.stream, ['trace run-1', 'acquire t-1 b#2@10', 'release t-1 b#2@10'], result.errors)

    def test_nothing_is_held_where_events_are_lost(self):
        lines = [acquire('a', 0x10, time=1), acquire('b', 0x20, time=2), 'CPU:0 [LOST 7 EVENTS]\n',
                 release(0x10, time=3), acquire('c', 0x30, time=4), release(0x30, time=5)]
        folder = self.write(HEADER + ''.join(lines))
        result = self.run_on(folder)
        self.assertEqual(result.stream, [
            'trace kernel', 'acquire t-1 a@10', 'acquire t-1 b@20',
            'trace kernel.2', 'acquire t-1 c@30', 'release t-1 c@30'])
        self.assertIn('events are missing at 1 places', result.errors)

    def test_processors_are_merged_by_time(self):
        lines = [acquire('a', 0x10, time=1, cpu=1, task='s-2'), acquire('b', 0x20, time=2, cpu=0),
                 release(0x10, time=3, cpu=0, task='s-2'), release(0x20, time=3, cpu=1)]
        self.assertEqual(self.run_on(self.write(HEADER + ''.join(lines))).stream, [
            'trace kernel', 'acquire s-2 a@10', 'acquire t-1 b@20', 'release s-2 a@10', 'release t-1 b@20'])

    def test_long_pauses_and_long_names(self):
        name = 'n' * 200
        lines = [acquire(name, 0x10, time=1), irq('irq_disable', time=2), release(0x10, time=900000),
                 acquire('b', 0x20, time=900001), release(0x20, time=18000000)]
        text = HEADER + ''.join(lines)
        self.assertEqual(self.run_on(self.write(text)).stream, run(text).stream)

    def test_lockconvert_writes_the_lines_of_the_text(self):
        lines = [acquire('a b', 0x10, task='sh-12', columns='D.H..', before=3, nest=5, subclass=2, read=1, time=1.5),
                 line('lock_acquire: 0000000000000020 try read x', cpu=3, columns='b.s..', time=2.25, task='<idle>-0')]
        folder = self.write(HEADER + ''.join(lines))
        caller = 0xfffffffd00000001
        said = subprocess.run([LOCKCONVERT, folder], capture_output=True, check=True).stdout.decode()
        self.assertEqual(said.splitlines()[2:], [
            '              sh-12 [000] D.H.. 1.500000: acquire: 0000000000000010 k=%016x s=2 t=0 r=1 c=1 '
            'n=0000000000000005 h=3 y=%016x i=%016x a b' % (0x9000 + 0x100 * sum(b'a b'), 0x9000 + 0x100 * sum(b'a b'),
                                                         caller),
            '          <idle>-0 [003] b.s.. 2.250000: lock_acquire: 0000000000000020 try read x'])

    def test_damage_is_named(self):
        # The page has its head, at 16 an entry with the acquisition's 52 bytes, and at 72 one with the release.
        text = HEADER + acquire('a', 0x10) + release(0x10)
        pages = 'per_cpu/cpu0/trace_pipe_raw'

        def put(at, *values):
            def change(data):
                data[at:at + len(values)] = bytes(values)
            return change

        for name, change, said in (
                (pages, lambda data: data.__delitem__(slice(4000, None)), 'offset 0: the file ends within a page'),
                (pages, put(10, 1), 'processor 0, page 0, offset 0: more data than the page'),
                (pages, put(27, 0x80), 'page 0, offset 20: the number of a task is negative'),
                (pages, put(76, 0xaf), 'page 0, offset 76: an event is shorter than its fields'),
                (pages, put(16, 0), "page 0, offset 16: an event goes on behind the end of the page's data"),
                (pages, put(16, 0, 0, 0, 0, 3, 0, 0, 0), 'page 0, offset 16: no length of an event'),
                (pages, put(61, 9), 'page 0, offset 20: an acquisition of no known kind'),
                (pages, put(62, 3), 'page 0, offset 20: an acquisition by no kind of reader or writer'),
                (pages, put(66, 0xff), 'page 0, offset 20: no name of one line'),
                ('events/header_page', put(0, 33), 'events/header_page:1: not a field'),
                ('events/lockcheck/acquire/format', put(0, 33), 'acquire/format:1: not `name: NAME`'),
                ('trace_clock', put(0, *b'[odd]'), 'trace_clock: names no clock'),
                ('kallsyms', put(0, 33), 'the file kallsyms, line 1')):
            with self.subTest(said=said):
                folder = self.write(text)
                result = self.damaged(folder, name, change)
                self.assertEqual((result.status, result.stream), (2, []))
                self.assertIn(said, result.errors)

    def test_a_format_without_a_field(self):
        folder = self.write(HEADER + acquire('a', 0x10) + release(0x10))
        result = self.damaged(folder, 'events/lockcheck/acquire/format',
                              lambda data: data.__setitem__(slice(None), data.replace(b' key;', b' lok;')))
        self.assertEqual(result.status, 2)
        self.assertIn('acquire/format: no field key that can be read', result.errors)

    def test_a_folder_that_is_no_recording(self):
        said = subprocess.run([LOCKCONVERT, self.folder], capture_output=True, check=False)
        self.assertEqual((said.returncode, said.stdout), (2, b''))
        self.assertIn(b'events/header_page: ', said.stderr)
        folder = self.write(HEADER + acquire('a', 0x10))
        os.remove(os.path.join(folder, 'per_cpu/cpu0/trace_pipe_raw'))
        said = subprocess.run([LOCKCONVERT, folder], capture_output=True, check=False)
        self.assertEqual((said.returncode, said.stdout), (2, b''))
        self.assertIn(b'no per_cpu/cpu0/trace_pipe_raw', said.stderr)

    def test_changed_bytes_give_a_fault_or_a_stream(self):
        drawn = random.Random(78)
        text = ''.join(text_of('linux-6.12/trace.xz').splitlines(True)[:400])
        folder = self.write(text, page=512)
        names = [os.path.join(folder, f'per_cpu/cpu{number}/trace_pipe_raw') for number in range(4)]
        whole = {}
        for name in names:
            with open(name, 'rb') as file:
                whole[name] = file.read()
        for _ in range(40):
            name = drawn.choice([name for name in names if whole[name]])
            data = bytearray(whole[name])
            for _ in range(drawn.choice((1, 1, 3))):
                data[drawn.randrange(len(data))] ^= 1 << drawn.randrange(8)
            with open(name, 'wb') as file:
                file.write(data)
            result = self.run_on(folder)
            self.assertIn(result.status, (0, 2), result.errors)
            self.assertEqual(result.status == 2, result.stream == [], result.errors)
            with open(name, 'wb') as file:
                file.write(whole[name])


if __name__ == '__main__':
    unittest.main()
