"""Recordings as files of trace-cmd: the text and the stream of their pages, and what is wrong with damaged ones."""
import contextlib
import io
import os
import random
import re
import shutil
import struct
import subprocess
import tempfile
import unittest

import dat
from ring import LINE, Ring
from test_pages import LOCKCONVERT, RECORDINGS, text_of
from texts import CONVERT, HEADER, Result, acquire, line, release

REPORTED = re.compile(r' *(.+)-(\d+) +\[(\d+)\] +[\d.]+: +(\w+): +(.*)').fullmatch
LOCK = re.compile(r'lock(?:dep_addr)?=0x([0-9a-f]+)').search
CONVERT_IT = '`trace-cmd convert --compression none -i %s -o NEW.dat`'
HAS_TRACE_CMD = shutil.which('trace-cmd') is not None
NO_TRACE_CMD = "trace-cmd isn't installed: no file is held against it"
SMALL = HEADER + acquire('a', 0x10) + acquire('b', 0x20, cpu=1, task='s-2') + release(0x10) + release(0x20, cpu=1)


def run(*words):
    """What lockconvert answers: a run that takes longer than this hangs."""
    return subprocess.run([LOCKCONVERT, *words], capture_output=True, check=False, timeout=60)


def events_of(text):
    """Of each processor, the events of a text: task, name, and the lock's address of those that have one."""
    processors = {}
    for match in filter(None, map(LINE, text.splitlines(True))):
        _, pid, processor, _, _, _, name, rest = match.groups()
        lock = int(rest.split()[0], 16) if 'acquire' in name or 'release' in name else None
        processors.setdefault(int(processor), []).append((int(pid), name, lock))
    return processors


def events_reported(name):
    """The same by `trace-cmd report`."""
    said = subprocess.run(['trace-cmd', 'report', '-R', name], capture_output=True, check=True).stdout.decode('latin-1')
    processors = {}
    for match in filter(None, map(REPORTED, said.splitlines())):
        _, pid, processor, event, rest = match.groups()
        lock = int(LOCK(rest)[1], 16) if 'acquire' in event or 'release' in event else None
        processors.setdefault(int(processor), []).append((int(pid), event, lock))
    return processors


class TraceDat(unittest.TestCase):

    def setUp(self):
        self.place = tempfile.mkdtemp()
        self.addCleanup(shutil.rmtree, self.place)
        self.name = os.path.join(self.place, 'run.dat')

    def parts(self, text, **how):
        folder = os.path.join(self.place, 'kernel')
        shutil.rmtree(folder, ignore_errors=True)
        Ring(folder, **how).write(text.splitlines(True))
        self.folder = folder
        return dat.Parts(folder)

    def write(self, data, name=None):
        name = name or self.name
        with open(name, 'wb') as file:
            file.write(data)
        return name

    def text(self, data):
        ran = run(self.write(data))
        self.assertEqual((ran.returncode, ran.stderr), (0, b''))
        return ran.stdout

    def fault(self, data, said):
        """That a file has this fault, named once with its offset, and no text."""
        ran = run(self.write(data))
        self.assertEqual((ran.returncode, ran.stdout), (2, b''), said)
        self.assertIn(said, ran.stderr.decode())
        self.assertRegex(ran.stderr.decode(), r'\Alockconvert: .*run\.dat: offset \d+: .*\n\Z')

    def convert(self, *words):
        output, errors = io.TextIOWrapper(io.BytesIO(), encoding='ascii'), io.StringIO()
        with contextlib.redirect_stdout(output), contextlib.redirect_stderr(errors):
            status = CONVERT.main(list(words))
        return Result(status, output.buffer.getvalue().decode('ascii').splitlines(), errors.getvalue())

    def trace_cmd(self, *words):
        return subprocess.run(['trace-cmd', *words], capture_output=True, check=True)

    def test_the_text_is_that_of_the_folder_with_the_same_pages(self):
        for name in RECORDINGS:
            for how in ({}, {'page': 65536}, {'page': 512, 'word': 4}):
                with self.subTest(name=name, **how):
                    parts = self.parts(text_of(name), **how)
                    wanted = run(self.folder)
                    self.assertEqual((wanted.returncode, wanted.stdout.count(b'\n') > 100), (0, True))
                    self.assertEqual(self.text(dat.version_6(parts)[0]), wanted.stdout)
                    self.assertEqual(self.text(dat.version_7(parts)[0]), wanted.stdout)

    def test_the_stream_and_the_map_are_those_of_the_folder(self):
        parts = self.parts(text_of('processors/trace.xz'))
        results = []
        for number, name in enumerate((self.folder, self.write(dat.version_6(parts)[0]),
                                       self.write(dat.version_7(parts)[0], os.path.join(self.place, 'other')))):
            places = os.path.join(self.place, f'map-{number}')
            result = self.convert('--label', 'a', '--map', places, name)
            with open(places, 'rb') as file:
                results.append((result.status, result.stream, result.comments, result.errors, file.read()))
        self.assertEqual(results[0][0], 0, results[0][3])
        self.assertGreater(len(results[0][1]), 100)
        self.assertEqual(results[1], results[0])
        self.assertEqual(results[2], results[0])

    def test_the_trace_has_the_label_of_the_folder_of_trace_dat(self):
        folder = os.path.join(self.place, 'run-1')
        os.mkdir(folder)
        data = dat.version_6(self.parts(SMALL))[0]
        for name, label in (('trace.dat', 'run-1'), ('other.dat', 'kernel')):
            result = self.convert(self.write(data, os.path.join(folder, name)))
            self.assertEqual((result.status, result.stream[0]), (0, 'trace ' + label), result.errors)

    @unittest.skipUnless(HAS_TRACE_CMD, NO_TRACE_CMD)
    def test_trace_cmd_reads_the_same_events(self):
        for name in RECORDINGS:
            with self.subTest(name=name):
                text = text_of(name)
                parts, wanted = self.parts(text), events_of(text)
                self.assertGreater(sum(map(len, wanted.values())), 100)
                for data in dat.version_6(parts)[0], dat.version_7(parts)[0]:
                    self.assertEqual(events_reported(self.write(data)), wanted)

    @unittest.skipUnless(HAS_TRACE_CMD, NO_TRACE_CMD)
    def test_files_that_trace_cmd_writes(self):
        wanted = self.text(dat.version_6(self.parts(text_of('processors/trace.xz')))[0])
        others = {}
        for version in '6', '7':
            others[version] = os.path.join(self.place, f'other-{version}.dat')
            self.trace_cmd('convert', '--file-version', version, '--compression', 'none', '-i', self.name,
                           '-o', others[version])
            with open(others[version], 'rb') as file:
                self.assertIn(b'tracing' + version.encode() + b'\0', file.read(20))
            self.assertEqual(run(others[version]).stdout, wanted)

    @unittest.skipUnless(HAS_TRACE_CMD, NO_TRACE_CMD)
    def test_a_compressed_file_is_read_after_the_command_that_is_named(self):
        wanted = self.text(dat.version_6(self.parts(text_of('processors/trace.xz')))[0])
        ways = self.trace_cmd('list', '-c').stdout.decode()
        if not re.search(r'zstd|zlib', ways):
            self.skipTest('this trace-cmd compresses nothing')
        packed = os.path.join(self.place, 'packed.dat')
        self.trace_cmd('convert', '-i', self.name, '-o', packed)
        ran = run(packed)
        self.assertEqual((ran.returncode, ran.stdout), (2, b''))
        told = CONVERT_IT % packed
        self.assertIn(told, ran.stderr.decode())
        new = os.path.join(self.place, 'NEW.dat')
        subprocess.run(told.strip('`').replace('NEW.dat', new).split(), capture_output=True, check=True)
        self.assertEqual(run(new).stdout, wanted)

    def test_a_compressed_section(self):
        file = dat.version_7(self.parts(SMALL))[0]
        at = struct.unpack_from('<Q', file, 24)[0]
        file[at + 2] = 1
        self.fault(file, f'offset {at}: compressed: ' + CONVERT_IT % self.name)

    def test_symbols(self):
        parts = self.parts(SMALL)
        for data in dat.version_6(parts)[0], dat.version_7(parts)[0]:
            self.assertEqual(run('--symbols', self.write(data)).stdout, parts.kallsyms)
        self.assertEqual(run('--symbols', self.folder).stdout, parts.kallsyms)
        data = dat.version_7(parts, left_out=(dat.KALLSYMS,))[0]
        ran = run('--symbols', self.write(data))
        self.assertEqual((ran.returncode, ran.stdout), (0, b''))
        places = os.path.join(self.place, 'map')
        self.assertEqual(self.convert('--map', places, self.name).status, 0)
        with open(places, 'rb') as file:
            self.assertIn(b'place 1 ? ', file.read())

    def test_without_names_of_tasks_and_without_a_clock(self):
        parts = self.parts(SMALL)
        text = self.text(dat.version_7(parts, left_out=(dat.CMDLINES,))[0])
        self.assertEqual(text, self.text(dat.version_6(parts)[0]).replace(b'    t-', b'<...>-').replace(b'    s-', b'<...>-'))
        # Times are of the kernel's first clock, as those of this recording are.
        self.assertEqual(self.text(dat.version_6(parts, options=())[0]), self.text(dat.version_6(parts)[0]))

    def test_numbers_of_processors(self):
        text = self.text(dat.version_7(self.parts(SMALL), numbers=(2, 5))[0])
        # All events have one time: those of the lowest processor come first.
        self.assertEqual(re.findall(rb'\[(\d+)\]', text), [b'002', b'002', b'005', b'005'])
        for numbers in (5, 2), (2, 2), (0, 65536):
            file, table = dat.version_7(dat.Parts(self.folder), numbers=numbers)
            self.fault(file, f'offset {table + 20}: the numbers of the processors')

    def test_a_fault_in_pages_names_the_processor(self):
        file, table = dat.version_7(self.parts(SMALL), numbers=(2, 5))
        file[struct.unpack_from('<Q', file, table + 24)[0] + 10] = 1
        ran = run(self.write(file))
        self.assertEqual((ran.returncode, ran.stdout), (2, b''))
        self.assertIn(b'processor 5, page 0, offset 0: more data than the page', ran.stderr)

    def test_a_fault_in_a_text_names_the_file(self):
        for name, said in ((b'name: acquire', 'run.dat: events/lockcheck/acquire/format:3: not `format:`'),
                           (b'\tfield: u64 timestamp', 'run.dat: events/header_page:1: not a field')):
            file = dat.version_6(self.parts(SMALL))[0]
            at = file.index(b'format:', file.index(name)) if name.startswith(b'name') else file.index(name)
            file[at:at + 1] = b'!'
            ran = run(self.write(file))
            self.assertEqual((ran.returncode, ran.stdout), (2, b''))
            self.assertIn(said, ran.stderr.decode())

    def test_what_is_no_file_that_can_be_read(self):
        parts = self.parts(SMALL)
        six, table = dat.version_6(parts)
        word = six.index(b'flyrecord')
        for at, data, said in ((0, b'!', 'offset 0: no file of `trace-cmd record`'),
                               (10, b'5', 'offset 10: a version'),
                               (12, b'\1', 'offset 12: a recording of a big endian machine'),
                               (18, b'!', 'offset 18: not the name'),
                               (word, b'latency  \0', f'offset {word}: the text of a latency tracer'),
                               (word, b'!', f'offset {word}: not the name')):
            changed = bytearray(six)
            changed[at:at + len(data)] = data
            self.fault(changed, said)
        self.fault(b'', 'offset 0: the file ends here')

    def test_options_that_are_refused(self):
        parts = self.parts(SMALL)
        for option, said in (((dat.GUEST, b'x\0'), 'a recording of a host and its guests'),
                             ((dat.TIME_SHIFT, b'x'), 'a recording of a host and its guests'),
                             ((dat.BUFFER, b'x'), 'a second buffer'),
                             ((dat.BUFFER_TEXT, b'x'), 'the text of a latency tracer')):
            self.fault(dat.version_6(parts, options=(option,))[0], said)
            self.fault(dat.version_7(parts, others=(option,))[0], said)
        self.fault(dat.version_7(parts, others=((dat.HEADER_INFO, bytes(8)),))[0], 'a second option')

    def test_missing_sections(self):
        parts = self.parts(SMALL)
        for number in dat.HEADER_INFO, dat.EVENT_FORMATS, dat.BUFFER:
            self.fault(dat.version_7(parts, left_out=(number,))[0], 'no option says where')

    def test_sections_of_another_kind(self):
        file = dat.version_7(self.parts(SMALL))[0]
        at = file.index(b'header_page\0') - 16
        file[at] = dat.KALLSYMS
        self.fault(file, f'offset {at}: not the section')

    def test_options_that_go_back(self):
        file = dat.version_7(self.parts(SMALL))[0]
        first = struct.unpack_from('<Q', file, 24)[0]
        done = first + 16 + struct.unpack_from('<Q', file, first + 8)[0] - 8
        file.put(done, first)
        self.fault(file, f'offset {done}: the next options stand before the end of these')

    def test_pages_that_overlap_or_are_beyond_the_file(self):
        parts = self.parts(SMALL)
        for file, table, row in ((*dat.version_6(parts), 16), (*dat.version_7(parts), 20)):
            second = table + row + (4 if row == 20 else 0)
            low = struct.unpack_from('<Q', file, second - row)[0]
            for at, value, said in ((second, low, f'offset {second}: the pages of a processor begin'),
                                    (second, low + dat.PAGE - 1, f'offset {second}: the pages of a processor begin'),
                                    (second - row, 16, f'offset {second - row}: the pages of a processor begin'),
                                    (second, 1 << 63, f'offset {1 << 63}: the file ends here'),
                                    (second + 8, (1 << 64) - 1, f'offset {low + dat.PAGE}: the file ends here')):
                changed = dat.File(6)
                changed[:] = file
                changed.put(at, value)
                self.fault(changed, said)

    def test_sizes_beyond_the_file(self):
        file = dat.version_6(self.parts(SMALL))[0]
        at = file.index(b'header_page\0') + 12
        for value in len(file), 1 << 63, (1 << 64) - 1:
            file.put(at, value)
            self.fault(file, f'offset {at + 8}: the file ends here')
        file = dat.version_6(self.parts(SMALL))[0]
        at = file.index(b'header_event\0') + 13
        at += 8 + struct.unpack_from('<Q', file, at)[0]
        file.put(at, 0xffffffff, 4)
        self.fault(file, 'the file ends here')

    def test_cut_files(self):
        parts = self.parts(SMALL)
        for file in dat.version_6(parts)[0], dat.version_7(parts)[0]:
            for at in {*file.parts, *(at + 1 for at in file.parts), *(at - 1 for at in file.parts), len(file) - 1}:
                if 0 <= at < len(file):
                    with self.subTest(at=at):
                        self.fault(file[:at], 'offset ')

    def test_changed_bytes_give_a_fault_or_a_text(self):
        drawn = random.Random(78)
        text = ''.join(text_of('linux-6.12/trace.xz').splitlines(True)[:40])
        parts = self.parts(text + line('lock_acquire: 0000000000000020 try read x', cpu=3, columns='b.s..'))
        files = [dat.version_6(parts)[0], dat.version_7(parts)[0]]
        for number in range(400):
            file = bytearray(files[number % 2])
            ends = [at for at in files[number % 2].parts if at < len(file)]
            for _ in range(drawn.choice((1, 1, 3))):
                # Sizes, offsets and names stand where a part begins.
                at = drawn.choice((drawn.randrange(len(file)), min(drawn.choice(ends) + drawn.randrange(24), len(file) - 1)))
                file[at] ^= 1 << drawn.randrange(8)
            with self.subTest(number=number):
                ran = run(self.write(file))
                self.assertIn(ran.returncode, (0, 2), ran.stderr)
                self.assertEqual(ran.returncode == 2, ran.stderr.startswith(b'lockconvert: '), ran.stderr)
                self.assertEqual(ran.returncode == 2, ran.stderr != b'')
                self.assertTrue(ran.returncode == 2 or ran.stdout.startswith(b'# tracer: nop\n'))


if __name__ == '__main__':
    unittest.main()
