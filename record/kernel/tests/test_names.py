"""Names of classes and of locks."""
import unittest
import zlib
from unittest import mock

from texts import CONVERT, HEADER, acquire, file_with, release, run, stream

A, B, C, N = 0x1000, 0x2000, 0x3000, 0x4000  # addresses of locks


class Names(unittest.TestCase):

    def name(self, text):
        return stream(acquire(text, A))[0].split(' ', 2)[2]

    def test_plain_bytes_stay(self):
        self.assertEqual(self.name('(wq_completion)&(&x->lock)[i]~^'), '(wq_completion)&(&x->lock)[i]~^@1000')

    def test_special_bytes(self):
        self.assertEqual(self.name('a b@c/d%e!f#g\xe9\t'), 'a%20b%40c%2Fd%25e%21f%23g%E9%09@1000')

    def test_name_of_64_bytes_stays(self):
        self.assertEqual(self.name('n' * 64), 'n' * 64 + '@1000')

    def test_longer_name_is_cut_and_has_a_checksum(self):
        checksum = zlib.crc32(b'n' * 65)
        self.assertEqual(self.name('n' * 65), 'n' * 55 + '~%08x@1000' % checksum)
        self.assertNotEqual(self.name('n' * 65 + 'a'), self.name('n' * 65 + 'b'))
        self.assertEqual(len(self.name('/' * 40)), 64 + len('@1000'))

    def test_keys_of_one_name_are_numbered(self):
        self.assertEqual(
            stream(acquire('a', A, key=0x500), acquire('a', B, key=0x600), acquire('a', C, key=0x500)),
            ['acquire t-1 a@1000', 'acquire t-1 a#2@2000', 'acquire t-1 a@3000'])

    def test_name_with_special_bytes_is_no_numbered_name(self):
        self.assertEqual(stream(acquire('a', A, key=0x500), acquire('a', B, key=0x600), acquire('a#2', C, key=0x700)),
                         ['acquire t-1 a@1000', 'acquire t-1 a#2@2000', 'acquire t-1 a%232@3000'])

    def test_names_by_lockdep(self):
        lockdep = '''\
all lock classes:
0000000000000500 FD:    1 BD:   12 ....: &a->lock#4

0000000000000601 FD:  106 BD:    2 +.+.: &type->s_umount_key#2/1
 -> [0000000000000500] &a->lock#4

0000000000000700 OPS:      17 FD:    1 BD:    1 -.-.: two words
0000000000000800: plain
'''
        with file_with(lockdep) as name:
            result = run(acquire('a', A, key=0x500) + acquire('b', B, key=0x601, subclass=1)
                         + acquire('c', C, key=0x700) + acquire('d', N, key=0x800)
                         + acquire('plain', 0x5000, key=0x900), '--lockdep', name)
        self.assertEqual(
            result.stream[1:],
            ['acquire t-1 &a->lock#4@1000', 'nested t-1 &type->s_umount_key#2@2000 1', 'acquire t-1 two%20words@3000',
             'acquire t-1 plain@4000', 'acquire t-1 plain#2@5000'])
        self.assertIn('1 classes are not in the file of --lockdep', result.errors)

    def test_lockdep_never_gives_two_keys_one_name(self):
        with file_with('0500 FD:    1 BD:    1 ....: a\n0600 FD:    1 BD:    1 ....: a\n') as name:
            lines = stream(acquire('a', A, key=0x500), acquire('a', B, key=0x600), words=('--lockdep', name))
        self.assertEqual(lines, ['acquire t-1 a@1000', 'acquire t-1 a#2@2000'])

    def test_a_name_by_lockdep_that_ends_as_a_subclass_does(self):
        with file_with('0500 FD:    1 BD:    1 ....: a/1\n0600 FD:    1 BD:    1 ....: a/8\n') as name:
            lines = stream(acquire('a/1', A, key=0x500), acquire('a/8', B, key=0x600), words=('--lockdep', name))
        self.assertEqual(lines, ['acquire t-1 a%2F1@1000', 'acquire t-1 a%2F8@2000'])

    def test_a_subclass_that_is_set_for_the_lock_shows_in_its_class_alone(self):
        with file_with('0500 FD:    1 BD:    1 ....: a\n0501 FD:    1 BD:    1 ....: a/1\n') as name:
            text = (acquire('a', A, key=0x500) + acquire('a', B, key=0x501)
                    + acquire('a', C, key=0x501, subclass=1) + acquire('a', N, key=0x501, trylock=1))
            lines = run(text, '--lockdep', name).stream[1:]
        self.assertEqual(lines, ['acquire t-1 a@1000', 'nested t-1 a@2000 1', 'nested t-1 a@3000 1', 'try t-1 a!1@4000'])

    def test_tasks(self):
        self.assertEqual(
            stream(acquire('a', A, task='kworker/0:1-8'), release(A, task='renamed-8'),
                   acquire('a', A, task='two words-9'), acquire('a', B, task='x-1] [000]-10'),
                   acquire('a', C, task='<...>-4194304')),
            ['acquire kworker/0:1-8 a@1000', 'release kworker/0:1-8 a@1000', 'acquire two%20words-9 a@1000',
             'acquire x-1]%20[000]-10 a@2000', 'acquire <...>-4194304 a@3000'])

    def test_names_of_tasks_with_line_ends(self):
        # prctl sets any name. A line of the stream is of the last of its lines.
        text = HEADER + ''.join((acquire('a', A, task='a\nb-12'), acquire('b', B, task='t-1'), release(A, task='a\nb-12'),
                                 acquire('a', A, task='\n\n => [0] 1: c-7'), acquire('c', C, task='\n12345678901234-8'),
                                 acquire('d', N, task='123456789012345-9')))
        lines = ['acquire a%0Ab-12 a@1000', 'acquire t-1 b@2000', 'release a%0Ab-12 a@1000',
                 'acquire =>%20[0]%201:%20c-7 a@1000', 'acquire 12345678901234-8 c@3000',
                 'acquire 123456789012345-9 d@4000']
        for count in range(1, 24):
            with mock.patch.object(CONVERT, 'LINES_AT_ONCE', count), file_with('') as name:
                result = run(text, '--lines', name)
                self.assertEqual((result.status, result.stream[1:]), (0, lines), result.errors)
                with open(name) as numbers:
                    self.assertEqual(numbers.read().split()[1:], ['14', '15', '17', '20', '22', '23'])

    def test_a_name_that_goes_on_for_too_long(self):
        for name in ('a\n', ' \n', '\n\n'):
            for text in (HEADER + acquire('a', A) + ' ' * 12 + name,
                         HEADER + acquire('a', A) + ' ' * 12 + name + acquire('b', B)):
                with self.subTest(text=text):
                    result = run(text)
                    self.assertEqual((result.status, result.stream), (2, []))
                    self.assertRegex(result.errors, 'line 1[456]: (no line of a recording|an empty line)')

    def test_idle_tasks_are_one_for_each_processor(self):
        self.assertEqual(
            stream(acquire('a', A, task='<idle>-0', cpu=0), acquire('a', B, task='<idle>-0', cpu=12),
                   release(A, task='<idle>-0', cpu=0)),
            ['acquire idle/0 a@1000', 'acquire idle/12 a@2000', 'release idle/0 a@1000'])

    def test_addresses_are_written_short(self):
        self.assertEqual(stream(acquire('a', 0xffff888012345678)), ['acquire t-1 a@ffff888012345678'])


class Symbols(unittest.TestCase):
    """A class of a name that lockdep has for several is called by the symbol that its key lies in."""

    LOCKDEP = '''\
0000000000000500 FD:    1 BD:    1 ....: a
0000000000000600 FD:    1 BD:    1 ....: a#2
0000000000000601 FD:    1 BD:    1 ....: a#2/1
0000000000000700 FD:    1 BD:    1 ....: b
0000000000000800 FD:    1 BD:    1 ....: a#3
'''

    def named(self, *lines):
        with file_with(self.LOCKDEP) as name:
            return [event.split(' ', 2)[2] for event in stream(*lines, words=('--lockdep', name))]

    def test_in_the_place_of_the_number(self):
        self.assertEqual(self.named(acquire('a', A, key=0x600, symbol='f.__key', before=0)), ['a#f.__key@1000'])
        self.assertEqual(self.named(acquire('a', A, key=0x600, symbol='ext4_fs_type [ext4]')),
                         ['a#ext4_fs_type[ext4]@1000'])

    def test_of_the_first_one_too(self):
        self.assertEqual(self.named(acquire('a', A, key=0x500, symbol='g.__key')), ['a#g.__key@1000'])

    def test_of_a_subclass(self):
        self.assertEqual(self.named(acquire('a', A, key=0x601, symbol='f.__key', subclass=1),
                                    acquire('a', B, key=0x600, symbol='f.__key')),
                         ['a#f.__key@1000 1', 'a#f.__key@2000'])

    def test_not_of_the_only_one_of_a_name(self):
        self.assertEqual(self.named(acquire('b', A, key=0x700, symbol='f.__key')), ['b@1000'])

    def test_not_where_the_kernel_has_none(self):
        for text in '0xffff888000000600', 'ffff888000000600':
            self.assertEqual(self.named(acquire('a', A, key=0x600, symbol=text)), ['a#2@1000'])

    def test_one_that_two_keys_lie_in_is_the_first_one_s(self):
        self.assertEqual(self.named(acquire('a', A, key=0x600, symbol='keys'),
                                    acquire('a', B, key=0x800, symbol='keys')),
                         ['a#keys@1000', 'a#3@2000'])

    def test_not_without_lockdep_s_numbers(self):
        self.assertEqual(stream(acquire('a', A, key=0x600, symbol='keys'),
                                acquire('a', B, key=0x800, symbol='others')),
                         ['acquire t-1 a@1000', 'acquire t-1 a#2@2000'])
        self.assertEqual(self.named(acquire('a', A, key=0x900, symbol='keys')), ['a#4@1000'])


if __name__ == '__main__':
    unittest.main()
