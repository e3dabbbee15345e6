"""Comments behind the stream: how the locks of a class were acquired one under another."""
import unittest

from texts import acquire, file_with, release, run, stock

A, B, C = 0x1000, 0x2000, 0x3000  # addresses of locks


def comments(*lines, words=()):
    return run(''.join(lines), *words).comments


def under(outer, inner, name='a', **words):
    return acquire(name, outer) + acquire(name, inner, **words) + release(inner) + release(outer)


class Instances(unittest.TestCase):

    def test_in_one_order_of_addresses(self):
        self.assertEqual(comments(under(A, B), under(A, B), under(B, C)), ['# instances a 3 3 upwards'])
        self.assertEqual(comments(under(C, B)), ['# instances a 1 2 downwards'])

    def test_in_another_order_without_a_cycle(self):
        self.assertEqual(comments(under(A, C), under(C, B)), ['# instances a 2 3 order'])

    def test_with_a_cycle(self):
        self.assertEqual(comments(under(A, B), under(B, A)), ['# instances a 2 2 cycle @1000 @2000 @1000'])
        self.assertEqual(comments(under(A, B), under(B, C), under(C, A), under(A, C)),
                         ['# instances a 4 3 cycle @1000 @2000 @3000 @1000'])
        # The way to the cycle is no part of it.
        self.assertEqual(comments(under(A, C), under(C, B), under(B, C)), ['# instances a 3 3 cycle @3000 @2000 @3000'])

    def test_one_lock_under_itself(self):
        self.assertEqual(comments(under(A, A)), ['# instances a 1 1 cycle @1000 @1000'])
        self.assertEqual(comments(under(A, B), under(B, B)), ['# instances a 2 2 cycle @2000 @2000'])

    def test_stand_behind_the_last_trace_by_name(self):
        result = run(under(A, B, 'b') + under(A, B), '--cut', '3')
        self.assertEqual(result.comments,
                         ['# instances a 1 2 upwards', '# instances b 1 2 upwards'])
        self.assertIn('trace kernel.2', result.stream)

    def test_what_is_no_recursion(self):
        self.assertEqual(comments(under(A, B, trylock=1), acquire('a', A) + acquire('b', B)), [])
        self.assertEqual(comments(acquire('a', A), acquire('a', B, columns='d.h..')), [])
        self.assertEqual(comments(acquire('a', A, key=0x500), acquire('a', B, key=0x501, subclass=1)), [])

    def test_of_a_subclass(self):
        self.assertEqual(
            comments(acquire('a', A, key=0x501, subclass=1), acquire('a', B, key=0x501, subclass=1)),
            ['# instances a/1 1 2 upwards'])

    def test_of_readers(self):
        self.assertEqual(comments(acquire('a', A, read=1), acquire('a', B, read=1)),
                         ['# instances a 1 2 upwards'])
        self.assertEqual(comments(acquire('a', A, read=2), acquire('a', B, read=2)), [])
        self.assertEqual(comments(acquire('a', A), acquire('a', B, read=2)),
                         ['# instances a!read 1 2 upwards'])
        self.assertEqual(comments(acquire('a', A, read=2), acquire('a', B)), ['# instances a 1 2 upwards'])

    def test_of_the_kernel_s_own_events(self):
        self.assertEqual(comments(stock('acquire', A, 'a'), stock('acquire', B, 'a')),
                         ['# instances a 1 2 upwards'])

    def test_they_are_lines_of_the_map(self):
        with file_with('') as name:
            result = run(under(A, B), '--map', name)
            lines = result.stream + result.comments
            with open(name, 'rb') as file:
                text = file.read()
        self.assertIn(b'\nlines %d bytes 2\n' % len(lines), text)
        self.assertEqual(len(text.partition(b'\nnumbers\n')[2]), 2 * len(lines))


if __name__ == '__main__':
    unittest.main()
