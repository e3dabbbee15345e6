"""`--check`: whether a copy of /proc/lockdep_chains has the dependencies of a stream."""
import unittest

from texts import acquire, file_with, release, run, stock
from test_processors import file

A, B, C, D = 0x1000, 0x2000, 0x3000, 0x4000  # addresses of locks
A_KEY, B_KEY, C_KEY, D_KEY = 0x500, 0x600, 0x700, 0x800
# The chain of A and B, and that of A, B and C.
CHAINS = '''\
all lock chains:
irq_context: 0
[0000000000000500] a
[0000000000000600] b

irq_context: hardirq|softirq
[0000000000000500] a
[0000000000000600] b
[0000000000000700] two words

'''


class Check(unittest.TestCase):

    def check(self, text, chains=CHAINS):
        """What it says last."""
        with file_with(chains) as name:
            result = run(text, '--check', name)
        self.assertEqual(result.status, 0, result.errors)
        lines = result.errors.splitlines()
        first = next(number for number, line in enumerate(lines) if 'lockdep_chains' in line)
        return [line.removeprefix('convert: ') for line in lines[first:]]

    def test_all_are_there(self):
        text = acquire('a', A, key=A_KEY) + acquire('b', B, key=B_KEY) + acquire('c', C, key=C_KEY)
        self.assertEqual(self.check(text), ["2 of 2 dependencies are in this boot's lockdep_chains"])

    def test_those_that_are_not_are_named(self):
        text = acquire('b', B, key=B_KEY) + acquire('a', A, key=A_KEY) + acquire('d', D, key=D_KEY)
        self.assertEqual(self.check(text), [
            "0 of 2 dependencies are in this boot's lockdep_chains", 'not in lockdep_chains: b -> a',
            'not in lockdep_chains: a -> d'])

    def test_no_more_than_twenty_are_named(self):
        text = ''.join(acquire('k%d' % number, A + 16 * number, key=0x100000 + number) for number in range(32))
        said = self.check(text)
        self.assertEqual((len(said), said[-1]), (22, 'and 11 more are not'))

    def test_lockdep_looks_up_to_the_first_that_was_no_trylock(self):
        text = (acquire('a', A, key=A_KEY) + acquire('b', B, key=B_KEY, trylock=1) + acquire('d', D, key=D_KEY))
        self.assertEqual(self.check(text)[0], "0 of 2 dependencies are in this boot's lockdep_chains")
        text = (acquire('a', A, key=A_KEY) + acquire('b', B, key=B_KEY) + acquire('d', D, key=D_KEY))
        self.assertEqual(self.check(text)[0], "1 of 2 dependencies are in this boot's lockdep_chains")

    def test_a_trylock_and_another_handler_give_none(self):
        text = (acquire('a', A, key=A_KEY) + acquire('d', D, key=D_KEY, trylock=1) + release(D)
                + acquire('d', D, key=D_KEY, columns='d.h..'))
        self.assertEqual(self.check(text), ["0 of 0 dependencies are in this boot's lockdep_chains"])

    def test_readers_are_of_their_class(self):
        text = (acquire('a', A, key=A_KEY, read=2) + acquire('b', B, key=B_KEY, read=2)
                + acquire('c', C, key=C_KEY, read=1))
        self.assertEqual(self.check(text), ["2 of 2 dependencies are in this boot's lockdep_chains"])

    def test_static_locks_and_subclasses(self):
        chains = '[0000000000001000] a\n[0000000000000601] b\n'
        text = acquire('a', A, key=0) + acquire('b', B, key=B_KEY + 1, subclass=1)
        self.assertEqual(self.check(text, chains), ["1 of 1 dependencies are in this boot's lockdep_chains"])

    def test_a_recording_and_its_own_chains(self):
        # The copy is of the dependencies that /proc/lockdep doesn't show.
        said = self.check(file('trace'), file('chains'))
        self.assertRegex(said[0], "^[1-9][0-9]* of [1-9][0-9]* dependencies are in this boot's lockdep_chains$")

    def test_events_that_show_no_class(self):
        with file_with(CHAINS) as name:
            errors = run(stock('acquire', A, 'a') + stock('acquire', B, 'b'), '--check', name).errors
        self.assertIn('--check has no effect on these events', errors)
        self.assertNotIn('lockdep_chains', errors)

    def test_files_that_are_none(self):
        for text, words in (('', 'has no chain of two classes'), ('all lock chains:\n', 'has no chain of two classes'),
                            ('x\n', 'line 1'), (CHAINS + '[0000', 'line 11'),
                            ('[(____ptrval____)] a\n', 'boot with no_hash_pointers')):
            with self.subTest(text=text), file_with(text) as name:
                result = run(acquire('a', A), '--check', name)
                self.assertEqual((result.status, result.stream), (2, []))
                self.assertIn('the file of --check', result.errors)
                self.assertIn(words, result.errors)
        self.assertEqual(run(acquire('a', A), '--check', '/nowhere/chains').status, 2)


if __name__ == '__main__':
    unittest.main()
