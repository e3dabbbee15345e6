"""Recordings with lines that are missing, twice, out of order or changed: what is read is no trace that is refused."""
import random
import re
import unittest

from texts import run  # finds the converter, so it comes first
from test_planted import recording, report
from test_processors import file

COLUMNS = re.compile(r'(\[\d+\] )(\S{5})( +)([\d.]+)(: )')
LINES = 400     # of each text
MUTANTS = 40    # of each kind


def without_some(lines, chance):
    return [line for line in lines if chance.random() > 0.1]


def with_some_twice(lines, chance):
    return [line for line in lines for _ in range(1 + (chance.random() < 0.1))]


def with_some_changed(lines, chance):
    """Some lines are changed places with another, and some get other flags, or count other locks of lockdep."""
    lines = list(lines)
    for _ in range(40):
        first, second = chance.randrange(len(lines)), chance.randrange(len(lines))
        lines[first], lines[second] = lines[second], lines[first]
        flags, handler, held = chance.choice('.dbD'), chance.choice('.hsH'), chance.randrange(5)
        lines[first] = COLUMNS.sub(
            lambda match: match[1] + flags + match[2][1] + handler + ''.join(match.group(0)[len(match[1]) + 3:]),
            re.sub(r' h=\d+ ', f' h={held} ', lines[first]), count=1)
    return lines


def numbered(lines):
    """The text of lines, with times that go on."""
    return ''.join(COLUMNS.sub(rf'\g<1>\g<2> {number}\g<5>', line, count=1) for number, line in enumerate(lines))


class Mutated(unittest.TestCase):

    @classmethod
    def setUpClass(cls):
        cls.texts = [[line for line in text.splitlines(True) if COLUMNS.search(line)] for text in (
            file('trace'), file('trace', 'linux-6.12'), recording('plant-all').decode('latin-1'))]

    def converted(self, mutate, *words):
        """The streams of mutants of the recordings, one behind the other."""
        chance = random.Random(mutate.__name__)
        for number in range(MUTANTS):
            lines = chance.choice(self.texts)
            begin = chance.randrange(len(lines) - LINES)
            result = run(numbered(mutate(lines[begin:begin + LINES], chance)), *words)
            self.assertEqual(result.status, 0, result.errors)
            yield from result.stream

    def test_no_trace_is_refused(self):
        for mutate in without_some, with_some_twice, with_some_changed:
            for words in (), ('--cut', '20'):
                with self.subTest(mutate=mutate.__name__, words=words):
                    status, rows = report(list(self.converted(mutate, *words)))
                    self.assertIn(status, (0, 1))
                    self.assertRegex(rows[0], '^traces [1-9][0-9]* refused 0 events [1-9][0-9]{3}')


if __name__ == '__main__':
    unittest.main()
