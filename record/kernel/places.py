"""The map of a stream: which function acquired what a line acquires."""
import array
import sys
import tempfile
from collections import Counter

from classes import SPECIAL_OF_TASK, escape
from sites import ADDRESS

MOST_OF_TWO_BYTES = 65535


class Places:
    """The places of a stream, by the text that an event has of the function that acquired."""

    def __init__(self):
        self.by_text = {}
        self.taken = Counter()  # by class and place
        self.numbers = tempfile.TemporaryFile('w+b')
        self.lines = 0

    def numbered(self, places, count):
        """The places of so many lines, 0 where there is none."""
        numbers = [0] * count
        for line, site, name in places:
            number = numbers[line] = self.number(site.caller)
            if name is not None and number:
                self.taken[name, number] += 1
        return numbers

    def number(self, caller):
        if caller is None:
            return 0
        return self.by_text.setdefault(caller, len(self.by_text) + 1)

    def keep(self, numbers):
        self.lines += len(numbers)
        self.numbers.write(packed('I', numbers))

    def write(self, file):
        """Writes the map, whose form docs/PROGRAMS.md has."""
        width = 2 if len(self.by_text) <= MOST_OF_TWO_BYTES else 4
        lines = ['places 1', f'lines {self.lines} bytes {width}']
        for text, number in self.by_text.items():
            lines.append(f'place {number} {function_of(text)} {escape(text, SPECIAL_OF_TASK)}')
        for (name, number), count in sorted(self.taken.items(), key=lambda each: (each[0][0], -each[1], each[0][1])):
            lines.append(f'taken {name} {number} {count}')
        file.write(''.join(f'{line}\n' for line in [*lines, 'numbers']).encode('ascii'))
        self.numbers.seek(0)
        while block := self.numbers.read(1 << 20):
            file.write(block if width == 4 else packed('H', unpacked(block)))


def packed(kind, numbers):
    """Numbers of two bytes (H) or of four (I), the least byte first."""
    values = array.array(kind, numbers)
    if sys.byteorder == 'big':
        values.byteswap()
    return values.tobytes()


def unpacked(block):
    values = array.array('I', block)
    if sys.byteorder == 'big':
        values.byteswap()
    return values


def function_of(caller):
    """The name of the function, `?` where the kernel had none for the address."""
    name = caller.partition('+')[0]
    return '?' if ADDRESS(name) else escape(name, SPECIAL_OF_TASK)
