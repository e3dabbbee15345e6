"""A copy of /proc/kallsyms: in which function or variable an address lies, as a kernel's own text tells it."""
import bisect
import re

from text import Damaged, quote

LINE = re.compile(r'([0-9a-f]+) \S ([^\s]+)(?:\t(\[[^\s\]]+\]))?\n').fullmatch
BEHIND = 4096  # how far behind the begin of a module's last symbol an address may be of it


class Symbols:
    """The symbols of a kernel and of its modules, by their addresses."""

    def __init__(self, lines):
        own, modules = {}, {}
        for number, line in enumerate(lines, 1):
            match = LINE(line)
            if match is None:
                raise Damaged(f'the file kallsyms, line {number}: {quote(line.strip())}')
            # Of several symbols with one address the kernel tells the first.
            (modules if match[3] else own).setdefault(int(match[1], 16), (match[2], match[3]))
        first, last = (min((at for at, (name, _) in own.items() if name == end), default=None)
                       for end in ('_stext', '_end'))
        if first is None or last is None:
            raise Damaged('the file kallsyms has not both _stext and _end')
        if first == 0:
            raise Damaged('the file kallsyms has no addresses: copy it as root, with kptr_restrict 0 or 1')
        self.symbols = {**modules, **{at: it for at, it in own.items() if first <= at <= last}}
        self.starts = sorted(self.symbols)
        self.last = last

    def found(self, text):
        """Of a text of digits: the symbol that the address lies in, its module, how far it is from its begin, and
        how long it is; None where it lies in none."""
        address = int(text, 16)
        place = bisect.bisect_right(self.starts, address)
        if place == 0:
            return None
        start = self.starts[place - 1]
        name, module = self.symbols[start]
        end = self.starts[place] if place < len(self.starts) else start + BEHIND
        if module:
            end = min(end, start + BEHIND) if self.symbols.get(end, (None, None))[1] != module else end
        elif start == self.last:
            return None
        if address >= end:
            return None
        return name, module, address - start, end - start

    def name(self, text):
        """The symbol that the address lies in, as a kernel's %ps tells it; the text where it lies in none."""
        found = self.found(text)
        return text if found is None else found[0] + (f' {found[1]}' if found[1] else '')

    def place(self, text):
        """The same with how far the address is from the symbol's begin, and the symbol's length (%pS)."""
        found = self.found(text)
        if found is None:
            return text
        return f'{found[0]}+0x{found[2]:x}/0x{found[3]:x}' + (f' {found[1]}' if found[1] else '')


class NoSymbols:
    """In the place of symbols for a text that has names already."""

    @staticmethod
    def name(text):
        return text

    place = name
