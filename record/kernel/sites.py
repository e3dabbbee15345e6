"""What acquisitions with the same text have in common: their class, and what they are in the stream."""
import re

from classes import LockClass, apart, escape, fitted, readers_of
from symbols import NoSymbols
from tasks import READ
from text import COLUMNS_INSIDE, Damaged, quote

STOPPED = '255'       # in place of a number of locks, where lockdep has stopped
MODULE_SITE = re.compile(r'k=([0-9a-f]+) s=(\d+) t=([01]) r=([0-2]) c=([01]) n=([0-9a-f]+) '
                         r'(?:h=(\d+) )?(?:y=(\S+(?: \[[^\s\]]+\])?) )?i=(\S+(?: \[[^\s\]]+\])?) (.+)\n').fullmatch
ADDRESS = re.compile(r'(?:0x)?[0-9a-f]{8,16}').fullmatch  # in the place of a symbol
STOCK_SITE = re.compile(r'(try )?(read )?(.+)\n').fullmatch
# Lockdep's kinds of acquisitions: by a writer, by a reader that waits for waiting writers, and by one that
# does not, which may read what its task reads already.
WRITER, READER, RECURSIVE = '0', '1', '2'
READS = {READER: 'reads', RECURSIVE: 'recursive reads'}  # as they are counted
WAITS_AS_READER = ' t=0 r=2 c=1 '
RECURSIVE_WAIT = re.compile(r' acquire: ([0-9a-f]+) k=([0-9a-f]+) s=(\d+) t=0 r=2 c=1 ').search


def recursive_keys(blocks):
    """The keys of the classes that a recursive reader waits for, anywhere in blocks of whole lines."""
    keys = set()
    for block in blocks:
        at = block.find(WAITS_AS_READER)
        while at >= 0:
            match = RECURSIVE_WAIT(block, block.rfind('\n', 0, at) + 1)
            if match:
                address, key, subclass = match.groups()
                keys.add(int(key, 16) or int(address, 16) + int(subclass))
            at = block.find(WAITS_AS_READER, at + 1)
    return keys


def symbol_of(text):
    """The symbol, with its module in brackets if it is one's; None where the kernel has none for the key."""
    return None if text is None or ADDRESS(text) else text.replace(' ', '')


class Site:
    """What acquisitions with the same text after the lock's address have in common."""
    __slots__ = ('verb', 'reads', 'left_out', 'lock_class', 'reader_class', 'key', 'subclass', 'text', 'nest',
                 'before', 'caller', 'symbol')

    def __init__(self, text, trylock, kind=WRITER, left_out=None):
        self.verb = 'try' if trylock else READ if kind == RECURSIVE else 'acquire'
        self.reads = READS.get(kind)
        self.left_out = left_out  # None, or why the stream doesn't have it
        self.text = text          # the lock's name in the event
        self.lock_class = None
        self.reader_class = None  # NAME!read, where the acquisition has to do with it
        self.key = self.subclass = 0  # of the class; no key where it is the lock's own address
        self.nest = None          # the address of a lock under which many of a class may be held
        self.caller = None        # the function that acquired, with its offset
        self.symbol = None        # what the key lies in
        self.before = None        # how many locks lockdep has of the task before this one; None: not told


class Sites:
    """The sites of a recording, by the text of an event after the lock's address."""

    def __init__(self, classes, recursive, no_readers, unchecked, symbols=None):
        self.classes = classes
        self.symbols = symbols or NoSymbols()
        self.recursive = recursive  # keys of the classes that a recursive reader waits for
        self.no_readers = no_readers
        self.unchecked = unchecked  # names of locks that the kernel's own events don't tell to be so
        self.by_text = {}
        self.kinds = set()          # whose lock events there are: the module's, or the kernel's own

    def of_module(self, tail):
        match = MODULE_SITE(tail)
        if match is None or COLUMNS_INSIDE(tail):
            raise Damaged(f'not what the module writes of an acquisition: {quote(tail)}')
        key, subclass, trylock, read, check, nest, before, symbol, caller, text = match.groups()
        left_out = 'unchecked' if check == '0' else 'readers' if self.no_readers and read != WRITER else None
        site = Site(text, trylock == '1', read, left_out)
        site.key, site.subclass = int(key, 16), int(subclass)
        site.nest = nest if int(nest, 16) else None
        site.caller = self.symbols.place(caller)
        site.symbol = symbol_of(symbol and self.symbols.name(symbol))
        site.before = None if before in (None, STOPPED) else int(before)
        if not left_out and site.key:
            site.lock_class, site.reader_class = self.classes_of(site, site.key)
        self.by_text[tail] = site
        self.kinds.add('module')
        return site

    def classes_of(self, site, key):
        """The class with this key for a site, and the one of its recursive readers where the site needs it."""
        lock_class = self.classes.find(key, site.subclass, site.text, site.symbol)
        if site.verb != READ and key not in self.recursive:
            return lock_class, None
        if lock_class.subclass:  # no `try` has a subclass
            lock_class = apart(lock_class)
        needed = site.verb == READ or not site.reads
        return lock_class, readers_of(lock_class) if needed else None

    def of_stock(self, tail):
        match = STOCK_SITE(tail)
        if match is None or COLUMNS_INSIDE(tail):
            raise Damaged(f'not what lock_acquire writes: {quote(tail)}')
        trylock, read, text = match.groups()
        left_out = 'readers' if read else 'unchecked' if text in self.unchecked else None
        site = self.by_text[tail] = Site(text, trylock, left_out=left_out)
        site.lock_class = LockClass(fitted(escape(text)), 0)
        self.kinds.add('stock')
        return site
