"""Names of lock classes, as the stream has them."""
import re
import zlib
from collections import namedtuple

from text import Damaged, quote

MOST_BYTES = 64  # of a name, by the trace format
CLASS_LINE = re.compile(
    r'([0-9a-f]+)(?: OPS: *\d+)?(?: FD: *\d+ BD: *\d+ \S+)?: (.+)\n').fullmatch
BESIDE = re.compile(r'all lock classes:\n|\n| -> \[[0-9a-f]+\] .*\n').fullmatch
VERSIONED = re.compile(r'(.+?)(?:#(\d+))?(?:/([1-7]))?').fullmatch
NUMBERED = re.compile(r'(.+)#\d+').fullmatch
SPECIAL = re.compile(r'[^\x21-\x7e]|[@/%!#]')
SPECIAL_OF_TASK = re.compile(r'[^\x21-\x7e]|%')
MOST_SUBCLASS = 7  # of lockdep, and of the trace format

# A class: what a stream calls it, and its subclass, 0 where it is none of another class.
LockClass = namedtuple('LockClass', 'name subclass')


def escape(text, special=SPECIAL):
    """The text with each special byte as %XX."""
    return special.sub(lambda byte: '%%%02X' % ord(byte[0]), text)


def fitted(name):
    """The name itself, or where it is too long its beginning with a checksum of the whole."""
    if len(name) <= MOST_BYTES:
        return name
    return '%s~%08x' % (name[:MOST_BYTES - 9], zlib.crc32(name.encode('ascii')))


def class_of(text, version, subclass):
    """The class NAME#VERSION with this subclass; version 1 is left out, as lockdep does."""
    name = fitted(escape(text) + ('#%d' % version if version > 1 else ''))
    lock_class = LockClass(name, subclass)
    return lock_class if subclass <= MOST_SUBCLASS else apart(lock_class)


def apart(lock_class):
    """A subclass as a class NAME!SUBCLASS of its own, for what no `nested` can say."""
    return LockClass(fitted('%s!%d' % lock_class), 0)


def readers_of(lock_class):
    """The class NAME!read that stands for the recursive readers of a class without a subclass."""
    return LockClass(fitted(f'{lock_class.name}!read'), 0)


def lockdep_classes(lines):
    """Of the lines of /proc/lockdep: key to class. A class that came before is left out."""
    classes = {}
    taken = set()
    for number, line in enumerate(lines, 1):
        match = CLASS_LINE(line)
        if match:
            text, version, subclass = VERSIONED(match[2]).groups()
            lock_class = class_of(text, int(version or 1), int(subclass or 0))
            if lock_class not in taken:
                taken.add(lock_class)
                classes[int(match[1], 16)] = lock_class
        elif not BESIDE(line):
            hint = ' (boot with no_hash_pointers)' if 'ptrval' in line else ''
            raise Damaged(f'the file of --lockdep, line {number}: not a line of /proc/lockdep: '
                          f'{quote(line.strip())}{hint}')
    if not classes:
        raise Damaged('the file of --lockdep has no class')
    return classes


def is_of(lock_class, subclass, text):
    """Whether lockdep's class can be that of an event, by its subclass and its text.

    An event doesn't show the subclass that a lock has by lockdep_set_subclass(). A name may end as a
    subclass does.
    """
    if subclass == 0 and lock_class.subclass:
        return not text.endswith(f'/{lock_class.subclass}')
    return subclass == lock_class.subclass


class Classes:
    """One class for each class key, and never one class for two."""

    def __init__(self, lockdep=None):
        self.lockdep = lockdep or {}
        self.by_key = {}
        self.taken = set(self.lockdep.values())
        self.versions = {}  # (text, key of subclass 0) to version
        self.count = {}     # text to the number of its versions
        self.unknown = 0    # classes that the lockdep file doesn't have
        numbered = (NUMBERED(lock_class.name) for lock_class in self.lockdep.values())
        self.several = {match[1] for match in numbered if match}  # names that lockdep has for several keys
        self.by_symbol = {}  # name with a symbol to the key of subclass 0

    def find(self, key, subclass, text, symbol=None):
        """The class with this key, which an event with this subclass calls by this text.

        The symbol is what the key lies in, where that is known.
        """
        lock_class = self.by_key.get(key)
        if lock_class is None:
            lock_class = self.lockdep.get(key)
            if lock_class is None or not is_of(lock_class, subclass, text):
                lock_class = self.own(key - subclass, subclass, text)
            elif symbol is not None:
                lock_class = self.with_symbol(lock_class, key, symbol)
            self.by_key[key] = lock_class
        return lock_class

    def with_symbol(self, lock_class, key, symbol):
        """One of several classes of a name, with the symbol in place of the number, which another boot may give
        to another one. The number stays where two keys lie in the same."""
        match = NUMBERED(lock_class.name)
        name = match[1] if match else lock_class.name
        if name not in self.several:
            return lock_class
        named = LockClass(fitted(f'{name}#{escape(symbol)}'), lock_class.subclass)
        first = self.by_symbol.setdefault(named.name, key - lock_class.subclass)
        return named if first == key - lock_class.subclass else lock_class

    def own(self, base, subclass, text):
        """A class without lockdep's help: versions count the keys of one text as they appear."""
        self.unknown += 1
        version = self.versions.get((text, base))
        while version is None or class_of(text, version, subclass) in self.taken:
            version = self.count[text] = self.count.get(text, 0) + 1
        self.versions[(text, base)] = version
        lock_class = class_of(text, version, subclass)
        self.taken.add(lock_class)
        return lock_class
