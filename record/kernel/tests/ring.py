"""A recording as text, written as the raw pages of a kernel's ring, with the files beside them.

This is written by the layout of the bytes alone, and knows nothing of the program that reads them.
"""
import os
import re
import struct

LINE = re.compile(r'(.{16})-(\d+) +\[(\d+)\] (\S)\S(\S)\S\S +([\d.]+): ([^\s:]+): ?(.*)\n').fullmatch
ACQUIRE = re.compile(r'(\S+) k=(\S+) s=(\d+) t=(\d) r=(\d) c=(\d) n=(\S+) (?:h=(\d+) )?(?:y=(\S+(?: \[\S+\])?) )?'
                     r'i=(\S+(?: \[\S+\])?) (.+)').fullmatch
STOCK = re.compile(r'(\S+) (try )?(read )?(.+)').fullmatch
STEP = re.compile(r' *cpu: (\d+) +(?:target|state): +(-?\d+) step: +(\d+) (?:\((\S+)\)|ret: (-?\d+))').fullmatch
PLACE = re.compile(r'([^+]+)\+0x([0-9a-f]+)/0x([0-9a-f]+)(?: (\[\S+\]))?').fullmatch
LOST = re.compile(r'CPU:(\d+) \[LOST (?:(\d+) )?EVENTS\]\n|##### CPU (\d+) buffer started ####\n').fullmatch
FLAGS = {'.': 0, 'd': 0x01, 'b': 0x80, 'D': 0x81}
HANDLERS = {'.': 0, 'h': 0x08, 's': 0x10, 'H': 0x18, 'z': 0x40, 'Z': 0x48}
COMMON = '''\
\tfield:unsigned short common_type;\toffset:0;\tsize:2;\tsigned:0;
\tfield:unsigned char common_flags;\toffset:2;\tsize:1;\tsigned:0;
\tfield:unsigned char common_preempt_count;\toffset:3;\tsize:1;\tsigned:0;
\tfield:int common_pid;\toffset:4;\tsize:4;\tsigned:1;

'''
# Of each event: its number, and the lines of its fields.
FORMATS = {
    'lockcheck/acquire': (1711, (
        ('const void * lock', 8, 8), ('const void * key', 16, 8), ('const void * nest', 24, 8),
        ('const void * caller', 32, 8), ('u8 subclass', 40, 1), ('u8 how', 41, 1), ('u8 read', 42, 1),
        ('u8 held', 43, 1), ('__data_loc char[] name', 44, 4))),
    'lockcheck/release': (1710, (('const void * lock', 8, 8),)),
    'lock/lock_acquire': (301, (
        ('unsigned int flags', 8, 4), ('__data_loc char[] name', 12, 4), ('void * lockdep_addr', 16, 8))),
    'lock/lock_release': (300, (('__data_loc char[] name', 8, 4), ('void * lockdep_addr', 16, 8))),
    'preemptirq/irq_enable': (410, (('s32 caller_offs', 8, 4), ('s32 parent_offs', 12, 4))),
    'preemptirq/irq_disable': (411, (('s32 caller_offs', 8, 4), ('s32 parent_offs', 12, 4))),
    'cpuhp/cpuhp_enter': (120, (
        ('unsigned int cpu', 8, 4), ('int target', 12, 4), ('int idx', 16, 4), ('void * fun', 24, 8))),
    'cpuhp/cpuhp_exit': (118, (
        ('unsigned int cpu', 8, 4), ('int state', 12, 4), ('int idx', 16, 4), ('int ret', 20, 4))),
}
UNKNOWN = 77  # the number of an event without a format
SYMBOLS_AT = 0xfffffffd00000000


class Symbols:
    """Addresses for the functions that a text names."""

    def __init__(self):
        self.known, self.next, self.lines, self.keys = {}, SYMBOLS_AT, [], {}

    def address(self, text):
        place = PLACE(text)
        name, offset, size, module = place.groups() if place else (text, '0', '10', None)
        key = name, size, module
        if key not in self.known:
            self.known[key] = self.next
            self.lines.append((self.next, name, module))
            self.next += int(size, 16)
            self.lines.append((self.next, f'behind_{len(self.known)}', module))
            self.next += 16
        return self.known[key] + int(offset, 16)

    def text(self):
        keys = [(at, *symbol.partition(' ')[::2]) for at, symbol in self.keys.items()]
        last = max([self.next, *self.keys]) + 16
        ends = [(SYMBOLS_AT - 16, '_stext', None), *self.lines, *keys, (last, '_end', None)]
        return ''.join('%016x t %s%s\n' % (at, name, f'\t{module}' if module else '') for at, name, module in ends)


def located(text, at):
    data = text.encode('latin-1') + b'\0'
    return struct.pack('<I', at | len(data) << 16), data


class Ring:
    """The pages of each processor."""

    def __init__(self, folder, page=4096, word=8, with_held=True):
        self.folder, self.page, self.word, self.with_held = folder, page, word, with_held
        self.head = 8 + word
        self.files = {}     # of a processor: whole pages
        self.data = {}      # of a processor: what its present page has, from its time on
        self.lost = {}      # of a processor: events that are missing before its next page
        self.symbols = Symbols()
        self.names = {}

    def begin(self, processor, time):
        self.data[processor] = [time, time, bytearray(), self.lost.pop(processor, None)]

    def flush(self, processor):
        first, _, data, lost = self.data.pop(processor)
        commit, behind = len(data), b''
        if lost is not None:
            commit |= 1 << 31
            if lost[0]:
                commit |= 1 << 30
                behind = lost[0].to_bytes(self.word, 'little')
        page = first.to_bytes(8, 'little') + commit.to_bytes(self.word, 'little') + bytes(data) + behind
        assert len(page) <= self.page
        self.files.setdefault(processor, bytearray()).extend(page.ljust(self.page, b'\x5a'))

    def room(self, processor):
        return self.page - self.head - self.word - len(self.data[processor][2])

    def add(self, processor, time, event):
        event += b'\0' * (-len(event) % 4)
        if processor in self.data and self.room(processor) < len(self.entries(1 << 40, event)):
            self.flush(processor)
        if processor not in self.data:
            self.begin(processor, time)
        page = self.data[processor]
        page[2] += self.entries(time - page[1], event)
        page[1] = time

    @staticmethod
    def entries(delta, event):
        """An event this long after the one before it, with a time extend where its 27 bits don't hold that."""
        extend = b''
        if delta >= 1 << 27:
            extend = struct.pack('<II', 30 | (delta & (1 << 27) - 1) << 5, delta >> 27)
            delta = 0
        if len(event) <= 112:
            return extend + struct.pack('<I', len(event) // 4 | delta << 5) + event
        return extend + struct.pack('<II', delta << 5, len(event) + 4) + event

    def lose(self, processor, count):
        """Events of a processor are missing here."""
        if processor in self.data:
            self.flush(processor)
        self.lost[processor] = (count,)

    def event(self, name, rest):
        """The number of an event and what stands behind its head."""
        if name == 'acquire':
            lock, key, subclass, trylock, read, check, nest, held, symbol, caller, text = ACQUIRE(rest).groups()
            at, data = located(text, 48)
            if symbol is not None and int(key, 16):
                self.symbols.keys[int(key, 16)] = symbol
            numbers = struct.pack('<QQQQBBBB', int(lock, 16), int(key, 16), int(nest, 16), self.symbols.address(caller),
                                  int(subclass), int(trylock) | int(check) << 1, int(read), int(held or 255))
            return 'lockcheck/acquire', numbers + at + data
        if name == 'release':
            return 'lockcheck/release', struct.pack('<Q', int(rest, 16))
        if name == 'lock_acquire':
            lock, trylock, read, text = STOCK(rest).groups()
            at, data = located(text, 24)
            return 'lock/lock_acquire', struct.pack('<I', bool(trylock) | bool(read) << 1) + at + struct.pack(
                '<Q', int(lock, 16)) + data
        if name == 'lock_release':
            lock, _, text = rest.partition(' ')
            at, data = located(text, 24)
            return 'lock/lock_release', at + b'\xff' * 4 + struct.pack('<Q', int(lock, 16)) + data
        if name in ('irq_enable', 'irq_disable'):
            return 'preemptirq/' + name, struct.pack('<ii', -5, 7)
        if name in ('cpuhp_enter', 'cpuhp_exit'):
            cpu, target, step, function, status = STEP(rest).groups()
            numbers = struct.pack('<Iii', int(cpu), int(target), int(step))
            if function:
                return 'cpuhp/cpuhp_enter', numbers + b'\xff' * 4 + struct.pack('<Q', self.symbols.address(function))
            return 'cpuhp/cpuhp_exit', numbers + struct.pack('<i', int(status))
        return None, b'anything'

    def take(self, line):
        lost = LOST(line)
        if lost:
            self.lose(int(lost[1] or lost[3]), int(lost[2] or 0))
            return
        match = LINE(line)
        if match is None:
            assert line.startswith('#'), line
            return
        comm, pid, processor, irqs, handlers, time, name, rest = match.groups()
        self.names[int(pid)] = comm.lstrip(' ')
        seconds, point, rest_of_time = time.partition('.')
        time = int(seconds) if not point else (int(seconds) * 1000000 + int(rest_of_time)) * 1000
        self.clock = 'global' if point else 'counter'
        kind, data = self.event(name, rest)
        number = FORMATS[kind][0] if kind else UNKNOWN
        # Bits that say nothing of locks are set here and there.
        flags = FLAGS[irqs] | HANDLERS[handlers] | (0x24 if int(pid) % 3 else 0)
        self.add(int(processor), time, struct.pack('<HBBi', number, flags, 2, int(pid)) + data)

    def write_file(self, name, data):
        path = os.path.join(self.folder, name)
        os.makedirs(os.path.dirname(path), exist_ok=True)
        with open(path, 'wb') as file:
            file.write(data if isinstance(data, bytes) else data.encode('latin-1'))

    def header_page(self):
        return (f'\tfield: u64 timestamp;\toffset:0;\tsize:8;\tsigned:0;\n'
                f'\tfield: local_t commit;\toffset:8;\tsize:{self.word};\tsigned:1;\n'
                f'\tfield: int overwrite;\toffset:8;\tsize:1;\tsigned:1;\n'
                f'\tfield: char data;\toffset:{self.head};\tsize:{self.page - self.head};\tsigned:1;\n')

    def format(self, kind):
        number, fields = FORMATS[kind]
        lines = ''.join('\tfield:%s;\toffset:%d;\tsize:%d;\tsigned:%d;\n' % (*field, field[0].startswith('int'))
                        for field in fields if self.with_held or field[0] != 'u8 held')
        return f'name: {kind.partition("/")[2]}\nID: {number}\nformat:\n{COMMON}{lines}\nprint fmt: "%p", REC->lock\n'

    def write(self, lines):
        """Writes the recording with these lines."""
        for line in lines:
            self.take(line)
        for processor in list(self.data):
            self.flush(processor)
        for processor in range(max(self.files, default=0) + 1):
            self.write_file(f'per_cpu/cpu{processor}/trace_pipe_raw', bytes(self.files.get(processor, b'')))
        self.write_file('events/header_page', self.header_page())
        for kind in FORMATS:
            self.write_file(f'events/{kind}/format', self.format(kind))
        self.write_file('saved_cmdlines', ''.join(f'{pid} {name}\n' for pid, name in self.names.items() if pid))
        clocks = ('local', 'global', 'counter', 'uptime', 'perf', 'mono', 'x86-tsc')
        self.write_file('trace_clock', ' '.join(f'[{it}]' if it == self.clock else it for it in clocks) + '\n')
        self.write_file('kallsyms', self.symbols.text())
