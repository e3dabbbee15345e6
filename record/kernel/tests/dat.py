"""A recording of tests/ring.py as a file of `trace-cmd record`, of version 6 or 7.

This is written by trace-cmd.dat.v6(5) and trace-cmd.dat.v7(5) alone, and knows nothing of the program that reads it.
"""
import os
import struct

PAGE = 4096
MAGIC = b'\x17\x08\x44tracing'
# The numbers of options and sections, by the names of the pages.
DONE, DATE, CPUSTAT, BUFFER, TRACECLOCK, UNAME, CPUCOUNT, VERSION, TIME_SHIFT, GUEST = 0, 1, 2, 3, 4, 5, 8, 9, 12, 13
HEADER_INFO, FTRACE_EVENTS, EVENT_FORMATS, KALLSYMS, PRINTK, CMDLINES, BUFFER_TEXT = range(16, 23)
STRINGS = 15
HEADER_EVENT = b'''\
# compressed entry header
\ttype_len    :    5 bits
\ttime_delta  :   27 bits
\tarray       :   32 bits

\tpadding     : type == 29
\ttime_extend : type == 30
\ttime_stamp : type == 31
\tdata max type_len  == 28
'''


def sized(data, width=8):
    return len(data).to_bytes(width, 'little') + data


def contents(folder, name):
    with open(os.path.join(folder, name), 'rb') as file:
        return file.read()


class Parts:
    """What a folder of a recording has, as the parts of a file."""

    def __init__(self, folder):
        events = os.path.join(folder, 'events')
        self.header_page = contents(events, 'header_page')
        self.systems = {
            system: [contents(events, f'{system}/{event}/format') for event in os.listdir(os.path.join(events, system))]
            for system in os.listdir(events) if os.path.isdir(os.path.join(events, system))}
        self.kallsyms = contents(folder, 'kallsyms')
        self.names = contents(folder, 'saved_cmdlines')
        self.clock = contents(folder, 'trace_clock')
        per_cpu = os.path.join(folder, 'per_cpu')
        self.pages = [contents(per_cpu, f'cpu{number}/trace_pipe_raw') for number in range(len(os.listdir(per_cpu)))]

    def header_info(self):
        return b'header_page\0' + sized(self.header_page) + b'header_event\0' + sized(HEADER_EVENT)

    @staticmethod
    def ftrace_events():
        return struct.pack('<I', 0)

    def event_formats(self):
        data = struct.pack('<I', len(self.systems))
        for system, formats in self.systems.items():
            data += system.encode() + b'\0' + struct.pack('<I', len(formats)) + b''.join(map(sized, formats))
        return data


class File(bytearray):
    """The bytes of a file, and the offsets at which its parts begin."""

    def __init__(self, version):
        super().__init__()
        self.parts = []
        self.add(MAGIC, b'%d\0' % version, b'\0', b'\x08', struct.pack('<I', PAGE))

    def add(self, *parts):
        for part in parts:
            self.parts.append(len(self))
            self.extend(part)

    def align(self):
        self.extend(b'\0' * (-len(self) % PAGE))

    def put(self, at, value, width=8):
        self[at:at + width] = value.to_bytes(width, 'little')


OPTIONS = ((VERSION, b'3.1.6\0'), (TRACECLOCK, b''), (UNAME, b'Linux test\0'))


def option(number, data):
    return struct.pack('<HI', number, len(data)) + data


def version_6(parts, options=OPTIONS):
    """A file of version 6, and where its table of processors stands."""
    file = File(6)
    file.add(parts.header_info(), parts.ftrace_events(), parts.event_formats(), sized(parts.kallsyms, 4), sized(b'', 4),
             sized(parts.names), struct.pack('<I', len(parts.pages)), b'options  \0',
             *(option(*it) for it in options), struct.pack('<H', DONE), b'flyrecord\0')
    table = len(file)
    file.add(b'\0' * (16 * len(parts.pages)), sized(parts.clock))
    for number, pages in enumerate(parts.pages):
        file.align()
        file.put(table + 16 * number, len(file))
        file.put(table + 16 * number + 8, len(pages))
        file.add(pages)
    return file, table


def section(number, data, flags=0):
    return struct.pack('<HHIQ', number, flags, 0, len(data)) + data


def version_7(parts, others=(), left_out=(), numbers=None):
    """A file of version 7, uncompressed, with other options, or without some, and where its table of processors stands.

    `numbers` are those of its processors, which else count from 0.
    """
    file = File(7)
    file.add(b'none\0', b'\0', b'\0' * 8)
    first = len(file) - 8
    offsets = {}
    for number, data in ((HEADER_INFO, parts.header_info()), (FTRACE_EVENTS, parts.ftrace_events()),
                         (EVENT_FORMATS, parts.event_formats()), (KALLSYMS, sized(parts.kallsyms, 4)),
                         (PRINTK, sized(b'', 4)), (CMDLINES, sized(parts.names))):
        offsets[number] = len(file)
        file.add(section(number, data))
    begin = len(file)
    file.add(section(BUFFER, b''))
    rows = []
    for number, pages in zip(numbers or range(len(parts.pages)), parts.pages):
        file.align()
        rows.append(struct.pack('<IQQ', number, len(file), len(pages)))
        file.add(pages)
    file.put(begin + 8, len(file) - begin - 16)
    # Two sections of options, as trace-cmd writes several.
    file.put(first, len(file))
    options = [option(*it) for it in (*OPTIONS, *others)]
    options += [option(number, at.to_bytes(8, 'little')) for number, at in offsets.items() if number not in left_out]
    size = len(b''.join(options)) + 14
    file.add(struct.pack('<HHIQ', 0, 0, 0, size), *options, option(DONE, (len(file) + 16 + size).to_bytes(8, 'little')))
    clock = parts.clock.partition(b'[')[2].partition(b']')[0]
    buffer = struct.pack('<Q', begin) + b'\0' + clock + b'\0' + struct.pack('<II', PAGE, len(rows))
    last = [] if BUFFER in left_out else [option(BUFFER, buffer + b''.join(rows))]
    last.append(option(DONE, bytes(8)))
    file.add(struct.pack('<HHIQ', 0, 0, 0, len(b''.join(last))))
    table = len(file) + 6 + len(buffer)
    file.add(*last)
    return file, table
