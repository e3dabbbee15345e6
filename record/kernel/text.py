"""The text of tracefs' file `trace`: its lines, its column of flags, and what is wrong with a line.

The text is read as Latin-1, so that one character is one byte and the columns are where the kernel
put them, whatever bytes a task's name has.
"""
import re

# A task's name fills 16 columns, and may have line ends. The group of threads is there where `record-tgid`
# was on, and the column of flags has exactly five characters.
EVENT = re.compile(
    r'((?s:.){16})-(\d+) +(?:\([-\d ]{7}\) )?\[(\d{3,})\] (\S{5}) +(\d+(?:\.\d+)?): '
    r'(?:([^\s:]+(?: \[[^\s\]]+\])?): ?(.*)|<stack trace>)\n').fullmatch
NO_NAME = re.compile(r'.{16}-\d+ .*\[\d{3,}\] (\S{5}) +\d+(?:\.\d+)?: .*\n').fullmatch
NO_FLAGS = re.compile(r'.{16}-\d+ .*\[\d{3,}\] +\d+(?:\.\d+)?: .*\n').fullmatch
OTHER_WIDTH = re.compile(r'.{16}-\d+ .*\[\d{3,}\] (\S+) +\d+(?:\.\d+)?: .*\n').fullmatch
# The texts of two programs that read the same events. `trace-cmd report` begins with a line of its own,
# and has two blanks or more behind an event's name; `perf script` has the system before that name.
TRACE_CMD = re.compile(
    r'(?:cpus=\d+|version = \d+|.{0,30}-\d+ +(?:\[\d{3,}\]|\d+[.dX][.N][.hsH]\S*) +\d+\.\d+: '
    r'[^\s:]+: {2,}.*)\n').fullmatch
PERF = re.compile(
    r' *\S.{0,30} \d+(?:/\d+)? +(?:\[\d{3,}\]|\d+) +\d+\.\d+: +(?:\d+ +)?[^\s:]+:[^\s:]+: .*\n'
    ).fullmatch
NO_SOFTIRQS = ('the text of `%s`, which does not tell whether softirqs are disabled: record with '
               '`record start` and `record stop`, or give %s')
# How the files of programs that compress begin.
PACKED = {b'\xfd7zXZ\0': 'xz', b'\x1f\x8b': 'gzip', b'\x28\xb5\x2f\xfd': 'zstd', b'BZh': 'bzip2'}
STREAM = re.compile(r'trace [!-~]{1,64}\n').fullmatch
# The end of one line's columns. Inside another line it shows that bytes between them are missing.
COLUMNS_INSIDE = re.compile(r'\[\d{3,}\] \S{5} +\d+(?:\.\d+)?: ').search
LOSS = re.compile(r'CPU:\d+ \[LOST (?:\d+ )?EVENTS\]\n|##### CPU \d+ buffer started ####\n').fullmatch
ENTRIES = re.compile(r'# entries-in-buffer/entries-written: (\d+)/').match
TRACER = re.compile(r'# tracer: (.*)\n').fullmatch
STACK = ' => '  # before each line of a stack trace
NAME = 16       # columns of a task's name


class Damaged(Exception):
    """The text can't be read on: says why."""


class Context:
    """What one column of flags says: the handlers that run, and the flags of interrupts."""
    __slots__ = ('kinds', 'hard', 'soft')

    def __init__(self, kinds, hard, soft):
        self.kinds = kinds  # of the handlers that run, the outer one first
        self.hard = hard    # hardware interrupts are enabled
        self.soft = soft    # softirqs are enabled


HANDLERS = {'.': (), 's': ('soft',), 'h': ('hard',), 'H': ('soft', 'hard')}
FLAGS = {'.': (True, True), 'd': (False, True), 'b': (True, False), 'D': (False, False)}
NMI = Context(('nmi',), False, False)


class Contexts(dict):
    """From the text of a column of flags to its context. Each text is looked at once."""

    def __missing__(self, column):
        if column[0] == 'X':
            raise Damaged('this kernel does not tell whether interrupts are enabled (flag X)')
        flags = FLAGS.get(column[0])
        handlers = column[2]
        if flags is None or handlers not in '.shHzZ' or not set(column[3:]) <= set('.0123456789abcdef'):
            raise Damaged('column of flags %s: not as kernels from 5.17 on write it' % quote(column))
        context = NMI if handlers in 'zZ' else Context(HANDLERS[handlers], *flags)
        self[column] = context
        return context


def quote(text):
    """A part of the input as a message may show it: one line, plain characters, not long."""
    return ascii(text if len(text) <= 60 else text[:60] + '...')


def look_of(data):
    """What a file is that begins with these bytes, if a program has to decompress it; None if it needn't."""
    maker = next((it for begin, it in PACKED.items() if data.startswith(begin)), None)
    return maker and f'it looks like a file that {maker} made: decompress it first'


def is_begun(line):
    """Whether a line may be the begin of an event's: a task's name, with blanks before it, as far as its line end."""
    return len(line) <= NAME and line[0] == ' ' and not line.startswith(STACK)


def fault_at_end(line):
    """Says that a line isn't whole; None where it is."""
    return None if line.endswith('\n') else 'the text ends inside this line: it was cut'


def fault(line):
    """Why a line is none of a recording's."""
    if not line.strip():
        return 'an empty line'
    if STREAM(line):
        return 'it is a stream already'
    if TRACE_CMD(line):
        return NO_SOFTIRQS % ('trace-cmd report', 'what `trace-cmd show` prints after '
                              '`trace-cmd start` and `trace-cmd stop`')
    if PERF(line):
        return NO_SOFTIRQS % ('perf script', "tracefs' file `trace`")
    if NO_NAME(line):
        return 'no name of an event: the text of another tracer than nop? ' + quote(line.strip())
    if NO_FLAGS(line):
        return ("no column of flags, without which handlers and disabled interrupts can't be told: "
                'record with `echo irq-info > trace_options`')
    other = OTHER_WIDTH(line)
    if other:
        return ('a column of flags of %d characters, where kernels from 5.17 on write 5: %s'
                % (len(other[1]), quote(other[1])))
    return 'no line of a recording: ' + quote(line.strip())


class Header:
    """What the lines beside the events say: the tracer, and how many entries there are."""

    def __init__(self):
        self.entries = None

    def read(self, line):
        """Reads a line that is no event's. True where events are missing before the next one."""
        if LOSS(line):
            return True
        if line[0] == '#':
            self.comment(line)
        elif not line.startswith(STACK):
            raise Damaged(fault(line))
        return False

    def comment(self, line):
        tracer = TRACER(line)
        if tracer and tracer[1] != 'nop':
            raise Damaged('the text of the tracer %s: the recording wants nop' % quote(tracer[1]))
        if 'irqs-off' in line and '/BH-disabled' not in line:
            raise Damaged("this kernel's column of flags does not tell whether softirqs are disabled: "
                          'kernels from 5.17 on do')
        entries = ENTRIES(line)
        if entries:
            self.entries = int(entries[1])


def last_lines(lines, processors):
    """The earliest of the last lines of these processors, 0 where one has no line at all."""
    last = dict.fromkeys(processors, 0)
    for number, line in enumerate(lines, 1):
        match = EVENT(line)
        if match and int(match[3]) in last:
            last[int(match[3])] = number
    return min(last.values())


STATS_CPU = re.compile(r'cpu(\d+)\n').fullmatch
STATS_LINE = re.compile(r'([a-z ]+): *([\d.]+)\n').fullmatch


def dropped(lines):
    """Of the processors' stats as `record stop` writes them: processor to number of events dropped."""
    processor = None
    counts = {}
    for number, line in enumerate(lines, 1):
        heading, count = STATS_CPU(line), STATS_LINE(line)
        if heading:
            processor = int(heading[1])
        elif count is None or processor is None:
            raise Damaged('the file of --stats, line %d: %s' % (number, quote(line.strip())))
        elif count[1] == 'dropped events' and count[2] != '0':
            counts[processor] = int(count[2])
    if processor is None:
        raise Damaged('the file of --stats has no processor')
    return counts
