"""Small texts of recordings for the tests, and the converter run on them."""
import contextlib
import importlib.util
import io
import os
import sys
import tempfile
from importlib.machinery import SourceFileLoader

sys.dont_write_bytecode = True
FOLDER = os.path.dirname(os.path.dirname(os.path.abspath(__file__)))
sys.path.insert(0, FOLDER)
LOADER = SourceFileLoader('convert', os.path.join(FOLDER, 'convert'))
CONVERT = importlib.util.module_from_spec(importlib.util.spec_from_loader('convert', LOADER))
LOADER.exec_module(CONVERT)

HEADER = '''\
# tracer: nop
#
# entries-in-buffer/entries-written: 2/2   #P:1
#
#                                _-----=> irqs-off/BH-disabled
#                               / _----=> need-resched
#                              | / _---=> hardirq/softirq
#                              || / _--=> preempt-depth
#                              ||| / _-=> migrate-disable
#                              |||| /     delay
#           TASK-PID     CPU#  |||||  TIMESTAMP  FUNCTION
#              | |         |   |||||     |         |
'''


def line(what, task='t-1', columns='.....', cpu=0, time=1.0):
    """One line of a recording, as the kernel lays it out."""
    comm, _, pid = task.rpartition('-')
    return '%16s-%-7s [%03d] %s %12.6f: %s\n' % (comm, pid, cpu, columns, time, what)


def acquire(name, lock, key=None, subclass=0, trylock=0, read=0, check=1, nest=0, before=None, symbol=None,
            **where):
    """An acquisition as the module writes it. Without a key the class is named by the name alone.

    `before` is how many locks lockdep has, and `symbol` what the key lies in; without them the line is one of a
    module that didn't tell that yet.
    """
    key = 0x9000 + 0x100 * sum(name.encode()) if key is None else key
    told = ('' if before is None else 'h=%d ' % before) + ('' if symbol is None else 'y=%s ' % symbol)
    return line('acquire: %016x k=%016x s=%d t=%d r=%d c=%d n=%016x %si=caller+0x1/0x2 %s' % (
        lock, key, subclass, trylock, read, check, nest, told, name), **where)


def release(lock, **where):
    return line('release: %016x' % lock, **where)


def irq(event, **where):
    return line('%s: caller=caller+0x1/0x2 parent=0x0' % event, **where)


def stock(what, lock, name, flags='', **where):
    """An event of the kernel's own: `what` is acquire or release."""
    return line('lock_%s: %016x %s%s' % (what, lock, flags, name), **where)


class Result:
    """What a run of the converter gave: its status, the stream's lines, those behind it, and standard error."""

    def __init__(self, status, stream, errors):
        self.status = status
        self.stream = [line for line in stream if not line.startswith('#')]
        self.comments = stream[len(self.stream):]
        self.errors = errors


@contextlib.contextmanager
def file_with(text):
    """The name of a file with this text, for as long as the block lasts."""
    with tempfile.TemporaryDirectory() as folder:
        name = os.path.join(folder, 'file')
        with open(name, 'wb') as file:
            file.write(text if isinstance(text, bytes) else text.encode('latin-1'))
        yield name


def run(text, *words):
    """Runs the converter on a text, with these words of a command line."""
    output, errors = io.TextIOWrapper(io.BytesIO(), encoding='ascii'), io.StringIO()
    with file_with(text) as name, contextlib.redirect_stdout(output), contextlib.redirect_stderr(errors):
        try:
            status = CONVERT.main([*words, name])
        except SystemExit as end:
            status = end.code
    return Result(status, output.buffer.getvalue().decode('ascii').splitlines(), errors.getvalue())


def stream(*lines, words=()):
    """The stream's lines after the header, of a text that has to be read without fault."""
    result = run(''.join(lines), *words)
    assert result.status == 0, result.errors
    return result.stream[1:]
