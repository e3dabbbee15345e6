"""A folder of raw pages, as `record stop --pages` writes it, or a file of `trace-cmd record`, in the place of a text."""
import os
import subprocess
import tempfile

from symbols import Symbols
from text import Damaged

PROGRAM = os.path.join(os.path.dirname(os.path.abspath(__file__)), os.pardir, os.pardir, 'lockconvert')
PAGES = os.path.join('per_cpu', 'cpu0', 'trace_pipe_raw')
BEGIN = b'\x17\x08D'  # of each file of trace-cmd, and of no text


def is_folder(name):
    """Whether this is a folder of raw pages."""
    return name is not None and os.path.isfile(os.path.join(name, PAGES))


def is_trace_dat(name):
    """Whether this is a file of trace-cmd, by its begin or its name."""
    if name is None or not os.path.isfile(name):
        return False
    with open(name, 'rb') as file:
        return name.endswith('.dat') or file.read(len(BEGIN)) == BEGIN


def has_pages(name):
    """Whether lockconvert is to read this."""
    return is_folder(name) or is_trace_dat(name)


def written(*words):
    """A file with what lockconvert writes (LOCKCONVERT names another program than the repository's)."""
    program = os.environ.get('LOCKCONVERT', PROGRAM)
    text = tempfile.TemporaryFile('w+b')
    try:
        ran = subprocess.run([program, *words], stdin=subprocess.DEVNULL, stdout=text, stderr=subprocess.PIPE,
                             check=False)
    except OSError as failure:
        raise Damaged(f'{program}: {failure.strerror}') from None
    if ran.returncode:
        said = ran.stderr.decode('utf-8', 'backslashreplace').strip() or f'lockconvert: status {ran.returncode}'
        raise Damaged(said.rpartition('\n')[2])
    text.seek(0)
    return text


def text_of_pages(name):
    """A file with the events of a folder or a file of trace-cmd as text."""
    return written('--', name)


def symbols_of(name):
    """The symbols that the recording has, None where it has none."""
    if is_folder(name):
        try:
            with open(os.path.join(name, 'kallsyms'), encoding='latin-1', newline='\n') as lines:
                return Symbols(lines)
        except FileNotFoundError:
            return None
    with written('--symbols', '--', name) as text, open(os.dup(text.fileno()), encoding='latin-1',
                                                        newline='\n') as lines:
        return Symbols(lines) if os.fstat(lines.fileno()).st_size else None
