"""What the converter writes: the stream, and what is told of its lines in files beside it."""
import contextlib
import os
import re
import shutil
import sys
import tempfile
from collections import Counter

from places import Places
from text import Damaged

MOST_BYTES = 2147483648   # of a stream that lockcheck reads
HEAD = 1 << 16            # bytes of a file that is there already, by which it is known
MAP = re.compile(rb'places .*', re.DOTALL)
LINES = re.compile(rb'([0-9]+\n)*[0-9]*')
VERBS = ('begin', 'acquire', 'nested', 'try', 'release', 'enter', 'exit', 'enable', 'disable')


class Output:
    """The stream, the lines of the recording that its lines come from, and its map, kept apart until all are whole."""

    def __init__(self, stream, with_sources):
        self.stream = stream
        self.text = tempfile.TemporaryFile('w+b')
        self.source_text = tempfile.TemporaryFile('w+b') if with_sources else None
        self.sources = [] if with_sources else None  # the input lines of the stream's lines since `flush`
        self.places = Places() if stream.places is not None else None
        self.lines = 0
        self.verbs = Counter()  # of the stream's lines

    def __enter__(self):
        return self

    def __exit__(self, *_):
        for file in self.text, self.source_text, self.places and self.places.numbers:
            if file is not None:
                file.close()

    def note(self, steps, first):
        """Goes through the steps, one for each input line from this one on, and notes its lines."""
        stream, sources = self.stream, self.sources
        for number, _ in enumerate(steps, first):
            if len(stream.lines) != len(sources):
                sources.extend([number] * (len(stream.lines) - len(sources)))

    def flush(self):
        numbers = None
        if self.places is not None:
            numbers = self.places.numbered(self.stream.places, len(self.stream.lines))
            self.stream.places.clear()
        lines = self.stream.take(self.sources, numbers)
        text = ''.join(['\n', *lines])
        for verb in VERBS:
            self.verbs[verb] += text.count(f'\n{verb} ')
        self.text.write(text[1:].encode('ascii'))
        if self.text.tell() > MOST_BYTES:
            raise Damaged(f'the stream would have more than the {MOST_BYTES} bytes that lockcheck '
                          'reads: record in several parts')
        if self.sources is not None:
            self.source_text.write(''.join(map('{}\n'.format, self.sources)).encode('ascii'))
            self.sources.clear()
        if numbers is not None:
            self.places.keep(numbers)
        self.lines += len(lines)

    def comment(self, lines):
        """Writes comments behind the stream."""
        self.text.write(''.join(lines).encode('ascii'))
        self.lines += len(lines)
        if self.places is not None:
            self.places.keep([0] * len(lines))

    def hand_over(self, sources_name, map_name):
        """Writes the files beside the stream, and then the stream to standard output."""
        if sources_name is not None:
            self.source_text.seek(0)
            replace(sources_name, lambda part: shutil.copyfileobj(self.source_text, part))
        if map_name is not None:
            replace(map_name, self.places.write)
        self.text.seek(0)
        shutil.copyfileobj(self.text, sys.stdout.buffer, 1 << 20)
        sys.stdout.buffer.flush()


def refuse_other(name, form, option):
    """Refuses a file that is something else than what is to replace it. An empty one is nothing yet."""
    if name is None or not os.path.isfile(name):
        return
    if os.path.samestat(os.stat(name), os.fstat(1)):
        raise Damaged(f'{name}: the stream goes there: name another file for {option}')
    with open(name, 'rb') as file:
        head = file.read(HEAD)
    if head and not form.fullmatch(head):
        raise Damaged(f"{name}: this isn't a file of {option}, so it stays: name another one, or remove it")


def replace(name, write):
    """Writes a file, which has its name only when it is whole. What is a pipe or a device is written into."""
    if os.path.exists(name) and not os.path.isfile(name):
        with open(name, 'wb') as file:
            write(file)
        return
    name = os.path.realpath(name)
    part = f'{name}.{os.getpid()}.part'
    try:
        with open(part, 'xb') as file:
            write(file)
        os.replace(part, name)
    except BaseException:
        with contextlib.suppress(OSError):
            os.unlink(part)
        raise
