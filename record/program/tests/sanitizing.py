"""The merger, built with sanitizers: they end it at each access to memory that isn't its own, and at each operation that
C leaves undefined. What it reads may be damaged anywhere, since the program that is recorded can write over it."""

import os
import random
import shlex

from building import MERGER_FLAGS, OUT, sources_in
from planting import COMPILERS, Planted, call, lockcheck, must

SANITIZERS = ["-fsanitize=address,undefined", "-fno-sanitize-recover=all"]
# A status of their own, since the merger has 1 too; and the merger takes far less memory than this.
LIMITS = {"ASAN_OPTIONS": "exitcode=99:detect_leaks=0:hard_rss_limit_mb=1000", "UBSAN_OPTIONS": "exitcode=99"}
CHUNK, UNIT, PROCESS_NUMBERS = 128 * 1024, 16, 10  # as library/recording.h has them
WORST = (2**32 - 1, 2**64 - 1)
DAMAGED = ("fields.c", "inherits.c", "misuse.c", "readers-forms.c", "resized.c")
DAMAGED_PROGRAMS = ("fields.c", "members.cc")
RANDOM_DAMAGES = 15


def sanitized(directory):
    return os.path.join(directory, "merge-sanitized")


def build_sanitized(directory):
    """Builds the merger with sanitizers, if the compiler has them."""
    code = [path for path in sources_in("merger") if path.endswith(".c")]
    words = [COMPILERS[".c"][0], *shlex.split(MERGER_FLAGS), "-O1", *SANITIZERS]
    if call([*words, "-x", "c", "-o", sanitized(directory), "-"], input="int main(void) { return 0; }").returncode == 0:
        answer = call([*words, "-o", sanitized(directory), *code])
        must(answer.returncode == 0, f"merger with sanitizers: {answer.stderr}")


def program_of(planted, directory):
    return os.path.join(directory, f"{planted.name}-0", planted.name)


def recorded(planted, words, directory, folder):
    """Records a planted program's first build, and leaves the recording as the merger gets it."""
    os.mkdir(folder)
    options = list(zip(planted.options[::2], planted.options[1::2]))
    variables = {"LD_PRELOAD": os.path.join(OUT, "liblockrecord.so"), "LOCKCHECK_RECORD_DIRECTORY": folder,
                 "LOCKCHECK_RECORD_PLACES": "1", "LOCKCHECK_RECORD_READERS": "1",
                 "LOCKCHECK_RECORD_CALLERS": dict(options).get("--callers", "3")}
    call([program_of(planted, directory), *words], env=os.environ | variables)
    settings = [f"{name}={value}" for name, value in options if name != "--through"]
    return settings, [value for name, value in options if name == "--through"]


def merge(merger, words, folder, stream, variables=os.environ):
    settings, through = words
    return call([merger, *settings, folder, stream, "label", "1", *through], env=variables | LIMITS)


def check_sanitized(planted, directory):
    """Of a planted program's recordings both mergers write the same stream."""
    if not os.path.exists(sanitized(directory)):
        return
    for number, words in enumerate(planted.runs):
        words = words.replace("MODULE", os.path.join(directory, f"{planted.name}-0", "module.so")).split()
        folder = os.path.join(directory, f"{planted.name}-raw-{number}")
        told, texts = recorded(planted, words, directory, folder), []
        for merger in (os.path.join(OUT, "merge"), sanitized(directory)):
            answer = merge(merger, told, folder, folder + ".trace")
            must(answer.returncode == 0, f"{planted.name}: {merger}: {answer.stderr}")
            with open(folder + ".trace", encoding="ascii") as stream:
                texts.append(stream.read())
        must(texts[0] == texts[1], f"{planted.name}: the streams of the mergers are not the same")


def read_recording(path):
    """Gives the bytes of a recording, without the hole that most of the file is."""
    with open(path, "rb") as file:
        chunks = int.from_bytes(file.read(64)[56:], "little")
        file.seek(0)
        return file.read((chunks + 1) * CHUNK)


def write_new(path, data):
    """Writes a file in the place of one that may be in use."""
    os.unlink(path)
    with open(path, "wb") as file:
        file.write(data)


def units_of(data):
    """Where the units of a recording stand that were written."""
    for chunk in range(CHUNK, len(data), CHUNK):
        used = min(int.from_bytes(data[chunk:chunk + 8], "little"), CHUNK // UNIT - 1)
        yield from range(chunk + UNIT, chunk + UNIT * (1 + used), UNIT)


def put(data, at, number):
    data[at:at + 8] = number.to_bytes(8, "little")


def worst_numbers(data):
    """Gives a recording anew with each of the process's numbers, and those of the first unit of each operation, as
    large as they can be."""
    firsts = {data[unit] & 31: unit for unit in reversed(list(units_of(data)))}
    places = [8 * number for number in range(1, PROCESS_NUMBERS)]
    for at in places + [unit + part for unit in firsts.values() for part in (0, 8)]:
        for number in WORST:
            damaged = bytearray(data)
            put(damaged, at, number)
            yield damaged


def by_chance(data, chance):
    """Gives a recording anew in which units say something else, or have changed places."""
    damaged, units = bytearray(data), list(units_of(data))
    for _ in range(chance.choice((1, 3, 30))):
        unit, other = chance.choice(units), chance.choice(units)
        ways = ((unit, chance.getrandbits(64)), (unit + 8, chance.getrandbits(64)),
                (unit, int.from_bytes(data[unit:unit + 8], "little") ^ 1 << chance.randrange(64)),
                (unit, int.from_bytes(data[other:other + 8], "little")))
        put(damaged, *chance.choice(ways))
    return damaged


def check_stream_of(name, told, folder, directory):
    """Of what is damaged the merger writes a stream that lockcheck reads, or none. No `addr2line` is there for it."""
    answer = merge(sanitized(directory), told, folder, folder + ".trace", os.environ | {"PATH": folder})
    must(answer.returncode in (0, 1), f"{name}, damaged: {answer.stderr}")
    if answer.returncode == 0:
        with open(folder + ".trace", encoding="ascii") as stream:
            report = lockcheck(stream.read()).stdout
        must(" refused 0 " in report, f"{name}, damaged: {report}")


def check_damaged(name, directory):
    """A recording may be damaged anywhere."""
    if not os.path.exists(sanitized(directory)):
        return
    planted = Planted(name)
    folder = os.path.join(directory, f"{planted.name}-damaged")
    told = recorded(planted, planted.runs[0].split(), directory, folder)
    chance = random.Random(name)
    for process in sorted(os.listdir(folder)):
        path = os.path.join(folder, process)
        data = read_recording(path)
        for damaged in [*worst_numbers(data), *(by_chance(data, chance) for _ in range(RANDOM_DAMAGES))]:
            write_new(path, damaged)
            check_stream_of(name, told, folder, directory)
        write_new(path, data)


def worst_tables(data):
    """Gives a program anew in which one of the tables and sections stands a byte further on, or far off."""
    segments, sections, count = 32, 40, int.from_bytes(data[60:62], "little")  # as a file of ELF has them
    start = int.from_bytes(data[sections:sections + 8], "little")
    for at in [segments, sections, *(start + 64 * number + 24 for number in range(count))]:
        for number in (int.from_bytes(data[at:at + 8], "little") + 1, max(WORST)):
            damaged = bytearray(data)
            put(damaged, at, number)
            yield damaged


def other_bytes(data, chance):
    """Gives a program anew in which bytes are others: of its head, of its sections or anywhere."""
    damaged, sections = bytearray(data), int.from_bytes(data[40:48], "little")
    for _ in range(chance.choice((1, 3, 30))):
        start, end = chance.choice(((0, 64), (sections, len(data)), (0, len(data)), (0, len(data))))
        damaged[chance.randrange(start, end)] = chance.choice((0, 127, 255, chance.randrange(256)))
    return damaged


def check_damaged_program(name, directory):
    """So may the file of the program, with its sections and its debug information."""
    if not os.path.exists(sanitized(directory)):
        return
    planted = Planted(name)
    folder = os.path.join(directory, f"{planted.name}-damaged-file")
    program, raw = program_of(planted, folder), os.path.join(folder, "raw")
    os.makedirs(os.path.dirname(program))
    planted.compile(planted.flags[0].split(), program)
    told = recorded(planted, planted.runs[0].split(), folder, raw)
    chance = random.Random(name)
    with open(program, "rb") as file:
        data = file.read()
    for damaged in [*worst_tables(data), *(other_bytes(data, chance) for _ in range(2 * RANDOM_DAMAGES))]:
        write_new(program, damaged)
        check_stream_of(name, told, raw, directory)
