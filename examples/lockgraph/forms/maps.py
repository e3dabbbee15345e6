"""What the map of a stream says of its lines, by docs/OUTPUT.md."""
import re


# What is said of a lock that a call initialises, that is first seen as it is locked, and that is a variable.
HOWS = {b"init": "initialised ", b"first": "first locked ", b"static": ""}


def plain(text):
    """A text as it was before a recorder wrote it."""
    return re.sub(rb"%([0-9A-F]{2})", lambda it: bytes([int(it[1], 16)]), text).decode("utf-8", "replace")


def call(function, place):
    """A call: its function, its file, and its line if there is one."""
    found = re.fullmatch(rb"(.*):([0-9]+)", place)
    return (plain(function), plain(found[1]), int(found[2])) if found else (plain(function), plain(place), None)


def calls(function, source):
    """The calls that led to a place, the innermost first."""
    found = []
    for part in source.split(b", from "):
        if found:
            function, _, part = part.partition(b" at ")
        found.append(call(function, part))
    return found


def read(file):
    """For each line of a stream the calls that led there, the number of a line of the recording, or None."""
    with open(file, "rb") as it:
        text = it.read()
    if not text.startswith(b"places 1\n"):
        return [int(it) for it in text.splitlines()]
    head, _, numbers = text.partition(b"\nnumbers\n")
    places = {}
    for line in head.split(b"\n")[1:]:
        word, fields = line.split(b" ", 1)
        if word == b"lines":
            width = int(fields.split(b" ")[2])
        elif word == b"place":
            number, function, source = fields.split(b" ", 2)
            places[int(number)] = calls(function, source)
    found = [numbers[it : it + width] for it in range(0, len(numbers), width)]
    return [places.get(int.from_bytes(it, "little")) for it in found]


def origins(lines):
    """What comments of a stream say of the locks of its classes, the first of each."""
    found = {}
    for line in lines:
        words = line.split(b" ")
        if words[:2] == [b"#", b"class"] and len(words) > 4 and words[3] in HOWS:
            name, how, place, rest = words[2], words[3], words[4], words[5:]
            is_told = len(rest) == 2 and b"+0x" not in b"".join(rest)
            at = b"in %s at %s" % tuple(rest if is_told else (b"?", place))
            if how == b"static":
                at = b"%s of %s" % (rest[0] if rest else name, place.partition(b"+0x")[0])
            found.setdefault(plain(name), f"{HOWS[how]}{plain(at)}")
    return found
