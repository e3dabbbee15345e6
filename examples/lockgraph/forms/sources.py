"""Looks at the lines of sources that `lockgraph html --source DIR` shows."""
import html.parser
import os
import urllib.parse

from .page import ACTIVE, TAGS, in_browser
from .streams import Case, must, same

AROUND, LONGEST_LINE, LONGEST_SOURCE = 2, 400, 16 << 20
TRACE = "examples/whole.trace"
# Where a page would lead if a source became a part of it.
HOST = "leak.invalid"
MARKUP = f"""int main(void)\t// a
{{
\t</script><script src=http://{HOST}/a></script><!-- "'&amp;&#60;
\tprintf("\\n\\x41 %s", "-->]]>" '<img src="http://{HOST}/b">');
}} <style>@import "http://{HOST}/c";</style> <link rel=stylesheet href=http://{HOST}/d>
</code></pre></li></ol><iframe src=//{HOST}/e></iframe>
""".encode()
ODD = b"\x00nul \x7f\x1b[31m\rcr\nlatin \xe9\xe8 \xc3\xa9 \xf0\x9f\x94\x92 \\xE9\n"
ODD += b"turned \xe2\x80\xae back\xe2\x80\xa8\nlast"
SHOW = """
document.title = JSON.stringify(all('.stack').map(stack => Array.from(stack.children).map(it => {
  const found = it.querySelector('pre.source');
  return found ? found.textContent : null;
})));
"""


def is_odd(character):
    code = ord(character)
    return (code in range(128, 160) or code in (0x2028, 0x2029) or code in range(0x202A, 0x202F)
            or code in range(0x2066, 0x206A) or code >= 0xFFFE and code < 0x10000)


def run_of(run):
    """Bytes from 128 on, as they are shown."""
    try:
        if not any(map(is_odd, run.decode("utf-8"))):
            return run.decode("utf-8")
    except UnicodeDecodeError:
        pass
    return "".join(f"\\x{it:02X}" for it in run)


def shown(line):
    """A line as a page shows it: whole characters of the first bytes, and whether there are more."""
    front = line[:LONGEST_LINE]
    is_cut = len(line) > len(front)
    if is_cut and line[LONGEST_LINE] & 0xC0 == 0x80:
        while front and front[-1] & 0xC0 == 0x80 and len(front) > LONGEST_LINE - 3:
            front = front[:-1]
        front = front[:-1]
    text, run = "", b""
    for byte in front:
        if byte >= 128:
            run += bytes([byte])
            continue
        text, run = text + run_of(run), b""
        text += chr(byte) if byte == 9 or 32 <= byte < 127 else f"\\x{byte:02X}"
    return text + run_of(run), is_cut


def snippet(file, number):
    """The lines around one of a file, each with its number, whether it is that one, and whether it is cut."""
    if file is None:
        return None
    with open(file, "rb") as source:
        lines = source.read().split(b"\n")
    if lines[-1] == b"":
        lines.pop()
    if not 1 <= number <= len(lines):
        return None
    near = range(max(1, number - AROUND), min(len(lines), number + AROUND) + 1)
    return [(it, it == number, *shown(lines[it - 1].removesuffix(b"\r"))) for it in near]


class Stacks(html.parser.HTMLParser):
    """The calls of each stack, with the lines of their sources."""

    def __init__(self, text):
        super().__init__()
        self.stacks, self.open = [], []
        self.feed(text)
        self.close()

    def handle_starttag(self, tag, attributes):
        given = dict(attributes)
        must(tag in TAGS and not any(map(ACTIVE.fullmatch, given)), f"an element {tag} with {given}")
        self.open.append((tag, given.get("class")))
        if self.open[-1] == ("ol", "stack"):
            self.stacks.append([])
        elif tag == "li" and ("ol", "stack") in self.open:
            self.stacks[-1].append(["", None])
        elif self.open[-1] == ("pre", "source"):
            self.stacks[-1][-1][1] = []
        elif self.open[-1] == ("span", "number"):
            self.stacks[-1][-1][1].append([0, "mark" in self.tags(), "", False])

    def tags(self):
        return [it[0] for it in self.open]

    def handle_endtag(self, tag):
        while self.open and self.open.pop()[0] != tag:
            pass

    def handle_data(self, data):
        if ("ol", "stack") not in self.open:
            return
        call = self.stacks[-1][-1] if self.stacks[-1] else None
        if ("pre", "source") not in self.open:
            call[0] += data
        elif self.open[-1] == ("span", "number"):
            call[1][-1][0] = int(data)
        elif "code" in self.tags():
            call[1][-1][2] += data
        elif self.open[-1] == ("span", "soft"):
            call[1][-1][3] = True
        else:
            must(data in (" ", "\n"), f"{data!r} stands between lines")


def plant(room):
    """Sources, and the calls to them: the recorded path, the line, and the file that is to be shown."""
    tree, other = f"{room}/tree", f"{room}/other"
    for folder in (f"{tree}/src", f"{tree}/tree/src", f"{tree}/a", f"{tree}/dir.c", f"{other}/deep", f"{room}/outside"):
        os.makedirs(folder)
    files = {
        "tree/src/plain.c": MARKUP, "tree/tree/src/plain.c": b"another\n" * 9, "tree/name.c": b"top\n",
        "tree/a/name.c": b"a\n", "other/deep/name.c": b"deep\n", "outside/x.c": b"secret\n", "tree/odd.c": ODD,
        "tree/ends.c": b"a\r\n\r\nb\r\r\nc\r\n", "tree/empty.c": b"", "tree/long.c": b"<" * (1 << 20) + b"\nend",
        "tree/cut.c": b"x" * 399 + "é€".encode() + b"\n" + b"y" * 400,
        "tree/large.c": b"<b>\n" * (LONGEST_SOURCE // 4), "tree/huge.c": b"<b>\n" * (LONGEST_SOURCE // 4) + b"\n",
        'tree/a "b\'&<i>.c': b"named\n", "tree/secret.c": b"unread\n",
    }
    for name, text in files.items():
        with open(f"{room}/{name}", "wb") as file:
            file.write(text)
    os.symlink("../outside/x.c", f"{tree}/link.c")
    os.symlink("../outside", f"{tree}/away")
    os.symlink("src/plain.c", f"{tree}/inner.c")
    os.mkfifo(f"{tree}/pipe.c")
    os.chmod(f"{tree}/secret.c", 0)
    at = {name: f"{room}/{name}" for name in files}
    secret = at["tree/secret.c"] if os.access(at["tree/secret.c"], os.R_OK) else None
    plain = at["tree/src/plain.c"]
    calls = [("/build/src/plain.c", line, plain) for line in range(0, 8)]
    calls += [("/build/odd.c", line, at["tree/odd.c"]) for line in range(1, 5)]
    calls += [("x/ends.c", line, at["tree/ends.c"]) for line in range(1, 6)]
    calls += [
        (plain, 3, plain), ("src/plain.c", 1, plain), ("./src//plain.c", 1, plain),
        ("/b/../c/../src/plain.c", 2, plain),
        ("inner.c", 2, plain), ("../outside/x.c", 1, None), (f"{tree}/../outside/x.c", 1, None), ("link.c", 1, None),
        ("away/x.c", 1, None), (f"{room}/outside/x.c", 1, None), ("src/..", 1, None), ("..", 1, None), ("/", 1, None),
        ("pipe.c", 1, None),
        ("dir.c", 1, None), ("secret.c", 1, secret), ("absent.c", 1, None), ("/x/name.c", 1, at["tree/name.c"]),
        ("/x/a/name.c", 1, at["tree/a/name.c"]), ("/y/deep/name.c", 1, at["other/deep/name.c"]),
        ("empty.c", 1, None), ("long.c", 1, at["tree/long.c"]), ("cut.c", 1, at["tree/cut.c"]),
        ("large.c", LONGEST_SOURCE // 4, at["tree/large.c"]), ("huge.c", 1, None),
        ('q/a "b\'&<i>.c', 1, at['tree/a "b\'&<i>.c']),
        ("plain.c\0", 1, None), (b"src/\xff.c", 1, None), ("d/" * 2500 + "src/plain.c", 1, None),
        ("src/plain.c", 18446744073709551615, None), ("d/" * 2000 + "src/plain.c", 1, plain),
    ]
    return calls


def map_of(calls, count):
    """The map of a stream of so many lines, each of which has these calls."""
    places = []
    for number, (path, line, _) in enumerate(calls):
        path = path if isinstance(path, bytes) else path.encode()
        places.append(f"f{number} {'' if number == 0 else 'at '}{urllib.parse.quote(path, safe='/.+-_')}:{line}")
    head = f"places 1\nlines {count} bytes 2\nplace 1 {', from '.join(places)}\nnumbers\n"
    return head.encode() + b"\1\0" * count


def look(room):
    """A page with sources. Gives it, and what its stacks show."""
    calls = plant(room)
    with open(TRACE, "rb") as file:
        count = len(file.read().splitlines())
    with open(f"{room}/sources.map", "wb") as file:
        file.write(map_of(calls, count))
    case = Case(TRACE, words=("--map", f"{room}/sources.map"))
    text = case.run("html", "--source", f"{room}/tree", "--source", f"{room}/other").decode("utf-8")
    wanted = [snippet(file, line) for _, line, file in calls]
    stacks = Stacks(text).stacks
    must(len(stacks) > 3, "there are few stacks")
    for stack in stacks:
        same(len(stack), len(calls), "how many calls a stack has")
        for (path, line, _), (_, came), it in zip(calls, stack, wanted):
            same(came and [tuple(row) for row in came], it, f"the lines around {path[:80]}:{line}")
    without = Stacks(case.run("html").decode("utf-8")).stacks
    must(all(came is None for stack in without for _, came in stack), "without --source there are lines of sources")
    return text, wanted


def plain(rows):
    """The text of such lines in a page."""
    return rows and "".join(f"{number} {text}{' … cut' if is_cut else ''}\n" for number, _, text, is_cut in rows)


def look_in_browser(text, wanted):
    """What a browser shows of them, and that it asks nobody for anything."""
    came, asked = in_browser(text, SHOW)
    for stack in came:
        same(stack, [plain(it) for it in wanted], "what a browser shows")
    must(not any(HOST in it for it in asked), f"the page asks for {asked}")
    # Without its policy such a page could ask.
    free = "<html><body><script>const all = () => [];</script><img src='http://" + HOST + "/b'></body></html>"
    must(any(HOST in it for it in in_browser(free, SHOW)[1]), "a page that asks isn't seen")
