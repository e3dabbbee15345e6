"""Looks at the page that `lockgraph html` writes."""
import html
import html.parser
import json
import os
import re
import shutil
import socketserver
import subprocess
import tempfile
import threading

from .common import in_common
from .maps import origins
from .others import MEANINGS, shown, title
from .shown import USES, name_of
from .stories import Stories, frame, of_class, told
from .streams import must, same

TAGS = set(
    "html head meta link title style body h1 h2 h3 h4 p dl div dt dd span input label output section article code"
    " strong figure svg rect text path a ul ol li br table thead tbody tr th td footer script pre mark".split()
)
# Attributes that load something, or run a script.
ACTIVE = re.compile("on.*|src|srcset|srcdoc|style|action|formaction|data|poster|ping")
# What a page may lead to: a part of its own, and no icon.
LEADS_TO = re.compile(r"#[a-z]\d+|data:,")
POLICY = "default-src 'none'; style-src 'unsafe-inline'; script-src 'unsafe-inline'"
# What is said above the table of classes, and what its columns are called.
USAGE = (
    "Usage: the first character is for hard interrupts, the third for softirqs, and the others are always"
    " <code>.</code>. <code>-</code>: acquired by handlers (a <code>try</code> doesn't count). <code>+</code>:"
    " held with the interrupts enabled. <code>?</code>: both, which is a conflict. <code>.</code>: neither. A"
    " program without handlers has no <code>-</code> and no <code>?</code>. Below them stands where each was"
    " first seen: acquired <code>in</code> a handler, or held with interrupts <code>on</code>."
)
COLUMNS = ["Class", "Usage", "Acquired while held", "Held while acquired", "What it is"]
# Appended to a page, it types into both search boxes, and puts what is shown then into the page's title.
TYPED = """
const word = {word};
function typed(id) {{
  one(id).value = word;
  one(id).dispatchEvent(new Event('input'));
}}
typed('find-class');
const classes = all('#class-rows tr').filter(it => !it.hidden).map(it => it.cells[0].textContent);
const before = one('shown') ? one('shown').textContent : '0';
if (one('find')) typed('find');
const lines = all('.violation').filter(it => !it.hidden).map(it => it.querySelector('.line').textContent);
const after = one('shown') ? one('shown').textContent : '0';
document.title = JSON.stringify({{ classes, before, lines, after }});
"""


class Page(html.parser.HTMLParser):
    """What a page has."""

    def __init__(self, text):
        super().__init__()
        self.open, self.names, self.leads, self.counts = [], set(), [], {}
        self.lines, self.classes, self.scripts, self.policy = [], [], [], None
        # What is written outside of pictures: of each section, before its articles and in them, and of rows of tables.
        self.groups, self.rows, self.verdict = [], [], ""
        # The texts of each picture, and how many of its arrows are dashed.
        self.boxes, self.dashed = [], []
        self.feed(text)
        self.close()

    def handle_starttag(self, tag, attributes):
        given = dict(attributes)
        must(len(given) == len(attributes), f"an attribute stands twice at {tag}")
        must(tag in TAGS, f"an element {tag}")
        must(not any(map(ACTIVE.fullmatch, given)), f"it has {given}")
        if "href" in given:
            must(LEADS_TO.fullmatch(given["href"]), f"it leads to {given['href']}")
            self.leads.append(given["href"])
        if "id" in given:
            must(given["id"] not in self.names, f"{given['id']} stands twice")
            self.names.add(given["id"])
        if given.get("http-equiv") == "Content-Security-Policy":
            self.policy = given["content"]
        self.open.append((tag, given))
        if tag in ("p", "td") and (given.get("class") == "line" or self.is_class()):
            (self.lines if tag == "p" else self.classes).append("")
        if tag == "script":
            self.scripts.append("")
        self.begin_part(tag, given)

    def begin_part(self, tag, given):
        """Something of which all texts are wanted."""
        if tag == "section":
            self.groups.append([""])
        elif tag == "article":
            self.groups[-1].append("")
        elif tag == "svg":
            self.boxes.append([])
            self.dashed.append(0)
        elif tag == "text":
            self.boxes[-1].append("")
        elif tag == "tr" and any(it[0] == "tbody" for it in self.open):
            self.rows.append([])
        elif tag == "td":
            self.rows[-1].append("")
        if tag == "path":
            self.dashed[-1] += "dashed" in given["class"].split()

    def add_to_parts(self, tags, data):
        if "svg" in tags:
            if tags[-1] == "text":
                self.boxes[-1][-1] += data
        elif "section" in tags:
            self.groups[-1][-1] += data
        elif "td" in tags:
            self.rows[-1][-1] += data + " "
        elif self.open and self.open[-1][1].get("class") in ("good", "bad"):
            self.verdict += data

    def is_class(self):
        """Whether the cell that begins is the first one of a row of the classes."""
        return len(self.open) > 1 and self.open[-2][0] == "tr" and "data-place" in self.open[-2][1]

    def handle_endtag(self, tag):
        while self.open and self.open.pop()[0] != tag:
            pass

    def handle_data(self, data):
        tags = [it[0] for it in self.open]
        last = self.open[-1] if self.open else ("", {})
        self.add_to_parts(tags, data)
        if last[0] == "script":
            self.scripts[-1] += data
        elif "data-count" in last[1]:
            self.counts[last[1]["data-count"]] = data
        elif last[0] == "code" and len(tags) > 1 and self.open[-2][1].get("class") == "line":
            self.lines[-1] += data
        elif last[0] == "code" and len(tags) > 2 and tags[-2] == "td" and "data-place" in self.open[-3][1]:
            self.classes[-1] += data


def classes_of(case):
    return sorted(f"{name}/{subclass}" if subclass else name for name, subclass in case.facts.classes)


def look(case):
    text = case.run("html").decode("utf-8")
    page = Page(text)
    same(page.policy, POLICY, "the policy")
    wanted = {**{name: case.totals[name] for name in ("traces", "refused", "events", "classes", "dependencies")}}
    wanted["violations"] = str(len(case.violations))
    same(page.counts, wanted, "the counts")
    same(sorted(page.lines), sorted(map(shown, case.violations)), "the violations")
    must(all(it[1:] in page.names for it in page.leads if it.startswith("#")), "a link leads to nothing")
    if case.facts.classes:
        must(f'<p class="soft">{USAGE}</p>' in text, "the usage characters aren't explained")
        same(re.findall("<th(?: [^>]*)?>(.*?)</th>", text)[-len(COLUMNS) :], COLUMNS, "the columns of the classes")
    graph = json.loads(page.scripts[0])
    same(len(page.scripts), 2, "how many scripts there are")
    same(sorted(graph["classes"]), classes_of(case), "the classes of the graph")
    edges = sorted((name_of(one), name_of(other)) for one, other in case.facts.dependencies)
    same(sorted((graph["classes"][one], graph["classes"][other]) for one, other in graph["edges"]), edges, "its edges")
    stories = Stories(case)
    if stories.are_plain():
        Told(case, stories).look(page)
    return text


def squeezed(text):
    """A text without blanks."""
    return "".join(text.split())


class Told:
    """What a page has to tell of a case, but for blanks."""

    def __init__(self, case, stories):
        self.case, self.facts, self.stories = case, case.facts, stories
        # The dependencies that were told.
        self.above = set()
        self.origins = origins(case.lines) if case.words else {}

    def look(self, page):
        groups = self.stories.groups()
        wanted = [[self.group(number, it), *map(self.article, it)] for number, it in enumerate(groups, 1)]
        came = [[squeezed(part) for part in it] for it in page.groups]
        came = [[it[0], *(without_meaning(part) for part in it[1:])] for it in came]
        same(came, [[squeezed(part) for part in it] for it in wanted], "what is told")
        violations = [it for group in groups for it in group]
        same(page.boxes, list(map(boxes, violations)), "the pictures")
        same(page.dashed, [int(bool(it.state)) for it in violations], "the dashed arrows")
        verdict = f"Violations: {len(violations)}, in groups: {len(groups)}" if violations else "No violation"
        verdict += f". Refused traces: {len(self.case.refused)}" if self.case.refused else ""
        same(page.verdict, f"{verdict}.", "the verdict")
        rows = [list(map(squeezed, it)) for it in page.rows]
        wanted = [*map(self.refused, self.case.refused), *map(self.row, sorted(self.facts.classes))]
        same(rows, [list(map(squeezed, it)) for it in wanted], "the rows of tables")

    def group(self, number, group):
        text = f"Group {number}"
        if len(group) < 2:
            return text
        text += f"Violations that share dependencies: {len(group)}."
        steps = [step for it in group for step in dict.fromkeys(it.steps)]
        most = max(dict.fromkeys(steps), key=steps.count)
        text += f" Of them {steps.count(most)} have {pair(most)} in the cycle or path that is shown. "
        if most[0] == most[1]:
            text += "Make one order for these locks and give the inner one another class, or hold one at a time. Then check"
        else:
            text += "Take these locks the other way round, and check"
        return f"{text} again: other paths may remain."

    def article(self, violation):
        text = f"{violation.kind}{title(violation)}{violation.line}"
        for step in violation.steps:
            seen = self.facts.dependencies[step]
            text += pair(step) + (", above" if step in self.above else self.seen(seen, frame(seen)))
            self.above.add(step)
        text += "".join(in_common(self.case, violation))
        if violation.ends:
            (safe, exposed), state = violation.ends, violation.state
            text += f"{state} handlers acquire {name_of(safe)}"
            text += self.seen(self.facts.uses[safe, "in", state], ())
            seen = self.facts.uses[exposed, "on", state]
            text += f"{name_of(exposed)} is held where {state} handlers can interrupt"
            text += self.seen(seen, of_class(seen, exposed)) + self.since(seen)
        return text

    def line(self, line):
        text = f"{line.file}:{line.file_number}: {line.text.decode('latin-1')}"
        if isinstance(line.known, int):
            return f"{text}, line {line.known} of the recording"
        return text + "".join(map(told, line.known or ()))

    def seen(self, seen, holds):
        text = f"{seen.line.label}, task {seen.task}, {self.line(seen.line)}"
        text += "".join(f"holds {name}, {self.line(line)}" for name, line in holds)
        return text + "".join(f"in a {state} handler, {self.line(line)}" for state, line in seen.handlers)

    def since(self, seen):
        flags = [(it, seen.flags[it]) for it in ("hard", "soft") if seen.flags[it]]
        begun = [(state, "the trace began" if flag is True else self.line(flag)) for state, flag in flags]
        return "".join(f"{state} interrupts enabled since {text}" for state, text in begun)

    def refused(self, refused):
        _, label, _, number, fault = refused.split(" ")
        line = self.case.at[int(number)]
        return [label, f"{line.file}:{line.file_number}", fault, line.text.decode("latin-1")]

    def row(self, class_of):
        seen = [self.facts.uses.get((class_of, *it)) for it in USES]
        first = "".join(
            f"{used} {state} at {it.line.label} {it.line.file}:{it.line.file_number}"
            for (used, state), it in zip(USES, seen)
            if it
        )
        count = [sum(it[place] == class_of for it in self.facts.dependencies) for place in (1, 0)]
        origin = self.origins.get(class_of[0] if class_of[1] else class_of[0].removesuffix("!read"), "")
        return [name_of(class_of), self.stories.shown.marks(class_of)[1:-1] + first, *map(str, count), origin]


def pair(step):
    return f"{name_of(step[0])} → {name_of(step[1])}"


def boxes(violation):
    """The texts of a picture: a box for each class, but that of a cycle once, and what comes back to the first."""
    classes = [violation.steps[0][0], *(it[1] for it in violation.steps)] if violation.steps else violation.ends[:1]
    classes = classes if violation.state else classes[:-1]
    return [*map(name_of, classes), *filter(None, [violation.state])]


def without_meaning(text):
    """What is told, without what its kind means."""
    for meaning in map(squeezed, MEANINGS):
        text = text.replace(meaning, "")
    return text


def browser():
    """Chromium, if it is there."""
    return shutil.which("chromium") or shutil.which("chromium-browser")


class Asked(socketserver.BaseRequestHandler):
    """Notes what a browser asks its proxy for, and gives nothing."""

    def handle(self):
        self.request.settimeout(5)
        self.server.asked.append(self.request.recv(4096).decode("latin-1").split("\r\n")[0])


def in_browser(text, script):
    """What a script makes of a page, and puts into its title as JSON; and what the browser asks for meanwhile."""
    with tempfile.TemporaryDirectory() as folder, socketserver.ThreadingTCPServer(("127.0.0.1", 0), Asked) as proxy:
        proxy.daemon_threads, proxy.asked = True, []
        threading.Thread(target=proxy.serve_forever, daemon=True).start()
        with open(f"{folder}/page.html", "w", encoding="utf-8", newline="") as file:
            file.write(text.replace("</body>", f"<script>{script}</script></body>"))
        words = [browser(), "--headless", "--no-sandbox", "--disable-gpu", f"--user-data-dir={folder}/user"]
        words += [f"--proxy-server=127.0.0.1:{proxy.server_address[1]}", "--disable-background-networking"]
        words += ["--virtual-time-budget=5000", "--dump-dom", f"file://{folder}/page.html"]
        done = subprocess.run(words, capture_output=True, env={**os.environ, "HOME": folder}, timeout=100, check=False)
        proxy.shutdown()
    title = re.search("<title>(.*?)</title>", done.stdout.decode("utf-8"), re.DOTALL)
    must(title and title[1][:1] in ("{", "["), f"the script of the page doesn't run: {title and title[1]}")
    return json.loads(html.unescape(title[1])), proxy.asked


def type_into(case, text, word):
    """In a browser, what is shown once a word was typed: the classes and the violations that have it."""
    came, _ = in_browser(text, TYPED.format(word=json.dumps(word)))
    held = [shown(it) for it in classes_of(case) if word.lower() in it.lower()]
    same(sorted(came["classes"]), sorted(held), f"the classes with {word}")
    same(came["before"], str(len(case.violations)), "how many violations are shown")
    same(came["after"], str(len(came["lines"])), f"how many with {word} are said to be shown")
    must({shown(it) for it in case.violations if word.lower() in it.lower()} <= set(came["lines"]), f"some with {word}")
