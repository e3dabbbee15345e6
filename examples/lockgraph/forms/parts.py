"""Looks at what lockgraph writes for other programs of a part of a report: by --most the first violations by their groups,
as `explain` tells them, and by --known those that `new` tells."""
import json
import re
import tempfile
import xml.etree.ElementTree

from .others import COMMAND, escaped, read, shown as as_markup, unescaped
from .page import Page
from .shown import Shown, grouped
from .streams import KINDS, same

# What isn't told, as each form but `json` says it.
UNTOLD = re.compile(r"(known violations left out|violations not shown|refused traces not shown): (\d+)")


def sarif(text):
    (run,) = json.loads(text)["runs"]
    return [read(it["message"]).split("\n")[0] for it in run["results"]]


def github(text):
    commands = map(COMMAND.fullmatch, text.removesuffix("\n").split("\n"))
    return [unescaped(it[3]).split("\n")[0] for it in commands if it[1] == "error"]


def junit(text):
    (suite,) = xml.etree.ElementTree.fromstring(text)
    lines = [line for it in suite.findall("testcase/failure") for line in it.text.split("\n")]
    return [it for it in lines if it.split(" ")[0] in KINDS]


def ktap(text):
    lines = [it[2:] for it in text.split("\n") if it.startswith("# ")]
    return [it for it in lines if it.split(" ")[0] in KINDS]


def html(text):
    return Page(text).lines


FORMS = {
    "sarif": (sarif, str),
    "github": (github, str),
    "junit": (junit, as_markup),
    "ktap": (ktap, escaped),
    "html": (html, as_markup),
}


def told(case, words, violations, untold, status):
    """That each form tells these violations with these words, and says what it doesn't tell."""
    for form, (lines, written) in FORMS.items():
        text = case.run(form, *words, status=status).decode("utf-8")
        wanted = [written(it.line) for it in violations]
        came = lines(text)
        if form in ("sarif", "github"):
            same(came, wanted, f"what {form} tells by {words}")
        same(sorted(came), sorted(wanted), f"what {form} tells by {words}")
        same(dict(UNTOLD.findall(text)), {what: str(it) for what, it in untold.items() if it}, f"what {form} leaves out")


def by_most(case, violations, most):
    """The first so many of these violations by their groups, in the order of the report."""
    first = [it for group in grouped(violations) for it in group][: most or None]
    return [it for it in violations if it in first]


def left(case, violations, most):
    refused = len(case.refused)
    return {
        "violations not shown": max(len(violations) - most, 0) if most else 0,
        "refused traces not shown": max(refused - most, 0) if most else 0,
    }


def objects(case, violations, most):
    """That `json` tells these of all violations."""
    all_told = [json.loads(it) for it in case.run("json", "--most", str(most)).decode("utf-8").splitlines()]
    same([it["report"] for it in all_told if "report" in it], [it.line for it in violations], "what json tells")
    same(all_told[-1]["violations"], len(case.violations), "how many violations json counts")
    refused = [it for it in all_told if it["kind"] == "refused"]
    same(len(refused), len(case.refused[: most or None]), "how many rejected traces json tells")


def look(case):
    violations = Shown(case).violations
    for most in (0, 1, 2, 3, len(violations) - 1, len(violations), len(violations) + 1):
        if most >= 0:
            chosen = by_most(case, violations, most)
            told(case, ("--most", str(most)), chosen, left(case, violations, most), case.status)
            objects(case, chosen, most)
    for known in (violations[::2], violations[1::2], violations, []):
        with tempfile.NamedTemporaryFile("w", encoding="utf-8") as file:
            file.write("".join(f"{it.line}\n" for it in reversed(known)))
            file.flush()
            new = [it for it in violations if it not in known]
            status = 1 if new else 3 if case.refused else 0
            untold = {"known violations left out": len(known)}
            told(case, ("--known", file.name), new, untold, status)
            words = ("--known", file.name, "--most", "2")
            told(case, words, by_most(case, new, 2), {**untold, **left(case, new, 2)}, status)
