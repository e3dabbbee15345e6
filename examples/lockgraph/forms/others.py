"""Looks at what lockgraph writes for programs that read SARIF, commands of GitHub, JUnit's XML, and KTAP."""
import json
import re
import shutil
import subprocess
import tempfile
import urllib.parse
import xml.etree.ElementTree

from .shown import name_of
from .stories import Stories, calls
from .streams import KINDS, must, same

URI = re.compile(r"(?:file:///)?(?:[A-Za-z0-9._~/-]|%[0-9A-F]{2})*")
COMMAND = re.compile(r"::(error|warning|notice) ([^:]*)::(.*)")
# What means something in a message of SARIF (3.11.5 and 3.11.6 of SARIF 2.1.0): `{0}` is a placeholder, `{{` a brace,
# `[here](1)` a link, and `\[` a bracket.
SIGN = re.compile(r"\{\{|\}\}|\\[\\\[\]]|[{}\[\]\\]")
ODD = re.compile("[\x80-\x9f\u2028-\u202e\u2066-\u2069\ufffe\uffff]")
TEST = re.compile(r"(not ok|ok) (\d+) (.*)")


# What each kind means.
MEANINGS = {
    "A task acquires a lock of this class while it holds one. If both are one lock, or if two tasks take two such locks"
    " in opposite order, they wait forever.",
    "Each step acquires a lock while another one is held, and the steps form a cycle. If tasks take them at once, each"
    " can wait forever for a lock that the next one holds.",
    "An interrupt handler acquires a lock of this class, and elsewhere one is held while such a handler can interrupt."
    " If it interrupts the task that holds the lock, it waits forever for that task.",
    "Interrupt handlers acquire the first class, and the last one is held while they can interrupt. If a task holds the"
    " first and waits along the path for the last, a handler that interrupts its holder waits forever.",
}
# Which word of a violation's line is the place that it points at: where it is first seen, or held.
POINTED_AT = {"recursion": 3, "inversion": 5, "conflict": 7, "forbidden": 10}
# Which is the first class behind `via`.
WALK = {"inversion": 7, "forbidden": 12}


def place(case, violation):
    """File and line of what a violation points at."""
    words = violation.split(" ")
    line = case.at[int(words[POINTED_AT[words[0]]].rpartition(":")[2])]
    return line.file, line.file_number


def faulty(case, refused):
    """The faulty line of a rejected trace."""
    return case.at[int(refused.rsplit(" ", 2)[1])]


def title(violation):
    """What a violation is, whatever its occurrences and its path are."""
    ends = violation.ends if violation.kind == "forbidden" else violation.steps[0] if violation.steps else ()
    ends = violation.ends[:1] if violation.kind == "conflict" else ends[:1] if violation.kind == "recursion" else ends
    return " ".join([violation.kind, *filter(None, [violation.state]), " -> ".join(map(name_of, ends))])


def pointed_at(case, violation, prefix):
    """The file and the line that a violation points at: the innermost call with a line of source in a file below the
    prefix, or else the innermost one with a line of source, or the line of the trace."""
    if violation.ends:
        line = case.facts.uses[violation.ends[1], "on", violation.state].line
    else:
        line = case.facts.dependencies[violation.steps[0]].line
    found = [it[1:] for it in calls(line) if it[2] is not None]
    below = [it for it in found if prefix and it[0].startswith(f"{prefix}/")]
    file, number = [*below, *found, (line.file, line.file_number)][0]
    return (file.removeprefix(f"{prefix}/") if prefix else file), number


def read(message):
    """What a message of SARIF shows. No part of one may be a placeholder or a link."""
    text = message["text"]
    must(all(len(it) == 2 for it in SIGN.findall(text)), f"a placeholder or a link in {text!r}")
    return SIGN.sub(lambda it: it[0][1], text)


def sarif(case, prefix=""):
    log = json.loads(case.run("sarif", "--strip", prefix).decode("utf-8"))
    same(log["version"], "2.1.0", "the version")
    (run,) = log["runs"]
    driver = run["tool"]["driver"]
    must(driver["name"] and driver["version"], "the tool has a name and a version")
    same([it["id"] for it in driver["rules"]], list(KINDS), "the rules")
    same([read(it["message"]).split("\n")[0] for it in run["results"]], case.violations, "the results")
    for result, violation in zip(run["results"], case.violations):
        same(result["ruleId"], driver["rules"][result["ruleIndex"]]["id"], "a rule")
        same((result["ruleId"], result["level"]), (violation.split(" ")[0], "error"), "a rule")
        (location,) = result["locations"]
        if not case.words:
            same(physical(location, prefix), place(case, violation), "where a result is")
        must(result["partialFingerprints"], "a result has a fingerprint")
        (flow,) = result["codeFlows"]
        must(flow["threadFlows"], "a result has a step or an end")
        for thread in flow["threadFlows"]:
            must(thread["locations"] and read(thread["message"]), "a flow has a location")
            for step in thread["locations"]:
                physical(step["location"], prefix)
                for frame in step.get("stack", {}).get("frames", ()):
                    called(frame["location"], prefix)
    fingerprints = [it["partialFingerprints"]["lockViolation/v1"] for it in run["results"]]
    told_by_sarif(case, run["results"], prefix)
    must(len(set(fingerprints)) == len(fingerprints), "fingerprints differ")
    (invocation,) = run["invocations"]
    must(invocation["executionSuccessful"] is True, "the invocation has ended well")
    notes = invocation["toolExecutionNotifications"]
    same(len(notes), len(case.refused), "how many notifications there are")
    for note, refused in zip(notes, case.refused):
        line = faulty(case, refused)
        must(read(note["message"]) == f"{line.label} is refused: {refused.split(' ')[-1]}", "a notification")
        same(physical(note["locations"][0], prefix), (line.file, line.file_number), "where a fault is")
    return run


def told_by_sarif(case, results, prefix):
    """What the results tell of the violations."""
    stories = Stories(case)
    for result, violation in zip(results, stories.violations if stories.are_plain() else ()):
        same(result["partialFingerprints"]["lockViolation/v1"], title(violation), "a fingerprint")
        same(read(result["message"]).split("\n")[2:], stories.of(violation), "what a result tells")
        # With a prefix the places of flows are those of other calls.
        if not prefix:
            flows = [flow_of(it, prefix) for it in result["codeFlows"][0]["threadFlows"]]
            same(flows, stories.flows(violation), "the flows")
        file, line = pointed_at(case, violation, prefix)
        file = f"{prefix}/{file}" if prefix and not file.startswith("/") else file
        same(physical(result["locations"][0], prefix), (file, line), "where a result is")


def flow_of(thread, prefix):
    """What a flow is, and of each of its locations the message, the place, and the calls that led there."""
    steps = []
    for step in thread["locations"]:
        frames = step.get("stack", {}).get("frames", ())
        names = [it["location"]["logicalLocations"][0]["name"] for it in frames]
        calls = [(name, *called(it["location"], prefix)) for name, it in zip(names, frames)]
        steps.append((read(step["location"]["message"]), physical(step["location"], prefix), calls))
    return read(thread["message"]), steps


def called(location, prefix):
    """File and line of a call, if it has a line of source."""
    return physical(location, prefix) if "physicalLocation" in location else (None, None)


def physical(location, prefix):
    """File and line of a location."""
    found = location["physicalLocation"]
    uri = found["artifactLocation"]["uri"]
    must(URI.fullmatch(uri), f"this is no URI: {uri!r}")
    line = found["region"]["startLine"]
    must(line > 0, "lines are counted from 1")
    path = urllib.parse.unquote(uri.removeprefix("file://"), errors="surrogateescape")
    return f"{prefix}/{path}" if prefix and not path.startswith("/") else path, line


def unescaped(text, of_property=False):
    """A text of a command as GitHub reads it."""
    pairs = [("%0D", "\r"), ("%0A", "\n")]
    pairs += [("%3A", ":"), ("%2C", ",")] if of_property else []
    for mark, char in (*pairs, ("%25", "%")):
        text = text.replace(mark, char)
    return text


def as_read(text):
    """A text as GitHub reads it back: of control bytes only ends of lines are one again. If a character turns or ends a
    line, all bytes above ASCII stay numbers."""
    above = ODD.search(text)
    return "".join(
        urllib.parse.quote(it) if (it >= "\x80" and above) or (it < " " and it not in "\r\n") else it for it in text
    )


def github(case, prefix=""):
    text = case.run("github", "--strip", prefix).decode("utf-8")
    must("\r" not in text, "an end of a line within a command")
    commands = []
    for line in text.removesuffix("\n").split("\n"):
        found = COMMAND.fullmatch(line)
        must(found, f"this is no command: {line!r}")
        given = dict(it.split("=", 1) for it in found[2].split(","))
        given = {name: unescaped(it, of_property=True) for name, it in given.items()}
        commands.append((found[1], given, unescaped(found[3]).split("\n")))
    words = ["warning"] * len(case.refused) + ["error"] * len(case.violations) + ["notice"]
    same([it[0] for it in commands], words, "the commands")
    for (_, given, message), refused in zip(commands, case.refused):
        line = faulty(case, refused)
        same(message[0], f"{line.label} is refused: {refused.split(' ')[-1]}", "a warning")
        if not prefix:
            same((given["file"], given["line"]), (as_read(line.file), str(line.file_number)), "where a fault is")
    told = []
    for (_, given, message), violation in zip(commands[len(case.refused):], case.violations):
        same(message[0], violation, "an error")
        must(violation.startswith(given["title"].split(" ")[0]), "a title")
        told.append((given["title"], message[2:], (given["file"], given.get("line"))))
        if not case.words and not prefix:
            file, number = place(case, violation)
            same((given["file"], given["line"]), (as_read(file), str(number)), "where an error is")
    stories = Stories(case)
    if stories.are_plain():
        for (name, lines, spot), violation in zip(told, stories.violations):
            same((name, lines), (title(violation), stories.of(violation)), "what an error tells")
            file, number = pointed_at(case, violation, prefix)
            same(spot, (file, str(number)), "where an error is")
    numbers = (len(case.violations), case.totals["traces"], case.totals["refused"])
    same(commands[-1][2], ["violations {}, traces {}, of which refused {}".format(*numbers)], "the notice")


def grouped(case):
    """How many groups of violations there are, by what the report says of their paths."""
    groups = []
    for violation in case.violations:
        steps = set(steps_of(violation))
        shared = [it for it in groups if it & steps]
        groups = [it for it in groups if it not in shared] + [steps.union(*shared)]
    return len(groups)


def steps_of(violation):
    """The dependencies of a line of a report."""
    words = violation.split(" ")
    if words[0] == "recursion":
        return [(words[1], words[1])]
    if words[0] == "conflict":
        return [violation]
    path = words[WALK[words[0]] :: 2]
    classes = [words[1], *path] if words[0] == "inversion" else path
    return list(zip(classes, classes[1:]))


def junit(case, prefix=""):
    (suite,) = xml.etree.ElementTree.fromstring(case.run("junit", "--strip", prefix))
    tests = suite.findall("testcase")
    groups = grouped(case)
    wanted = {"tests": max(groups, 1) + 1, "failures": groups, "errors": int(bool(case.refused)), "skipped": 0}
    same({name: int(suite.get(name)) for name in wanted}, wanted, "the counts of the suite")
    count = (len(tests), len(suite.findall("testcase/failure")), len(suite.findall("testcase/error")))
    same(count, (wanted["tests"], wanted["failures"], wanted["errors"]), "the cases")
    must(all(it.get("name") and it.get("classname") for it in tests), "a case has a name")
    told = [line for it in suite.findall("testcase/failure") for line in it.text.split("\n")]
    told = sorted(it for it in told if it.split(" ")[0] in KINDS)
    same(told, sorted(map(shown, case.violations)), "the failures")
    stories = Stories(case)
    if stories.are_plain():
        groups = stories.groups()
        names = [title(it[0]) for it in groups] or ["no violation"]
        same([it.get("name") for it in tests], ["traces accepted", *names], "the names of the cases")
        for test, group in zip(tests[1:], groups):
            failure = test.find("failure")
            same(failure.get("message"), f"{group[0].line}{more(group)}", "the message of a failure")
            lines = failure.text.removesuffix("\n").split("\n")
            same([it for it in lines if it not in MEANINGS], told_of(stories, group), "what a failure tells")
            file, line = pointed_at(case, group[0], prefix)
            same((test.get("file"), test.get("line")), (file, str(line)), "where a failure is")
    for it in suite.findall("testcase/error"):
        for refused in case.refused:
            name = f"{shown(faulty(case, refused).label)} is refused: {refused.split(' ')[-1]}"
            must(name in it.text, f"{name} is missing")


def more(group):
    return f" and {len(group) - 1} more" if len(group) > 1 else ""


def told_of(stories, group):
    """What is told of a group, without what its kinds mean."""
    return [line for it in group for line in (it.line, *stories.of(it))]


def shown(text):
    """A text as markup shows it: a backslash by its number."""
    return text.replace("\\", "\\x5C")


def ktap(case, _prefix=""):
    text = case.run("ktap")
    lines = text.decode("utf-8").removesuffix("\n").split("\n")
    groups = grouped(case)
    same(lines[:2], ["KTAP version 1", f"1..{max(groups, 1) + 1}"], "the version and the plan")
    tests = [TEST.fullmatch(it) for it in lines[2:] if not it.startswith("# ")]
    must(all(tests), "a line is no test and no comment")
    same([int(it[2]) for it in tests], list(range(1, max(groups, 1) + 2)), "the numbers of the tests")
    is_ok = [not case.refused, *([False] * groups or [True])]
    same([it[1] == "ok" for it in tests], is_ok, "which tests are ok")
    must(not any("#" in it[3] for it in tests), "a description has a directive")
    stories = Stories(case)
    if stories.are_plain():
        names = [f"{title(it[0])}{more(it)}" for it in stories.groups()] or ["no violation"]
        same([it[3] for it in tests], ["traces accepted", *names], "the tests")
        told = [it[2:] for it in lines[2 + len(case.refused) :] if it.startswith("# ") and it[2:] not in MEANINGS]
        same(told, [line for it in stories.groups() for line in told_of(stories, it)], "the comments")
    comments = {it[2:] for it in lines if it.startswith("# ")}
    must(comments.issuperset(map(escaped, case.violations)), "a violation is missing")
    if shutil.which("prove"):
        with tempfile.NamedTemporaryFile() as file:
            file.write(text)
            file.flush()
            done = subprocess.run(["prove", "-e", "cat", file.name], capture_output=True, check=False)
        same(done.returncode == 0, all(is_ok), f"what prove says: {done.stdout}")
        must(f"Tests={len(tests)}," in done.stdout.decode("utf-8"), f"prove has other tests: {done.stdout}")


def escaped(text):
    """A text as KTAP has it."""
    for char in "%#\\":
        text = text.replace(char, f"%{ord(char):02X}")
    return text


def look(case):
    for form in (sarif, github, junit, ktap):
        form(case)
