"""Looks at what `lockgraph json` writes."""
import collections
import json

from .common import common
from .shown import Shown
from .streams import TOP, must, same

try:
    import jsonschema
except ImportError:
    jsonschema = None


def closed(schema):
    """The schema, by which an object has no member that isn't described."""
    if isinstance(schema, list):
        return [closed(it) for it in schema]
    if not isinstance(schema, dict):
        return schema
    found = {name: closed(it) for name, it in schema.items()}
    if schema.get("type") == "object":
        found["additionalProperties"] = False
    return found


def validator():
    with open(f"{TOP}/docs/report.schema.json", encoding="utf-8") as file:
        schema = json.load(file)
    kind = jsonschema.Draft202012Validator
    kind.check_schema(schema)
    return kind(closed(schema))


def class_of(told):
    return f"{told['name']}/{told['subclass']}" if told["subclass"] else told["name"]


def key(told):
    return told["name"], told["subclass"]


def at(place):
    return f"{place['label']}:{place['line']}"


def via(classes):
    return " -> ".join(map(class_of, classes))


# The line of a report that an object is, by its kind.
LINES = {
    "traces": lambda it: " ".join(
        f"{name} {it[name]}" for name in ("traces", "refused", "events", "classes", "dependencies")
    ),
    "refused": lambda it: f"refused {it['at']['label']} line {it['at']['line']} {it['fault']}",
    "recursion": lambda it: f"recursion {class_of(it['class'])} at {at(it['at'])}",
    "inversion": lambda it: f"inversion {class_of(it['from'])} -> {class_of(it['to'])} at {at(it['at'])}"
    f" via {via(it['walk'])}",
    "conflict": lambda it: f"conflict {it['state']} {class_of(it['class'])} {{{it['usage']}}}"
    f" in {at(it['in'])} on {at(it['on'])}",
    "forbidden": lambda it: f"forbidden {it['state']} {class_of(it['from'])} {{{it['from_usage']}}} in {at(it['in'])}"
    f" -> {class_of(it['to'])} {{{it['to_usage']}}} on {at(it['on'])} via {via(it['walk'])}",
    "end": lambda it: f"violations {it['violations']}" if it["violations"] else "clean",
}
ORDER = ("traces", "refused", "dependency", "usage", "violation", "group", "end")


def walked(violation):
    """The classes of a violation's cycle or path, in turn."""
    kind = violation["kind"]
    if kind == "recursion":
        return [violation["class"]] * 2
    if kind == "inversion":
        return [violation["from"], *violation["walk"]]
    return [violation["class"]] if kind == "conflict" else violation["walk"]


def lock(name, is_written):
    """A lock that several lines hold."""
    name, sign, instance = name.partition("@")
    return {"name": name, **({"instance": instance} if sign else {}), "written": is_written}


class Objects:
    """The objects of a case."""

    def __init__(self, case, shape):
        self.case, self.violations = case, Shown(case).violations
        self.all = [json.loads(it) for it in case.run("json").decode("utf-8").removesuffix("\n").split("\n")]
        for told in self.all:
            if shape:
                shape.validate(told)
        self.of = collections.defaultdict(list)
        for told in self.all:
            self.of["violation" if "report" in told else told["kind"]].append(told)
        same([it for kind in ORDER for it in self.of[kind]], self.all, "the order of the objects")
        for kind in ("dependency", "usage", "violation", "group"):
            same([it["number"] for it in self.of[kind]], list(range(len(self.of[kind]))), f"the numbers of {kind}")

    def check(self):
        same([LINES[it["kind"]](it) for it in self.all if it["kind"] in LINES], self.case.report, "the report")
        same([it["report"] for it in self.of["violation"]], self.case.violations, "what stands at `report`")
        for told in self.of["refused"]:
            self.line(told, self.case.at[told["at"]["line"]])
        for told in self.of["dependency"]:
            seen = self.case.facts.dependencies[key(told["from"]), key(told["to"])]
            self.seen(told, seen, self.held(seen.holds, lambda it, seen=seen: it.frame == seen.frame))
        for told in self.of["usage"]:
            self.usage(told)
        for told in self.of["violation"]:
            self.violation(told)
        self.groups()
        self.needed()

    def line(self, told, line):
        same((told["at"], told["text"]), (line.place(), line.said()), "a line")
        calls = [(it["function"], it["file"], it.get("line")) for it in told.get("calls", ())]
        same(calls or told.get("recorded"), line.known, "what a map says of a line")

    def seen(self, told, seen, held):
        self.line(told, seen.line)
        same(told["task"], seen.task, "a task")
        same([self.lock(it) for it in told["held"]], held, "the locks that are held")
        handlers = [(it["state"], it["at"]["line"]) for it in told["handlers"]]
        same(handlers, [(state, line.number) for state, line in seen.handlers], "the handlers")
        for part in (*told["held"], *told["handlers"]):
            self.line(part, self.case.at[part["at"]["line"]])

    def lock(self, told):
        return class_of(told["class"]), told.get("instance", ""), told["written"], told["at"]["line"]

    def held(self, holds, chosen):
        """The locks that are held, what a writer of L holds, L and L!read, as one."""
        found = []
        for hold in filter(chosen, holds):
            name, subclass = hold.class_of()
            lock = name.removesuffix("!read")
            if subclass or not lock or lock == name:
                found.append(((f"{name}/{subclass}" if subclass else name), hold.instance, False, hold.line.number))
                continue
            line = hold.line.number
            if found and found[-1][:3] == (lock, hold.instance, False):
                line = found.pop()[3]
            found.append((lock, hold.instance, True, line))
        return found

    def usage(self, told):
        seen = self.case.facts.uses[key(told["class"]), told["use"], told["state"]]
        held = self.held(seen.holds, lambda it: told["use"] == "on" and it.class_of() == key(told["class"]))
        self.seen(told, seen, held)
        for state in ("hard", "soft"):
            flag = seen.flags[state]
            same(told[state]["enabled"], bool(flag), f"whether {state} is on")
            same(told[state].get("at", {}).get("line"), getattr(flag, "number", None), f"since when {state} is on")

    def violation(self, told):
        classes = list(map(key, walked(told)))
        steps = [self.of["dependency"][it] for it in told["dependencies"]]
        same([(key(it["from"]), key(it["to"])) for it in steps], list(zip(classes, classes[1:])), "the steps")
        is_one_task, locks = common(self.case, self.violations[told["number"]])
        wanted = {"one_task": is_one_task, "locks": [lock(*it) for it in locks]} if is_one_task or locks else None
        same(told.get("common"), wanted, "what the steps have in common")
        ends = [self.of["usage"][told[it]] for it in ("in_number", "on_number") if it in told]
        if told["kind"] in ("recursion", "inversion"):
            same((ends, told["at"]), ([], steps[0]["at"]), "where it points")
            return
        wanted = [(told["state"], classes[0], "in", told["in"]), (told["state"], classes[-1], "on", told["on"])]
        same([(it["state"], key(it["class"]), it["use"], it["at"]) for it in ends], wanted, "the ends")
        same(told["at"], told["on"], "where it points")

    def groups(self):
        """By joining what shares a dependency, one after another."""
        groups = []
        for told in self.of["violation"]:
            shared = [it for it in groups if it[1].intersection(told["dependencies"])]
            groups = [it for it in groups if it not in shared]
            numbers = sorted([told["number"], *(number for it in shared for number in it[0])])
            groups.append((numbers, set(told["dependencies"]).union(*(it[1] for it in shared))))
        groups.sort(key=lambda it: it[0])
        same([it["violations"] for it in self.of["group"]], [it[0] for it in groups], "the groups")
        for told, (numbers, _) in zip(self.of["group"], groups):
            members = [set(self.of["violation"][it]["dependencies"]) for it in numbers]
            counts = collections.Counter(step for it in members for step in it)
            most = told.get("most")
            same(bool(most), bool(counts), "whether violations share a dependency")
            if most:
                same(most["violations"], max(counts.values()), "how many share it")
                same(counts[most["dependency"]], most["violations"], "which one they share")
            for number in numbers:
                same(self.of["violation"][number]["group"], told["number"], "the group of a violation")

    def needed(self):
        """Each dependency and each end stands once, where it is first needed."""
        steps = [step for it in self.of["violation"] for step in it["dependencies"]]
        same(list(dict.fromkeys(steps)), list(range(len(self.of["dependency"]))), "the dependencies")
        ends = [it[end] for it in self.of["violation"] for end in ("in_number", "on_number") if end in it]
        same(list(dict.fromkeys(ends)), list(range(len(self.of["usage"]))), "the ends")


def look(case, shape):
    objects = Objects(case, shape)
    objects.check()
    must(objects.of["end"] and len(objects.of["traces"]) == 1, "one first and one last object")
