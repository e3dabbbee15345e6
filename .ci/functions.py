"""The functions of a crate, by its text: where they stand, what they show to crates above, and which can be taken as
proved in a check of others."""
import os
import re
import shutil

from crates import files_below, read, write

# The beginning of a function, and of a type.
FUNCTION = re.compile(r"( *)(?:pub(?:\([^)]*\))? )?(?:const )?fn (\w+)")
TYPE = re.compile(r"(?m)^(?:pub(?:\([^)]*\))? )?(?:struct|enum) (\w+)")
# A block of a type with parameters, `impl<OWN> TYPE<GIVEN> {`.
GIVEN = re.compile(r"impl(?:<(.*)>)? (\w+)<([\w', ]*)> {")
# A `use` of several names, in one line, by which nothing is handed on.
USE = re.compile(r"((?:ghost )?use [\w:.]+\{)([^{}]*)(?=\};$)")
# A file of lemmas, and the lemma by which functions are taken as proved: a hole, so nothing is proved by it.
TAKEN = "TakenAsProved"
LEMMA = "pub taken_as_proved : {A : Type 2} → A\ntaken_as_proved = ?\n"
# The proof of such a function.
PROOF = """use Rattle.%(crate)s.proofs.%(path)s.Statement.{statement}
use Rattle.%(crate)s.proofs.%(file)s.{taken_as_proved}

pub %(name)s_spec : {M : Type 1} → statement M
%(name)s_spec = taken_as_proved
"""
# Parameters of a function or a block that are types, as `<'a, T: Ord>` has one.
TYPES = re.compile(r"(fn \w+|impl)<(?!'\w+(, '\w+)*>)")


class Wrong(Exception):
    """Why nothing can be said of an edit, or of all."""


class Function:
    """A function: its name, what the checker's names have before it, whether only its crate can name it, where
    it stands in its file, by numbers of lines from 0, and its body. It is plain, if it is no trait's, has no type for
    a parameter and doesn't call itself: then its proof is of a statement of its own, without such parameters."""

    def __init__(self, file, name, owner, is_own, lines, body="", is_plain=False):
        self.file, self.name, self.owner, self.is_own = file, name, owner, is_own
        self.first, self.head, self.last = lines
        self.body = body
        # The module of its type, if that is known.
        self.module = None
        # Whether an edit adds it.
        self.is_added = False
        self.is_plain = is_plain and not self.calls(self)

    def place(self):
        return self.file, self.first

    def path(self):
        """The checker's name of it, below its crate: MODULE::TYPE::FUNCTION."""
        module = self.module or module_of(self.file)
        owner = [self.owner] if self.owner not in ("", *module[-1:]) else []
        return "::".join([*module, *owner, self.name])

    def calls(self, other):
        """Whether it may call another one: it calls one of that name."""
        return re.search(rf"\b{other.name}\(", self.body)

    def has(self, file, line):
        return file == self.file and self.first <= line <= self.last

    def has_proofs(self, path):
        """Whether a file of proofs/ is this function's: it is MODULE/TYPE/FUNCTION/FILE."""
        *_, owner, name, _ = ["", "", *path.split("/")]
        return name == self.name and (owner.startswith(self.owner) if self.owner else not owner)


def end_of(lines, first, indent):
    """The lines at which the head and the body of a function end."""
    head = None
    for at in range(first, len(lines)):
        line = lines[at]
        if head is not None:
            if line == f"{indent}}}":
                return head, at
            continue
        closes = at == first or line.startswith(f"{indent})")
        if closes and line.endswith("}") or line.endswith(";") and lines[at + 1].strip() in ("", "}"):
            return at, at
        if closes and line.endswith("{") or line == f"{indent}{{":
            head = at
    raise Wrong(f"no end was found of the function in the line '{lines[first]}'")


def block_of(lines, first, indent):
    """The line that begins the block of a function: its impl, trait or module; none at the top of a file."""
    return next(it for it in reversed(lines[:first]) if re.match(r"(impl|(pub )?(trait|mod))\b", it)) if indent else ""


def owner_of(file, head):
    """What the checker's names have before the name of a function: its type and trait, or its module."""
    if not head:
        stem = os.path.basename(file).removesuffix(".rt")
        return "" if stem in ("lib", "main") else stem
    if given := GIVEN.fullmatch(head):
        own, name, words = given.groups()
        types = [it for it in words.split(", ") if not it.startswith("'")]
        # As `Look+T+Brand` is, if a parameter is given.
        if not set(types) <= set(re.findall(r"(?:^|, )(\w+)", own or "")):
            return "+".join([name, *types])
    head = re.sub(r"^(impl(<.*?>)? |(pub )?(trait|mod) )|'\w+|[{&]", "", head)
    trait, _, owner = head.rpartition(" for ")
    # As `StopFromAllocError` is `impl From<AllocError> for Stop`.
    return owner.partition("<")[0].strip() + "".join(re.findall(r"\w+", trait.rpartition("::")[2]))


def functions_of(file):
    """The functions of a file that is laid out as `rt fmt` does it."""
    lines, found, at = read(file).split("\n"), [], 0
    while at < len(lines):
        begins = FUNCTION.match(lines[at])
        if begins:
            head, last = end_of(lines, at, begins[1])
            block = block_of(lines, at, begins[1])
            of_trait = " for " in block or re.match(r"(pub )?trait\b", block)
            is_own = not (of_trait or lines[at].lstrip().startswith("pub "))
            # What is open of a function is said to be at its first attribute, where it has one.
            first = at
            while lines[first - 1].startswith(f"{begins[1]}#["):
                first -= 1
            body = "\n".join(lines[head + 1 : last])
            is_plain = not (of_trait or TYPES.search(lines[at]) or TYPES.match(block))
            found.append(Function(file, begins[2], owner_of(file, block), is_own, (first, head, last), body, is_plain))
            at = last
        at += 1
    return found


def module_of(file):
    """The module of a file, src/MODULE/MODULE.rt: its names."""
    module = file.removeprefix("src/").removesuffix(".rt").split("/")
    return module if module not in (["lib"], ["main"]) else []


def sources_of(folder):
    return [file[len(folder) + 1 :] for file in files_below(f"{folder}/src") if file.endswith(".rt")]


def modules_of(folder):
    """The module of a crate in which a type is declared, by the type's name; none, if there are several."""
    found = {}
    for file in sources_of(folder):
        for name in TYPE.findall(read(f"{folder}/{file}")):
            found[name] = None if name in found else module_of(file)
    return found


def functions_in(folder, modules):
    """The functions of a crate in a folder, with the paths of their files in it."""
    functions = []
    for file in sources_of(folder):
        for it in functions_of(f"{folder}/{file}"):
            it.file, it.module = file, modules.get(it.owner.partition("+")[0])
            functions.append(it)
    return functions


def shown_of(file):
    """What a file of a crate shows to those above: all but functions that only the crate can name, the bodies of
    the others, lines of comments, and what its `use` lines have for these alone. A constant function stays, since
    it may be worked out in a type."""
    lines = read(file).split("\n")
    for it in functions_of(file) if file.endswith(".rt") else []:
        if not any(re.search(rf"\bconst fn {it.name}\b", line) for line in lines[it.first : it.head + 1]):
            first, end = (it.first, it.last + 1) if it.is_own else (it.head + 1, it.last)
            lines[first:end] = [""] * max(end - first, 0)
    comment = "//" if file.endswith(".rt") else "--"
    lines = [it for it in lines if it and not it.lstrip().startswith(comment)]
    text = "\n".join(it for it in lines if not USE.match(it))
    return "\n".join(USE.sub(lambda use: with_names(*use.groups(), text), it) for it in lines)


def with_names(path, names, text):
    """A `use` line with those of its names that stand in a text."""
    parts = {it: it.rpartition(" as ")[2].split("◌") for it in names.split(", ")}
    return path + ", ".join(it for it, those in parts.items() if all(part in text for part in those))


def take_others(folder, crate, paths):
    """Has a crate in a folder take as proved what these functions call, but for what isn't plain: so a check of these
    searches no proof of others. A goal knows of a function that is called what its contract says alone."""
    for it in functions_in(folder, modules_of(folder)):
        if it.is_plain and it.path() not in paths:
            *_, name = path = it.path().split("::")
            shutil.rmtree(at := "/".join([folder, "proofs", *path]), ignore_errors=True)
            write(f"{at}/Proof.antt", PROOF % {"crate": crate, "path": ".".join(path), "file": TAKEN, "name": name})
    library = f"{folder}/proofs/Lib.antt"
    write(library, f"{read(library) if os.path.isfile(library) else ''}pub mod {TAKEN}\n")
    write(f"{folder}/proofs/{TAKEN}.antt", LEMMA)
