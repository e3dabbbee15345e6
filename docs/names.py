"""Names of code in the pages: whether the tree has what they name."""
import os
import re

TOP = os.path.dirname(os.path.dirname(os.path.abspath(__file__)))
# Functions of others that the pages for changers name and no file of the tree does.
FOREIGN = {"lock_sync", "preempt_schedule_notrace"}
# What is made in the tree, and so needn't be there.
MADE = ("out", "__pycache__", ".git")
CRATE_PARTS = ("src", "specs", "proofs", "tests")


def is_whole():
    """Whether this is the repository: a release has the programs in place of the crates."""
    return os.path.exists(f"{TOP}/crates.txt")


def files_below(folder):
    """The files below a folder of the tree but what was made there, as paths from the top."""
    for path, folders, files in os.walk(folder):
        folders[:] = [it for it in folders if it not in MADE]
        for file in files:
            yield os.path.relpath(f"{path}/{file}", TOP)


def names_of_tree():
    """How pages may name the files and folders of the tree: by the ends of their paths. An edit is named by its crate."""
    found = set()
    for file in files_below(TOP):
        parts = file.split("/")
        for end in range(1, len(parts) + 1):
            found.update("/".join(parts[begin:end]) for begin in range(end))
        if len(parts) == 4 and parts[2].startswith("must-fail"):
            found.add(f"{parts[1]}/{parts[3].rsplit('.', 1)[0]}")
    return found


def is_name(code, tops):
    """Whether a piece of code looks like a path, a file or a crate of the tree. NAME and CRATE are placeholders."""
    if not re.fullmatch(r"[\w.+-]+(/[\w.+-]+)*/?", code) or re.search(r"(^|[/_])(NAME|CRATE)\b", code):
        return False
    parts = code.rstrip("/").split("/")
    if any(it in MADE for it in parts):
        return False
    if len(parts) == 1:
        return bool(re.fullmatch(r"ld_\w+|[\w-]+\.(rt|antt|py|c|h|md)", code))
    return parts[0] in tops or parts[0] in CRATE_PARTS or parts[0].startswith("must-fail")


def look_at_names(page, names):
    tops = {*os.listdir(TOP), *os.listdir(f"{TOP}/crates")}
    for number, line in page.prose:
        for code in re.findall(r"`([^`]*)`", line):
            if is_name(code, tops) and code.rstrip("/").removeprefix("./") not in names:
                page.fails(number, f"there is no {code} in the tree")


def words_of_tree():
    """The words of all files but pages, pictures and packed recordings."""
    found = set(FOREIGN)
    for name in files_below(TOP):
        if not name.endswith((".md", ".png", ".svg", ".xz")):
            with open(f"{TOP}/{name}", encoding="utf-8", errors="replace") as file:
                found.update(re.findall(r"\w+", file.read()))
    return found


def look_at_words(page, words):
    """Types and functions are `ld_book::Book`, `Book::merge`, `IsReport` and `read_all`; others aren't looked at."""
    for number, line in page.prose:
        for code in re.findall(r"`(\w+(?:::\w+)*)`", line):
            missing = [it for it in code.split("::") if it not in words and "NAME" not in it]
            if missing and re.search(r"_|::|[a-z][A-Z]", code):
                page.fails(number, f"no file of the tree has {missing[0]}")
