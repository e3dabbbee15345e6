"""What earlier runs of .ci/must-fail on this machine saw refused."""
import hashlib
import os
import subprocess

import crates
import statements
from crates import LINES, PARTS, ROOT, below, files_below, read, write
from functions import shown_of


class Notes:
    """Which edits earlier runs on this machine saw refused: a file for each, whose name is a sum of all that
    its trial rests on. A crate above knows of a body below what its contract says. Lemmas below are not in the
    sum though proofs above cite them: a wrong body stays wrong whatever they say."""

    def __init__(self, sources, is_anew):
        self.sources = sources
        self.at = os.environ.get("XDG_CACHE_HOME") or os.path.expanduser("~/.cache")
        self.at, self.is_anew, self.sums = f"{self.at}/lockcheck/must-fail", is_anew, {}
        version = subprocess.run(["rt", "version"], check=True, text=True, stdout=subprocess.PIPE).stdout
        own = (f"{ROOT}/.ci/{it}" for it in ("must-fail", "edits.py", "functions.py", "notes.py"))
        scripts = (*own, crates.__file__, statements.__file__, f"{ROOT}/HANDLES")
        self.tools = version + "".join(map(read, scripts))

    def sum_of(self, crate):
        if crate not in self.sums:
            texts = [self.tools]
            for it in sorted(below(crate)):
                texts.append(LINES[it])
                parts, text_of = (PARTS, read) if it == crate else (("src", "specs"), shown_of)
                folder = self.sources.folder(it)
                files = sorted(file for part in parts for file in files_below(f"{folder}/{part}"))
                texts += [text for file in files for text in (it + file[len(folder) :], text_of(file))]
            self.sums[crate] = hashlib.sha256(repr(texts).encode()).hexdigest()
        return self.sums[crate]

    def file(self, edit):
        read_by_it = repr((self.sum_of(edit.crate), edit.label, edit.text))
        return f"{self.at}/{hashlib.sha256(read_by_it.encode()).hexdigest()}"

    def goal(self, edit):
        file = self.file(edit)
        return read(file) if not self.is_anew and os.path.isfile(file) else None

    def note(self, file, goal):
        try:
            write(f"{file}.{os.getpid()}", goal)
            os.replace(f"{file}.{os.getpid()}", file)
        except OSError:
            # It is tried again.
            pass
