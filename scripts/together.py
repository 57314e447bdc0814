"""Tries several mutants of a crate in one check, each of which changes the body of a function of its own.

The prover goes on behind a function that it refuses, and says at which function, or at which part of its proof, each goal is
left open. So a mutant is refused where such a goal is in its own function. Where none is, as where the prover gave up a function
because it calls another that was refused, nothing is known, and the mutant has to be tried alone.
"""
import os
import random
import re
import shutil
from pathlib import Path

from gate import read_rt

FUNCTION = re.compile(r'^( *)(?:pub(?:\([a-z]+\))? )?(?:const )?(?:unsafe )?(?:extern "C" )?fn (\w+)')
AT = re.compile(r"^(?:note: )?(?:\./)?((?:src|proofs)/\S+?):(\d+):\d+: ")
OF_NAMES = re.compile(r"(note: )?(\./)?proofs/.*(has no field|is not in scope|has no `|was not admitted)")
JOBS = ["--jobs", "1"]
# Below so few there is nothing to gain.
FEW = 4


def functions_of(text):
    """The first line, the line of the body's brace, the last line and the name of each function, lines from 1."""
    lines, found = text.split("\n"), []
    for at, line in enumerate(lines):
        head = FUNCTION.match(line)
        if not head:
            continue
        last = next((k for k in range(at, len(lines)) if lines[k] == head[1] + "}"), None)
        brace = next((k for k in range(at, last or at) if lines[k] == head[1] + "{" or lines[k].endswith(" {") and k <= at), None)
        if brace is not None:
            found.append((at + 1, brace + 1, last + 1, head[2]))
    return found


def pairs_of(edit):
    """The file, the old and the new text of each change of a mutant."""
    path, old = "", ""
    for line in edit.read_text(encoding="utf-8").split("\n"):
        key, _, value = line.partition(" ")
        if key == "file:":
            path = value.strip()
        elif key == "old:":
            old = value
        elif key == "new:":
            yield path, old, value


class Crate:
    """A crate in a room, with what a check of it as it stands proved."""

    def __init__(self, room, name):
        self.rt = read_rt()
        os.environ.pop(self.rt.rtlib.ALLOW_C, None)
        self.rt.rtlib.guarded()
        self.crate = next(it for it in self.rt.rtlib.crates_below(str(room)) if it.name == name)
        self.folder = Path(self.crate.folder)
        # A kit whose `rt` keeps no such results tries each mutant alone.
        seeded = getattr(self.rt, "seeded", None)
        self.seed = seeded and seeded(self.crate, JOBS, f"{self.folder}/out/incremental")

    def source(self, path):
        file = self.folder / path
        return file.read_text(encoding="utf-8") if file.is_file() else ""

    def function_of(self, edit):
        """The name of the function whose body a mutant changes; None where it changes anything else."""
        names = set()
        for path, old, _ in pairs_of(edit):
            text = self.source(path)
            if not path.startswith("src/") or text.count(old) != 1:
                return None
            line = text[: text.index(old)].count("\n") + 1
            names.add(next((it[3] for it in reversed(functions_of(text)) if it[1] < line < it[2]), None))
        return names.pop() if len(names) == 1 else None

    def changed(self, edits):
        """The sources with these changes, by their paths; None where a change does not apply."""
        texts = {}
        for path, old, new in (it for edit in edits for it in pairs_of(edit)):
            text = texts.setdefault(path, self.source(path))
            if text.count(old) != 1:
                return None
            texts[path] = text.replace(old, new)
        return texts

    def grouped(self, edits, size):
        """Lists of mutants to be tried together."""
        groups = []
        for edit in edits:
            name = self.function_of(edit)
            fits = (it for it in groups if len(it) < size and name not in it and self.changed([*it.values(), edit]))
            group = next(fits, None) if name else {}
            if group is None:
                groups.append(group := {})
            if name:
                group[name] = edit
        return [it for it in groups if len(it) > 1]

    def refused(self, group):
        """The first goal that is left open in the function of each mutant, by the mutant."""
        texts, over = self.changed(group.values()), f"{self.seed}/together"
        self.rt.linked(f"{self.seed}/seed", over)
        ran = self.rt.checked(self.crate, texts, JOBS, over)
        shutil.rmtree(over)
        lines = ran.stdout.rstrip("\n").split("\n")
        is_told = ran.returncode == 1 and lines[-1].startswith("logic=not-proved")
        if not is_told or any(self.rt.unread(line, texts) for line in lines):
            return {}
        found = {}
        for line in lines:
            at = AT.match(line)
            if at and (": error" in line or line.startswith("note: ")) and not OF_NAMES.match(line):
                for name in self.names_at(texts, at[1], int(at[2])) & set(group):
                    found.setdefault(group[name], line)
        return found

    @staticmethod
    def names_at(texts, path, line):
        """The names of the functions that a line of a source or of a proof is of."""
        if path.startswith("proofs/"):
            return set(path.split("/")[1:-1])
        return {it[3] for it in functions_of(texts.get(path, "")) if it[0] <= line <= it[2]}

    def close(self):
        if self.seed:
            shutil.rmtree(self.seed, ignore_errors=True)


def refused_together(room, name, edits, size):
    """The goal at which the prover refuses a mutant of a crate, by the mutant, for those of which it tells."""
    crate, found = Crate(room, name), {}
    for _ in range(2):
        left = [it for it in edits if it not in found]
        if not crate.seed or len(left) < FEW:
            break
        random.Random(len(left)).shuffle(left)
        for group in crate.grouped(left, size):
            found |= crate.refused(group)
    crate.close()
    return found
