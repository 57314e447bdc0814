"""The command that erases."""

import subprocess
import sys
from functools import cache
from pathlib import Path

from erasing.crates import Crate, Needs
from erasing.tokens import Refused
from erasing.writing import written

TOP = Path(__file__).resolve().parent.parent.parent
FAILED, USAGE = 1, 2


@cache
def kit_folder():
    """The folder of the kit's crates."""
    named = subprocess.run(["rt", "doc"], capture_output=True, text=True, check=True).stdout
    return Path(named.strip()).parent / "rattle"


def sources(name):
    """The sources of a crate of this repository or of the kit."""
    own = TOP / "crates" / name / "src"
    return own if own.exists() else kit_folder() / name / "src"


@cache
def crate_of(name, folder):
    return Crate(name, folder)


def erased(roots, folders):
    """The texts of the files of some crates, by their paths, with what the roots need. `folders` has the sources of each
    crate."""
    needs = Needs({name: crate_of(name, folder) for name, folder in folders.items()})
    needs.find(roots)
    return written(needs)


def main(words):
    if len(words) < 4 or "--" not in words[2:]:
        print("usage: scripts/erase FOLDER ROOT.. -- CRATE..", file=sys.stderr)
        return USAGE
    at = words.index("--")
    named = [it.partition("=") for it in words[at + 1 :]]
    try:
        texts = erased(words[1:at], {name: Path(path) if path else sources(name) for name, _, path in named})
    except Refused as why:
        print(f"scripts/erase: {why}", file=sys.stderr)
        return FAILED
    for name, text in texts.items():
        path = Path(words[0]) / name
        path.parent.mkdir(parents=True, exist_ok=True)
        path.write_text(text, encoding="utf-8")
    return 0
