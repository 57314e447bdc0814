"""What was proved: a verdict names the sources, the kit and the file that was made, each by its SHA-256.

A verdict is next to that file: `verdict` in crates/NAME/out for a program or a static library, in crates/NAME/out/rlib
for another library. Its lines:

    kit rattle-kit-13f logic dac8208d650f15bf      what `rt version` prints
    proof logic=proved functions=25 ..             what `rt` said, where it said something
    made SHA-256 out/lbk                           the file, or the folder of a library
    sources SHA-256 lbk_values                     src/, specs/ and proofs/ of each crate below, lowest first, and of the crate

The sum of a crate's sources is that of its line in crates.txt, without a comment, and of what `sha256sum` writes of its
files, sorted by name; the sum of a folder is that of what it writes of its files. A verdict is valid if all of these
are as it says. File times do not matter.
"""
import hashlib
import os
import re
import shutil
from pathlib import Path

TOP = Path(__file__).resolve().parent.parent
PARTS = ("src", "specs", "proofs")
PROVED = re.compile(r"^logic=proved .*", re.M)
# What `rt ci` says of a crate that it proves, and of one that it proved earlier.
IN_GATE = r"^== {name}\n(?:(?!== ).*\n)*?rt: {name} proved$"
KEPT_BY_GATE = r"^rt: {name} is kept: .*"


class Crate:
    """A crate of a repository, by its line `NAME [staticlib|wasm64]: LIBRARY ..` of crates.txt, and those below it,
    lowest first."""

    def __init__(self, top, line, below):
        head, _, _ = line.partition(":")
        self.name, *kinds = head.split()
        self.line, self.below = line, below
        self.is_static, self.is_module = "staticlib" in kinds, "wasm64" in kinds
        self.folder = top / "crates" / self.name
        self.is_program = (self.folder / "src/main.rt").exists()

    def made(self):
        """The file that a build leaves, or the folder of a library, by its path in the crate's folder."""
        if self.is_program:
            return Path("out", self.name)
        if self.is_module:
            return Path("out", f"{self.name}.wasm")
        return Path("out", f"lib{self.name}.a") if self.is_static else Path("out/rlib", f"{self.name}.rlib")

    def is_built(self):
        return (self.folder / self.made()).exists()

    def sum_of_made(self):
        made = self.folder / self.made()
        return sum_of(made) if made.is_file() else hashlib.sha256(listed(made, [""]).encode()).hexdigest()

    def verdict(self):
        """The file of the verdict."""
        return self.folder / "out" / ("rlib" if self.made().parent.name == "rlib" else "") / "verdict"

    def sources(self):
        """The sum of the crate's own sources, specs and proofs."""
        return hashlib.sha256(f"{self.line}\n{listed(self.folder, PARTS)}".encode()).hexdigest()

    def all_sources(self):
        """The sums of the sources of those below and of the crate, by their names."""
        return {it.name: it.sources() for it in [*self.below, self]}


class Verdict:
    """What was proved of a crate."""

    def __init__(self, kit, proof, made, sources):
        self.kit, self.proof, self.made, self.sources = kit, proof, made, sources

    def write(self, crate):
        lines = [f"kit {self.kit}", *([f"proof {self.proof}"] if self.proof else []),
            f"made {self.made} {crate.made()}"]
        lines += [f"sources {digest} {name}" for name, digest in self.sources.items()]
        crate.verdict().write_text("".join(f"{it}\n" for it in lines), encoding="utf-8")


def sum_of(file):
    with open(file, "rb") as it:
        return hashlib.sha256(it.read()).hexdigest()


def listed(folder, parts):
    """What `sha256sum` writes of the files in parts of a folder, sorted by name."""
    walked = (it for part in parts for it in os.walk(folder / part))
    start = len(f"{folder}/")
    files = sorted(f"{at}/{name}"[start:] for at, _, names in walked for name in names)
    return "".join(f"{sum_of(f'{folder}/{it}')}  {it}\n" for it in files)


def kit():
    """The line that names the kit here, or nothing where there is none."""
    command = shutil.which("rt")
    named = Path(os.path.realpath(command)).parent.parent / "KIT-ID" if command else None
    return named.read_text(encoding="utf-8").strip() if named and named.is_file() else ""


def read_crates(top=TOP, of=Crate):
    """The crates of a repository by their names."""
    lines = [" ".join(it.partition("#")[0].split())
        for it in (top / "crates.txt").read_text(encoding="utf-8").splitlines()]
    by_name = {re.split("[ :]", it)[0]: it for it in lines if it}
    found = {}

    def read(name):
        if name not in found:
            below = {}
            for it in map(read, filter(by_name.get, by_name[name].partition(":")[2].split())):
                below.update(dict.fromkeys([*it.below, it]))
            found[name] = of(top, by_name[name], list(below))
        return found[name]

    for name in by_name:
        read(name)
    return found


def read_verdict(crate):
    """The verdict on a crate that was written last, or None."""
    try:
        rows = [it.split(" ", 1) for it in crate.verdict().read_text(encoding="utf-8").splitlines()]
        words = dict(it for it in rows if it[0] != "sources")
        sources = dict(reversed(it[1].split()) for it in rows if it[0] == "sources")
        return Verdict(words["kit"], words.get("proof", ""), words["made"].split()[0], sources)
    except (OSError, ValueError, KeyError, IndexError):
        return None


def fault(crate, sums=None):
    """Why no verdict fits the crate as it is, or None where one does. `sums` keeps sums of sources from one call to the
    next."""
    found = read_verdict(crate)
    if not crate.is_built():
        return f"{crate.name} is not built"
    if not found:
        return f"there is no verdict on {crate.name}"
    here = kit()
    if here and found.kit != here:
        return f"{crate.name} was proved by {found.kit}, and the kit here is {here}"
    if crate.sum_of_made() != found.made:
        return f"crates/{crate.name}/{crate.made()} is not what was made of the sources that were proved"
    sums = {} if sums is None else sums
    for it in [*crate.below, crate]:
        if it.name not in sums:
            sums[it.name] = it.sources()
    wanted = {it.name: sums[it.name] for it in [*crate.below, crate]}
    changed = [it for it in wanted if found.sources.get(it) != wanted[it]]
    if changed or found.sources.keys() != wanted.keys():
        return f"the sources of {' and '.join(changed) or 'other crates'} have changed since {crate.name} was proved"
    return None


def keep(crate, proof, sources):
    """Writes the verdict on a crate that was proved just now, and built."""
    Verdict(kit(), proof, crate.sum_of_made(), sources).write(crate)


def said_by_gate(name, log):
    """What `rt ci` said of a crate that it proved, in this run or in an earlier one, by all that it printed; nothing
    where it failed."""
    if not re.search(r"^\d+ passed, 0 failed\n?\Z", log, re.M):
        return ""
    section = re.search(IN_GATE.format(name=re.escape(name)), log, re.M)
    lines = PROVED.findall(section[0]) if section else []
    kept = re.search(KEPT_BY_GATE.format(name=re.escape(name)), log, re.M)
    return lines[-1] if lines else kept[0] if kept else ""
