"""The packages: written twice, without a word of `unsafe` but where it is said, and built by cargo."""

import os
import re
import subprocess
from pathlib import Path

from checks.harness import TOP, CannotRun, has

NEEDED = "cargo and rustfmt (Debian's packages cargo and rustfmt)"
# Where `unsafe` may stand, in at most so many lines.
UNSAFE, MOST_LINES = {"src/simd.rs", "src/symbols.rs", "src/kit/later.rs", "src/kit/proved.rs", "src/engine/proved.rs"}, 250
# What of the language's contracts must not be left, but in a comment.
GHOST = re.compile(r"^\s*(?:pub )?(?:ensures|requires|ghost)\b|^(?!\s*//).*\bprove!", re.M)


def written(folder, seed="0"):
    """The files of the packages, written into a folder by a process of its own."""
    words = [TOP / "scripts/plain-crate", folder]
    ran = subprocess.run(words, capture_output=True, check=False, env={**os.environ, "PYTHONHASHSEED": seed})
    if ran.returncode != 0:
        raise CannotRun(ran.stderr.decode(errors="replace"))
    return contents(folder)


def contents(folder):
    """The bytes of the files of a folder, by their paths; what cargo leaves is not among them."""
    folder = Path(folder)
    files = (it for it in sorted(folder.rglob("*")) if it.is_file())
    names = ((it.relative_to(folder).as_posix(), it) for it in files)
    return {name: it.read_bytes() for name, it in names if not name.startswith("target/") and name != "Cargo.lock"}


def differences(one, other):
    """The names of the files that two packages have otherwise."""
    return [it for it in sorted(one.keys() | other.keys()) if one.get(it) != other.get(it)]


def look(tally, files):
    """What stands in the packages."""
    sources = {name: text.decode() for name, text in files.items() if name.endswith(".rs")}
    for crate in sorted({it.partition("/")[0] for it in sources}):
        own = {it.partition("/")[2]: text for it, text in sources.items() if it.startswith(f"{crate}/")}
        bad = [it for it, text in own.items() if re.search(r"^(?!\s*//).*\bunsafe\b(?!_code)", text, re.M) and it not in UNSAFE]
        tally.equal(f"{crate}: files with unsafe code", bad, [])
        long = [it for it in UNSAFE & own.keys() if own[it].count("\n") > MOST_LINES]
        tally.equal(f"{crate}: unsafe files of more than {MOST_LINES} lines", long, [])
        tally.equal(f"{crate}: files with a contract", [it for it, text in own.items() if GHOST.search(text)], [])
    for name in sorted({re.sub(r"[^/]*$", "", it) for it in sources if re.match(r"[^/]+/src/(clap|strsim|bstr|ucd_table)/", it)}):
        top = "/".join(name.split("/")[:3])
        tally.tell(f"{name}: licence", None if any(it.startswith(f"{top}/LICENSE") for it in files) else "there is none")


def built(folder, *words):
    """Builds packages, and returns the folder of what was built."""
    ran = subprocess.run(["cargo", "build", "--offline", *words], cwd=folder, capture_output=True, check=False)
    if ran.returncode != 0:
        raise CannotRun(ran.stderr.decode(errors="replace")[-3000:])
    return Path(folder) / "target"


def run(tally, room):
    """Tries the packages, and returns the folder where they are."""
    if not has("cargo", "rustfmt"):
        tally.leave_out(f"the packages, which need {NEEDED}")
        return None
    folder = room / "packages"
    files = written(folder)
    tally.equal("two runs write the same", differences(files, written(room / "again", seed="1")), [])
    made = TOP / "dist/plain"
    if made.is_dir():
        tally.equal("dist/plain has the same", differences(files, contents(made)), [])
    look(tally, files)
    return folder
