"""The packages in dist/, installed without the Rattle kit, and their examples run.

scripts/packages makes them; it must not pack a program or an archive that was put into out/ by hand.
"""

import os
import shutil
import subprocess
import tempfile
from pathlib import Path

from checks.harness import TOP, built_program, run_script
from checks.verdicts import failing_kit, forge

# What is proved for the packages: crates, each with the file that is made.
PROVED = [("lbk", "lbk"), ("lbk_c", "liblbk_c.a")]
REFUSED = "FAILED  the program and the library are proved: status 70"


def proved_copy(room):
    """A copy of the repository with what was proved: other checks may prove in this one at the same time."""
    top = room / "copy"
    shutil.copytree(TOP, top, ignore=shutil.ignore_patterns("out", ".git", "dist", "__pycache__"))
    for crate, name in PROVED:
        (top / "crates" / crate / "out").mkdir()
        for it in (name, "verdict"):
            shutil.copy2(TOP / "crates" / crate / "out" / it, top / "crates" / crate / "out")
    return top


def try_forged(tally, top, room):
    """A file put into out/ by hand, where nothing can be proved: refused, and no package made."""
    for crate, name in PROVED:
        file, kept = top / "crates" / crate / "out" / name, room / name
        fits = [top / "scripts/verdict-of", crate]
        if not tally.equal(f"a copy of the proved {name}", told(fits), (0, "")):
            continue
        shutil.copy2(file, kept)
        forge(file)
        path = f"{room / 'kit/bin'}:{os.environ['PATH']}"
        status, said = told([top / "scripts/packages"], env={**os.environ, "PATH": path})
        tally.tell(f"{name} put into out/ by hand is refused", None if status == 1 and REFUSED in said else said[-1000:])
        shutil.copy2(kept, file)
        tally.equal(f"the proved {name} is taken again", told(fits), (0, ""))


def told(words, **more):
    """The status of a command, and all that it says."""
    ran = subprocess.run(words, stdout=subprocess.PIPE, stderr=subprocess.STDOUT, text=True, check=False, **more)
    return ran.returncode, ran.stdout


def try_usage(tally, room):
    """Words that a script does not know, before it begins anything: the kit that it would call fails."""
    path = f"{room / 'kit/bin'}:{os.environ['PATH']}"
    how = {"env": {**os.environ, "PATH": path}, "capture_output": True, "text": True}
    for words in (["packages", "--help"], ["module", "word"], ["measure-gate", "word"], ["measure-gate", "--table"]):
        ran = subprocess.run([TOP / "scripts" / words[0], *words[1:]], **how, check=False)
        said = ran.returncode, ran.stdout, ran.stderr[:6]
        tally.equal(f"scripts/{' '.join(words)}: the usage", said, (2, "", "usage:"))
    ran = subprocess.run([TOP / "scripts/measure-gate", "--help"], **how, check=False)
    tally.equal("scripts/measure-gate --help", (ran.returncode, ran.stdout[:6], ran.stderr), (0, "usage:", ""))


def run(tally, arguments):
    built_program()
    subprocess.run([TOP / "scripts/prove", "lbk_c"], stdin=subprocess.DEVNULL, check=True)
    with tempfile.TemporaryDirectory() as name:
        failing_kit(Path(name))
        try_usage(tally, Path(name))
        try_forged(tally, proved_copy(Path(name)), Path(name))
    run_script(tally, [TOP / "scripts/packages", *arguments])
