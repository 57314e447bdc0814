"""Builds small C programs, and runs those that count."""

import re
import subprocess
from pathlib import Path

from checks.harness import TOP, CannotRun, has

HERE = Path(__file__).resolve().parent
WARNINGS = ["-O2", "-Wall", "-Wextra", "-pedantic", "-Wshadow", "-Werror"]
COUNT = re.compile(rb"^(\d+) passed, (\d+) failed$", re.M)


def build(source, to, *words, compiler="cc"):
    """Compiles a source of a check, with the compiler's words behind it, and returns the program or library."""
    if not has(compiler):
        raise CannotRun(f"{compiler} is needed to build {Path(source).name}, and is not there")
    ran = subprocess.run([compiler, *WARNINGS, HERE / source, "-o", to, *words], check=False)
    if ran.returncode != 0:
        raise CannotRun(f"{Path(source).name} does not compile")
    return to


def library(folder):
    """The library for C as scripts/build-library makes it, in a folder: the words for the compiler that link it
    statically."""
    subprocess.run([TOP / "scripts/build-library", folder], check=True, stdout=subprocess.DEVNULL)
    return ["-I", Path(folder) / "include", "-I", TOP / "examples", Path(folder) / "lib/liblbk.a"]


def count(tally, what, words, **more):
    """Runs a program whose last line counts, and adds its count."""
    ran = subprocess.run(words, capture_output=True, check=False, **more)
    found = COUNT.search(ran.stdout)
    if ran.returncode not in (0, 1) or not found:
        tally.tell(what, f"status {ran.returncode}: {ran.stdout[-300:]!r} {ran.stderr[-300:]!r}")
        return
    passed, failed = map(int, found.groups())
    for line in ran.stdout.decode(errors="replace").splitlines()[:-1]:
        print(f"        {line}", flush=True)
    tally.tell(what, f"{failed} of {passed + failed} failed" if failed or not passed else None)
