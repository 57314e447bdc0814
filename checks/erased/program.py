"""The program of the package lbk-cli, by the project's own checks of the program.

What differs by what Rust's std does, and not by the sources, is listed with its reason; each entry has to occur, unless
the check left rows out.
"""

import os
import re
import subprocess
import sys

from checks.harness import TOP

CLOSED = "Rust's std opens the null device for standard streams that were closed before the start"
OPEN = "two more files are open: the standard streams as files, so that nothing is held back"
# Checks, and what differs: rows by a pattern, and why.
CHECKS = {
    "stored-runs": {},
    "man-page": {},
    "written-at-once": {},
    "worked-rows": {},
    "published-files": {r"a closed output": CLOSED},
    "failing-streams": {r"[^:]*: (?:a closed (?:input|output)|all three closed)[^:]*": CLOSED},
    "files-and-pipes": {r"\w+: a run over the files .* keeps \([1-7]\d{6}, 5\) bytes and files": OPEN},
}
COUNT = re.compile(r"(\d+) passed, (\d+) failed")


def reason(known, row):
    """The pattern of the difference that a row is, or None."""
    return next((it for it in known if re.match(it, row)), None)


def one_check(tally, name, known, program):
    env = {**os.environ, "LBK_PROGRAM": str(program)}
    ran = subprocess.run([sys.executable, TOP / "scripts/check", name], env=env, capture_output=True, text=True, check=False)
    lines = ran.stdout.splitlines()
    failed = [it.removeprefix("FAILED  ") for it in lines if it.startswith("FAILED  ")]
    met = {it: reason(known, it) for it in failed}
    for row, pattern in met.items():
        if pattern is None:
            tally.tell(f"{name}: {row.partition(': ')[0]}", row)
    left_out = [it.removeprefix("left out: ") for it in lines if it.startswith("left out: ")]
    for pattern, why in known.items():
        count = list(met.values()).count(pattern)
        if count or not left_out:
            tally.tell(f"{name}: {count} rows differ: {why}", None if count else f"no row is like {pattern}")
    for it in left_out:
        tally.leave_out(f"{name}: {it}")
    count = COUNT.fullmatch(lines[-1]) if lines else None
    if not count or int(count[2]) != len(failed):
        tally.tell(name, f"it ended with {(lines or [ran.stderr])[-1]!r}")
    else:
        tally.add(int(count[1]), 0)
        print(f"ok      {name}: {count[1]} rows of the package's program", flush=True)


def run(tally, program):
    for name, known in CHECKS.items():
        one_check(tally, name, known, program)
