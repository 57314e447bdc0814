"""What all checks share: one count, one meaning of the status, and comparisons of rows."""

import os
import re
import shutil
import subprocess
import sys
from pathlib import Path

TOP = Path(__file__).resolve().parent.parent
ALL_RIGHT, FAILED, USAGE, LEFT_OUT = 0, 1, 2, 3


class Tally:
    """What held, what did not, and what was left out because this machine has not what it needs."""

    def __init__(self):
        self.passed = self.failed = 0
        self.left_out = []

    def tell(self, what, fault=None):
        """Counts a row that held, or that did not for this reason. Returns whether it held."""
        if fault is None:
            self.passed += 1
            print(f"ok      {what}", flush=True)
        else:
            self.failed += 1
            print(f"FAILED  {what}: {fault}", flush=True)
        return fault is None

    def equal(self, what, got, wanted):
        """Counts a row that compares two values."""
        return self.tell(what, None if got == wanted else f"{shown(got)}, not {shown(wanted)}")

    def leave_out(self, what):
        """Says that something was not tried, since this machine has not what it needs."""
        self.left_out.append(what)
        print(f"left out: {what}", flush=True)

    def add(self, passed, failed):
        """Counts what a program of its own counted."""
        self.passed += passed
        self.failed += failed

    def status(self):
        """0: all right; 1: something failed, or nothing was tried; 3: all right, and something was left out."""
        if self.failed or not (self.passed or self.left_out):
            return FAILED
        return LEFT_OUT if self.left_out else ALL_RIGHT

    def end(self):
        """Prints the count, and returns the status."""
        print(f"{self.passed} passed, {self.failed} failed", flush=True)
        return self.status()


class CannotRun(Exception):
    """A check cannot be run at all, for this reason."""


def shown(value):
    """A value as a message shows it: only both ends of long bytes."""
    if isinstance(value, bytes) and len(value) > 200:
        value = value[:100] + b" .. " + value[-100:]
    return repr(value)


def has(*commands):
    """Whether the machine has all these commands."""
    return all(shutil.which(it) for it in commands)


def newest_source():
    """When the latest source, definition or proof of a crate was written."""
    newest = 0.0
    for folder, folders, files in os.walk(TOP / "crates"):
        folders[:] = [it for it in folders if it not in ("out", "must-fail")]
        newest = max([newest, *[os.path.getmtime(os.path.join(folder, it)) for it in files]])
    return newest


def built_program():
    """The program lbk, proved and built where no verdict fits it; or the one that LBK_PROGRAM names (the check `erased`)."""
    if os.environ.get("LBK_PROGRAM"):
        return Path(os.environ["LBK_PROGRAM"])
    subprocess.run([TOP / "lbk", "--prove"], stdin=subprocess.DEVNULL, check=True)
    return TOP / "crates/lbk/out/lbk"


def built_crate(crate, is_newest=False):
    """The program of a crate that measures or tries, built where there is none, or where a source is newer."""
    folder = TOP / "crates" / crate
    program = folder / "out" / crate
    if program.exists() and not (is_newest and program.stat().st_mtime < newest_source()):
        return program
    # (a build ends by a run without arguments, which some programs refuse)
    ran = subprocess.run(["rt", "run"], cwd=folder, stdin=subprocess.DEVNULL, capture_output=True, check=False)
    if not program.exists() or (is_newest and ran.returncode != 0):
        sys.stderr.buffer.write(ran.stdout + ran.stderr)
        raise CannotRun(f"the crate {crate} cannot be built")
    os.utime(program)
    return program


def page(*names):
    """The page of documentation with the first of these names that there is, in whatever folder of docs."""
    for name in names:
        for path in sorted((TOP / "docs").rglob("*.md")):
            if path.stem.lower() == name:
                return path
    raise CannotRun(f"docs has no page {' or '.join(names)}")


def run_script(tally, words):
    """Runs a script that prints rows and ends with its count, shows what it prints, and takes its count over. Its
    status has the meaning that a check's has."""
    last, counted = "", None
    with subprocess.Popen(list(map(str, words)), stdout=subprocess.PIPE, text=True, errors="replace") as script:
        for line in script.stdout:
            last = line.rstrip("\n")
            counted = re.fullmatch(r"(\d+) passed, (\d+) failed", last)
            if not counted:
                print(last, flush=True)
            if last.startswith("left out: "):
                tally.left_out.append(last.removeprefix("left out: "))
        status = script.wait()
    passed, failed = map(int, counted.groups()) if counted else (0, 0)
    tally.add(passed, failed)
    if not counted or (status not in (ALL_RIGHT, LEFT_OUT)) != (failed > 0):
        tally.tell(Path(words[0]).name, f"it ended with status {status} and {last!r}")
    elif status == LEFT_OUT and not tally.left_out:
        tally.left_out.append(Path(words[0]).name)
