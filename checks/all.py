"""The checks by their names, and the command that runs them."""

import subprocess
import sys
from importlib import import_module

from checks.harness import ALL_RIGHT, FAILED, USAGE, CannotRun, Tally

# In the order in which the gate runs them, which leaves out `clients`, `c-speed` and `speed`. Each is a module of this
# package with `run(tally, arguments)`, and the first line of its text says what it checks.
NAMES = [
    "verdicts",
    "stored-runs",
    "worked-rows",
    "first-look",
    "install",
    "published-files",
    "shown-commands",
    "pages",
    "page-references",
    "quoted-contracts",
    "bindings",
    "man-page",
    "completion",
    "word-tables",
    "row-steps",
    "header",
    "refused-allocations",
    "failing-streams",
    "files-and-pipes",
    "written-at-once",
    "ample-memory",
    "c-library",
    "c-stack",
    "c-speed",
    "instructions",
    "packages",
    "clients",
    "speed",
    "hostile-input",
    "drop-in",
    "erased",
]


def module_of(name):
    return import_module("checks." + name.replace("-", "_"))


def list_checks():
    for name in NAMES:
        print(f"{name:<21} {module_of(name).__doc__.strip().splitlines()[0]}")
    return ALL_RIGHT


def run_one(name, arguments):
    tally = Tally()
    try:
        module_of(name).run(tally, arguments)
    except (CannotRun, OSError, subprocess.SubprocessError) as why:
        tally.tell(name, str(why))
    return tally.end()


def main(words):
    if words == ["--list"]:
        return list_checks()
    at = words.index("--") if "--" in words else len(words)
    names, arguments = words[:at], words[at + 1 :]
    unknown = [it for it in names if it not in NAMES]
    if not names or unknown or (arguments and len(names) != 1):
        why = f"no check is named {unknown[0]}; " if unknown else ""
        print(f"{why}usage: scripts/check --list | NAME.. | NAME -- ARGUMENT..", file=sys.stderr)
        return USAGE
    statuses = []
    for name in names:
        if len(names) > 1:
            print(f"{name}:", flush=True)
        statuses.append(run_one(name, arguments))
    return FAILED if FAILED in statuses else max(statuses)
