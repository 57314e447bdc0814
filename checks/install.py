"""scripts/install: the proved program, or else the one that cargo builds, with its manual page and its completion."""

import os
import tempfile
from pathlib import Path

from checks.first_look import PROGRAM, Clone
from checks.harness import TOP, built_program, shown
from checks.program import run as run_program

# What the stand-in for cargo writes.
FAULT = b"error: a fault of cargo\n"
FILES = ("bin/lbk", "share/bash-completion/completions/lbk", "share/man/man1/lbk.1")


def files_in(prefix):
    return sorted(str(it.relative_to(prefix)) for it in prefix.rglob("*") if it.is_file())


def try_installed(tally, what, prefix, ended, program, says, err=b""):
    """What is in a folder, and what was said. What cargo writes to standard error is passed on."""
    tally.equal(f"{what}: the status and standard error", (ended.status, ended.err), (0, err))
    tally.equal(f"{what}: the files", files_in(prefix), sorted(FILES))
    if not (prefix / "bin/lbk").exists():
        return
    tally.equal(f"{what}: the program", (prefix / "bin/lbk").read_bytes() == program, True)
    tally.equal(f"{what}: it can be run", os.access(prefix / "bin/lbk", os.X_OK), True)
    lines = ended.out.decode().splitlines()
    tally.equal(f"{what}: what is said of it", lines[-1:], [f"{prefix}/bin/lbk is installed, {says}"])
    tally.tell(f"{what}: how to find it", None if f'export PATH="{prefix}/bin:$PATH"' in ended.out.decode()
        else shown(ended.out))


def try_unproved(tally, room):
    """Without a proved program cargo builds one; without cargo there is one plain line."""
    clone, prefix = Clone(room), room / "a prefix"
    for it in ("lbk.1", "lbk.bash"):
        (clone.top / "docs" / it).write_text(f"{it}\n", encoding="utf-8")
    install = lambda *words, **more: run_program([clone.top / "scripts/install", *words], cwd=room / "place",
        env=clone.env(**more))
    for words in ([], [""], ["--help"], ["a", "b"]):
        tally.equal(f"the words {words}", (install(*words).status, install(*words).err[:6]), (2, b"usage:"))
    for what in ("built by cargo", "installed again"):
        ended = install(str(prefix))
        try_installed(tally, what, prefix, ended, PROGRAM.encode(), "not proved: ./lbk --prove proves it", FAULT)
    for name, it in (("lbk.1", FILES[2]), ("lbk.bash", FILES[1])):
        tally.equal(f"docs/{name} is {it}", (prefix / it).read_text(encoding="utf-8"), f"{name}\n")
    other = room / "other"
    ended = install(str(other), CARGO_FAILS="yes")
    is_told = ended.status == 1 and ended.err.startswith(FAULT + b"scripts/install: ") and not other.exists()
    tally.tell("cargo fails", None if is_told else f"status {ended.status}, {shown(ended.err)}")
    (clone.bin / "cargo").unlink()
    ended = install(str(other))
    is_told = ended.status == 1 and b"no cargo" in ended.err and ended.err.count(b"\n") == 1 and not other.exists()
    tally.tell("without cargo", None if is_told else f"status {ended.status}, {shown(ended.err)}")


def try_proved(tally, room):
    program = built_program()
    ended = run_program([TOP / "scripts/install", room / "prefix"])
    try_installed(tally, "the proved program", room / "prefix", ended, program.read_bytes(), "proved")
    ran = run_program([room / "prefix/bin/lbk", "mark"], b"ab cd")
    tally.equal("the installed program runs", ran.out.decode(), "ab ÷cd\n")


def run(tally, _arguments):
    with tempfile.TemporaryDirectory() as name:
        try_unproved(tally, Path(name))
    if os.environ.get("LBK_PROGRAM"):
        tally.leave_out("the proved program, since LBK_PROGRAM names another")
        return
    with tempfile.TemporaryDirectory() as name:
        try_proved(tally, Path(name))
