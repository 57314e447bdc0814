"""The drop-in for unicode-linebreak, put by the lines of the pages into a program that has a lock file of 0.1.4.

A crate of that name and version, whose calls find nothing, stands for the published one, so no registry is needed.
"""

import os
import re
import subprocess
import tempfile
from pathlib import Path

from checks.harness import TOP, has
from checks.program import run as run_program

PAGES = ("docs/coming-from.md", "packages/linebreak/README.md", "packages/linebreak/src/lib.rs")
OLD = {
    "Cargo.toml": '[package]\nname = "unicode-linebreak"\nversion = "0.1.4"\nedition = "2018"\n',
    "src/lib.rs": "pub fn linebreaks(_: &str) -> impl Iterator<Item = (usize, ())> {\n    std::iter::empty()\n}\n",
    ".cargo-checksum.json": '{"files":{}}',
}
PROGRAM = {
    "Cargo.toml": '[package]\nname = "wraps"\nversion = "0.1.0"\nedition = "2021"\n\n[dependencies]\n'
        'unicode-linebreak = "0.1.4"\n',
    "src/main.rs": 'fn main() {\n    for (at, _) in unicode_linebreak::linebreaks("ab cd") {\n'
        '        println!("{at}");\n    }\n}\n',
    ".cargo/config.toml": '[source.crates-io]\nreplace-with = "kept"\n\n[source.kept]\ndirectory = "{kept}"\n',
}


def write(folder, files, **names):
    for name, text in files.items():
        (folder / name).parent.mkdir(parents=True, exist_ok=True)
        for it, value in names.items():
            text = text.replace(f"{{{it}}}", str(value))
        (folder / name).write_text(text, encoding="utf-8")


def lines_of(page):
    """The lines for Cargo.toml that a page shows, and the commands that it names for a program with a lock file."""
    text = re.sub(r"^//! ?", "", (TOP / page).read_text(encoding="utf-8"), flags=re.M)
    lines = re.search(r"^ *(\[patch\.crates-io\])\n *(unicode-linebreak = .*)$", text, re.M)
    return lines and list(lines.groups()), re.findall(r"`(cargo\s(?:update|tree)\s[^`]*)`", text)


def try_lines(tally, page, folder, plain):
    """Before the commands of the page cargo builds the old crate, and after them this one."""
    lines, commands = lines_of(page)
    commands = [it.split() for it in commands]
    found = bool(lines), [it[1] for it in commands]
    if not tally.equal(f"{page} has the lines and both commands", found, (True, ["update", "tree"])):
        return
    environment = {**os.environ, "CARGO_TARGET_DIR": str(folder.parent / "target"), "CARGO_TERM_COLOR": "never"}
    cargo = lambda *words: run_program(["cargo", *words, "--offline"], cwd=folder, env=environment)
    lock, ours = (folder / "Cargo.lock").read_text(encoding="utf-8"), plain / "unicode-linebreak"
    tally.equal(f"{page}: the lock file is of 0.1.4", 'version = "0.1.4"' in lock, True)
    patch = re.sub(r'path = ".*"', f'path = "{ours}"', "\n".join(lines))
    write(folder, {"Cargo.toml": PROGRAM["Cargo.toml"] + f"\n{patch}\n"})
    ended = cargo("run")
    found = ended.out, b"was not used" in ended.err
    tally.equal(f"{page}: the lines alone: the old crate, and a warning", found, (b"", True))
    tally.equal(f"{page}: {' '.join(commands[0])}", cargo(*commands[0][1:]).status, 0)
    tree = cargo(*commands[1][1:])
    tally.tell(f"{page}: {' '.join(commands[1])}", None if f"({ours})" in tree.out.decode() else tree.out)
    ended = cargo("run")
    found = ended.out, b"warning" in ended.err
    tally.equal(f"{page}: after them: the breaks, and no warning", found, (b"3\n5\n", False))


def run(tally, _arguments):
    if not has("cargo", "rustfmt"):
        tally.leave_out("the drop-in, which needs cargo and rustfmt")
        return
    with tempfile.TemporaryDirectory() as name:
        room = Path(name)
        subprocess.run([TOP / "scripts/plain-crate", room / "plain"], check=True)
        write(room / "kept/unicode-linebreak", OLD)
        for number, page in enumerate(PAGES):
            folder = room / f"program-{number}"
            write(folder, PROGRAM, kept=room / "kept")
            subprocess.run(["cargo", "generate-lockfile", "--offline", "--quiet"], cwd=folder, check=True)
            try_lines(tally, page, folder, room / "plain")
