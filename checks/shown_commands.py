"""The commands and files that the README, the guide, docs/rattle.md and docs/lbk.1 show: run, and compared.

A line `    $ COMMAND` is a command, and the indented lines below it are its output. Commands with a line `..` in their
output, and those of NOT_RUN, are left out. Commands that name $U are left out without the published files of Unicode
15.0, all others run where no such file can be seen (scripts/without-unicode-data). Commands with `parallel` or its
output `at-once` are left out without GNU parallel. A block that ```rust opens shows a file
or a part of one; its name is the last one in backquotes in the nearest line of text before the block.
"""

import os
import re
import tempfile
from pathlib import Path

from checks.harness import TOP, built_program, has, page
from checks.program import run as run_program
from checks.unicode_files import MISSING, NAMES

NOT_RUN = ("rt ", "git ", "apt-get ", "scripts/", ".ci/")
SIGNS = [("\\(mu", "×"), ("\\(di", "÷"), ("\\-", "-")]


class Shown:
    """Tries what the pages show. Assignments of U and T hold for the commands after them."""

    def __init__(self, tally, room, program):
        self.tally = tally
        # (`lbk` is the program, as where it is installed)
        path = f"{program.parent}:{os.environ['PATH']}"
        self.environment = {**os.environ, "TMPDIR": room, "PATH": path}
        self.left = 0
        self.bare = [str(TOP / "scripts/without-unicode-data")]
        if run_program([*self.bare, "true"]).status != 0:
            tally.leave_out("commands without files of Unicode, for which unshare of util-linux makes no namespace here")
            self.bare = []

    def has_files(self):
        """Whether the folder that the page names has the published files."""
        return os.access(Path(self.environment.get("U", "/usr/share/unicode")) / NAMES[0], os.R_OK)

    def ran(self, text):
        """What a shell writes that runs this in the folder of the repository."""
        bare = [] if "$U" in text else self.bare
        return run_program([*bare, "bash", "-c", text], cwd=TOP,
            env=self.environment).out.decode(errors="replace").rstrip("\n")

    def command(self, command, lines):
        if command.startswith(NOT_RUN):
            self.left += 1
        elif command.startswith(("U=", "T=")):
            name = command.partition("=")[0]
            self.environment[name] = self.ran(f'{command}; printf %s "${name}"')
        elif "$U" in command and not self.has_files():
            self.tally.leave_out(f"{command}: {MISSING}")
        elif re.search(r"parallel|at-once", command) and not has("parallel"):
            self.tally.leave_out(f"{command}: GNU parallel")
        elif ".." in lines:
            self.left += 1
        else:
            wrote = self.ran(f"{{ {command}\n}} 2>&1")
            shown = "\n".join(lines)
            self.tally.tell(command, None if wrote == shown else f"\n--- shown\n{shown}\n--- written\n{wrote}")

    def file(self, line, lines):
        """The file that a line names, and the block below it."""
        names = re.findall(r"`([^`]*)`", line)
        path = TOP / names[-1] if names else None
        if path is None or not path.is_file():
            self.tally.tell(f"the block below: {line}", "no file has this name")
            return
        text = path.read_text(encoding="utf-8")
        has_all = "\n".join(["", *lines, ""]) in f"\n{text}\n"
        self.tally.tell(f"lines of {names[-1]}", None if has_all else "\n--- shown\n" + "\n".join(lines))

    def page(self, text):
        """What a page shows, in its order."""
        command, lines, block, last = None, [], False, ""
        for line in [*text.split("\n"), ""]:
            if block and line != "```":
                lines.append(line)
            elif block:
                self.file(last, lines)
                block = False
            elif line.startswith("    ") and (command is not None or line.startswith("    $ ")):
                if not line.startswith("    $ "):
                    lines.append(line[4:])
                    continue
                if command is not None:
                    self.command(command, lines)
                command, lines = line[6:], []
            else:
                if command is not None:
                    self.command(command, lines)
                command = None
                if line == "```rust":
                    lines, block = [], True
                elif line:
                    last = line
        if block:
            self.tally.tell(f"the block below: {last}", "it has no end")


def run(tally, _arguments):
    program = built_program()
    with tempfile.TemporaryDirectory() as room:
        each_page(tally, Shown(tally, room, program))


def each_page(tally, shown):
    for path in (TOP / "README.md", page("guide"), page("rattle"), TOP / "docs/lbk.1"):
        text = path.read_text(encoding="utf-8")
        if path.suffix == ".1":
            # In a man page signs are written by their names.
            for name, sign in SIGNS:
                text = text.replace(name, sign)
        before = tally.passed + tally.failed + len(tally.left_out)
        shown.page(text)
        if tally.passed + tally.failed + len(tally.left_out) == before:
            tally.tell(path.name, "it shows no command that can be run")
    if shown.left:
        print(f"{shown.left} commands are not run, or not shown whole")
