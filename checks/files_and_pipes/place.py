"""A folder with the program and its files."""

import shutil
from pathlib import Path

from checks.harness import shown
from checks.program import run as run_program
from checks.unicode_files import OPTIONS

LIMIT = 16_777_216
NAMES = ("L", "E", "C", "M")
# What a subcommand requires in addition to the files.
REQUIRED = {"chunk": ["--most", "1"]}

LINE_BREAK = b"""\
000A;LF
000D;CR
0020;SP
0021;EX
0028;OP
0E31;SA
1F3FB;EM
"""
CATEGORY = b"0061..007A;Ll\n"


class Place:
    """The folder, which each user may read."""

    def __init__(self, tally, program, folder):
        self.tally = tally
        self.folder = Path(folder)
        self.folder.chmod(0o755)
        self.program = self.folder / "lbk"
        shutil.copy(program, self.program)
        self.program.chmod(0o755)
        for name, text in zip(NAMES, (LINE_BREAK, b"", CATEGORY, b"")):
            self.write(name, text)

    def write(self, name, contents):
        path = self.folder / name
        path.write_bytes(contents)
        path.chmod(0o644)

    def row(self, what, words, given, status, out=b"", err=b"", user=None):
        """Runs the program in its folder, and compares how it ended with what is wanted."""
        more = {} if user is None else {"user": user, "group": user, "extra_groups": []}
        ran = run_program([self.program, *words], given, cwd=self.folder, **more)
        fault = None
        if ran.status != status:
            fault = f"status {ran.status}, not {status}; standard error: {shown(ran.err)}"
        elif ran.err != err:
            fault = f"standard error: {shown(ran.err)}, not {shown(err)}"
        elif ran.out != out:
            fault = f"it wrote {shown(ran.out)}, not {shown(out)}"
        self.tally.tell(what, fault)


def words_of(task, names=NAMES, more=()):
    return [task, *(word for pair in zip(OPTIONS, names) for word in pair), *more]


def with_name(place, name):
    """The four names, one of them in this place."""
    return [name if k == place else other for k, other in enumerate(NAMES)]


def long_file(front, last, length):
    """A file of so many bytes, all between its front and its last row comments."""
    comment = b"#" + b"x" * 998 + b"\n"
    room = length - len(front) - len(last)
    whole, rest = divmod(room, len(comment))
    short = b"" if rest == 0 else b"#" * (rest - 1) + b"\n"
    return front + comment * whole + short + last
