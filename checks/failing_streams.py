"""The program over streams and files that fail, and over arguments that are not UTF-8.

Each run ends with the right status, without a signal, and with at most one line on standard error, after the line of a
run without arguments. It needs no other files.
"""

import fcntl
import os
import subprocess
import tempfile
from pathlib import Path

from checks import c_programs
from checks.files_and_pipes.place import REQUIRED
from checks.harness import built_program, has, shown
from checks.program import Ended, redirected
from checks.program import run as run_program
from checks.unicode_files import OPTIONS

LINE_BREAK = b"000A;LF\n0020;SP\n0061..007A;AL\n"
IN_FAULT = "lbk: standard input: cannot be read"
OUT_FAULT = "lbk: standard output: cannot be written"
IS_OUTPUT = f"{IN_FAULT}: input file is output file"
NO_SPACE = f"{OUT_FAULT}: no storage space"
NOT_READY = "operation would block"
INTERRUPTED = b": operation interrupted\n"
TESTS = "× 0061 × 0062 ÷\n× 0061 ÷ 0062 ÷\n".encode()
SAMPLES = "lbk: built-in sample data, for a first look only; for your own text: lbk mark FILE\n"
TOO_LONG = (
    "lbk: standard input: byte 0: the paragraph that starts here has more than 65536 bytes; --limit allows up to 16777216"
)
NOT_TEXT = "lbk: argument {}, {}, is not UTF-8; pass a file with such a name as standard input: < FILE"
SECONDS = 30  # until a run counts as one that waits
GREATEST = 16_777_216  # bytes of a paragraph
HAS_FULL = os.access("/dev/full", os.W_OK)


class Runs:
    """The program in a folder with its texts and its property files."""

    def __init__(self, tally, room):
        self.tally, self.room = tally, Path(room)
        self.program = built_program()
        self.many = b"ab cd\n" * 20_000
        long = (b"ab " * 3_000 + b"\n") * 2_000
        for name, contents in (
            ("line-break", LINE_BREAK),
            ("none", b""),
            ("two", b"ab cd\n"),
            ("many", self.many),
            ("long", long[:GREATEST]),
            ("greatest", b"a" * GREATEST),
        ):
            (self.room / name).write_bytes(contents)
        (self.room / "folder").mkdir()
        os.symlink("loop", self.room / "loop")
        self.files = [self.room / "line-break", *[self.room / "none"] * 3]

    def words(self, files):
        return [word for pair in zip(OPTIONS, files) for word in pair]

    def redirected(self, redirections, words):
        return redirected(redirections, [self.program, *words], cwd=self.room)

    def ends(self, what, ended, status, line="", first=""):
        """Compares the status, and all of standard error: one line or none, after a first line where there is one."""
        got = (ended.status, ended.err.decode(errors="replace"))
        self.tally.equal(what, got, (status, first + (f"{line}\n" if line else "")))

    def wrote(self, what, ended, wanted=b""):
        self.tally.equal(f"{what}: what is written", ended.out, wanted)


def outputs(runs, name, words, first):
    closed = runs.redirected("< two >&-", words)
    runs.ends(f"{name}: a closed output", closed, 1, OUT_FAULT, first)
    if HAS_FULL:
        runs.ends(f"{name}: a full output", runs.redirected("< two > /dev/full", words), 1, NO_SPACE, first)
    else:
        runs.tally.leave_out(f"{name}: a full output: /dev/full")
    runs.ends(f"{name}: a reader that closes early", closed_early(runs, words), 1, "", first)
    read_only = runs.redirected("< two 1< /dev/null", words)
    runs.ends(f"{name}: an output that is open for reading only", read_only, 1, OUT_FAULT, first)
    same = runs.redirected("< two 1< two", words)
    runs.ends(f"{name}: an output that is the input", same, 1, IS_OUTPUT, first)
    full = not_ready_output(runs, words)
    runs.ends(f"{name}: an output that is not ready", full, 1, f"{OUT_FAULT}: {NOT_READY}", first)


def long_paragraphs(runs, task, words):
    """The same of paragraphs that are longer than a read, and of one that is as long as one may be."""
    for text in ("long", "greatest"):
        name = f"{task}, the text {text}"
        if task == "segment" and text == "greatest":
            # (its three lines are less than a pipe holds)
            continue
        if HAS_FULL:
            runs.ends(f"{name}: a full output", runs.redirected(f"< {text} > /dev/full", words), 1, NO_SPACE)
        runs.ends(f"{name}: a reader that closes early", closed_early(runs, words, text), 1)
        runs.ends(f"{name}: an output that is not ready", not_ready_output(runs, words, text), 1,
            f"{OUT_FAULT}: {NOT_READY}")


def closed_early(runs, words, text="many"):
    """A run of more than a pipe holds, so that the writer meets its end, over a reader that reads one byte."""
    with open(runs.room / text, "rb") as many, open(runs.room / "err", "w+b") as err:
        with subprocess.Popen([runs.program, *words], stdin=many, stdout=subprocess.PIPE, stderr=err) as process:
            process.stdout.read(1)
            process.stdout.close()
            status = process.wait()
        err.seek(0)
        return Ended(status, b"", err.read())


def not_ready_pipe():
    """Both ends of a pipe that whoever shares it has set not to wait."""
    ends = os.pipe()
    for end in ends:
        fcntl.fcntl(end, fcntl.F_SETFL, fcntl.fcntl(end, fcntl.F_GETFL) | os.O_NONBLOCK)
    return ends


def not_ready_output(runs, words, text="many"):
    """A run that writes more than a pipe holds which is not read."""
    end, out = not_ready_pipe()
    try:
        with open(runs.room / text, "rb") as many:
            return bounded([runs.program, *words], stdin=many, stdout=out, stderr=subprocess.PIPE)
    finally:
        os.close(end)
        os.close(out)


def not_ready_input(runs, words, given):
    """A run over a pipe that is not ended and has no more than these bytes."""
    end, out = not_ready_pipe()
    try:
        os.write(out, given)
        return bounded([runs.program, *words], stdin=end, capture_output=True)
    finally:
        os.close(end)
        os.close(out)


def bounded(words, **streams):
    """How a run ended, or that it still waits."""
    try:
        ran = subprocess.run(words, check=False, timeout=SECONDS, **streams)
    except subprocess.TimeoutExpired:
        return Ended(f"none after {SECONDS} seconds", b"", b"")
    return Ended(ran.returncode, ran.stdout or b"", ran.stderr)


def inputs(runs, name, words, first):
    runs.ends(f"{name}: a closed input", runs.redirected("<&-", words), 1, IN_FAULT, first)
    runs.ends(f"{name}: a folder as input", runs.redirected("< folder", words), 1, f"{IN_FAULT}: is a directory", first)
    write_only = runs.redirected("0> written-only", words)
    runs.ends(f"{name}: an input that is open for writing only", write_only, 1, IN_FAULT, first)
    runs.ends(f"{name}: a closed input and a closed output", runs.redirected("<&- >&-", words), 1, IN_FAULT, first)
    runs.ends(f"{name}: all three closed", runs.redirected("<&- >&- 2>&-", words), 1)
    if HAS_FULL:
        runs.ends(f"{name}: a closed input and a full standard error",
            runs.redirected("<&- > /dev/full 2> /dev/full", words), 1)
    ended = not_ready_input(runs, words, b"")
    runs.ends(f"{name}: an input that is not ready", ended, 1, f"{IN_FAULT}: {NOT_READY}", first)
    runs.wrote(f"{name}: an input that is not ready", ended)


def ends_of_input(runs, name, words, first):
    nothing = b"T 0 0 0 0\n" if name == "replay" else b""
    ended = runs.redirected("< /dev/null", words)
    runs.ends(f"{name}: an input that ends at once", ended, 0, "", first)
    runs.wrote(f"{name}: an input that ends at once", ended, nothing)
    ended = run_program([runs.program, *words])
    runs.ends(f"{name}: a pipe that ends at once", ended, 0, "", first)
    runs.wrote(f"{name}: a pipe that ends at once", ended, nothing)
    ended = runs.redirected("< /dev/zero", words)
    endless = "lbk: standard input: more than 1073741824 bytes" if name == "replay" else TOO_LONG
    runs.ends(f"{name}: an input that never ends", ended, 1, endless, first)
    runs.wrote(f"{name}: an input that never ends", ended)


def property_files(runs):
    room = runs.room
    rows = [
        ("no such file", room / "missing", 1, ": no such file"),
        ("a folder", room / "folder", 1, ": is a directory"),
        ("a name below a file", room / "two/under-a-file", 1, ": not a directory"),
        ("a link to itself", room / "loop", 1, ": filesystem loop or indirection limit (e.g. symlink loop)"),
        ("an empty name", "", 1, ": no such file"),
        ("a name of 5000 bytes", room / ("x" * 5000), 1, ": invalid filename"),
    ]
    rows = [(what, name, status, f"lbk: {name}: the file cannot be read{why}") for what, name, status, why in rows] + [
        ("a name with line ends", "no\nsuch\r", 1, r"lbk: no\u{a}such\u{d}: the file cannot be read: no such file"),
        ("a file that never ends", "/dev/zero", 1, "lbk: /dev/zero: the file has more than 8388608 bytes"),
        ("a file that ends at once", "/dev/null", 0, ""),
        ("a name that is not UTF-8", b"\xff", 2, None),
    ]
    for task in ("show", "mark"):
        for k, option in enumerate(OPTIONS):
            for what, name, status, line in rows:
                files = [name if k == other else file for other, file in enumerate(runs.files)]
                ended = runs.redirected("< two", [task, *runs.words(files)])
                runs.ends(f"{task} {option}: {what}", ended, status, line if line is not None
                    else NOT_TEXT.format(3 + 2 * k, r"\xff"))
                if status:
                    runs.wrote(f"{task} {option}: {what}", ended)


def arguments(runs):
    for word in (b"\xff", b"show\xc3", b"mark\xc3", b"\xed\xa0\x80", b"--limit=\xfe"):
        seen = "".join(chr(it) if 0x21 <= it < 0x7F else f"\\x{it:02x}" for it in word)
        runs.ends(f"an argument that is not UTF-8: {word!r}", runs.redirected("< two", [word]), 2,
            NOT_TEXT.format(1, seen))
    # (Linux takes 131,071 bytes)
    long = b"x" * 131_070 + b"\xff"
    ended = runs.redirected("< two", ["mark", long])
    runs.ends("a long argument that is not UTF-8", ended, 2, NOT_TEXT.format(2, "x" * 131_070 + r"\xff"))
    for word in ("--help", "--version"):
        runs.ends(f"{word}: a closed output", runs.redirected("< two >&-", [word]), 1, OUT_FAULT)
        if HAS_FULL:
            runs.ends(f"{word}: a full output", runs.redirected("< two > /dev/full", [word]), 1, NO_SPACE)
        runs.ends(f"{word}: a closed input", runs.redirected("<&-", [word]), 0)
    runs.ends("a wrong subcommand and a closed standard error", runs.redirected("< two 2>&-", ["bogus"]), 2)


def interrupted(runs, library, name, words, text):
    """Each read, and then each write, is interrupted in turn, which fails the run: the call is not made again."""
    whole = run_program([runs.program, *words], text, cwd=runs.room)
    for call in ("read", "write"):
        number, fault = 0, None
        while fault is None:
            number += 1
            env = dict(os.environ, LD_PRELOAD=str(library), INTERRUPT=call, INTERRUPT_CALL=str(number))
            ended = run_program([runs.program, *words], text, cwd=runs.room, env=env)
            if ended == whole:
                break
            failed = ended.status == 1 and ended.err.endswith(INTERRUPTED) and ended.err.count(b"\n") == 1
            if not failed or not whole.out.startswith(ended.out):
                fault = f"call {number}: status {ended.status}, {shown(ended.err)}"
        if fault is None and number == 1:
            fault = "the first call was made again, or not interrupted"
        runs.tally.tell(f"{name}: each {call} interrupted", fault)


def run(tally, _arguments):
    with tempfile.TemporaryDirectory() as room:
        runs = Runs(tally, room)
        library = None
        if has("gcc"):
            library = c_programs.build("c/interrupted.c", runs.room / "interrupted.so", "-shared", "-fPIC",
                compiler="gcc")
        else:
            tally.leave_out("interrupted calls, for which gcc is not there")
        for task in ("", "mark", "show", "segment", "chunk", "replay"):
            name = task or "no arguments"
            words = [task, *REQUIRED.get(task, []), *runs.words(runs.files)] if task else []
            first = "" if task else SAMPLES
            outputs(runs, name, words, first)
            inputs(runs, name, words, first)
            ends_of_input(runs, name, words, first)
            if library and task:
                interrupted(runs, library, name, words, (TESTS if task == "replay" else b"ab cd\n") * 3_000)
            if task in ("mark", "show", "segment"):
                long_paragraphs(runs, task, [*words, "--limit", str(GREATEST)])
        property_files(runs)
        arguments(runs)
