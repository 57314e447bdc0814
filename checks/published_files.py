"""The program over the built-in property values, over the published files of Unicode 15.0 and their break test, and over
faulty copies of them: the built-in values are those of the files."""

import os
import re
import shutil
import tempfile
from pathlib import Path

from checks.harness import built_crate, built_program
from checks.program import run as run_program
from checks.unicode_files import MISSING, NAMES, lacking, layers_input, options, published

ALL_OF_THE_TEST = b"T 7654 7620 34 0"
# The digest of the cells that the library read of the published files.
DIGEST = b"fdee8027853ab7a0"


class Runs:
    """Runs the program, and compares how it ended."""

    def __init__(self, tally, room):
        self.tally, self.room = tally, Path(room)
        self.program = built_program()

    def run(self, given, *words, **more):
        return run_program([self.program, *map(str, words)], given, **more)

    def ends(self, what, ended, status, err=""):
        """The status, and the first line on standard error, as a pattern; none where it is empty."""
        lines = ended.err.decode(errors="replace").splitlines()
        fault = None
        if ended.status != status:
            fault = f"status {ended.status}, not {status}; standard error: {lines[:1]}"
        elif (not err and lines) or (err and not (lines and re.search(err, lines[0]))):
            fault = f"standard error: {lines[:1]}"
        elif status == 1 and len(lines) != 1:
            fault = f"{len(lines)} lines on standard error"
        self.tally.tell(what, fault)

    def same(self, what, ended, wanted):
        self.tally.equal(what, ended.out.rstrip(b"\n"), wanted.encode())


def without_files(runs):
    ended = runs.run(b"ab cd")
    runs.ends("no arguments: status", ended, 0, "^lbk: built-in sample data")
    runs.same("no arguments: text", ended, "× 0061 × 0062 × 0020 ÷ 0063 × 0064 !\t# 2 28 7 18 28 3")
    runs.ends("--help", runs.run(b"ab cd", "--help"), 0)
    runs.ends("--version", runs.run(b"ab cd", "--version"), 0)
    runs.ends("a wrong subcommand", runs.run(b"ab cd", "bogus"), 2, "unrecognized subcommand 'bogus'")
    for name in ("show", "segment", "replay"):
        runs.ends(f"{name} without values", runs.run(b"ab cd", name), 2, "property values are required: pass --unicode 15.0")
        runs.ends(f"{name} of another version", runs.run(b"ab cd", name, "--unicode", "15.1"), 2, "must be 15.0")
    runs.ends("two ways at once", runs.run(b"ab cd", "mark", "--unicode", "15.0", "--ucd", "."), 2, "exclude each other")
    runs.ends("one file alone", runs.run(b"ab cd", "mark", "--emoji", "emoji-data.txt"), 2, "property values are required")
    for words in (["mark"], ["mark", "--unicode", "15.0"], ["mark", "--unicode", "15.0.0"]):
        runs.same(" ".join(words), runs.run(b"ab cd", *words), "ab ÷cd")


def same_cells(runs, folder):
    """The built-in cell of each scalar value is that of the published files. Without these, the digest of all cells is
    that of those that the library read of them once."""
    given = layers_input([folder / it for it in NAMES], b"") if folder else b""
    ended = run_program([built_crate("trials_bench", True), "cells"], given)
    found = dict(line.split() for line in ended.out.splitlines())
    runs.tally.equal("the digest of the built-in cells is that of the published files' cells", found.get(b"built-in"), DIGEST)
    if folder:
        runs.tally.equal("the digest of the published files' cells", found.get(b"files"), DIGEST)
        runs.tally.equal("the cells that differ from the published files'", found.get(b"differing"), b"0")


def same_lines(runs, folder, words):
    """Each subcommand writes the same by the built-in values as by the files."""
    text = b"".join((folder / it).read_bytes() for it in ("NamesList.txt", "LineBreak.txt", "emoji/emoji-test.txt"))
    tests = (folder / "auxiliary/LineBreakTest.txt").read_bytes()
    built_in = ["--unicode", "15.0"]
    for profile in ("1", "2"):
        for name, given, more in [("mark", text, []), ("show", text, []), ("segment", text, []),
                ("chunk", text, ["--most", "300"]), ("replay", tests, [])]:
            ended = [runs.run(given, name, *way, *more, "--profile", profile) for way in (built_in, words)]
            runs.tally.equal(f"{name}, profile {profile}: the same as by the files", ended[0], ended[1])


def replay(runs, folder, words):
    tests = (folder / "auxiliary/LineBreakTest.txt").read_bytes()
    last = lambda ended: ended.out.splitlines()[-1]
    ended = runs.run(tests, "replay", *words)
    runs.ends("replay of the published test: status", ended, 3)
    runs.tally.equal("replay of the published test: T 7654 7620 34 0", last(ended), ALL_OF_THE_TEST)
    differing = [line for line in ended.out.splitlines() if line.startswith(b"D ")]
    good = len(differing) == 34 and all(line.endswith(b" 25") for line in differing)
    runs.tally.tell("replay of the published test: all 34 by rule 25", None if good else f"{differing}")
    ended = runs.run(tests, "replay", *words, "--profile", "2")
    good = re.fullmatch(rb"T 7654 [0-9]+ [0-9]+ 0", last(ended))
    runs.tally.tell("replay in the second profile reads every line", None if good else f"{last(ended)}")
    ended = runs.run("× 0061 × 0062 ÷\n× D800 ÷\n".encode(), "replay", *words)
    runs.ends("replay of a refused line: status", ended, 3)
    runs.same("replay of a refused line: text", ended, "R 2 7\nT 2 1 0 1")
    ended = runs.run("× 0061 × 0062 !\n".encode(), "replay", *words, "--kinds")
    runs.ends("replay --kinds: status", ended, 0)
    runs.same("replay --kinds: text", ended, "T 1 1 0 0")
    ended = runs.run(tests, "replay", "--ucd", folder)
    runs.ends("replay by the folder: status", ended, 3)
    runs.tally.equal("replay by the folder: T 7654 7620 34 0", last(ended), ALL_OF_THE_TEST)


def cover(lines, size):
    """What is wrong with the passages and segments of a text of some size, which have to join, each word within its
    passage."""
    end = part = passages = 0
    for line in lines:
        kind, *places = line.split()
        if kind == b"P":
            if int(places[0]) != end or part != end:
                return f"{line} does not join"
            end, part, passages = int(places[1]), int(places[0]), passages + 1
        elif kind == b"S":
            if int(places[0]) != part:
                return f"{line} does not join"
            part = int(places[1])
        elif kind == b"W" and int(places[1]) > end:
            return f"{line} is past its passage"
    return None if end == part == size and passages > 1 else f"they end at {end} and {part} of {size}"


def large_text(runs, folder, words):
    names = ["NamesList.txt", "Index.txt", "LineBreak.txt", "auxiliary/LineBreakTest.txt"]
    text = b"".join((folder / it).read_bytes() for it in names)
    scalars = len(text.decode())
    for profile in ("1", "2"):
        more = [*words, "--profile", profile]
        ended = runs.run(text, "segment", *more)
        runs.ends(f"segment of {len(text)} bytes, profile {profile}: status", ended, 0)
        lines = ended.out.splitlines()
        runs.tally.tell(f"segment, profile {profile}: passages and segments cover the text", cover(lines, len(text)))
        passages = sum(line.startswith(b"P ") for line in lines)
        ended = runs.run(text, "show", *more)
        runs.ends(f"show of {len(text)} bytes, profile {profile}: status", ended, 0)
        lines = ended.out.splitlines()
        marks = [word for line in lines for word in line.partition(b"\t")[0].split()]
        found = sum(re.fullmatch(rb"[0-9A-F]{4,6}", word) is not None for word in marks)
        runs.tally.equal(f"show, profile {profile}: a line a passage, each scalar once", (len(lines), found),
            (passages, scalars))


def with_flipped_bit(contents):
    """The bytes with the last bit of the middle one flipped."""
    middle = len(contents) // 2
    return contents[:middle] + bytes([contents[middle] ^ 1]) + contents[middle + 1 :]


def without_rows(contents):
    """The bytes without the lines 500 to 600."""
    lines = contents.split(b"\n")
    return b"\n".join(lines[:499] + lines[600:])


def folders(runs, folder):
    """Folders with one file that is not the published one, or has other line ends."""
    here = runs.room / "ucd"
    mark = lambda *more: runs.run(b"ab cd", "mark", "--ucd", here, *more)
    marked = runs.run(b"ab cd", "mark", "--ucd", folder).out
    for name in NAMES:
        for other in NAMES:
            (here / other).parent.mkdir(parents=True, exist_ok=True)
            shutil.copy(folder / other, here / other)
        contents = (folder / name).read_bytes()
        of_another = contents.replace(b"15.0", b"15.1", 1)
        changed = f"^lbk: {here}/{name}: the file was changed or truncated: .*; download it again, or pass all four files by their own options"
        version = f"^lbk: {here}/{name}: this is (Unicode 15.1.0|Emoji 15.1), and lbk needs 15.0(.0)?; get it from .*UCD.zip$"
        for what, bytes_of, err in [
            ("lacks its last byte", contents[:-1], changed),
            ("lacks rows from the middle", without_rows(contents), changed),
            ("has one flipped bit", with_flipped_bit(contents), changed),
            ("is of 15.1", of_another, version),
            *(("is another file", it.read_bytes(), f"^lbk: {here}/{name}: this is not ")
                for it in [folder / "PropList.txt"] if it.is_file()),
        ]:
            (here / name).write_bytes(bytes_of)
            runs.ends(f"a folder whose {name} {what}", mark(), 1, err)
        (here / name).write_bytes(contents.replace(b"\n", b"\r\n"))
        runs.tally.equal(f"a folder whose {name} has lines that end in CR LF", mark().out, marked)
        (here / name).write_bytes(contents)
    one_file_less(runs, folder, here, mark)


def one_file_less(runs, folder, here, mark):
    """A folder with three of the files, and an option that names the fourth, are two ways at once."""
    wide = here / "EastAsianWidth.txt"
    wide.unlink()
    lacks = f"^lbk: {wide}: the file cannot be read: no such file; --unicode 15.0 needs no files$"
    runs.ends("a folder that lacks a file", mark(), 1, lacks)
    runs.ends("a folder and a file", mark("--east-asian", folder / "EastAsianWidth.txt"), 2, "exclude each other")


def cut_files(runs, words, show):
    """A truncated file that an option names is read with a warning. A file with another first line may have any last
    line."""
    own = runs.room / "cut.txt"
    for k, option in enumerate(words[::2]):
        contents = Path(words[2 * k + 1]).read_bytes()
        given = [*words[: 2 * k], option, own, *words[2 * k + 2 :]]
        for what, bytes_of, err in [
            ("lacks its last line", contents[: contents.rindex(b"\n", 0, -1)],
                f"^lbk: {own}: warning: the file was truncated: "),
            ("has more line ends", contents + b"\r\n\n", ""),
            ("lacks its first and its last line", contents[contents.index(b"\n") : contents.rindex(b"\n", 0, -1)], ""),
        ]:
            own.write_bytes(bytes_of)
            runs.ends(f"{option} names a file that {what}", show(*given), 0, err)


def faults(runs, words):
    room = runs.room
    missing, bad = room / "none.txt", room / "bad.txt"
    show = lambda *more, given=b"ab cd": runs.run(given, "show", *more)
    runs.ends("a missing file", show("--line-break", missing, *words[2:]), 1, f"^lbk: {missing}: ")
    runs.ends("a folder for a file", show(*words[:2], "--east-asian", room, *words[4:]), 1, f"^lbk: {room}: ")
    bad.write_text("# one\n0061;AK\n", encoding="ascii")
    runs.ends("a bad row", show("--line-break", bad, *words[2:]), 1, f"^lbk: {bad}:2: ")
    cut_files(runs, words, show)
    runs.ends("a limit of 0", show(*words, "--limit", 0), 2, r"0 is not in 1\.\.=16777216")
    runs.ends("profile 3", show(*words, "--profile", 3), 2, r"3 is not in 1\.\.=2")
    runs.ends("a paragraph past the limit", show(*words, "--limit", 4), 1, "^lbk: standard input: byte 0: .*--limit")
    runs.ends("ill-formed bytes", show(*words, given=b"a\nb\xff"), 1, "^lbk: standard input: byte 3: ")
    (room / "two").write_bytes(b"ab cd")
    closed = ["bash", "-c", '"$@" < two >&-', "bash", runs.program, "show", *words]
    runs.ends("a closed output", run_program(closed, cwd=room), 1, "^lbk: standard output: ")
    if os.access("/dev/full", os.W_OK):
        full = ["bash", "-c", '"$@" < two > /dev/full', "bash", runs.program, "segment", *words]
        runs.ends("a full output", run_program(full, cwd=room), 1, "^lbk: standard output: ")
    else:
        runs.tally.leave_out("a full output: /dev/full")


def run(tally, _arguments):
    with tempfile.TemporaryDirectory() as room:
        runs = Runs(tally, room)
        without_files(runs)
        folder = published()
        same_cells(runs, folder)
        if folder is None:
            tally.leave_out(MISSING)
            return
        files = [folder / it for it in NAMES]
        words = options(files)
        if lacks := lacking(folder):
            tally.leave_out(f"{', '.join(lacks)}, which are not in {folder}: {MISSING}")
        else:
            same_lines(runs, folder, words)
            replay(runs, folder, words)
            large_text(runs, folder, words)
        folders(runs, folder)
        faults(runs, words)
