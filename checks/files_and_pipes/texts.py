"""Texts that operands name: their order, their names, and those that are missing, may not be read, are no files or
shrink."""

import os
import resource
import subprocess

from checks.files_and_pipes.files import NAMED, NOBODY
from checks.files_and_pipes.pipes import over_pipes
from checks.files_and_pipes.place import words_of
from checks.program import run as run_program

MISSING = "lbk: {}: cannot be read: no such file\n"
NOT_UTF_8 = "lbk: {}: byte {}: invalid UTF-8"
LATIN_1 = NOT_UTF_8 + "; if it is Latin-1, convert it by iconv -f ISO-8859-1 -t UTF-8\n"
UTF_16 = NOT_UTF_8 + "; it looks like UTF-16: convert it by iconv -f UTF-16 -t UTF-8\n"
KINDS = "lbk: to read lines with ! (a required break), add --kinds\n"
LONGEST_NAME = 4_095
# How many bytes of names one run is given at most: less than a system hands over.
TOGETHER = 1_000_000
# How many files a run may have open at a time that reads many, one after another.
OPEN = 16


def run(place):
    place.write("one", b"a b")
    place.write("two", b"cd\n")
    place.write("bad", b"ab\n\xff")
    for name in ("none.txt", "NONE", "none~", "non"):
        place.write(name, b"another\n")
    place.write("-", b"file\n")
    place.write("hidden", b"ef\n")
    (place.folder / "hidden").chmod(0)
    (place.folder / "folder").mkdir()
    for what, names, out, err in (
        ("one", ["one"], b"a b\n", ""),
        ("two in this order", ["two", "one"], b"cd\na b\n", ""),
        ("standard input between files", ["one", "-", "two"], b"a b\nin\ncd\n", ""),
        ("standard input twice", ["-", "one", "-"], b"in\na b\n", ""),
        ("a file whose name is a hyphen", ["./-"], b"file\n", ""),
        ("a name behind --", ["--", "one"], b"a b\n", ""),
        ("a missing one", ["one", "none", "two"], b"a b\ncd\n", MISSING.format("none")),
        ("none but missing ones", ["none", ""], b"", MISSING.format("none") + MISSING.format("")),
        ("a folder", ["folder", "one"], b"a b\n", "lbk: folder: cannot be read: is a directory\n"),
        ("a missing one and a folder", ["none", "folder"], b"",
            MISSING.format("none") + "lbk: folder: cannot be read: is a directory\n"),
        ("ill-formed text", ["bad", "two"], b"cd\n", "lbk: bad: byte 3: invalid UTF-8\n"),
        ("a thousand", ["two"] * 1000, b"cd\n" * 1000, ""),
        ("a thousand missing ones", ["none"] * 1000, b"", MISSING.format("none") * 1000),
    ):
        row = f"texts: {what}"
        place.row(row, words_of("mark", more=names), b"in", 1 if err else 0, out.replace(b"a b", "a ÷b".encode()),
            err.encode())
    # (a read takes at most 4,096 bytes)
    words = words_of("mark", more=["--to", "1", "-", "-"])
    place.row("texts: a range of standard input twice", words, b"a\n" * 2048 + b"b\nc\n", 0, b"a\nb\n")
    user = NOBODY if os.getuid() == 0 else None
    err = b"lbk: hidden: cannot be read: permission denied\n"
    place.row("texts: one without leave", words_of("mark", more=["hidden", "two"]), b"", 1, b"cd\n", err, user)
    pipes = {place.folder / "pipe": (b"ab\ncd", 1)}
    over_pipes(place, "texts: one from a pipe", words_of("mark", more=["pipe", "one"]), pipes, b"",
        "ab\ncd\na ÷b\n".encode())
    encodings(place)
    shrunk(place)
    closed(place)
    begun(place)
    whole_names(place)
    each_length(place)
    over_edges(place)
    hints(place)
    titled(place)
    appended(place)


def whole_names(place):
    """A text by its whole name, among similar ones, and a similar name without a file."""
    for kind, name, others in NAMED:
        for other in others:
            place.write(other, b"another\n")
        place.write(name, b"ab")
        place.row(f"texts: {kind}", words_of("mark", more=[name]), b"", 0, b"ab\n")
        os.remove(place.folder / name)
        err = MISSING.format(name).replace("\n:", "\\u{a}:").encode()
        place.row(f"texts: {kind}, which is not there", words_of("mark", more=[name]), b"", 1, b"", err)
        for other in others:
            os.remove(place.folder / other)
    name = "a\x1b\x7f\x85\t\r"
    err = MISSING.format("a\\u{1b}\\u{7f}\\u{85}\\u{9}\\u{d}").encode()
    place.row("texts: a name with control characters", words_of("mark", more=[name]), b"", 1, b"", err)
    name = "a\u202eb\u200f\u2066"
    err = MISSING.format("a\\u{202e}b\\u{200f}\\u{2066}").encode()
    place.row("texts: a name with characters that turn a line", words_of("mark", more=[name]), b"", 1, b"", err)
    err = b"lbk: a\\u{a}b/LineBreak.txt: the file cannot be read: no such file; --unicode 15.0 needs no files\n"
    place.row("a folder with a line end in its name", ["mark", "--ucd", "a\nb"], b"", 1, b"", err)


def each_length(place):
    """Names of each length that a system takes, of a text that is there and of one that is not."""
    place.write("t", b"t\n")
    place.write("tt", b"t\n")
    lengths = iter(range(1, LONGEST_NAME + 1))
    given, total = [], 0
    for length in lengths:
        given.append(length)
        total += length
        if total > TOGETHER or length == LONGEST_NAME:
            there = ["./" * ((length - 1) // 2) + "t" * (2 - length % 2) for length in given]
            missing = [name.replace("t", "u") for name in there]
            what = f"texts: names of {given[0]} to {given[-1]} bytes"
            place.row(what, words_of("mark", more=there), b"", 0, b"t\n" * len(given))
            err = "".join(map(MISSING.format, missing)).encode()
            place.row(f"{what}, none of which is there", words_of("mark", more=missing), b"", 1, b"", err)
            given, total = [], 0


def over_edges(place):
    """Characters of each length over the edge of each read, at each place in them."""
    for character in ("é", "の", "😀"):
        for front in range(4):
            text = ("a" * front + character * 5_000 + "\n").encode()
            place.write("edges", text)
            place.row(f"texts: {character} behind {front} bytes", words_of("mark", more=["edges"]), b"", 0, text)


def hints(place):
    """The details of a fault are those of its text, not of an earlier one."""
    place.write("little", b"\xff\xfea\0")
    place.write("big", b"\xfe\xff\0a")
    err = "".join(
        UTF_16.format(name, 0) if name in ("little", "big") else NOT_UTF_8.format(name, 3) + "\n"
        for name in ("bad", "little", "bad", "big", "bad")
    )
    place.row("texts: UTF-16 between others", words_of("mark", more=["bad", "little", "bad", "big", "bad"]), b"", 1,
        b"", err.encode())
    place.write("tests", "× 0061 × 0062 !\n".encode())
    told = b"R 1 16\nT 1 0 0 1\n"
    place.row("texts: test lines with !", words_of("replay", more=["tests"]), b"", 3, told, KINDS.encode())
    # (a read takes at most 4,096 bytes)
    place.write("tests", b"#\n" * 3_000 + "× 0061 × 0062 !\n".encode() + b"#\n" * 3_000)
    told = b"R 3001 16\nT 1 0 0 1\n"
    place.row("texts: test lines with ! in one read of some", words_of("replay", more=["tests"]), b"", 3, told,
        KINDS.encode())
    place.write("plain", b"x\n")
    place.row("texts: refused test lines without !", words_of("replay", more=["plain"]), b"", 3, b"R 1 0\nT 1 0 0 1\n")
    place.write("refused", "× D800 !\n".encode())
    told = b"R 1 7\nT 1 0 0 1\n"
    place.row("texts: refused test lines with !, by --kinds", words_of("replay", more=["--kinds", "refused"]), b"", 3,
        told)
    place.write("differs", "× 0061 ÷ 0062 ÷ # !\n".encode())
    told = "D 1 1 ÷ × 28\nT 1 0 1 0\n".encode()
    place.row("texts: test lines with ! that are not refused", words_of("replay", more=["differs"]), b"", 3, told)


def titled(place):
    """With --names a line with its name precedes the output of each text."""
    place.write("a\u202eb", b"ef\n")
    of_input = b"==> standard input <==\nin\n"
    for what, names, out, err in (
        ("standard input between files", ["two", "-", "two"], b"==> two <==\ncd\n" + of_input + b"==> two <==\ncd\n",
            ""),
        ("no file", [], of_input, ""),
        ("a missing one", ["none", "two"], b"==> two <==\ncd\n", MISSING.format("none")),
        ("ill-formed text", ["bad", "two"], b"==> bad <==\n==> two <==\ncd\n", "lbk: bad: byte 3: invalid UTF-8\n"),
        ("a name that turns a line", ["a\u202eb"], b"==> a\\u{202e}b <==\nef\n", ""),
    ):
        place.row(f"--names: {what}", words_of("mark", more=["--names", *names]), b"in", 1 if err else 0, out,
            err.encode())


def appended(place):
    """A text that is the output, too, is refused by whatever name; the others are read."""
    whole = b"ab\n" * 10_000
    same = "lbk: {}: cannot be read: input file is output file\n"
    for what, names, redirected, out, err in (
        ("a file", "two io two", ">> io", whole + b"cd\ncd\n", same.format("io")),
        ("another name of it", "link", ">> io", whole, same.format("link")),
        ("standard input", "two -", "< io >> io", whole + b"cd\n", same.format("standard input")),
        ("standard input behind a missing one", "none", "< io >> io", whole, MISSING.format("none")),
        ("a missing one behind it", "io none", ">> io", whole, same.format("io") + MISSING.format("none")),
        ("a file that was emptied", "io two", "> io", b"cd\n", ""),
        ("another file", "io", ">> other", whole, ""),
    ):
        place.write("io", whole)
        place.write("other", b"")
        (place.folder / "link").unlink(missing_ok=True)
        os.link(place.folder / "io", place.folder / "link")
        # (one that is not refused grows to the limit of the shell)
        command = f"ulimit -f 1000; exec ./lbk {' '.join(words_of('mark'))} {names} {redirected}"
        ran = run_program(["bash", "-c", command], cwd=place.folder)
        wrote = (place.folder / redirected.split()[-1]).read_bytes()
        place.tally.equal(f"the output is a text, too: {what}", (ran.status, wrote, ran.err),
            (1 if err else 0, out, err.encode()))


def closed(place):
    """Each text is closed once it is read."""
    words = [place.program, *words_of("mark", more=["two"] * 1000)]
    few = lambda: resource.setrlimit(resource.RLIMIT_NOFILE, (OPEN, OPEN))
    ran = run_program(words, cwd=place.folder, preexec_fn=few)
    place.tally.equal(f"texts: a thousand, with {OPEN} open files at most", tuple(ran), (0, b"cd\n" * 1000, b""))


def begun(place):
    """A file as standard input is read from where whoever had it before stopped."""
    command = f"{{ head -c 2 > taken; exec ./lbk {' '.join(words_of('mark'))}; }} < begun"
    place.write("begun", b"a\n" + b"b b\n" * 5_000)
    ran = run_program(["bash", "-c", command], cwd=place.folder)
    place.tally.equal("texts: the rest of standard input", tuple(ran), (0, "b ÷b\n".encode() * 5_000, b""))


def encodings(place):
    """Ill-formed texts that may be Latin-1, and others."""
    other = NOT_UTF_8 + "\n"
    for what, text, at, told in (
        ("a letter before", b"caf\xe9", 3, LATIN_1),
        ("a letter after", b"1 \xc9t", 2, LATIN_1),
        ("a letter in the read before", b"a" * 4096 + b"\xe9", 4096, LATIN_1),
        ("a letter in the read after", b" " * 4095 + b"\xe9a", 4095, LATIN_1),
        ("no letter", b"1 \xa35", 2, other),
        ("two in a row", b"a\xe4\xf6", 1, other),
        ("a quotation mark of Windows-1252", b"a\x93b", 1, other),
        ("UTF-8 before", b"\xc3\xa9 a\xe9", 4, other),
        ("a cut character", "日".encode()[:2], 0, other),
    ):
        place.row(f"texts: {what}", words_of("mark"), text, 1, b"", told.format("standard input", at).encode())


def shrunk(place):
    """A file that is cut to nothing while it is read, since nobody takes what is written of it yet."""
    whole = b"ab\n" * 1_000_000
    place.write("long", whole)
    words = [place.program, *words_of("mark", more=["long", "two"])]
    with subprocess.Popen(words, stdout=subprocess.PIPE, stderr=subprocess.PIPE, bufsize=0,
        cwd=place.folder) as program:
        front = program.stdout.read(1)
        os.truncate(place.folder / "long", 0)
        out, err = program.communicate()
    first = (front + out).removesuffix(b"cd\n")
    is_front = len(first) < len(whole) and whole.startswith(first[:-1]) and first.endswith(b"\n")
    fault = f"status {program.returncode}, {len(first)} bytes of {len(whole)}, standard error: {err!r}"
    place.tally.tell("texts: one that shrinks", None if is_front and (program.returncode, err) == (0, b"") else fault)
