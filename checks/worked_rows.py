"""The program over the tables of crates/test_support: texts, test files, ranges, and inputs that it refuses.

The property files are the samples in crates/lbk_ucd/src/samples.rt. A socket of packets cuts reads, and makes them fail
where it is not ready; a limit on the size of its file makes an output full. It needs no other files.
"""

import ast
import re
import resource
import socket
import subprocess
import tempfile

from checks.chunk_lines import chunk_lines
from checks.failing_streams import NOT_READY, SAMPLES
from checks.files_and_pipes.place import LIMIT, NAMES, Place, words_of
from checks.harness import TOP, built_program, shown
from checks.unicode_files import OPTIONS

IN_FAULT = f"lbk: standard input: cannot be read: {NOT_READY}\n"
OUT_FAULT = "lbk: standard output: cannot be written: file too large\n"
ILL_FORMED = "lbk: {}: byte {}: invalid UTF-8\n"
LATIN_1 = ILL_FORMED[:-1] + "; if it is Latin-1, convert it by iconv -f ISO-8859-1 -t UTF-8\n"
MISSING = "lbk: {}: cannot be read: no such file\n"
TOO_LONG = (
    "lbk: standard input: byte {}: the paragraph that starts here has more than {} bytes; "
    "--limit allows up to {}\n"
)
CHANGED = (
    "lbk: U/{0}: the file was changed or truncated: it differs from Unicode 15.0.0's {0}; "
    "download it again, or pass all four files by their own options\n"
)
REMEDY = "; get it from Debian 12's unicode-data or https://www.unicode.org/Public/15.0.0/ucd/UCD.zip\n"
TITLE = "lbk: U/LineBreak.txt: this is not LineBreak.txt of the Unicode Character Database" + REMEDY
NO_VALUE = "unknown property value; lbk knows those of Unicode 15.0 and earlier"
TWO_WORDS = "× 0061 × 0062 × 0020 ÷ 0063 × 0064 !\t# 2 28 7 18 28 3\n"


def too_long(start, limit):
    return TOO_LONG.format(start, limit, LIMIT)


# The words behind those that name the files, what is read, written and told, and the status.
ROWS = [
    ("segment", "", "ab cd", "P 0 5\nS 0 3 May 18\nS 3 5 Must 3\nW 0 2\nW 3 5\n", "", 0),
    ("mark", "--limit 6", "ab cd\n", "ab ÷cd\n", "", 0),
    ("mark", "--limit 6", "a\nabcdefg", "a\n", too_long(2, 6), 1),
    ("show", "--limit 4", "abc\r\n", "", too_long(0, 4), 1),
    ("chunk", "--most 4", "ab cd", "C 0 3 1 May 18\nC 3 5 1 Must 3\n", "", 0),
    ("chunk", "--most 4 --words 1 --least 2 --overlap 2 --profile 2 --limit 5", "ab\ncd",
        "C 0 3 1 Must 5\nC 3 5 1 Must 3\n", "", 0),
    ("chunk", "--most 4", "", "", "", 0),
    ("chunk", "--most 4 --text", "a\\\"\r\nä",
        '{"start":0,"end":5,"words":1,"text":"a\\\\\\"\\r\\n"}\n{"start":5,"end":7,"words":0,"text":"ä"}\n', "", 0),
    ("chunk", "--most 4 --text --profile 2", "", "", "", 0),
    ("chunk", "--most 1 --limit 4", "a\nbcdef", "", too_long(2, 4), 1),
    ("chunk", "--most 2 --limit 4", "a b\nbcdef", "C 0 2 1 May 18\n", too_long(4, 4), 1),
]
# The same where each operand names a text, and standard input is `ef`.
OPERANDS = [
    ("mark", "", "ef\n", "", 0),
    ("mark", "-", "ef\n", "", 0),
    ("mark", "one", "a ÷b\n", "", 0),
    ("mark", "two one", "cd\na ÷b\n", "", 0),
    ("mark", "one - one", "a ÷b\nef\na ÷b\n", "", 0),
    ("mark", "- -", "ef\n", "", 0),
    ("mark", "none", "", MISSING.format("none"), 1),
    ("mark", "none two ''", "cd\n", MISSING.format("none") + MISSING.format(""), 1),
    ("mark", "bad two", "cd\n", ILL_FORMED.format("bad", 2), 1),
    (
        "segment",
        "one two",
        "P 0 3\nS 0 2 May 18\nS 2 3 Must 3\nW 0 1\nW 2 3\nP 0 3\nS 0 3 Must 3\nW 0 2\n",
        "",
        0,
    ),
    # A passage that begins in a range is written, and what is ill-formed past the character after it is not reported.
    ("segment", "--from 4 --to 7 lines", "P 4 7\nS 4 7 Must 5\nW 4 6\n", "", 0),
    ("show", "--to 4 lines", "× 0061 × 0020 ÷ 0062 × 000A !\t# 2 7 18 6 5\n", "", 0),
    ("mark", "--from 1 --to 5 lines two", "cd\n", "", 0),
    ("segment", "--from 4 one", "", "", 0),
    ("segment", "--from 7 lines", "", ILL_FORMED.format("lines", 9), 1),
    # A chunk that begins in a range is written, and all of the text is read.
    ("chunk", "--most 3 one two", "C 0 3 2 Must 3\nC 0 3 1 Must 3\n", "", 0),
    ("chunk", "--most 2 --from 1 --to 2 --names one", "==> one <==\n", "", 0),
    ("chunk", "--most 2 --to 4 lines two", "C 0 2 1 May 18\nC 2 4 1 Must 5\nC 0 3 1 Must 3\n",
        ILL_FORMED.format("lines", 9), 1),
    ("replay", "tests tests", "D 1 1 ÷ × 28\nT 1 0 1 0\nD 1 1 ÷ × 28\nT 1 0 1 0\n", "", 3),
    ("replay", "tests none", "D 1 1 ÷ × 28\nT 1 0 1 0\n", MISSING.format("none"), 1),
]
TEXTS = {
    "one": b"a b",
    "two": b"cd\n",
    "bad": b"x\n\xff",
    "lines": b"a b\ncd\ne\n\xff",
    "tests": b"\xc3\x97 0061 \xc3\xb7 0062 \xc3\xb7\n",
}
# Words, a text in packets of these sizes (the last one's for all that follow, and none: one packet), whether the read
# after them fails, what is written, and what is told.
CUT = [
    *[
        (words, given, sizes, False, out, err)
        for words, given, out, err in (
            ("show --limit 4", b"abcde\xff", "", too_long(0, 4)),
            ("show --limit 4", b"abcd\xff", "", LATIN_1.format("standard input", 4)),
            ("segment --limit 4", b"abc\r\n", "", too_long(0, 4)),
            ("segment --limit 1", b"\n\xe2\x80\x99", "P 0 1\nS 0 1 Must 5\n", too_long(1, 1)),
            ("show", b"a\xe2\x82", "", ILL_FORMED.format("standard input", 1)),
            ("show --profile 2", b"a\nb\xff", "× 0061 × 000A !\t# 2 6 5\n", LATIN_1.format("standard input", 3)),
            (
                "segment --profile 2",
                b"a\nb\xff",
                "P 0 2\nS 0 2 Must 5\nW 0 1\n",
                LATIN_1.format("standard input", 3),
            ),
            ("segment", b"a\n\xff", "", ILL_FORMED.format("standard input", 2)),
            ("chunk --most 3", b"ab cd\nef\xff", "C 0 3 1 May 18\n", LATIN_1.format("standard input", 8)),
            ("chunk --most 9", b"a\nb\xff", "", LATIN_1.format("standard input", 3)),
        )
        for sizes in ([1], [2], [])
    ],
    # After the character that follows a passage, after a passage alone, and after a line of a test file.
    ("show", b"a\nb", [], True, "× 0061 × 000A !\t# 2 6 5\n", IN_FAULT),
    ("show", b"a\n", [], True, "", IN_FAULT),
    ("chunk --most 2", b"a b\nc", [], True, "C 0 2 1 May 18\n", IN_FAULT),
    ("", b"a\nb", [], True, "× 0061 × 000A !\t# 2 6 5\n", SAMPLES + IN_FAULT),
    ("replay", "× 0061 × 0062 ÷\n× 0061 ÷ 0062 ÷\n".encode(), [38], True, "D 2 1 ÷ × 28\n", IN_FAULT),
    # Standard input twice with a range: the second text is what no read had taken.
    ("mark --to 1 - -", b"a\nb\nc\n", [3], False, "a\n\n", ""),
    ("mark --to 1 - -", b"a\nb\nc\n", [4], False, "a\nc\n", ""),
    ("mark --to 1 - -", b"a\nb\nc\n", [6], False, "a\n", ""),
    ("mark --to 1 - -", b"a\n\xc3\xa9\n", [3, 1], False, "a\n\n", ""),
]
# Words, a text, what is told, and what is written of it into a file that may have five bytes.
FULL = [
    ("show", "ab cd", OUT_FAULT, b"\xc3\x97 00"),
    ("", "ab cd", SAMPLES + OUT_FAULT, b"\xc3\x97 00"),
    ("segment", "ab cd", OUT_FAULT, b"P 0 5"),
    ("chunk --most 3", "ab cd", OUT_FAULT, b"C 0 3"),
    ("replay", "× 0061 × 0062 ÷\n× 0061 ÷ 0062 ÷\n× D800 ÷\n", OUT_FAULT, b"D 2 1"),
]
# Words behind the files that no command line has, and words without files.
WRONG = """
show --limit 0
show --limit 16777217
show --limit many
show --profile 3
show --kinds
segment --limit 0
segment --limit 16777217
segment --profile 0
segment --kinds
chunk
chunk --most 0
chunk --most 16777217
chunk --most 4 --words 0
chunk --most 4 --least 5
chunk --most 4 --overlap 3
chunk --most 4 --sign +
segment --most 4
segment --line-break L
segment --from 2 --to 1
mark --to 4294967296
replay --from 1
replay --limit 4
replay --profile 3
replay --profile first
replay --bogus
""".strip().splitlines()
WRONG_ALONE = [
    ["bogus"], ["show"], ["segment"], ["replay"], ["--limit", "4"], ["mark", "--ucd", ""], ["mark", "--emoji", "M"],
    ["mark", "--ucd", "U", "--line-break", "L"], ["mark", "--unicode", "15.0", "--ucd", "U"],
    ["chunk", "--most", "9", "--unicode", "15.0", "--emoji", "M"], ["mark", "--unicode", ""], ["show", "--unicode", "15"],
    ["show", "--unicode", "15.1.0"], ["show", "--unicode", "15.0 "],
]
# A folder of files that name their version and are none of Unicode's, and a file that claims nothing, where a space is
# a letter.
FOLDER = {
    "LineBreak.txt": b"# LineBreak-15.0.0.txt\n0020;SP\n0061..007A;AL\n# EOF\n",
    "EastAsianWidth.txt": b"# EastAsianWidth-15.0.0.txt\n# EOF\n",
    "extracted/DerivedGeneralCategory.txt": b"# DerivedGeneralCategory-15.0.0.txt\n# EOF\n",
    "emoji/emoji-data.txt": b"# emoji-data.txt\n# Used with Emoji Version 15.0 and so on\n#EOF\n",
}
NO_SPACES = b"0020;AL\n0061..007A;AL\n"
LINE_BREAKS = [
    ("made up", FOLDER["LineBreak.txt"], CHANGED.format("LineBreak.txt")),
    ("without a title", NO_SPACES, TITLE),
    ("another file", FOLDER["EastAsianWidth.txt"], TITLE),
    ("cut", b"# LineBreak-15.0.0.txt\n0020;SP\n", CHANGED.format("LineBreak.txt")),
    (
        "of another version",
        b"# LineBreak-14.0.0.txt\n# EOF\n",
        "lbk: U/LineBreak.txt: this is Unicode 14.0.0, and lbk needs 15.0.0" + REMEDY,
    ),
]


def tables(path):
    """The constants of a file of tables, by their names: Rust's literals as Python's."""
    text = re.sub(r"^ *//.*$", "", path.read_text(encoding="utf-8"), flags=re.M)
    text = re.sub(r"\\u\{([0-9A-F]+)\}", lambda it: f"\\U{int(it[1], 16):08X}", text)
    found = {}
    for name, literal in re.findall(r"^(?:pub )?(?:const|static) (\w+): [^=]* =\s(.*?);$", text, re.M | re.S):
        found[name] = re.sub(r"&(?=\[)", "", literal.replace('b"\\\n', 'b"""')).strip()
    for name, literal in found.items():
        if literal.startswith('b"""'):
            found[name] = literal[:-1] + '"""'
    named = re.compile(r'"(?:[^"\\]|\\.)*"|\b(' + "|".join(found) + r")\b")
    whole = {name: named.sub(lambda it: found[it[1]] if it[1] else it[0], literal) for name, literal in found.items()}
    return {name: ast.literal_eval(literal) for name, literal in whole.items()}


def support(name):
    return tables(TOP / f"crates/test_support/src/{name}.rt")


def words_with(words):
    """The words with those that name the sample files behind the subcommand; none for none."""
    task, *more = words.split() or [""]
    return words_of(task, more=["" if it == "''" else it for it in more]) if task else []


def worked(place):
    """The rows that both profiles have, and those of each; the first is the profile where none is given."""
    for task, name in (("mark", "marked"), ("show", "shown"), ("segment", "segment_lines")):
        rows = support(name)
        for options, sets in (("", "BOTH FIRST"), ("--profile 1", "BOTH FIRST"), ("--profile 2", "BOTH SECOND")):
            for text, out in [row for it in sets.split() for row in rows[it]]:
                words = f"{task} {options}".strip()
                place.row(f"{words}: {text!r}", words_with(words), text.encode(), 0, out.encode())
    place.row("no words", [], b"ab cd", 0, TWO_WORDS.encode(), SAMPLES.encode())


def test_files(place):
    rows = support("replayed")
    for options, files in (
        ("", rows["PLAIN"]),
        ("--profile 1", rows["FIRST"]),
        ("--profile 2", [*rows["PLAIN"], *rows["SECOND"]]),
        ("--kinds", rows["KINDS"]),
        ("--kinds --profile 2", rows["KINDS"]),
    ):
        for text, out in files:
            status = 0 if out.endswith(" 0 0\n") else 3
            words = f"replay {options}".strip()
            place.row(f"{words}: {text!r}", words_with(words), text.encode(), status, out.encode())


def rows(place):
    for name, text in TEXTS.items():
        place.write(name, text)
    operands = [(task, more, "ef", *ended) for task, more, *ended in OPERANDS]
    for task, more, given, out, err, status in [*ROWS, *operands]:
        words = f"{task} {more}".strip()
        place.row(f"{words}: {given!r}", words_with(words), given.encode(), status, out.encode(), err.encode())


def packets(given, sizes):
    """The text in parts of these sizes, the last of them for all that follow."""
    parts, sizes = [], sizes or [len(given)]
    while given:
        size = sizes[min(len(parts), len(sizes) - 1)]
        parts.append(given[:size])
        given = given[size:]
    return parts


def cut_reads(place):
    for words, given, sizes, fails, out, err in CUT:
        ours, theirs = socket.socketpair(socket.AF_UNIX, socket.SOCK_SEQPACKET)
        with ours, theirs:
            for part in packets(given, sizes):
                ours.send(part)
            theirs.setblocking(not fails)
            if not fails:
                ours.shutdown(socket.SHUT_WR)
            command = [place.program, *words_with(words)]
            ran = subprocess.run(command, stdin=theirs, capture_output=True, cwd=place.folder, check=False)
        got = (ran.stdout.decode(), ran.stderr.decode(), ran.returncode)
        place.tally.equal(f"{words}: {given!r} in reads of {sizes or 'all'}", got, (out, err, 1 if err else 0))


def full_outputs(place):
    for words, given, err, out in FULL:
        with open(place.folder / "out", "w+b") as file:
            ran = subprocess.run(
                [place.program, *words_with(words)],
                input=given.encode(),
                stdout=file,
                stderr=subprocess.PIPE,
                cwd=place.folder,
                check=False,
                # (the signal for a full file must not end the run)
                restore_signals=False,
                preexec_fn=lambda: resource.setrlimit(resource.RLIMIT_FSIZE, (5, resource.RLIM_INFINITY)),
            )
            file.seek(0)
            got = (file.read(), ran.stderr.decode(), ran.returncode)
            place.tally.equal(f"{words or 'no words'}: a file of five bytes", got, (out, err, 1))


def refused(place, what, words):
    """Words that are refused: nothing is written, and standard error tells of it."""
    ran = subprocess.run([place.program, *words], input=b"ab", capture_output=True, cwd=place.folder, check=False)
    told = ran.returncode == 2 and ran.stdout == b"" and ran.stderr.startswith(b"lbk: ")
    fault = f"status {ran.returncode}; {shown(ran.stdout)}; standard error: {shown(ran.stderr)}"
    place.tally.tell(what, None if told else fault)


def wrong_words(place):
    for words in WRONG:
        refused(place, words, words_with(words))
    for words in WRONG_ALONE:
        refused(place, " ".join(words), words)
    for task in ("show", "segment", "replay"):
        for left_out in OPTIONS:
            named = [(option, name) for option, name in zip(OPTIONS, NAMES) if option != left_out]
            refused(place, f"{task} without {left_out}", [task, *(word for pair in named for word in pair)])


def bad_files(place):
    """A file that is missing, and one with a bad row."""
    place.write("B", b"0061;AK\n")
    for what, names, err in (
        ("a missing file", ("L", "none", "C", "M"), "lbk: none: the file cannot be read: no such file\n"),
        ("a bad row", ("B", "E", "C", "M"), f"lbk: B:1: {NO_VALUE}\n"),
    ):
        place.row(what, words_of("show", names), b"ab cd", 1, b"", err.encode())


def folders(place):
    for name, text in FOLDER.items():
        path = place.folder / "U" / name
        path.parent.mkdir(parents=True, exist_ok=True)
        place.write(f"U/{name}", text)
    for what, text, err in LINE_BREAKS:
        place.write("U/LineBreak.txt", text)
        place.row(f"a folder with LineBreak.txt {what}", ["mark", "--ucd", "U"], b"ab cd", 1, b"", err.encode())


def run(tally, _arguments):
    samples = tables(TOP / "crates/lbk_ucd/src/samples.rt")
    with tempfile.TemporaryDirectory() as folder:
        place = Place(tally, built_program(), folder)
        for name, of in zip(NAMES, ("LINE_BREAK", "EAST_ASIAN", "CATEGORY", "EMOJI")):
            place.write(name, samples[f"SAMPLE_{of}"])
        for part in (worked, test_files, rows, chunk_lines, cut_reads, full_outputs, wrong_words, bad_files, folders):
            part(place)
