"""The runs of the program in which each allocation is refused, and their files."""

# The property files of the program's own runs.
LINE_BREAK = """\
# @missing: 0000..10FFFF; XX
000A;LF
000D;CR
0020;SP
0028;OP
0029;CP
002C;IS
0030..0039;NU
0061..007A;AL # letters
2019;QU
0301;CM
4E00..9FFF;ID
"""
EAST_ASIAN = "# @missing: 4E00..9FFF; W\n0020..007E;Na\n"
CATEGORY = "0030..0039;Nd\n0061..007A;Ll\n0301;Mn\n2019;Pf\n4E00..9FFF;Lo\n"
EMOJI = "1F466;Extended_Pictographic\n"
BAD_ROW = "0061;AL\n0062;AK\n"

TEXT = "a \u2019\u0301,\r\nb (12) and a line of more than forty bytes, up to its end\n\n\u4e00x"
TESTS = "× 0061 × 0062 ÷\n× 0061 ÷ 0062 ÷\n× D800 ÷\n# done\n"

FILES = "--line-break L --east-asian E --category C --emoji M".split()

# Files that name themselves as those of Unicode 15.0.0 do, and are not those.
FOLDER = {
    "LineBreak.txt": "# LineBreak-15.0.0.txt\n" + LINE_BREAK + "# EOF\n",
    "EastAsianWidth.txt": "# EastAsianWidth-15.0.0.txt\n" + EAST_ASIAN + "# EOF\n",
    "extracted/DerivedGeneralCategory.txt": "# DerivedGeneralCategory-15.0.0.txt\n" + CATEGORY + "# EOF\n",
    "emoji/emoji-data.txt": "# emoji-data.txt\n# Used with Emoji Version 15.0 and so on\n" + EMOJI + "#EOF\n",
}

# The runs of the program: a name, standard input, and the arguments.
PROGRAM = [
    ("lbk", b"ab cd", []),
    ("lbk show", TEXT.encode(), ["show", *FILES]),
    ("lbk show --profile 2", TEXT.encode(), ["show", *FILES, "--profile", "2"]),
    ("lbk show, ill-formed", b"a\nb\xff", ["show", *FILES]),
    ("lbk show, a bad row", b"a", ["show", "--line-break", "B", *FILES[2:]]),
    ("lbk show, a missing file", b"a", ["show", *FILES[:2], "--east-asian", "none", *FILES[4:]]),
    ("lbk mark", TEXT.encode(), ["mark", *FILES]),
    ("lbk mark --limit 4", TEXT.encode(), ["mark", *FILES, "--limit", "4"]),
    ("lbk mark, ill-formed", b"a\nb\xff", ["mark", *FILES]),
    ("lbk mark --ucd, made-up files", b"a", ["mark", "--ucd", "U"]),
    ("lbk mark, built in", TEXT.encode(), ["mark"]),
    ("lbk show, built in", TEXT.encode(), ["show", "--unicode", "15.0"]),
    ("lbk show, no values", b"a", ["show"]),
    ("lbk segment", TEXT.encode(), ["segment", *FILES]),
    ("lbk segment --limit 4", TEXT.encode(), ["segment", *FILES, "--limit", "4"]),
    ("lbk chunk", TEXT.encode(), ["chunk", *FILES, "--most", "20", "--overlap", "8"]),
    ("lbk chunk --text", TEXT.encode(), ["chunk", *FILES, "--most", "20", "--overlap", "8", "--text"]),
    ("lbk replay", TESTS.encode(), ["replay", *FILES]),
    ("lbk replay --kinds", "× 0061 × 0062 !\n".encode(), ["replay", *FILES, "--kinds"]),
    ("lbk --help", b"", ["--help"]),
    ("lbk bogus", b"", ["bogus"]),
    ("lbk an argument that is no text", b"", [b"\xff"]),
]


def by_folder(folder):
    """The run by the folder of the published files."""
    return ("lbk mark --ucd", TEXT.encode(), ["mark", "--ucd", str(folder)])


def write_files(here):
    """Writes the files that the runs name into a folder."""
    files = {"L": LINE_BREAK, "E": EAST_ASIAN, "C": CATEGORY, "M": EMOJI, "B": BAD_ROW}
    files.update({f"U/{name}": text for name, text in FOLDER.items()})
    for name, text in files.items():
        path = here / name
        path.parent.mkdir(parents=True, exist_ok=True)
        path.write_text(text, encoding="utf-8")
