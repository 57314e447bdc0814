"""The program of the package beside the proved one: output, messages and status over drawn command lines."""

import os
import random
import subprocess

from checks.harness import TOP, shown
from checks.unicode_files import OPTIONS as OPTIONS_OF_FILES
from checks.unicode_files import published

TASKS = ("mark", "show", "segment", "chunk", "replay")
# Parts of texts: letters of scripts, marks, line ends, what joins and what divides, emoji, what is ill-formed.
PARTS = [
    "word", "a", " ", "  ", "\n", "\r\n", "\r", "\t", "\u2028", "\u0085", "\f", "一", "の", "。", "「", "」", "한국어", "ㄱㅏ", "é",
    "e\u0301",
    "«", "»", "“", "”", "(", ")", "[", "]", "1,234.5", "$9", "50%", "-", "—", "\u2011", "/", "http://a.b/c?d=e", "\u200b", "\u200d",
    "\u2060", "\u00a0", "🇫🇷", "🇩", "👩‍👩‍👧", "👍🏽", "☝", "ไทย", "ខ្មែរ", "मानक", "हिन्दी", "العربية", "עברית-", "Слово", "ελ", "\u034f",
    "\u0300", "\u2014\u2014", "…", "!", "?", "\u3000", "𝒳", "\U0001f1e6", "\U000e0100", "\ufffc", "\u1f8e", "x" * 70,
]  # fmt: skip
PLAIN = ["word", "a", "to", " ", " ", ", ", ". ", "(", ")", "-", "--", "1,234.5", "$9", "50%", "/", "!", "?", "'", '"', "\n", "\t", ":", "%",
    "{", "}", "+", "e.g.", "don't", "x=1;", "a/b/c", "[1]", "co-op"]  # fmt: skip
ILL_FORMED = [b"\xff", b"\xe4\xb8", b"\xed\xa0\x80", b"\xf0\x9f", b"\x80", b"\xc3", b"\0"]
# Options: good values, and bad ones.
OPTIONS = {
    "--limit": (["1", "7", "4096", "16777216"], ["0", "16777217", "64K", "17M", "-1", ""]),
    "--from": (["0", "1", "5", "100"], ["4294967295", "4294967296", "+5"]),
    "--to": (["3", "40", "4000", "4294967295"], ["0", "x"]),
    "--profile": (["1", "2"], ["3", "one"]),
    "--sign": (["|", "÷", "+"], ["ninebytes", "", "a\u2028"]),
    "--most": (["1", "4", "80", "1k", "1000", "16M", "16777216"], ["0", "16777217", "17M"]),
    "--words": (["1", "3", "50"], ["0"]),
    "--least": (["0", "4", "60"], ["-1"]),
    "--overlap": (["0", "3", "9"], ["1e6"]),
}
FLAGS = ["--names", "--text", "--kinds", "--help", "-h", "--version", "--bogus", "-x", "--", "-"]
OF_TASK = {
    "mark": ["--limit", "--profile", "--sign", "--from", "--to", "--names"],
    "show": ["--limit", "--profile", "--from", "--to", "--names"],
    "segment": ["--limit", "--profile", "--from", "--to", "--names"],
    "chunk": ["--most", "--words", "--least", "--overlap", "--profile", "--text", "--names", "--limit"],
    "replay": ["--kinds", "--profile", "--names"],
}


def drawn_text(draw):
    """A text of some length, now and then ill-formed or in UTF-16."""
    count = draw.choice([0, 1, 2, 5, 20, 100, 100, 800])
    parts = draw.choice([PARTS, PLAIN, PLAIN + draw.sample(PARTS, 3), draw.sample(PARTS, draw.randint(1, 12))])
    text = "".join(draw.choice(parts) for _ in range(count)).encode()
    if draw.random() < 0.1:
        at = draw.randint(0, len(text))
        return text[:at] + draw.choice(ILL_FORMED) + text[at:]
    return text.decode().encode("utf-16") if draw.random() < 0.03 else text


def drawn_line(draw):
    """A line of a test file, without its end."""
    return " ".join(f"{draw.choice('×÷÷!')} {draw.choice(CODES):04X}" for _ in range(draw.randint(1, 6)))


def drawn_lines(draw):
    """Lines of a test file, some of them wrong."""
    ends = [f" {draw.choice('÷÷÷×')}{draw.choice(['', '', ' # a comment'])}" for _ in range(draw.randint(0, 20))]
    lines = [drawn_line(draw) + it for it in ends]
    return "\n".join(lines + draw.choice([[], ["bogus"], ["÷ ZZZZ ÷"], [""]])).encode()


# Values of characters of the texts.
SMALL = {
    "LineBreak.txt": "000A;LF 000B..000C;BK 000D;CR 0085;NL 2028;BK 0009;BA 0020;SP 0021;EX 003F;EX 0022;QU 0027;QU 0024;PR 002B;PR 0025;PO"
        " 0028;OP 005B;OP 007B;OP 0029;CP 005D;CP 007D;CL 002C;IS 002E;IS 003A;IS 003B;IS 002D;HY 002F;SY 0030..0039;NU 0041..005A;AL"
        " 0061..007A;AL 003D;AL 00A0;GL 00AB;QU 00BB;QU 00E0..00FF;AL 0300..034E;CM 034F;GL 0370..03FF;AL 0400..04FF;AL 05D0..05EA;HL"
        " 0600..06FF;AL 0904..0939;AL 093E..094D;CM 0E01..0E30;SA 0E31;SA 0E40..0E44;SA 1100..115F;JL 1160..11A7;JV 11A8..11FF;JT"
        " 1780..17D3;SA 200B;ZW 200D;ZWJ 2011;GL 2014;B2 201C..201D;QU 2026;IN 2060;WJ 261D;EB 3000;BA 3001..3002;CL 300C;OP 300D;CL"
        " 3041;CJ 3042..309F;ID 3131..318E;ID 4E00..9FFF;ID AC00;H2 AC01..AC1B;H3 D55C;H3 AD6D;H3 C5B4;H2 FFFC;CB 1D4B3;AL 1F1E6..1F1FF;RI"
        " 1F3FB..1F3FF;EM 1F44D;EB 1F466..1F469;EB E0100..E01EF;CM",
    "EastAsianWidth.txt": "3000;F 3001..9FFF;W AC00..D7A3;W 1F300..1F64F;W 2014;A",
    "extracted/DerivedGeneralCategory.txt": "00AB;Pi 00BB;Pf 201C;Pi 201D;Pf 0E31;Mn 17B7;Mn 17D2;Mn 0300..036F;Mn 0061..007A;Ll",
    "emoji/emoji-data.txt": "261D;Extended_Pictographic 1F300..1F64F;Extended_Pictographic 1F900..1FAFF;Extended_Pictographic",
}  # fmt: skip
CODES = [0x61, 0x20, 0x0A, 0x4E00, 0x2014, 0x28, 0x29, 0x300, 0x1F1E6, 0x35, 0x24, 0xD800, 0x10FFFF]


def drawn_words(draw, files, texts):
    """The words of a command line, most of them good."""
    task = draw.choice(TASKS)
    words = [task]
    if draw.random() < 0.9:
        words += draw.choice(files)
    own = OF_TASK[task]
    if task == "chunk" and draw.random() < 0.9:
        words += ["--most", draw.choice(["4", "80", "1000"])]
        own = own[1:]
    for name in draw.sample(own, draw.choice([0, 0, 1, 1, 2, 3])):
        words += [name, draw.choice(OPTIONS[name][draw.random() < 0.1])] if name in OPTIONS else [name]
    if draw.random() < 0.1:
        words.append(draw.choice([*FLAGS, *OPTIONS, *TASKS, "--limit=5", "--ucd=none", "none", "", "a\nb", "\udcff", "é\u202e"]))
    if draw.random() < 0.3:
        words += draw.sample(texts, draw.randint(1, 2))
    if draw.random() < 0.05:
        draw.shuffle(words)
    return words


def property_files(place):
    """Words that name property files: those of Unicode 15.0 where they are, small ones, wrong ones."""
    (place / "small/extracted").mkdir(parents=True)
    (place / "small/emoji").mkdir()
    for name, text in SMALL.items():
        (place / "small" / name).write_text(text.replace(" ", "\n") + "\n")
    (place / "wrong").write_text("0061;AL\n0061;AL\nbogus\n")
    small = [word for option, name in zip(OPTIONS_OF_FILES, SMALL) for word in (option, f"small/{name}")]
    found = [small] * 10 + [["--unicode", "15.0"]] * 10 + [["--unicode", "15.0.0"], ["--unicode", "14.0"], []]
    found += [["--ucd", "small"], ["--ucd", "none"], small[:6], *([*small[:7], it] for it in ("wrong", "none"))]
    return found + ([["--ucd", str(published())]] * 4 if published() else [])


def seed():
    """The commit's name: other command lines for each."""
    ran = subprocess.run(["git", "-C", TOP, "rev-parse", "HEAD"], capture_output=True, text=True, check=False)
    return ran.stdout.strip()


class Drawn:
    """Command lines, in a folder with files that they name."""

    def __init__(self, place, draw_seed):
        self.place, self.draw = place, random.Random(draw_seed)
        place.mkdir()
        self.files = property_files(place)
        self.texts = []
        for number in range(12):
            (place / f"text-{number}").write_bytes(drawn_text(self.draw))
            self.texts.append(f"text-{number}")
        (place / "folder").mkdir()
        self.texts += ["folder", "none", "small/LineBreak.txt"]

    def next(self):
        words = drawn_words(self.draw, self.files, self.texts)
        return words, drawn_lines(self.draw) if "replay" in words[:1] else drawn_text(self.draw)


def ended(program, place, words, given, way):
    """How a run ended: status, output, messages. Its input is the text, or for some ways the folder; its output a pipe, a
    full device, or a file that has the text and is its input too."""
    out = place / "out"
    out.write_bytes(given)
    files = {"folder": (place, None), "full": (None, "/dev/full"), "append": (out, out)}.get(way, (None, None))
    source = os.open(files[0], os.O_RDONLY) if files[0] else None
    target = os.open(files[1], os.O_WRONLY | os.O_APPEND) if files[1] else subprocess.PIPE
    more = {"stdin": source} if source is not None else {"input": given}
    ran = subprocess.run([program, *words], cwd=place, stdout=target, stderr=subprocess.PIPE, check=False, timeout=60, **more)
    for it in (source, target):
        if it not in (None, subprocess.PIPE):
            os.close(it)
    return ran.returncode, ran.stdout, ran.stderr, out.read_bytes() if way == "append" else b""


def first_difference(place, draw_seed, count, programs):
    """The first of so many command lines over which two programs differ, and how; or None."""
    drawn = Drawn(place, draw_seed)
    for _ in range(count):
        words, given = drawn.next()
        way = drawn.draw.choice(["plain"] * 20 + ["folder", "full", "append"])
        one, other = (ended(it, place, words, given, way) for it in programs)
        if one != other:
            return f"{words} over {shown(given)}, {way}: {one!r:.1500}, not {other!r:.1500}"
    return None


def run(tally, room, program, proved, count):
    drawn_by = seed()
    fault = first_difference(room / "beside", drawn_by, count, (program, proved))
    tally.tell(f"{count} command lines drawn by {drawn_by[:8] or 'nothing'}, beside the proved program", fault)
