"""The speed of the C calls over letters of one to three bytes, held positions, short texts, and bad cases.

Each is compared with a loop over the same bytes in the same process, and has to reach a bound: a third to half of the
speed on an idle machine. Other load can still make it fail, so the gate does not run it; the gate counts the
instructions of these calls (`instructions`).
"""

import re
import tempfile
from pathlib import Path

from checks import c_programs
from checks.program import run as run_program
from checks.speed import texts
from checks.unicode_files import property_files

SIZE = 500_000
HELD = "held positions"
ILL_FORMED = "ill-formed bytes"
FLAGS = "flags"
QUOTES = "a run of quotation marks"
LINES = "Arabic with CRLF"
WORDLESS = "a text without words"
SHIFT_JIS = "Japanese in Shift-JIS"

# A text, a call, and the least ratio of its speed to the loop's. `-2` is the second profile, `-8` eight bytes a call,
# `-60` a line of at most sixty, `-1` a word of bits a call, `lbk_cut` a call for each 4,096 bytes or units: over a text
# without a cut, where each call reads to the end, 0.006 was measured. Without blocks of 64 bytes 0.2 to 0.4 was left of
# the pages and of letters of two bytes. `lbk_words` goes at 1.28, 0.31 and 0.39 of the loop.
BOUNDS = [
    ("the pages", "lbk_breaks", 0.45),
    ("the pages", "lbk_breaks-2", 0.45),
    ("the pages", "lbk_breaks-8", 0.11),
    ("the pages", "lbk_breaks-60", 0.25),
    ("the pages", "lbk_feed", 0.4),
    ("the pages", "lbk_feed-8", 0.06),
    ("the pages", "lbk_positions", 0.15),
    ("the pages", "lbk_marks", 0.45),
    ("the pages", "lbk_words", 0.45),
    ("the pages", "lbk_cut", 3),
    ("the pages", "lbk_cut_before", 3),
    ("the pages", "lbk_breaks_utf16", 0.62),
    ("the pages", "lbk_breaks_utf32", 0.6),
    ("the pages", "lbk_positions_utf16", 0.14),
    ("the pages", "lbk_positions_utf32", 0.14),
    ("the pages", "lbk_cut_utf16", 2),
    ("the pages", "lbk_cut_before_utf16", 2),
    ("the pages", "lbk_marks-1", 0.4),
    ("the pages", "lbk_feed_utf16", 0.58),
    ("letters of two bytes", "lbk_breaks", 0.35),
    ("letters of two bytes", "lbk_breaks-2", 0.35),
    ("letters of two bytes", "lbk_breaks-8", 0.06),
    ("letters of two bytes", "lbk_breaks-60", 0.15),
    ("letters of two bytes", "lbk_feed", 0.35),
    ("letters of two bytes", "lbk_marks", 0.5),
    ("letters of two bytes", "lbk_words", 0.1),
    ("letters of two bytes", "lbk_cut", 3),
    ("letters of two bytes", "lbk_cut_before", 3),
    ("letters of two bytes", "lbk_breaks_utf16", 1.05),
    ("letters of two bytes", "lbk_breaks_utf32", 1.0),
    ("letters of two bytes", "lbk_positions_utf16", 0.22),
    ("letters of two bytes", "lbk_positions_utf32", 0.22),
    ("letters of two bytes", "lbk_cut_utf16", 3),
    ("letters of two bytes", "lbk_cut_before_utf16", 3),
    ("letters of two bytes", "lbk_marks-1", 0.38),
    ("letters of two bytes", "lbk_feed_utf16", 1.0),
    ("letters of three bytes", "lbk_breaks", 0.17),
    ("letters of three bytes", "lbk_breaks-2", 0.17),
    ("letters of three bytes", "lbk_breaks-8", 0.06),
    ("letters of three bytes", "lbk_breaks-60", 0.2),
    ("letters of three bytes", "lbk_feed", 0.17),
    ("letters of three bytes", "lbk_marks", 0.12),
    ("letters of three bytes", "lbk_words", 0.13),
    ("letters of three bytes", "lbk_cut", 2),
    ("letters of three bytes", "lbk_cut_before", 2),
    ("letters of three bytes", "lbk_breaks_utf16", 1.45),
    ("letters of three bytes", "lbk_breaks_utf32", 1.4),
    ("letters of three bytes", "lbk_positions_utf16", 0.3),
    ("letters of three bytes", "lbk_positions_utf32", 0.3),
    ("letters of three bytes", "lbk_cut_utf16", 4),
    ("letters of three bytes", "lbk_cut_before_utf16", 4),
    ("letters of three bytes", "lbk_marks-1", 0.1),
    ("letters of three bytes", "lbk_feed_utf16", 1.2),
    # Without the loop of steps it was 0.033, and `lbk_feed` 0.029; with it 0.056 at least, with other load on the
    # machine.
    (HELD, "lbk_breaks-2", 0.045),
    (HELD, "lbk_feed", 0.17),
    # Chunks of at most 500 bytes, and with an overlap of 100.
    ("the pages", "lbk_chunks", 0.06),
    ("the pages", "lbk_chunks-100", 0.055),
    ("letters of two bytes", "lbk_chunks", 0.05),
    ("letters of two bytes", "lbk_chunks-100", 0.05),
    ("letters of three bytes", "lbk_chunks", 0.028),
    ("letters of three bytes", "lbk_chunks-100", 0.027),
]

# A text, two calls, and the least ratio of the speed of the first to that of the second, which decides each byte by
# steps alone. So a third less is seen: 1.3, 1.9, 3.4 and 2.5 are measured, where steps that are constants of the code
# made positions up to 1.3 times as fast as before. Of letters of three bytes 0.6 of the ratio was left where bytes that
# masks do not tell were never found to be many. UTF-16 and UTF-32 have no masks, so that their breaks are compared with
# the loop alone, at 0.7 of what is measured (docs/log/2026-11-28-alone.md).
BESIDE = [
    ("letters of three bytes", "lbk_breaks", "lbk_positions", 1.05),
    ("letters of two bytes", "lbk_breaks", "lbk_positions", 2.5),
    ("the pages", "lbk_breaks", "lbk_positions", 1.9),
]

# A text, a call, and the least ratio of its speed to that of the call over the pages. Where masks were made anew after
# each byte that they do not cover, and calls took single pieces, 0.02, 0.02, 0.11, 0.03 and 0.03 were left. Where each
# break searched for a word in the rest of the text, chunks took minutes.
ACROSS = [
    (ILL_FORMED, "lbk_breaks", 0.1),
    (ILL_FORMED, "lbk_feed", 0.1),
    (FLAGS, "lbk_breaks", 0.3),
    (QUOTES, "lbk_breaks-2", 0.06),
    (LINES, "lbk_marks", 0.07),
    (WORDLESS, "lbk_chunks", 0.15),
]

HELD_TEXT = "a\u2019 \u2019\u0301 (\u2018b\u2019 c, ".encode()

# Texts on which a call could be much slower than on others, and the calls.
SLOW = {
    ILL_FORMED: b"\x80\xff",
    FLAGS: "\U0001f1e9\U0001f1ea\U0001f1f8\U0001f1ea".encode(),
    QUOTES: "\u00bb".encode(),
    LINES: "\u0627\u0644\u0633\u0644\u0627\u0645 \u0639\u0644\u064a\u0643\u0645\u060c \u0645\u0631\u062d\u0628\u0627\r\n".encode(),
    WORDLESS: b". - ",
    SHIFT_JIS: "\u3072\u3089\u304c\u306a".encode("shift_jis"),
}
SLOW_CALLS = "".join(f" {call} " for call in sorted({call for _, call, _ in ACROSS}))


def ratios(room, program, calls, of_all):
    """The ratio of each of these calls over each text."""
    paths = {}
    for name, text in of_all.items():
        path = room / name.replace(" ", "-")
        path.write_bytes((text * (SIZE // len(text) + 1))[:SIZE])
        paths[str(path)] = name
    ran = run_program([program, calls, *property_files(), *paths])
    rows = re.findall(r"^(\S+) (\S+) ([0-9.]+)$", ran.out.decode(), re.M)
    return {(paths[path], call): float(ratio) for path, call, ratio in rows}


def measured(room, words):
    """The ratio of each call over each text, and over those on which it could be slow of some."""
    program = c_programs.build("c/speed.c", room / "speed", *words)
    usual = {**{name: text.encode() for name, text in texts().items()}, HELD: HELD_TEXT}
    return {**ratios(room, program, "all", usual), **ratios(room, program, SLOW_CALLS, SLOW)}


def run(tally, _arguments):
    with tempfile.TemporaryDirectory() as room:
        words = c_programs.library(Path(room) / "library")
        found = measured(Path(room), words)
        for text, call, least in BOUNDS:
            ratio = found.get((text, call), 0.0)
            said = f"{text}: {call}: {ratio:.3f} times the loop, at least {least}"
            tally.tell(said, None if ratio >= least else "it is slower")
        for text, call, other, least in BESIDE:
            ratio = found.get((text, call), 0.0) / found.get((text, other), 1.0)
            said = f"{text}: {call}: {ratio:.2f} times {other}, at least {least}"
            tally.tell(said, None if ratio >= least else "it is slower")
        for text, call, least in ACROSS:
            ratio = found.get((text, call), 0.0) / found.get(("the pages", call), 1.0)
            said = f"{text}: {call}: {ratio:.3f} times the pages, at least {least}"
            tally.tell(said, None if ratio >= least else "it is slower")
