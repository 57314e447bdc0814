"""Each call of the library for C in a thread with 16 KiB of stack; 32 KiB for reading files and for chunks.

The files are the published ones, if they are there, those of the stored runs, and made-up ones that need the most work:
as many rows and defaults out of order as a file may have.
"""

import tempfile
from pathlib import Path

from checks import c_programs
from checks.harness import TOP
from checks.hostile_input.property_files import ROWS, class_of, default, row, shuffled_codes
from checks.unicode_files import MISSING, NAMES, published

LARGE = 32_768
SMALL = 16_384


def made_files(room):
    """Property files out of order, of as many rows and default lines as may be."""
    codes = shuffled_codes()
    contents = {
        "rows": b"".join(row(17 * code, class_of(code)) for code in codes),
        "defaults": b"".join(default(16 * k, 16 * k + 1000, class_of(k)) for k in reversed(range(ROWS))),
        "widths": b"".join(row(17 * code, "W") for code in codes),
        "letters": b"".join(row(17 * code, "Lo") for code in codes),
        "emoji": b"".join(row(17 * code, "Extended_Pictographic") for code in codes),
        "none": b"",
    }
    for name, text in contents.items():
        (room / name).write_bytes(text)
    others = [room / name for name in ("widths", "letters", "emoji")]
    return {"rows out of order": [room / "rows", *others], "default lines out of order": [room / "defaults", *others]}


def texts(room):
    """Texts of letters, of marks, of ill-formed bytes and of nothing."""
    contents = {
        "letters": "ab, (cd) \u2018ef\u2019 1,5 %\r\n\u4e00\u4e00\n".encode() * 200,
        "marks": "a\u0301\u200d\U0001f1e6\u2019 \u0308".encode() * 500,
        "ill-formed": bytes(range(256)) * 20,
        "one": b"a",
    }
    for name, text in contents.items():
        (room / f"text-{name}").write_bytes(text)
    return [room / f"text-{name}" for name in contents]


def run(tally, _arguments):
    with tempfile.TemporaryDirectory() as folder:
        room = Path(folder)
        words = c_programs.library(room / "library")
        program = c_programs.build("c/stack.c", room / "stack", *words, "-lpthread")
        of_runs = [TOP / "crates/lbk/data" / Path(it).name for it in NAMES]
        sources = {"the files of the stored runs": of_runs, **made_files(room)}
        if published():
            sources["the published files"] = [published() / it for it in NAMES]
        else:
            tally.leave_out(MISSING)
        for what, files in sources.items():
            words = [program, str(LARGE), str(SMALL), *files, *texts(room)]
            c_programs.count(tally, f"{what}: threads of {LARGE} and {SMALL} bytes of stack", words)
