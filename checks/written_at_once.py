"""The program in a dialogue through pipes: it writes each settled line before the next paragraph is sent.

A passage is settled by the character after it, so the check sends each paragraph with the first letter of the next one.
A line of a test file is settled by its line end. It needs no other files.
"""

import os
import select
import subprocess
import tempfile
from pathlib import Path

from checks.harness import built_program
from checks.unicode_files import OPTIONS

WAIT = 20  # seconds until a line counts as kept back
LINE_BREAK = "000A;LF\n0020;SP\n0061..007A;AL\n"
CATEGORY = "0061..007A;Ll\n"
LONG = b"a " * 30_000 + b"\n"  # more than a read takes
LIMIT = 16_777_216
GREATEST = b"a" * (LIMIT - 1) + b"\n"

# What is sent in turn, and how many lines it makes known.
PARAGRAPHS = [(b"ab\nc", 1), (b"d\ne", 1), (b"f g\nh", 1), (b"\n" + LONG + b"i", 2), (b"\n" + GREATEST + b"k", 2),
    (b"\nj", 1)]
TASKS = {
    "": PARAGRAPHS[:3],
    "mark": PARAGRAPHS,
    "show": PARAGRAPHS,
    # A line for the passage, one for each segment and one for each word: `ef g` has two of both.
    "segment": [
        (b"ab\nc", 3),
        (b"d\ne", 3),
        (b"f g\nh", 5),
        (b"\n" + LONG + b"i", 3 + 1 + 2 * 30_000),
        (b"\n" + GREATEST + b"k", 3 + 3),
        (b"\nj", 3),
    ],
    "replay": [
        ("× 0061 ÷ 0062 ÷\n".encode(), 1),
        ("× 0061 × 0062 ÷\n× 0061 ÷ 0062 ÷\n".encode(), 1),
        ("× D800 ÷\n".encode(), 1),
    ],
}

# The same of a range from the second paragraph on: the first is passed over, and nothing is written of it.
OF_A_RANGE = {
    "mark": [(b"ab\ncd\ne", 1), *PARAGRAPHS[2:]],
    "show": [(b"ab\ncd\ne", 1), *PARAGRAPHS[2:]],
    "segment": [(b"ab\ncd\ne", 3), *TASKS["segment"][2:]],
}


def lines_of(out, count, seen):
    """Waits until the program wrote `count` more lines, and returns whether it did."""
    while count > 0:
        ready, _, _ = select.select([out], [], [], WAIT)
        if not ready:
            return False
        part = os.read(out, 65536)
        if not part:
            return False
        count -= part.count(b"\n")
        seen += part
    return True


def one_task(tally, name, steps, words):
    program = subprocess.Popen(words, stdin=subprocess.PIPE, stdout=subprocess.PIPE, stderr=subprocess.DEVNULL,
        bufsize=0)
    seen = bytearray()
    for number, (part, count) in enumerate(steps, 1):
        program.stdin.write(part)
        before = len(seen)
        if not lines_of(program.stdout.fileno(), count, seen):
            kept_back = f"only {len(seen) - before} bytes were written before the next was sent: {bytes(seen[before:])[:80]!r}"
            tally.tell(f"{name}, part {number}", kept_back)
            program.kill()
            program.wait()
            return
        good = seen.endswith(b"\n") and seen.count(b"\n", before) == count
        tally.tell(f"{name}, part {number}", None if good else f"it wrote {bytes(seen[before:])[:80]!r}")
    program.stdin.close()
    rest = program.stdout.read()
    wanted = 3 if name == "replay" else 0
    # (a text that ends without a line end gets one from `mark`)
    good = program.wait() == wanted and rest.endswith(b"j\n" if name.startswith("mark") else b"\n")
    tally.tell(f"{name}, the end", None if good else f"status {program.returncode}, and it wrote {rest[:80]!r}")


def passed(tally, task, words):
    """A run ends once the scalar after its range was seen, while its input goes on."""
    with subprocess.Popen(words, stdin=subprocess.PIPE, stdout=subprocess.PIPE, stderr=subprocess.DEVNULL,
        bufsize=0) as program:
        program.stdin.write(b"ab\ncd\ne")
        try:
            status = program.wait(WAIT)
            fault = None if status == 0 else f"status {status}"
        except subprocess.TimeoutExpired:
            fault = "it waits for more"
            program.kill()
        tally.tell(f"{task}: a range that was passed", fault)


def run(tally, _arguments):
    program = built_program()
    with tempfile.TemporaryDirectory() as here:
        words = []
        for option, text in zip(OPTIONS, (LINE_BREAK, "", CATEGORY, "")):
            name = Path(here) / option.strip("-")
            name.write_text(text, encoding="ascii")
            words += [option, name]
        for task, steps in TASKS.items():
            more = [] if task == "replay" else ["--limit", str(LIMIT)]
            one_task(tally, task or "no arguments", steps, [program, task, *words, *more] if task else [program])
        for task, steps in OF_A_RANGE.items():
            one_task(tally, f"{task} --from 3", steps, [program, task, *words, "--limit", str(LIMIT), "--from", "3"])
            passed(tally, task, [program, task, *words, "--to", "6"])
