"""No read with an empty buffer and no write without bytes: a preloaded library ends the program if it makes one."""

import os
import sys

from checks import c_programs
from checks.files_and_pipes.place import REQUIRED, words_of
from checks.harness import has
from checks.program import run as run_program

STATUS = 99
TEXTS = {
    "no bytes": b"",
    "one letter": b"a",
    "paragraphs": "ab cd\n\nの é\r\n".encode() * 2_000,
    "a paragraph longer than reads": b"a b" * 5_000,
    "a cut character": b"ab\n\xe3\x81",
    "ill-formed bytes behind a read": b"a\n" * 3_000 + b"\xff",
    "test lines": "× 0061 × 0020 ÷ 0062 ÷\n".encode() * 2_000,
}


def run(place):
    if not has("gcc"):
        place.tally.leave_out("calls of no bytes, for which gcc is not there")
        return
    library = c_programs.build("c/empty_calls.c", place.folder / "empty_calls.so", "-shared", "-fPIC", compiler="gcc")
    env = dict(os.environ, LD_PRELOAD=str(library))
    for what, call in (("read", "os.read(0, 0)"), ("write", "os.write(1, b'')")):
        status = run_program([sys.executable, "-c", f"import os; {call}"], env=env).status
        place.tally.tell(f"a {what} of no bytes is seen", None if status == STATUS else f"status {status}")
    for task in ("mark", "show", "segment", "chunk", "replay"):
        own = REQUIRED.get(task, [])
        for what, text in TEXTS.items():
            place.write("text", text)
            try_each(place, env, f"{task}: {what}", words_of(task, more=own), text)
            try_each(place, env, f"{task}: {what}, as a file between others",
                words_of(task, more=[*own, "none", "text", "-"]), text)
            if task != "replay":
                words = words_of(task, more=[*own, "--from", "1", "--to", "9000"])
                try_each(place, env, f"{task}: a range of {what}", words, text)


def try_each(place, env, what, words, text):
    """A run with the library and one without it end alike."""
    wanted = run_program([place.program, *words], text, cwd=place.folder)
    ended = run_program([place.program, *words], text, cwd=place.folder, env=env)
    same = wanted.status in (0, 1, 3) and ended == wanted
    place.tally.tell(f"{what}: no call of no bytes",
        None if same else f"status {ended.status}, and {wanted.status} without the library")
