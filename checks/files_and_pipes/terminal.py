"""On a terminal a run that waits for text says so, once; one that reads nothing does not."""

import os
import subprocess
import termios

from checks.files_and_pipes.place import words_of


WAITS = b"lbk: waiting for text from the terminal; to end it, press Ctrl-D at the start of a line\n"
ROWS = [
    ("mark", words_of("mark"), b"ab cd\nef\n\x04", 0, b"ab \xc3\xb7cd\nef\n", WAITS),
    ("replay", words_of("replay"), b"\x04", 0, b"T 0 0 0 0\n", WAITS),
    ("a text that is named", words_of("mark", more=["text"]), b"ab\n\x04", 0, b"cd\n", b""),
    (
        "a file that is missing",
        words_of("mark", ("L", "E", "C", "none")),
        b"ab\n\x04",
        1,
        b"",
        b"lbk: none: the file cannot be read: no such file\n",
    ),
]


def run(place):
    place.write("text", b"cd\n")
    for what, words, typed, status, out, err in ROWS:
        master, slave = os.openpty()
        modes = termios.tcgetattr(slave)
        # (what is typed is not shown, so that nothing but the program writes)
        modes[3] &= ~termios.ECHO
        termios.tcsetattr(slave, termios.TCSANOW, modes)
        os.write(master, typed)
        ran = subprocess.run([place.program, *words], stdin=slave, capture_output=True, cwd=place.folder, check=False,
            timeout=60)
        os.close(slave)
        os.close(master)
        place.tally.equal(f"on a terminal: {what}", (ran.returncode, ran.stdout, ran.stderr), (status, out, err))
