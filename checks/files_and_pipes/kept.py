"""The memory and the open files that a run keeps of its property files while it waits for text."""

import os
import select
import subprocess
from pathlib import Path

from checks.files_and_pipes.place import CATEGORY, LINE_BREAK, NAMES, long_file, words_of
from checks.program import MIB

LENGTH = 8_388_608
ROWS = 65_536
# What a run over four files of that length, or of so many rows, may hold once it has read them: less than one of them,
# and some of the tables.
MOST = 5 * MIB
SECONDS = 60


def held(place, words):
    """How many bytes and open files a run holds that has read its files and written a paragraph, or None where it wrote
    none."""
    streams = {"stdin": subprocess.PIPE, "stdout": subprocess.PIPE, "bufsize": 0}
    program = subprocess.Popen([place.program, *words], cwd=place.folder, **streams)
    try:
        program.stdin.write(b"a\nb")
        if not select.select([program.stdout], [], [], SECONDS)[0] or not os.read(program.stdout.fileno(), 100):
            return None
        lines = Path(f"/proc/{program.pid}/status").read_text(encoding="ascii").splitlines()
        bytes_held = next(int(line.split()[1]) * 1024 for line in lines if line.startswith("VmRSS:"))
        return bytes_held, len(os.listdir(f"/proc/{program.pid}/fd"))
    finally:
        program.kill()
        program.communicate()


def run(place):
    if not Path("/proc/self/status").exists():
        place.tally.leave_out("the memory that a run keeps, which this system does not count")
        return
    place.write("long-L", long_file(LINE_BREAK, b"", LENGTH))
    place.write("long-C", long_file(CATEGORY, b"", LENGTH))
    place.write("long-E", long_file(b"", b"", LENGTH))
    place.write("long-M", long_file(b"", b"", LENGTH))
    fronts, values = (LINE_BREAK, b"", CATEGORY, b""), ("ID", "W", "Lo", "Extended_Pictographic")
    for name, front, value in zip(NAMES, fronts, values):
        rows = (f"{0x20000 + 2 * at:X};{value}\n" for at in range(ROWS - front.count(b"\n")))
        place.write(f"many-{name}", front + "".join(rows).encode())
    for what in ("", "long-", "many-"):
        for task in ("mark", "show", "segment"):
            found = held(place, words_of(task, [what + name for name in NAMES]))
            fault = None
            if found is None:
                fault = "it wrote nothing"
            elif found[0] > MOST or found[1] > 3:
                fault = f"more than {MOST} bytes, or files are open beside the three streams"
            place.tally.tell(f"{task}: a run over the files {what}L to {what}M keeps {found} bytes and files", fault)
