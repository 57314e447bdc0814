"""How often the system is asked: to read in blocks, and to write what is known before the next read, or once for each
line of a replay."""

import os
import subprocess
from pathlib import Path

from checks.files_and_pipes.place import LINE_BREAK, long_file, words_of


def run(place):
    try:
        Path("/proc/self/io").read_text()
    except OSError:
        place.tally.leave_out("calls, which this system does not count")
        return
    lines, length = 20_000, 6_000_000
    place.write("long", long_file(LINE_BREAK, b"", length))
    shown, replayed = b"ab cd\n" * lines, "× 0061 ÷ 0062 ÷\n".encode() * lines
    ranged = ["--from", "1", "--to", str(len(shown) - 1)]
    for task, more, text, status in (
        ("mark", [], shown, 0),
        ("show", [], shown, 0),
        ("segment", [], shown, 0),
        ("mark", ranged, shown, 0),
        ("show", ranged, shown, 0),
        ("segment", ranged, shown, 0),
        ("replay", [], replayed, 3),
    ):
        words = words_of(task, ("long", "E", "C", "M"), more)
        place.write("text", b"")
        _, read_without, _, _ = counted_calls(place, words)
        place.write("text", text)
        ended, read, wrote, written = counted_calls(place, words)
        # Of the text at least 3,000 bytes a read, and one read for the end; of a file 12,000, and some reads to start:
        # three quarters of the room that each read has.
        reads = read - read_without + 1
        few = reads <= len(text) // 3_000 + 2 and read_without <= length // 12_000 + 50
        # One write for each read and each block of lines that waits for one, or one for each line and one at the end.
        most = reads + written // 65_536
        few = few and (wrote == lines + 1 if task == "replay" else wrote <= most)
        fault = f"status {ended}, {reads} reads of the text, {read_without} without it, and {wrote} writes"
        what = f"{task} of a range" if more else task
        place.tally.tell(f"{what}: calls", None if ended == status and few else fault)
    each_size(place)


def each_size(place):
    """At most one write for each paragraph, of each size up to more than two reads take."""
    for task, most in (("mark", 8_200), ("segment", 8_200), ("show", 700)):
        text = b"".join(b"a" * size + b"\n" for size in range(most))
        place.write("text", text)
        ended, _, wrote, _ = counted_calls(place, words_of(task))
        fault = None if ended == 0 and wrote <= most else f"status {ended}, and {wrote} writes, more than {most}"
        place.tally.tell(f"{task}: paragraphs of each size up to {most} bytes, at most one write each", fault)
        if task == "mark":
            place.row(f"mark: paragraphs of each size up to {most} bytes", words_of(task), text, 0, text)


def counted_calls(place, words):
    """The status of a run over the file text, how often the system was asked to read and to write, and how many bytes
    were written."""
    with open(place.folder / "text", "rb") as text:
        program = subprocess.Popen([place.program, *words], stdin=text, stdout=subprocess.DEVNULL, cwd=place.folder)
        # What was counted is kept until the run is waited for.
        os.waitid(os.P_PID, program.pid, os.WEXITED | os.WNOWAIT)
        told_calls = dict(line.split(": ") for line in Path(f"/proc/{program.pid}/io").read_text().splitlines())
        return program.wait(), *(int(told_calls[it]) for it in ("syscr", "syscw", "wchar"))
