"""The instructions of calls and of runs, as valgrind counts them, compared with the stored counts.

They show work that is done twice, and work that grows faster than the text. A count hardly changes from run to run,
whatever the machine's load, so 3 % of room is enough. The calls are those that `c-speed` times. A cut has to take as
many instructions in a text of 1 GB as in one of 256 KiB with the same bytes near it; with a made-up table a call takes
four times as many over a text of four times the size. The argument --write stores the counts.
"""

import re
import tempfile
from pathlib import Path

from checks import c_programs, c_speed
from checks.harness import CannotRun, built_program, has
from checks.program import run as run_program
from checks.unicode_files import MISSING, NAMES, options, published

STORED = Path(__file__).with_name("instructions.txt")
ROOM = 1.03
SHORT, LONG = 1 << 18, 1 << 30
READING = ("lbk_unicode", "lbk_read", "lbk_read_published")
CUTS = ("lbk_cut", "lbk_cut_before")
MADE_UP, GROWTH = (2048, 8192), 4.1
SIZE = 60_000
SUBCOMMANDS = ("mark", "show", "segment", "chunk --most 500", "mark --from 30000")
GO = re.compile(r'\{"(lbk_\S+)", (go_\w+)\}')


def counted(words, call=None, given=b""):
    """The instructions of a run of a program, or of one call in it."""
    only = [f"--toggle-collect={call}"] if call else []
    ran = run_program(["valgrind", "--tool=callgrind", "--callgrind-out-file=/dev/null", *only, *words], given)
    found = re.search(rb"Collected : (\d+)", ran.err)
    if ran.status != 0 or not found:
        raise CannotRun(f"{words[0]} ended with status {ran.status}: {ran.err[-300:]!r}")
    return int(found[1])


def drawn(letters):
    """A text of words of these letters, with the signs and lines of prose, the same in each run."""
    state, text = 1, []
    while len(text) < SIZE:
        state = state * 6364136223846793005 + 1442695040888963407 & (1 << 64) - 1
        word = [letters[state >> k & 15] for k in range(12, 60, 4)]
        text += word[: 2 + (state >> 60) // 2]
        text += (" ", " ", " ", " ", ", ", " ", " (", ") ", ". ", " ", ".\n", "-", " 17 ", "\u2019", " ",
            "; ")[state >> 8 & 15]
    return "".join(text)


def texts():
    """Texts of letters of one, two and three bytes. A scalar that the size would cut is left out."""
    firsts = {"one byte": "a", "two bytes": "\u0430", "three bytes": "\u6587"}
    of_all = {name: drawn([chr(ord(first) + k) for k in range(16)]) for name, first in firsts.items()}
    return {name: text.encode()[:SIZE].decode(errors="ignore").encode() for name, text in of_all.items()}


def filled(of_all):
    """Texts that are repeated up to SIZE bytes."""
    return {name: (text * SIZE)[:SIZE] for name, text in of_all.items()}


def of_calls(room, words, of_all, calls, files):
    """The instructions of calls over texts. A dump of valgrind's ends behind each call, and behind the loop before
    it."""
    program = c_programs.build("c/speed.c", room / "once", "-DRUNS=1", *words)
    names = dict(GO.findall(Path(c_programs.HERE, "c/speed.c").read_text(encoding="utf-8")))
    dumps = [f"--dump-after={go}" for go in ("go_byte_by_byte", *names.values())]
    paths = {}
    for name, text in of_all.items():
        path = room / name.replace(" ", "-")
        path.write_bytes(text)
        paths[str(path)] = name
    out = room / "dump"
    ran = run_program(["valgrind", "--tool=callgrind", f"--callgrind-out-file={out}", *dumps, program, calls, *files,
        *paths])
    rows = re.findall(r"^(\S+) (\S+) [0-9.]+$", ran.out.decode(), re.M)
    if ran.status != 0 or not rows:
        raise CannotRun(f"the calls ended with status {ran.status}: {ran.err[-300:]!r}")
    found = {}
    for number, (path, call) in enumerate(rows, 1):
        dump = Path(f"{out}.{2 * number}").read_text(encoding="utf-8")
        if f"--dump-after={names[call]}" not in dump:
            raise CannotRun(f"the dump of {call} is not there")
        found[f"{call} over {paths[path]}"] = int(re.search(r"^totals: (\d+)", dump, re.M)[1])
    return found


def of_subcommands(files):
    """The instructions of subcommands over texts, those of a run over nothing not counted."""
    found = {}
    for task in SUBCOMMANDS:
        words = [built_program(), *task.split(), *options(files)]
        start = counted(words)
        found |= {f"lbk {task} over {name}": counted(words, given=text) - start for name, text in texts().items()}
    return found


def measured(room, words, files):
    """What is stored, by the names of the rows."""
    program = c_programs.build("c/instructions.c", room / "instructions", *words)
    found = {call: counted([program, call, "0", *files], call) for call in READING}
    found["lbk mark over nothing"] = counted([built_program(), "mark"])
    found["lbk mark --ucd"] = counted([built_program(), "mark", "--ucd", files[0].parent], given=b"ab cd\n")
    found["lbk mark, four files"] = counted([built_program(), "mark", *options(files)], given=b"ab cd\n")
    found |= of_calls(room, words, {**texts(), **filled({c_speed.HELD: c_speed.HELD_TEXT})}, "all", files)
    found |= of_calls(room, words, filled(c_speed.SLOW), c_speed.SLOW_CALLS, files)
    return found | of_subcommands(files)


def grows(tally, room, words, files):
    """Made-up tables, by which a call may take no more than a text's size times a constant."""
    program = c_programs.build("c/corrupt.c", room / "corrupt", *words)
    short, long = (counted([program, str(size), *files], "try_all") for size in MADE_UP)
    said = f"made-up tables: {long / short:.2f} times as many instructions for four times the text, at most {GROWTH}"
    tally.tell(said, None if long <= GROWTH * short else "more than the text's growth")


def run(tally, arguments):
    folder = published()
    if not folder or not has("valgrind"):
        tally.leave_out(f"instructions, for which valgrind and {MISSING} are needed")
        return
    files = [folder / it for it in NAMES]
    with tempfile.TemporaryDirectory() as name:
        room = Path(name)
        words = c_programs.library(room / "library")
        found = measured(room, words, files)
        if arguments == ["--write"]:
            STORED.write_text("".join(f"{count} {name}\n" for name, count in found.items()), encoding="utf-8")
        stored = {name: int(count) for count, name in (line.split(" ", 1) for line in STORED.read_text().splitlines())}
        tally.tell("a count is stored for each row, and for no other", None if stored.keys() == found.keys()
            else "store them: --write")
        for name, count in found.items():
            said = f"{name}: {count} instructions, {count / stored.get(name, 1):.3f} times those stored"
            tally.tell(said, None if count <= ROOM * stored.get(name, 0) else "more work than before")
        program = room / "instructions"
        for call in CUTS:
            short, long = (counted([program, call, str(size), *files], call) for size in (SHORT, LONG))
            tally.tell(f"{call}: {long} instructions in 1 GB, {short} in 256 KiB", None if long <= ROOM * short
                else "it reads more")
        grows(tally, room, words, files)
