"""Property files from pipes, each opened once, because a pipe cannot be read again."""

import ctypes
import os
import struct
import subprocess
import threading

from checks.files_and_pipes.files import DECIDES
from checks.files_and_pipes.place import NAMES, REQUIRED, long_file, with_name, words_of
from checks.harness import shown
from checks.program import run as run_program
from checks.unicode_files import MISSING, OPTIONS, published
from checks.unicode_files import NAMES as OF_FOLDER

SECONDS = 60  # until a run counts as one that waits for a pipe that nobody writes to any more


def give(path, contents, piece):
    """Writes a pipe with a name once, in pieces. A run that ends before its end is told by what it wrote."""
    try:
        with open(path, "wb", buffering=0) as pipe:
            for at in range(0, len(contents), piece):
                pipe.write(contents[at : at + piece])
    except BrokenPipeError:
        pass


def over_pipes(place, what, words, pipes, given, out):
    """A run while each of these pipes with a name is written, and what is wrong with how it ended."""
    writers = []
    for path, (contents, piece) in pipes.items():
        path.parent.mkdir(parents=True, exist_ok=True)
        os.mkfifo(path)
        writers.append(threading.Thread(target=give, args=(path, contents, piece), daemon=True))
    for writer in writers:
        writer.start()
    fault = None
    try:
        ran = run_program([place.program, *words], given, seconds=SECONDS, cwd=place.folder)
        if ran != (0, out, b""):
            fault = f"status {ran.status}; it wrote {shown(ran.out)}, not {shown(out)}; standard error: {shown(ran.err)}"
    except subprocess.TimeoutExpired:
        fault = "it waits for a pipe that it has read to its end"
    for path in pipes:
        path.unlink()
    place.tally.tell(what, fault)


def one_by_one(place):
    """Each file in turn from a pipe, of many sizes and in pieces of many sizes; its last row decides."""
    for k, (front, last, text, decided, _) in enumerate(DECIDES):
        for length, piece in ((0, 1), (0, 1 << 16), (70_000, 4_095), (3_000_000, 1 << 20), (8_388_608, 1 << 16)):
            contents = long_file(front, last, length) if length else front + last
            pipes = {place.folder / "pipe": (contents, piece)}
            what = f"show {OPTIONS[k]}: {len(contents)} bytes from a pipe, {piece} at a time"
            over_pipes(place, what, words_of("show", with_name(k, "pipe")), pipes, text.encode(), decided.encode())


def all_four(place):
    contents = [(place.folder / name).read_bytes() for name in NAMES]
    pipes = {place.folder / f"pipe-{k}": (text, 7) for k, text in enumerate(contents)}
    words = words_of("mark", [path.name for path in pipes])
    over_pipes(place, "mark: all four files from pipes", words, pipes, b"a a", "a ÷a\n".encode())
    if published() is None:
        place.tally.leave_out(f"mark: a folder all files of which are pipes: {MISSING}")
        return
    pipes = {place.folder / "ucd" / name: ((published() / name).read_bytes(), 4_095) for name in OF_FOLDER}
    words = ["mark", "--ucd", "ucd"]
    over_pipes(place, "mark: a folder all files of which are pipes", words, pipes, b"a a", "a ÷a\n".encode())


def substituted(place):
    """As a shell writes it: each file from a command."""
    files = " ".join(f"{option} <(cat {name})" for option, name in zip(OPTIONS, NAMES))
    for task, out in (("mark", "a ÷a\n"), ("show", "× 0061 × 0020 ÷ 0061 !\t# 2 7 18 3\n")):
        command = f"printf 'a a' | ./lbk {task} {files}"
        ran = run_program(["bash", "-c", command], seconds=SECONDS, cwd=place.folder)
        place.tally.equal(f"{task}: files from commands of a shell", tuple(ran), (0, out.encode(), b""))


# Of Linux's inotify: a file was opened, and a file that nobody writes to was closed.
OPENED, CLOSED = 0x20, 0x10


# Names of the four files, and which of them and of the text behind them are opened.
OPENED_OF = [
    ("each file", NAMES, [*NAMES, "text"]),
    ("a file of four names", ("E", "E", "E", "E"), ["E", "E", "E", "E", "text"]),
    ("a missing file", ("L", "E", "none", "M"), ["L", "E"]),
    ("a file that cannot be read", ("L", "folder", "C", "M"), ["L", "folder"]),
    ("a file with a bad row", ("bad", "E", "C", "M"), ["bad", "E", "C", "M"]),
]


def opened_once(place):
    """Each file and text is opened once, and none after one that is refused, as the system tells whoever watches their
    folders."""
    if not hasattr(ctypes.CDLL(None), "inotify_init1"):
        place.tally.leave_out("how often files are opened, which this system does not tell")
        return
    place.write("text", b"a a")
    place.write("bad", b"0061;AK\n")
    (place.folder / "folder").mkdir()
    for task in ("mark", "show", "segment", "chunk", "replay"):
        for what, names, wanted in OPENED_OF:
            place.tally.equal(f"{task}, {what}: what is opened",
                opened(place, words_of(task, names, [*REQUIRED.get(task, []), "text"]), ["."]), wanted)
    folder = place.folder / "made-up"
    for name in OF_FOLDER:
        (folder / name).parent.mkdir(parents=True, exist_ok=True)
        (folder / name).write_bytes(b"")
    opens = opened(place, ["mark", "--ucd", "made-up", "text"], ["made-up", "made-up/extracted", "made-up/emoji", "."])
    place.tally.equal("mark: no file of a folder is opened after one that is refused", opens, [OF_FOLDER[0]])


def opened(place, words, folders):
    """The names of what a run opens in these folders, in order."""
    libc = ctypes.CDLL(None)
    watch = libc.inotify_init1(os.O_NONBLOCK)
    for folder in folders:
        libc.inotify_add_watch(watch, os.fsencode(place.folder / folder), OPENED | CLOSED)
    run_program([place.program, *words], cwd=place.folder)
    told, opens = os.read(watch, 1 << 16), []
    os.close(watch)
    while told:
        _, kind, _, length = struct.unpack_from("iIII", told)
        name, told = told[16 : 16 + length].rstrip(b"\0").decode(), told[16 + length :]
        opens += [name] if kind & OPENED and name not in ("", "lbk") else []
    return opens


def run(place):
    opened_once(place)
    one_by_one(place)
    all_four(place)
    substituted(place)
