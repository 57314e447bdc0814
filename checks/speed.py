"""Ratios of speeds: of subcommands, of layers in crates/trials_bench, and of a start to another reader of the files.

A layer that fell back to a slow way fails. The texts are made of the pages in docs/, and of letters of two and of three
bytes. Each bound is a third to half of the measured ratio, and the best run of each layer counts, so other load does
not make it fail. The property files are the published ones, if they are there, or those of the stored runs.
"""

import os
import re
import subprocess
import tempfile

from checks.harness import TOP, built_crate, built_program
from checks.program import Long
from checks.program import run as run_program
from checks.unicode_files import MISSING, NAMES, layers_input, options, property_files, published

SIZE = 1_200_000

# A layer, what it is compared with, and the least ratio of their speeds over each text.
BOUNDS = [
    ("Breaks, profile 1", "Machine", (6.0, 3.5, 2.5)),
    ("Breaks, profile 2", "Breaks, profile 1", (0.5, 0.5, 0.5)),
    ("Stepper, profile 1", "LateMachine, profile 1", (5.0, 4.0, 3.0)),
    ("Stepper, profile 2", "LateMachine, profile 2", (5.0, 4.0, 3.0)),
    ("segments of lines", "Breaks, profile 1", (0.3, 0.3, 0.3)),
    ("next", "words", (0.2, 0.2, 0.2)),
    ("mark", "show", (1.1, 0.9, 0.7)),
    # Time that grew as the square of the text would leave less than 0.2. These are two runs, which other load sets
    # apart: 0.40 was seen of a body that is right.
    ("Breaks by the rules", "Breaks by the rules, an eighth of the text", (0.25, 0.25, 0.25)),
]

# A text, two subcommands, and the least ratio of their speeds.
STREAM, RUNS = 6_000_000, 5
PASS_OVER = f"mark --from {STREAM}"
SUBCOMMANDS = [
    ("the pages", "mark", "show", 0.9),
    ("the pages", "segment", "show", 0.6),
    ("letters of two bytes", "mark", "show", 0.6),
    ("letters of two bytes", "segment", "show", 0.4),
    ("letters of three bytes", "mark", "show", 0.5),
    ("letters of three bytes", "segment", "show", 0.3),
    # 1.4, 1.4 and 0.8 are measured, and 1.1, 1.1 and 0.6 with texts.
    ("the pages", "chunk --most 500", "show", 0.5),
    ("letters of two bytes", "chunk --most 500", "show", 0.6),
    ("letters of three bytes", "chunk --most 500", "show", 0.3),
    ("the pages", "chunk --most 500 --text", "show", 0.4),
    ("letters of two bytes", "chunk --most 500 --text", "show", 0.4),
    ("letters of three bytes", "chunk --most 500 --text", "show", 0.3),
    # Without the loop over bytes that end no line, 2 to 4 were left where `mark` took 2.4 times as long as now.
    ("the pages", PASS_OVER, "mark", 2.5),
    ("letters of two bytes", PASS_OVER, "mark", 1.8),
    ("letters of three bytes", PASS_OVER, "mark", 2.5),
]


# Lines of so many bytes, and the least ratio of a subcommand's speed into a pipe that is read to that into a file: 1.0
# to 1.4 are measured. A write for each line costs most where lines are short.
LENGTHS, PIPED = (8, 60, 1000), 0.4

# How many times md5sum's time over the four published files a run over no text takes at most, and how often both are
# run.
MOST_OF_FOLDER, MOST_OF_FILES, STARTS = 9.0, 6.0, 40


def texts():
    """Texts by their names: letters of one byte, of two and of three, in words and paragraphs."""
    pages = sorted(it for it in (TOP / "docs").rglob("*.md") if it.parent.name != "log")
    plain = "".join(path.read_text(encoding="utf-8") for path in pages)
    words = [word for word in plain.split(" ") if word.isascii()]
    two = " ".join("".join(chr(0x430 + ord(it) % 32) if it.isalpha() else it for it in word) for word in words)
    three = " ".join("".join(chr(0x4E00 + ord(it)) if it.isalpha() else it for it in word) for word in words)
    return {"the pages": plain, "letters of two bytes": two, "letters of three bytes": three}


def speeds(name, text, size):
    """The speed of each layer over a text that is repeated up to a size, in millions of bytes a second."""
    data = (text.encode() * (size // len(text) + 1))[:size]
    # A scalar that the size would cut is left out.
    given = layers_input(property_files(), data.decode(errors="ignore").encode())
    ran = run_program([built_crate("trials_bench"), "layers", name], given)
    return {name: float(rate) for name, rate in re.findall(r"^(\S.*?) +([0-9.]+) MB/s", ran.out.decode(), re.M)}


def seconds(program, task, text, size):
    """The processor time of a run over a text that is repeated up to a size."""
    words = [program, *task.split(), *options(property_files()), "--limit", "16777216"]
    return Long(words, [(text, size // len(text) * len(text))]).seconds


def subcommands(tally, of_all):
    """Ratios of the speeds of subcommands over long streams, what a run takes to start not counted."""
    program = built_program()
    for name, task, other, least in SUBCOMMANDS:
        text = of_all[name].encode()
        took = {it: [seconds(program, it, text, STREAM) for _ in range(RUNS)] for it in (task, other)}
        starts = min(seconds(program, task, b"a ", 100) for _ in range(RUNS))
        ratio = (min(took[other]) - starts) / (min(took[task]) - starts)
        said = f"{name}: {task}: {ratio:.2f} times {other}, at least {least}"
        tally.tell(said, None if ratio >= least else "it is slower")


def written(words, text, into_pipe):
    """The processor time of a run over a text, with its output into a file or into a pipe that another program
    reads."""
    with tempfile.TemporaryFile() as given, tempfile.TemporaryFile() as kept:
        given.write(text)
        given.seek(0)
        reader = subprocess.Popen(["cat"], stdin=subprocess.PIPE, stdout=kept) if into_pipe else None
        with subprocess.Popen(words, stdin=given, stdout=reader.stdin if reader else kept) as process:
            if reader:
                reader.stdin.close()
            _, status, used = os.wait4(process.pid, 0)
            process.returncode = os.waitstatus_to_exitcode(status)
        if reader:
            reader.wait()
    return used.ru_utime + used.ru_stime if status == 0 else float("inf")


def pipes(tally, pages):
    """Ratios of the speed of each subcommand into a pipe to that into a file, over lines of several lengths."""
    plain = pages.replace("\n", " ").encode("ascii", "ignore")
    plain *= STREAM // len(plain) + 1
    for length in LENGTHS:
        text = b"".join(plain[at : at + length - 1] + b"\n" for at in range(0, STREAM, length - 1))
        for task in ("mark", "show", "segment"):
            words = [str(built_program()), task, *options(property_files())]
            took = {pipe: min(written(words, text, pipe) for _ in range(RUNS)) for pipe in (False, True)}
            ratio = took[False] / took[True]
            said = f"lines of {length} bytes: {task}: into a pipe {ratio:.2f} times as fast as into a file, at least {PIPED}"
            tally.tell(said, None if ratio >= PIPED else "it is slower")


def started(words):
    """The processor time of a run that is given nothing to read."""
    streams = [(os.POSIX_SPAWN_OPEN, it, "/dev/null", os.O_RDWR, 0) for it in (0, 1)]
    pid = os.posix_spawnp(words[0], words, os.environ, file_actions=streams)
    _, status, used = os.wait4(pid, 0)
    return used.ru_utime + used.ru_stime if status == 0 else float("inf")


def starts(tally):
    """Ratios of a run's start to md5sum over the same files, which no processor has instructions of its own for."""
    folder = published()
    if not folder:
        tally.leave_out(MISSING)
        return
    program, files = str(built_program()), [str(folder / it) for it in NAMES]
    runs = {"md5sum": ["md5sum", *files], "a folder": [program, "mark", "--ucd", str(folder)],
        "four files": [program, "mark", *options(files)]}
    took = {name: float("inf") for name in runs}
    for _ in range(STARTS):
        took = {name: min(took[name], started(words)) for name, words in runs.items()}
    for name, most in (("a folder", MOST_OF_FOLDER), ("four files", MOST_OF_FILES)):
        ratio = took[name] / took["md5sum"]
        tally.tell(f"start by {name}: {ratio:.1f} times md5sum, at most {most}", None if ratio <= most
            else "it is slower")


def layers(tally, of_all):
    """Ratios of the speeds of the layers that crates/trials_bench measures."""
    for number, (name, text) in enumerate(of_all.items()):
        found = speeds(name, text, SIZE)
        part = speeds(name, text, SIZE // 8)
        found |= {f"{layer}, an eighth of the text": rate for layer, rate in part.items()}
        for layer, other, leasts in BOUNDS:
            least = leasts[number]
            if layer not in found or other not in found:
                tally.tell(f"{name}: {layer}", f"the speed of {layer} or of {other} was not measured")
                continue
            ratio = found[layer] / found[other]
            said = f"{name}: {layer}: {ratio:.2f} times {other}, at least {least}"
            tally.tell(said, None if ratio >= least else "it is slower")


def run(tally, _arguments):
    of_all = texts()
    starts(tally)
    subcommands(tally, of_all)
    pipes(tally, of_all["the pages"])
    layers(tally, of_all)
