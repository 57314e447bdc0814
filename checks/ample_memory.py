"""The program and its layers at thousands of sizes, with ample memory: none may report out of memory.

The sizes are those of files, rows, limits, paragraphs, segments, ranges, chunks, arguments, texts, names and lines of
tests: a power of two or a neighbour of one, or a number between two powers, up to the largest accepted; for files, as
often, any size. The profile is random, too. The check prints its seed; with the seed as its argument it draws the same
sizes again.

Not drawn, but tried in each run: files of each size up to 4,096 bytes, rows of each code point, value and length, and
for each kind of size, but for ranges, each number in the machine code (`sizes_in_code`). So code that reports out of
memory at one size, as for a file of 1,234,567 bytes, is found.
"""

import copy
import os
import random
import re
import tempfile
import threading
import time
from concurrent.futures import ThreadPoolExecutor
from pathlib import Path

from checks import c_programs, sizes_in_code
from checks.files_and_pipes.files import DECIDES
from checks.files_and_pipes.place import LIMIT, Place, long_file, with_name, words_of
from checks.harness import TOP, built_program, shown
from checks.program import run as run_program

SECONDS, SECONDS_OF_C = 45, 10
FILE_BYTES = 8_388_608
SMALL_FILE = 4_096
LONGEST_LINE, MOST_ROWS = 1_024, 65_536
LONGEST_NAME = 4_095
MOST_ARGUMENTS = 30_000
MOST_TEXTS = 10_000
# Code of x86-64 has more sizes than so many.
FEW = 500
# How many bytes one run is given at most, where it is given many sizes.
TOGETHER = 20_000_000
GREATEST = ["--limit", str(LIMIT)]
# The names of the values of each property, as the definitions have them, and which files have default lines.
DEFINED = (TOP / "crates/lbk_ucd/specs/Names.antt").read_text(encoding="utf-8")
VALUES = [re.findall(r'\(codes "(\w+)"', part) for part in re.findall(r"^\w+_names =$(.*?)\[\]$", DEFINED,
    re.DOTALL | re.MULTILINE)]
WITH_DEFAULTS = (0, 1)
# The codes without a row in `DECIDES`.
FREE = [code for code in range(0x80, 0x110000) if code not in (0xE31, 0x1F3FB, 0x1FAFF)]
# The letters of names, by how many bytes each has.
LETTERS = ("n", "é", "の", "😀")


class Drawn:
    """Runs over sizes that are drawn, and what was wrong with them."""

    def __init__(self, place, seed):
        self.place, self.chance = place, random.Random(seed)
        self.powers = {}
        self.sizes = {}
        self.faults = {}
        self.in_code = sizes_in_code.sizes(place.program, LIMIT)

    def size(self, most, least=1):
        """A size from `least` up to `most`, at or above each power of two as often as another."""
        bits = most.bit_length()
        left = self.powers.setdefault(bits, [])
        if not left:
            left += self.chance.sample(range(bits), bits)
        power = 1 << left.pop()
        between = self.chance.randrange(power, 2 * power)
        size = self.chance.choice((power, power + self.chance.choice((-1, 1)), between, between))
        return max(least, min(size, most))

    def size_of_file(self, least):
        """A size of a file: drawn as any other, or from all sizes alike."""
        if self.chance.randrange(2):
            return self.size(FILE_BYTES, least)
        return self.chance.randrange(least, FILE_BYTES + 1)

    def of_code(self, most):
        """The sizes up to `most` that the code has a number of."""
        return [it for it in self.in_code if it <= most]

    def sizes_together(self, most):
        """Sizes of one run, which have not too many bytes together."""
        found = [self.size(most)]
        while sum(found) < TOGETHER // 4 and len(found) < 60:
            size = self.size(most)
            if sum(found) + size <= TOGETHER:
                found.append(size)
        return found

    def beside(self, size):
        """Draws that hang on this size alone, so that they can be made beside others."""
        other = copy.copy(self)
        other.chance, other.powers = random.Random(size), {}
        return other

    def words(self, task, *more):
        """The words of a run in either profile, which say the same of the texts here."""
        return words_of(task, more=["--profile", self.chance.choice("12"), *more])

    def run(self, kind, sizes, words, given, status, is_right):
        """Runs the program over sizes of a kind, and keeps the first fault of that kind."""
        ran = run_program([self.place.program, *words], given, cwd=self.place.folder)
        self.sizes.setdefault(kind, []).extend(sizes)
        if ran.status != status or b"out of memory" in ran.err or not is_right(ran):
            fault = f"sizes {sizes}: status {ran.status}; standard error: {shown(ran.err)}; it wrote {shown(ran.out)}"
            self.faults.setdefault(kind, fault)

    def shows(self, kind, sizes, k, contents):
        """Shows a text that the last row of this file decides."""
        _, _, text, decided, _ = DECIDES[k]
        name = f"file-{threading.get_ident()}"
        self.place.write(name, contents)
        words = words_of("show", with_name(k, name))
        self.run(kind, sizes, words, text.encode(), 0, lambda ran: ran.out == decided.encode())


def files(drawn):
    """A file whose last row decides the result."""
    k = drawn.chance.randrange(4)
    front, last, *_ = DECIDES[k]
    size = drawn.size_of_file(len(front) + len(last) + 2)
    drawn.shows("sizes of files", [size], k, long_file(front, last, size))


def in_parallel(one, sizes):
    """Calls a function for each size."""
    with ThreadPoolExecutor(os.cpu_count()) as pool:
        list(pool.map(one, sizes))


def four_files(drawn, sizes):
    """All four files of each size."""

    def one(size):
        decides = size % 4
        _, _, text, decided, _ = DECIDES[decides]
        names = [f"{size}-{k}" for k in range(4)]
        for k, (front, last, *_) in enumerate(DECIDES):
            last = last if k == decides else b""
            drawn.place.write(names[k], long_file(front, last, max(size, len(front) + len(last) + 2)))
        words = words_of("show", names)
        drawn.run("sizes of four files", [size], words, text.encode(), 0, lambda ran: ran.out == decided.encode())
        for name in names:
            os.remove(drawn.place.folder / name)

    in_parallel(one, sizes)


def row(code, value):
    return f"{code:04X};{value}"


def default(first, last, value):
    return f"# @missing: {first:04X}..{last:04X}; {value}"


def shows_lines(drawn, kind, sizes, k, lines):
    front, last, *_ = DECIDES[k]
    drawn.shows(kind, sizes, k, front + "".join(line + "\n" for line in lines).encode() + last)


def numbers_of_rows(drawn, sizes):
    """Files of some numbers of rows."""
    made = [[row(code, values[code % len(values)]).encode() + b"\n" for code in FREE[:MOST_ROWS]] for values in VALUES]

    def one(size):
        k = size % 4
        front, last, *_ = DECIDES[k]
        rest = max(size - front.count(b"\n") - 1, 0)
        drawn.shows("numbers of rows", [size], k, front + b"".join(made[k][:rest]) + last)

    in_parallel(one, sizes)


def rows(drawn):
    """Rows, default lines or both, in some order, before the row that decides."""
    k = drawn.chance.randrange(4)
    number = drawn.size(MOST_ROWS - DECIDES[k][0].count(b"\n") - 1)
    defaults = drawn.chance.choice((0, number, drawn.size(number))) if k in WITH_DEFAULTS else 0
    codes = drawn.chance.sample(FREE, number - defaults)
    order = drawn.chance.randrange(3)
    if order > 0:
        codes.sort(reverse=order == 2)
    lines = [row(code, drawn.chance.choice(VALUES[k])) for code in codes]
    for _ in range(defaults):
        lines.append(default(*sorted(drawn.chance.choices(FREE, k=2)), drawn.chance.choice(VALUES[k])))
    shows_lines(drawn, "numbers of rows and default lines", [number], k, lines)


def each_row(drawn, k):
    """A row of each code, and rows and default lines of each value and of each length."""
    most = 60_000
    for at in range(0, len(FREE), most):
        codes = FREE[at : at + most]
        lines = [row(code, VALUES[k][code % len(VALUES[k])]) for code in codes]
        shows_lines(drawn, f"rows of each code, file {k + 1}", [len(codes)], k, lines)
    lines = [row(code, value) for code, value in enumerate(VALUES[k], 0x100)]
    lines += [row(0x1000 + size, VALUES[k][0]).ljust(size) for size in range(30, LONGEST_LINE + 1)]
    if k in WITH_DEFAULTS:
        lines += [default(code, code, value) for code, value in enumerate(VALUES[k], 0x2000)]
        lines += [default(0x2000, 0x2000 + size, VALUES[k][0]).ljust(size, "#") for size in range(50, LONGEST_LINE + 1)]
    shows_lines(drawn, f"rows of each value and length, file {k + 1}", [LONGEST_LINE], k, lines)


def limits(drawn, size=None):
    """A paragraph of the limit's bytes, of fewer, or of one more."""
    limit = size or drawn.size(LIMIT)
    words = drawn.words("mark", "--limit", str(limit))
    if drawn.chance.randrange(3) == 0:
        line = f"byte 0: the paragraph that starts here has more than {limit} bytes".encode()
        drawn.run("limits", [limit], words, b"a" * (limit + 1), 1, lambda ran: line in ran.err)
    else:
        text = b"a" * drawn.chance.choice((limit, drawn.size(limit)))
        drawn.run("limits", [limit, len(text)], words, text, 0, lambda ran: ran.out == text + b"\n")


def paragraphs(drawn, sizes=None, task=None):
    sizes = sizes or drawn.sizes_together(LIMIT - 1)
    text = b"".join(b"a" * size + b"\n" for size in sizes)
    task = task or drawn.chance.choice(("mark", "segment"))
    right = {"mark": lambda ran: ran.out == text, "segment": lambda ran: ran.out.count(b"\n") == 3 * len(sizes)}
    drawn.run(f"sizes of paragraphs, {task}", sizes, drawn.words(task, *GREATEST), text, 0, right[task])


def ranges(drawn):
    """The paragraphs that begin in a range of a text."""
    sizes = drawn.sizes_together(LIMIT - 1)
    text = b"".join(b"a" * size + b"\n" for size in sizes)
    first, end = sorted(drawn.chance.choice((drawn.size(len(text)), drawn.chance.randrange(len(text))))
        for _ in range(2))
    starts = [sum(sizes[:k]) + k for k in range(len(sizes))]
    out = b"".join(text[at : at + size + 1] for at, size in zip(starts, sizes) if first <= at < end)
    words = drawn.words("mark", *GREATEST, "--from", str(first), "--to", str(end))
    drawn.run("ranges", [first, end], words, text, 0, lambda ran: ran.out == out)


def pieces(drawn, sizes=None):
    """Paragraphs with some numbers of pieces between word boundaries, none of them a word, in one segment."""
    sizes = sizes or drawn.sizes_together(LIMIT - 1)
    text = b"".join(b"!" * size + b"\n" for size in sizes)
    drawn.run("numbers of pieces", sizes, drawn.words("segment", *GREATEST), text, 0,
        lambda ran: ran.out.count(b"\n") == 2 * len(sizes))


def segments(drawn, sizes=None, task=None):
    """Paragraphs of some numbers of segments, each with a word. `mark`, which writes least of them, takes the most."""
    task = task or drawn.chance.choice(("mark", "show", "segment"))
    of_each = 1 if task == "mark" else 8
    sizes = sizes or [size // of_each + 1 for size in drawn.sizes_together(LIMIT // 2 - 2)]
    text = b"".join(b"a " * size + b"\n" for size in sizes)
    right = {
        "mark": lambda ran: ran.out.count("÷".encode()) == sum(sizes) - len(sizes),
        "show": lambda ran: ran.out.count("÷".encode()) == sum(sizes) - len(sizes),
        "segment": lambda ran: ran.out.count(b"\n") == len(sizes) + 2 * sum(sizes),
    }
    drawn.run(f"numbers of segments, {task}", sizes, drawn.words(task, *GREATEST), text, 0, right[task])


def chunks(drawn, sizes=None):
    """Texts of one chunk, which has some number of bytes or of cuts."""
    for size in sizes or [drawn.size(LIMIT - 2)]:
        text = drawn.chance.choice((b"a" * size, b"a " * (size // 2 + 1)))
        chunk = b"C 0 %d %d Must 3\n" % (len(text), text.count(b" ") or 1)
        words = drawn.words("chunk", *GREATEST, "--most", str(len(text)))
        drawn.run("sizes of chunks", [size], words, text, 0, lambda ran, chunk=chunk: ran.out == chunk)


def arguments(drawn, size=None):
    """More arguments than are taken, which is said by status 2 and the usage."""
    number = size or drawn.size(MOST_ARGUMENTS)
    word = drawn.chance.choice(("x", "--kinds", "-", "--limit=9"))
    drawn.run("numbers of arguments", [number], ["replay", *[word] * number, "x"], b"", 2,
        lambda ran: b"Usage: " in ran.err)


def texts(drawn, size=None):
    """A text that is named some number of times."""
    number = size or drawn.size(MOST_TEXTS)
    if not (drawn.place.folder / "t").exists():
        drawn.place.write("t", b"t\n")
    words = drawn.words("mark", *["t"] * number)
    drawn.run("numbers of texts", [number], words, b"", 0, lambda ran: ran.out == b"t\n" * number)


def named(drawn, size):
    """A path of so many bytes; its last part is a name, of letters of one length."""
    dots = (size - min(size, drawn.size(254))) // 2
    letter = drawn.chance.choice(LETTERS)
    letters, rest = divmod(size - 2 * dots, len(letter.encode()))
    return "./" * dots + letter * letters + "n" * rest


def names(drawn, size=None, is_there=None):
    """A file of a name of some size, and where it is not there, the line that names it."""
    k = drawn.chance.randrange(4)
    front, last, text, decided, _ = DECIDES[k]
    name = named(drawn, size or drawn.size(LONGEST_NAME))
    words = words_of("show", with_name(k, name))
    if drawn.chance.randrange(2) if is_there is None else is_there:
        drawn.place.write(name, front + last)
        drawn.run("names of files", [len(name.encode())], words, text.encode(), 0,
            lambda ran: ran.out == decided.encode())
        os.remove(drawn.place.folder / name)
    else:
        err = f"lbk: {name}: the file cannot be read: no such file\n".encode()
        drawn.run("names of missing files", [len(name.encode())], words, text.encode(), 1, lambda ran: ran.err == err)


def folders(drawn, size=None):
    """A folder of a name of some size that is not there: the line names its first file."""
    name = named(drawn, size or drawn.size(LONGEST_NAME - 20))
    err = f"lbk: {name}/LineBreak.txt: the file cannot be read: no such file".encode()
    drawn.run("names of folders", [len(name.encode())], ["mark", "--ucd", name], b"a", 1,
        lambda ran: ran.err.startswith(err))


def lines(drawn, sizes=None, is_test=None):
    """Lines of a test file: comments of some bytes, and lines of some numbers of scalars that agree."""
    chosen = [(size, drawn.chance.randrange(2) if is_test is None else is_test)
        for size in sizes or drawn.sizes_together(LIMIT)]
    sizes = [size for size, _ in chosen]
    end, more = drawn.chance.choice([("÷", []), ("!", ["--kinds"])])
    one, end = "× 0061 ".encode(), end.encode()
    text = b"".join((one * max(size // 8, 1) + end if is_test else b"#" * size) + b"\n" for size, is_test in chosen)
    tests = sum(is_test for _, is_test in chosen)
    right = b"T %d %d 0 0\n" % (tests, tests)
    drawn.run("lines of tests", sizes, drawn.words("replay", *more), text, 0, lambda ran: ran.out == right)


def in_groups(sizes, most):
    """Sizes in groups, none of more bytes together than one run is given."""
    groups, room = [[]], most
    for size in sizes:
        if groups[-1] and size > room:
            groups.append([])
            room = most
        groups[-1].append(size)
        room -= size
    return groups


def sizes_of_code(drawn):
    """Each size that the program's code has a number of, once for each kind of size."""
    four_files(drawn, [it for it in drawn.of_code(FILE_BYTES) if it > SMALL_FILE])
    numbers_of_rows(drawn, drawn.of_code(MOST_ROWS))
    texts(drawn, 1)
    for kind, most in ((limits, LIMIT), (arguments, MOST_ARGUMENTS), (texts, MOST_TEXTS)):
        in_parallel(lambda size, kind=kind: kind(drawn.beside(size), size), drawn.of_code(most))
    for size in drawn.of_code(LONGEST_NAME):
        names(drawn.beside(size), size, is_there=True)
    in_parallel(lambda size: names(drawn.beside(size), size, is_there=False), drawn.of_code(LONGEST_NAME))
    in_parallel(lambda size: folders(drawn.beside(size), size), drawn.of_code(LONGEST_NAME - 20))
    for kind, most, more in (
        (paragraphs, LIMIT - 1, {"task": "mark"}),
        (paragraphs, LIMIT - 1, {"task": "segment"}),
        (pieces, LIMIT - 1, {}),
        (segments, LIMIT // 2 - 2, {"task": "mark"}),
        (segments, LIMIT // 64, {"task": "segment"}),
        (chunks, LIMIT - 2, {}),
        (lines, LIMIT, {"is_test": False}),
        (lines, LIMIT // 8, {"is_test": True}),
    ):
        in_parallel(lambda sizes, kind=kind, more=more: kind(drawn.beside(sizes[0]), sizes, **more),
            in_groups(drawn.of_code(most), TOGETHER))


KINDS = [files, rows, limits, paragraphs, ranges, pieces, segments, chunks, arguments, texts, names, folders, lines]
# How often each is run in a round: those of one size a run, which are quick, more often.
TIMES = {files: 4, rows: 4, limits: 4, ranges: 2, arguments: 8, texts: 4, names: 24, folders: 16}
# What each run tries first: all rows, and sizes that are seldom drawn, of paragraphs without their line end.
SELDOM = [(paragraphs, [5_000_002]), (pieces, [5_000_001]), (segments, [60_000]), (folders, 1_023)]
ALWAYS = [(four_files, range(SMALL_FILE + 1)), *((each_row, k) for k in range(4)), *SELDOM]


def run(tally, given):
    seed = int(given[0]) if given else int.from_bytes(os.urandom(4))
    print(f"seed {seed}", flush=True)
    with tempfile.TemporaryDirectory() as folder:
        drawn = Drawn(Place(tally, built_program(), folder), seed)
        for kind, size in ALWAYS:
            kind(drawn, size)
        if len(drawn.in_code) < FEW:
            tally.leave_out("the sizes in the code: its machine code is not that of x86-64")
        sizes_of_code(drawn)
        end = time.monotonic() + SECONDS
        while time.monotonic() < end:
            for kind in KINDS:
                for _ in range(TIMES.get(kind, 1)):
                    kind(drawn)
        for kind, sizes in sorted(drawn.sizes.items()):
            said = f"{kind}: {len(sizes)} from {min(sizes)} to {max(sizes)}, seed {seed}"
            tally.tell(said, drawn.faults.get(kind))
        words = c_programs.library(Path(folder) / "library")
        program = c_programs.build("c/sizes.c", Path(folder) / "sizes", *words)
        c_programs.count(tally, f"lbk_read: sizes of files, seed {seed}", [program, str(SECONDS_OF_C), str(seed),
            *map(str, sizes_in_code.sizes(words[-1], FILE_BYTES))])
