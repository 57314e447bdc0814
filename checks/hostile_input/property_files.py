"""Property files at their limits: each run over one takes less than a second."""

import random

from checks.hostile_input.bounds import quickest
from checks.hostile_input.digests import CLASSES, DIGESTS, ROWS, cancelling_pages
from checks.program import BLOCK, Long

# A run over a file of properties takes less, in seconds.
FILE_SECONDS = 1.0
FILE_BYTES = 8_388_608
WIDTHS = ["A", "F", "H", "N", "Na", "W"]


def row(code, name):
    return f"{code:04X};{name}\n".encode()


def default(first, last, name):
    return f"# @missing: {first:04X}..{last:04X}; {name}\n".encode()


def padded(line, length):
    """The line with spaces behind it, of so many bytes without its LF."""
    return line.rstrip(b"\n").ljust(length) + b"\n"


def repeated(line, length=FILE_BYTES):
    """A line again and again, up to a length; a front of it last."""
    yield from (line * (BLOCK // len(line)) for _ in range(length // (BLOCK // len(line) * len(line))))
    yield (line * (BLOCK // len(line)))[: length % (BLOCK // len(line) * len(line))]


def class_of(code):
    return CLASSES[code * 7 % len(CLASSES)]


def shuffled_codes():
    codes = list(range(ROWS))
    random.Random(14).shuffle(codes)
    return codes


def rows():
    """Files of as many rows as a file may have: names, contents, and the line and text of the fault, if one is
    wanted."""
    shuffled, spread = shuffled_codes(), range(0, 0x110000, 17)
    for name, codes in (
        ("rows rising", range(ROWS)),
        ("rows falling", reversed(range(ROWS))),
        ("rows shuffled", shuffled),
        ("rows all over, rising", spread),
        ("rows all over, falling", reversed(spread)),
        ("rows all over, shuffled", [17 * code for code in shuffled]),
    ):
        yield name, (row(code, class_of(code)) for code in codes), None


def pages_of_one_digest():
    for multiplier, bits, length in DIGESTS:
        pages = cancelling_pages(multiplier, bits, length)
        lines = [default(0, 0x10FFFF, "ID")]
        for number, names in enumerate(pages, 1):
            lines += [row(256 * number - length + k, name) for k, name in enumerate(names) if name != "ID"]
        yield f"{len(pages)} pages of one sum of {bits} bits", lines, None


def defaults():
    """Files of as many default lines as a file may have."""
    chance, mid = random.Random(14), 0x88000
    shuffled = list(range(ROWS))
    chance.shuffle(shuffled)
    widths = [chance.randrange(1, 0x10000) for _ in range(ROWS)]
    starts = [chance.randrange(0, 0x110000 - 0x10000) for _ in range(ROWS)]
    every = range(ROWS)
    yield "defaults of all codes", (default(0, 0x10FFFF, class_of(k)) for k in every), None
    yield "defaults, each within the last", (default(k, 0x10FFFF - k, class_of(k)) for k in every), None
    yield "defaults, each round the last", (default(mid - k, mid + k, class_of(k)) for k in every), None
    yield "defaults in steps", (default(16 * k, 16 * k + 1000, class_of(k)) for k in every), None
    yield "defaults in falling steps", (default(16 * k, 16 * k + 1000, class_of(k)) for k in reversed(every)), None
    by_chance = (default(first, first + width, class_of(width)) for first, width in zip(starts, widths))
    yield "defaults by chance", by_chance, None
    in_turn = (
        line
        for k in range(ROWS // 2)
        for line in (default(starts[k], starts[k] + widths[k], class_of(k)), row(17 * shuffled[k], class_of(k)))
    )
    yield "defaults and rows in turn", in_turn, None


def lines_without_rows():
    yield "blank lines", repeated(b"\n"), None
    yield "comments", repeated(b"#\n"), None
    yield "lines of a space", repeated(b" \n"), None
    yield "lines of a CR", repeated(b"\r\n"), None
    yield "comments that are almost defaults", repeated(b"# @missing: 0000..10FFFF ID\n"), None
    yield "comments of 1,024 bytes", repeated(b"#" * 1024 + b"\n"), None


def rows_and_bytes():
    """As many rows and as many bytes as a file may have."""
    length = FILE_BYTES // ROWS - 1
    long_rows = (padded(row(17 * code, class_of(17 * code)), length) for code in shuffled_codes())
    yield "65,536 rows of 128 bytes, shuffled", long_rows, None
    steps = (padded(default(16 * k, 16 * k + 1000, class_of(k)), length) for k in reversed(range(ROWS)))
    yield "65,536 defaults of 128 bytes, in falling steps", steps, None
    yield "rows of 1,024 bytes", (padded(row(code, class_of(code)), 1024) for code in reversed(range(8184))), None
    yield "defaults of 1,024 bytes", (padded(default(k, 0x10FFFF, class_of(k)), 1024) for k in range(8184)), None


def faulty():
    shuffled = shuffled_codes()
    yield "one byte too many", repeated(b"\n", FILE_BYTES + 1), (0, "the file has more than 8388608 bytes")
    many = (65_537, "the file has more than 65536 rows and @missing lines")
    yield "one row too many", (row(code, class_of(code)) for code in reversed(range(ROWS + 1))), many
    yield "one default too many", (default(0, 0x10FFFF, class_of(k)) for k in range(ROWS + 1)), many
    overlap = (65_536, "the row overlaps an earlier row")
    yield "an overlap in the last row", [*(row(code, "AL") for code in shuffled[:-1]), row(shuffled[0], "AL")], overlap
    long = "the line has more than 1024 bytes"
    yield "one line of 8,388,608 bytes", repeated(b"#"), (1, long)
    yield "a long line behind 4,194,000 blank ones", [*repeated(b"\n", 4_194_000), b"#" * 1025], (4_194_001, long)
    unknown = "unknown property value; lbk knows those of Unicode 15.0 and earlier"
    lines = [*(row(code, "AL") for code in range(ROWS - 1)), row(ROWS, "A" * 1018)]
    yield "a name of 1,018 letters behind all rows", lines, (65_536, unknown)


def one_file(hostile, which, name, contents, fault):
    path = hostile.names[which]
    before = path.read_bytes()
    with open(path, "wb") as file:
        file.writelines(contents)
    status, err = 0, ""
    if fault is not None:
        status, err = 1, f"lbk: {path}: {fault[1]}" if fault[0] == 0 else f"lbk: {path}:{fault[0]}: {fault[1]}"
    for task in ("show", "mark"):
        ran, seconds = quickest(lambda task=task: Long(hostile.words(task), [(b"ab cd", 5)]), FILE_SECONDS)
        wrong = ran.fault(status, err)
        if wrong is None and (ran.bytes > 0) != (status == 0):
            wrong = f"it wrote {ran.front}"
        if wrong is None and seconds > FILE_SECONDS:
            wrong = f"more than {FILE_SECONDS} s"
        hostile.tally.tell(f"{task}, {path.name}, {path.stat().st_size} bytes, {name}: {seconds:.3f} s", wrong)
    path.write_bytes(before)


def tables():
    """The rows of four files, all over and shuffled."""
    codes = [17 * code for code in range(ROWS)]
    random.Random(15).shuffle(codes)
    letters = ["Ll", "Lu", "Lo", "Nd", "Pi", "Pf", "Mn", "Cn", "So"]
    return [
        [row(code, class_of(code)) for code in codes],
        [row(code, WIDTHS[code % len(WIDTHS)]) for code in codes],
        [row(code, letters[code % len(letters)]) for code in codes],
        [row(code, "Extended_Pictographic") for code in codes],
    ]


def run(hostile):
    for files in (rows(), pages_of_one_digest(), defaults(), lines_without_rows(), rows_and_bytes(), faulty()):
        for name, contents, fault in files:
            one_file(hostile, 0, name, contents, fault)
    of_all = tables()
    for which in (1, 2, 3):
        one_file(hostile, which, "rows all over, shuffled", of_all[which], None)
        one_file(hostile, which, "blank lines", repeated(b"\n"), None)
    steps = (default(16 * k, 16 * k + 1000, WIDTHS[k % len(WIDTHS)]) for k in reversed(range(ROWS)))
    one_file(hostile, 1, "defaults in falling steps", steps, None)
    one_file(hostile, 3, "rows that are not kept", repeated(b"0023;Emoji\n", FILE_BYTES // 11 * 11), None)
    beside_others(hostile, of_all)


def beside_others(hostile, of_all):
    """Four such files at once."""
    others = hostile.names[1:]
    for name, table in zip(others, of_all[1:]):
        name.write_bytes(b"".join(table))
    one_file(hostile, 0, "rows all over, shuffled, with three such files beside it", of_all[0], None)
    length = FILE_BYTES // ROWS - 1
    for name, table in zip(others, of_all[1:]):
        name.write_bytes(b"".join(padded(line, length) for line in table))
    lines = [padded(line, length) for line in of_all[0]]
    one_file(hostile, 0, "65,536 rows of 128 bytes, with three such files beside it", lines, None)
    for name in others:
        name.write_bytes(b"".join(repeated(b" \n")))
    one_file(hostile, 0, "lines of a space, with three such files beside it", repeated(b" \n"), None)
