"""Streams: the program holds one line or one paragraph at a time."""

from checks.hostile_input.bounds import STREAM_MEMORY
from checks.hostile_input.sizes import nothing

SCALARS = "× 0061 ÷ 0061 ÷\n".encode()
WORDS = b"aaaaaaaaa " * 100 + b"\n"
LONG_WORDS = b"aaaaaaaaa " * 6_500 + b"\n"  # more than a read takes, and less than the limit
MARK = len("÷".encode())
# A range begins here, after all of a stream.
FROM = "1000000000"

STREAMS = [
    # task, name, line or paragraph, how often it is repeated at first, status, end of the output by the number of
    # repeats
    ("replay", "lines `#`", b"#\n", 1_000_000, 0, lambda n: b"T 0 0 0 0\n"),
    ("replay", "lines `#`", b"#\n", 4_000_000, 0, lambda n: b"T 0 0 0 0\n"),
    ("replay", "empty lines", b"\n", 8_000_000, 0, lambda n: b"T 0 0 0 0\n"),
    ("replay", "bad lines", b"x\n", 1_000_000, 3, lambda n: b"R %d 0\nT %d 0 0 %d\n" % (n, n, n)),
    ("replay", "differing lines", SCALARS, 250_000, 3, lambda n: "D {0} 1 ÷ × 28\nT {0} 0 {0} 0\n".format(n).encode()),
    ("show", "empty paragraphs", b"\n", 1_000_000, 0, lambda n: "× 000A !\t# 2 3\n".encode()),
    ("show", "paragraphs of 1,001 bytes", WORDS, 5_000, 0, lambda n: b" 7 6 3\n"),
    ("mark", "empty paragraphs", b"\n", 1_000_000, 0, lambda n: b"\n"),
    ("mark", "paragraphs of 1,001 bytes", WORDS, 5_000, 0, lambda n: "÷aaaaaaaaa \n".encode()),
    ("mark", "paragraphs of 65,001 bytes", LONG_WORDS, 150, 0, lambda n: "÷aaaaaaaaa \n".encode()),
    ("segment", "empty paragraphs", b"\n", 1_000_000, 0, lambda n: b"P %d %d\nS %d %d Must 3\n" % (n - 1, n, n - 1, n)),
    ("segment", "paragraphs of 1,001 bytes", WORDS, 5_000, 0, lambda n: b"W %d %d\n" % (1001 * n - 11, 1001 * n - 2)),
]


def marked_bytes(line, count):
    """How many bytes `mark` writes of so many of these paragraphs: a mark before each word but the first."""
    words = line.count(b" ")
    return count * (len(line) + MARK * max(words - 1, 0))


def passed_over(hostile):
    """Paragraphs before a range, without output."""
    for name, line, often in (("empty paragraphs", b"\n", 4_000_000), ("paragraphs of 65,001 bytes", LONG_WORDS, 300)):
        of = lambda length, line=line: [(line, length)]
        words = hostile.words("mark", "--from", FROM)
        fits = lambda ran, _length: ran.fault(0) or nothing(ran)
        hostile.grows(f"mark, {name} before a range", words, of, often * len(line), fits, STREAM_MEMORY)


def run(hostile):
    passed_over(hostile)
    for task, name, line, often, status, last in STREAMS:
        for more in ([], ["--profile", "2"]):
            if task == "replay" and more and line != SCALARS:
                continue

            def fits(ran, length, task=task, line=line, status=status, last=last):
                count = length // len(line)
                if task == "mark" and ran.bytes != marked_bytes(line, count):
                    return ran.fault(status) or f"it wrote {ran.bytes} bytes, not {marked_bytes(line, count)}"
                return ran.fault(status) or (None if ran.end.endswith(last(count)) else f"it wrote {ran.end[-60:]}")

            what = " ".join([task, *more]) + f", {name}"
            of = lambda length, line=line: [(line, length)]
            hostile.grows(what, hostile.words(task, *more), of, often * len(line), fits, STREAM_MEMORY)
