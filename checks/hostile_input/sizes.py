"""The greatest sizes, and one byte more."""

from checks.hostile_input.bounds import LIMIT
from checks.program import MIB, Long

# What a run over one line may take: room for the longest line, and not for its double, which is what it would grow to.
LINE_MEMORY = 400 * MIB
# What a run over a text of the greatest length may take.
TEXT_MEMORY = 64 * MIB
LONGEST_LINE = 268_435_456
LONGEST_STREAM = 1_073_741_824
RAISE = f"; --limit allows up to {LIMIT}"
TOO_LONG = f"lbk: standard input: more than {LONGEST_STREAM} bytes"


def wrote(ran, text):
    return None if ran.front == text[:200] else f"it wrote {ran.front[:60]}"


def nothing(ran):
    return f"it wrote {ran.front[:60]}" if ran.bytes else None


def limits(hostile):
    """A paragraph of the limit's bytes, and one of a byte more, for the greatest limit and others."""
    for limit in (1, 1000, 65_536, 1_048_577, 12_345_678, LIMIT):
        for task, out in (
            ("segment", b"P 0 %d\nS 0 %d Must 3\nW 0 %d\n" % (limit, limit, limit)),
            # (a text that ends without a line end gets one)
            ("mark", b"a" * limit + b"\n"),
        ):
            words = hostile.words(task, "--limit", str(limit))
            ran = Long(words, [(b"a", limit)])
            fault = ran.fault(0) or wrote(ran, out)
            if fault is None and task == "mark" and ran.bytes != limit + 1:
                fault = f"it wrote {ran.bytes} bytes"
            hostile.tally.tell(f"{task} of {limit} bytes at that limit: {ran.seconds:.2f} s", fault)
            ran = Long(words, [(b"a", limit + 1)])
            more = ", the greatest limit" if limit == LIMIT else RAISE
            err = f"lbk: standard input: byte 0: the paragraph that starts here has more than {limit} bytes{more}"
            hostile.tally.tell(f"{task} of {limit + 1} bytes at the limit {limit}", ran.fault(1, err) or nothing(ran))


def lines(hostile):
    for length, status, text in (
        (LONGEST_LINE, 0, b"T 0 0 0 0\n"),
        (LONGEST_LINE + 1, 3, b"R 1 long\nT 1 0 0 1\n"),
        (LONGEST_STREAM, 3, b"R 1 long\nT 1 0 0 1\n"),
    ):
        ran = Long(hostile.words("replay"), [(b"#", length)], LINE_MEMORY)
        what = f"replay of a line of {length} bytes: {ran.seconds:.2f} s, in {LINE_MEMORY // MIB} MiB"
        hostile.tally.tell(what, ran.fault(status) or wrote(ran, text))
    # What follows a line that is too long is read as ever.
    after = "\n× 0061 × 0062 ÷\n× 0061 ÷ 0062 ÷\n".encode()
    ran = Long(hostile.words("replay"), [(b"#", LONGEST_LINE + 1), (after, len(after))], LINE_MEMORY)
    fault = ran.fault(3) or wrote(ran, "R 1 long\nD 3 1 ÷ × 28\nT 3 1 1 1\n".encode())
    hostile.tally.tell(f"replay of lines after one of {LONGEST_LINE + 1} bytes: {ran.seconds:.2f} s", fault)


def streams(hostile):
    ran = Long(hostile.words("replay"), [(b"\n", LONGEST_STREAM + 1)])
    fault = ran.fault(1, TOO_LONG) or nothing(ran)
    hostile.tally.tell(f"replay of {LONGEST_STREAM + 1} bytes LF: {ran.seconds:.2f} s", fault)
    # Scalars of four bytes, and two line ends, so that a part has 2^20 bytes.
    part = ("\U000e0100" * (MIB // 4 - 1) + "\r\n\r\n").encode()
    # The last CR LF is not returned, because no scalar after it is within the greatest length.
    first, end = LONGEST_STREAM - MIB, LONGEST_STREAM - 2
    for task, last, size in (
        ("segment", b"P %d %d\nS %d %d Must 5\n" % (first, end, first, end), None),
        ("mark", part[-40:-2], end),
    ):
        words = hostile.words(task, "--limit", str(LIMIT))
        ran = Long(words, [(part, LONGEST_STREAM), (b"a", 1)], TEXT_MEMORY)
        fault = ran.fault(1, TOO_LONG)
        if fault is None and not (ran.end.endswith(last) and size in (None, ran.bytes)):
            fault = f"it wrote {ran.bytes} bytes, at the end {ran.end[-60:]}"
        what = f"{task} of a text of {LONGEST_STREAM + 1} bytes: {ran.seconds:.2f} s, in {TEXT_MEMORY // MIB} MiB"
        hostile.tally.tell(what, fault)


def run(hostile):
    limits(hostile)
    lines(hostile)
    streams(hostile)
