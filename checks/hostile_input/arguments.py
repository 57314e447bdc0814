"""As many arguments as the system allows, and texts that are all refused."""

from checks.hostile_input.bounds import TOO_SLOW, side_by_side
from checks.program import Long
from checks.unicode_files import options

FEW = 20_000
FEW_TEXTS = 2_500
MOST_SECONDS = 1.0  # for four times as many


def compared(hostile, what, words, word, few, status):
    """Runs over so many of a word and over four times as many, and returns the second."""
    small, great, is_slow = side_by_side(lambda count: Long([*words, *[word] * count], []), few)
    fault = None if (small.status, great.status) == (status,
        status) else f"status {small.status} and {great.status}, not {status}"
    if fault is None and is_slow:
        fault = TOO_SLOW
    hostile.tally.tell(f"{what} {word}: {small.seconds:.2f} s of {few}, {great.seconds:.2f} s of {4 * few}", fault)
    return great


def refused_texts(hostile):
    """A text that is refused costs no more where others are."""
    folder = hostile.names[0].parent
    (folder / "bad").write_bytes(b"\xff")
    words = [hostile.program, "mark", *options(hostile.names)]
    for name in ("none", "bad"):
        ended = compared(hostile, "mark, refused texts", words, str(folder / name), FEW_TEXTS, 1)
        fault = None if ended.seconds < MOST_SECONDS else f"more than {MOST_SECONDS:.0f} s"
        hostile.tally.tell(f"mark, {4 * FEW_TEXTS} refused texts {name}: {ended.seconds:.2f} s", fault)


def run(hostile):
    for word in ("x", "--kinds", "--kindx"):
        compared(hostile, "replay, arguments", [hostile.program, "replay"], word, FEW, 2)
    refused_texts(hostile)
