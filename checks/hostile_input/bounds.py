"""The bounds of the hostile runs, and how two lengths of an input are compared."""

from pathlib import Path

from checks.program import ANY, MIB, Long
from checks.unicode_files import options

# The greatest ratio of times for four times the input. Linear work has 4, quadratic work 16.
MOST_TIMES = 8.0
TOO_SLOW = f"more than {MOST_TIMES:.0f} times the time"
# A shorter time than this, in seconds, is taken as this.
LEAST_SECONDS = 0.05
# What a run over a stream may take of memory, the program's own included: less than each longer stream has bytes, or
# than is written of it.
STREAM_MEMORY = 16 * MIB
# By so much may the memory that a stream takes differ from what its quarter takes.
MOST_MORE = MIB // 4
LIMIT = 16_777_216

LINE_BREAK = b"""\
# @missing: 0000..10FFFF; XX
000A;LF
000D;CR
0020;SP
0022;QU
0028;OP
0029;CP
002C;IS
002D;HY
0030..0039;NU
0041..005A;AL
0061..007A;AL
0085;NL
200D;ZWJ
2018..2019;QU
0300..036F;CM
05D0..05EA;HL
1F1E6..1F1FF;RI
1F466..1F478;EB
"""

CATEGORY = b"""\
0030..0039;Nd
0041..005A;Lu
0061..007A;Ll
05D0..05EA;Lo
2018;Pi
2019;Pf
"""


class Hostile:
    """A program, and four property files in a folder."""

    def __init__(self, tally, program, folder):
        self.tally, self.program = tally, program
        self.names = [Path(folder) / name for name in ("line-break", "east-asian", "category", "emoji")]
        for name, contents in zip(self.names, (LINE_BREAK, b"", CATEGORY, b"")):
            name.write_bytes(contents)

    def words(self, task, *more):
        return [self.program, task, *options(self.names), *more]

    def grows(self, what, words, parts_of, length, fits, memory=ANY):
        """Runs over an input of some length and of four times that, in so much memory, and compares the times and,
        where it is bounded, the memory. `fits` says what is wrong with a run over a length, if anything is."""
        small, great, is_slow = side_by_side(lambda size: Long(words, parts_of(size), memory), length)
        fault = fits(small, length) or fits(great, 4 * length)
        if fault is None and is_slow:
            fault = TOO_SLOW
        more = great.peak - small.peak
        if fault is None and memory != ANY and more > MOST_MORE:
            fault = f"{more} bytes of memory more for the longer stream"
        within = "" if memory == ANY else f", in {memory // MIB} MiB"
        self.tally.tell(f"{what}: {small.seconds:.2f} s of {length} bytes, {great.seconds:.2f} s of {4 * length}{within}", fault)


def side_by_side(run, size):
    """Runs of a size and of four times that, and whether the greater took too many times the time. Where it did, both
    are made again, twice at most: the machine may have become slower between them."""
    for _ in range(3):
        small, great = run(size), run(4 * size)
        is_slow = great.seconds > MOST_TIMES * max(small.seconds, LEAST_SECONDS)
        if not is_slow:
            break
    return small, great, is_slow


def quickest(run, enough):
    """The run again, twice at most, while it takes more than is enough, and the least seconds."""
    last = run()
    least = last.seconds
    for _ in range(2):
        if least <= enough:
            break
        last = run()
        least = min(least, last.seconds)
    return last, least
