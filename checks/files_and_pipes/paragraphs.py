"""Paragraphs of many sizes in one stream, and each size up to the limit in bytes."""

from checks.files_and_pipes.place import LIMIT, words_of


def sizes(most):
    """Sizes between each power of two and the next, as a linear congruence draws them, and the greatest."""
    drawn, chance, power = [], 14, 1
    while power < most:
        for _ in range(2):
            chance = (chance * 1_664_525 + 1_013_904_223) % 2**32
            size = power + (chance >> 8) % power
            if size < most:
                drawn.append(size)
        power *= 2
    return drawn + [most]


def show_line(pairs, last):
    """What is shown of so many letters with a space each and a line end, which ends the text or not."""
    marks = "× 0061" + " × 0020 ÷ 0061" * (pairs - 1) + " × 0020 × 000A !"
    return marks + "\t# 2" + " 7 18" * (pairs - 1) + f" 7 6 {3 if last else 5}\n"


def segment_lines(start, pairs, last):
    end = start + 2 * pairs + 1
    yield f"P {start} {end}\n"
    yield from (f"S {at} {at + 2} May 18\n" for at in range(start, end - 3, 2))
    yield f"S {end - 3} {end} Must {3 if last else 5}\n"
    yield from (f"W {at} {at + 1}\n" for at in range(start, end - 1, 2))


def mark_line(pairs):
    return "a ÷".encode() * (pairs - 1) + b"a \n"


def run(place):
    greatest = ["--limit", str(LIMIT)]
    drawn = sizes(LIMIT // 2 - 1)
    text = b"".join(b"a " * pairs + b"\n" for pairs in drawn)
    out = "".join(show_line(pairs, k + 1 == len(drawn)) for k, pairs in enumerate(drawn)).encode()
    place.row(f"show: paragraphs of {len(drawn)} sizes", words_of("show", more=greatest), text, 0, out)
    out = b"".join(map(mark_line, drawn))
    place.row(f"mark: paragraphs of {len(drawn)} sizes", words_of("mark", more=greatest), text, 0, out)
    of_segments(place, greatest)
    of_bytes(place, greatest)


def of_segments(place, greatest):
    drawn = sizes(1_000_000)
    starts = [sum(2 * pairs + 1 for pairs in drawn[:k]) for k in range(len(drawn))]
    text = b"".join(b"a " * pairs + b"\n" for pairs in drawn)
    lines = (segment_lines(start, pairs, k + 1 == len(drawn)) for k, (start, pairs) in enumerate(zip(starts, drawn)))
    out = "".join(line for part in lines for line in part).encode()
    place.row(f"segment: paragraphs of {len(drawn)} numbers of segments", words_of("segment", more=greatest), text, 0,
        out)


def of_bytes(place, greatest):
    drawn = sizes(LIMIT)
    text = b"".join(b"a" * (size - 1) + b"\n" for size in drawn)
    out, start = b"", 0
    for k, size in enumerate(drawn):
        end, rule = start + size, 3 if k + 1 == len(drawn) else 5
        out += b"P %d %d\nS %d %d Must %d\n" % (start, end, start, end, rule)
        out += b"W %d %d\n" % (start, end - 1) if size > 1 else b""
        start = end
    place.row(f"segment: paragraphs of {len(drawn)} sizes in bytes", words_of("segment", more=greatest), text, 0, out)
    place.row(f"mark: paragraphs of {len(drawn)} sizes in bytes", words_of("mark", more=greatest), text, 0, text)
