"""Faults at offsets of more than 16 bits, and more than 24."""

from checks.files_and_pipes.place import LIMIT, words_of


def segments(rows):
    return b"".join(b"P %d %d\nS %d %d Must 5\nW %d %d\n" % (k, k + 2, k, k + 2, k, k + 1)
        for k in range(0, 2 * rows, 2))


def run(place):
    for lines in (40_000, 600_000, 9_000_000):
        text, at = b"a\n" * lines, 2 * lines
        too_long = f"byte {at}: the paragraph that starts here has more than 65536 bytes; --limit allows up to {LIMIT}"
        # The last paragraph is given only once the scalar after it is there.
        for ending, rows, err in (
            (b"\xff", lines - 1, f"byte {at}: invalid UTF-8"),
            (b"a\x80", lines, f"byte {at + 1}: invalid UTF-8"),
            (b"a" * 65_537, lines, too_long),
        ):
            err = f"lbk: standard input: {err}\n".encode()
            what = err.decode().strip()[:40]
            out = "× 0061 × 000A !\t# 2 6 5\n".encode() * rows
            place.row(f"show: {what}", words_of("show"), text + ending, 1, out, err)
            place.row(f"mark: {what}", words_of("mark"), text + ending, 1, b"a\n" * rows, err)
            if lines <= 600_000:
                place.row(f"segment: {what}", words_of("segment"), text + ending, 1, segments(rows), err)
