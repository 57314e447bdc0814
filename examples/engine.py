#!/usr/bin/env python3
"""How a text engine uses breaks: for lines of its own width, after an edit, and for a text that arrives in pieces.

It tries each way on random texts, and compares the breaks with those of the whole text, asked for at once.
"""

import random
import sys

import lbk
from lbk import Break, Kind, Stream


def lines(text, width):
    """The text in lines of at most `width` code points, without spaces at the end, if the breaks allow it."""
    start = fits = 0
    for found in lbk.breaks(text):
        if fits > start and len(text[start : found.at].rstrip(" \n")) > width:
            yield text[start:fits]
            start = fits
        fits = found.at
        if found.kind is Kind.MUST:
            yield text[start:fits]
            start = fits


def moved(found, by):
    return Break(found.at + by, found.kind, found.rule)


def after_edit(old, breaks, at, removed, inserted):
    """The text `old`, of bytes, with its breaks, after `removed` bytes from `at` on were replaced: the new text, its
    breaks, and how many of them had to be found again.

    Nothing changes up to the last required break before the edit, except one directly at it, because a CR may precede
    it. After the edit, nothing changes from the first offset on that was a required break and is one again.
    """
    new = old[:at] + inserted + old[at + removed :]
    by = len(inserted) - removed
    kept = next((k + 1 for k in reversed(range(len(breaks))) if breaks[k].at < at and breaks[k].kind is Kind.MUST), 0)
    start = breaks[kept - 1].at if kept else 0
    musts = {found.at: k for k, found in enumerate(breaks) if found.kind is Kind.MUST}
    asked = []
    for found in lbk.breaks(new[start:]):
        asked.append(moved(found, start))
        place = asked[-1].at
        if found.kind is Kind.MUST and place >= at + len(inserted) and place - by in musts and place < len(new):
            rest = breaks[musts[place - by] + 1 :]
            return new, breaks[:kept] + asked + [moved(old_one, by) for old_one in rest], len(asked)
    return new, breaks[:kept] + asked, len(asked)


def main():
    chance = random.Random(1)
    pieces = ["ab", " ", "  ", ", ", "\n", "\r", "\r\n", "\u2028", "(", ")", "«", "»", "一", "。", "\u0301", "12", "%",
        "-", "\u200d"]
    failed = asked_in_all = breaks_in_all = 0
    for _ in range(2000):
        text = "".join(chance.choices(pieces, k=chance.randrange(60)))
        data = text.encode()
        whole = list(lbk.breaks(data))

        wrapped = list(lines(text, 10))
        failed += "".join(wrapped) != text
        ends = {found.at for found in lbk.breaks(text)}
        failed += any(len(line.rstrip(" \n")) > 10 and has_break_inside(line, start, ends)
            for start, line in starts(wrapped))

        places = sorted(chance.choices(range(len(data) + 1), k=4))
        parts = [data[a:b] for a, b in zip([0, *places], [*places, len(data)])]
        failed += list(Stream().breaks(parts)) != whole

        at = chance.randrange(len(text) + 1)
        removed = text[at : at + chance.randrange(4)].encode()
        inserted = "".join(chance.choices(pieces, k=chance.randrange(3))).encode()
        new, breaks, asked = after_edit(data, whole, len(text[:at].encode()), len(removed), inserted)
        failed += breaks != list(lbk.breaks(new))
        asked_in_all += asked
        breaks_in_all += len(breaks)
    print(f"after the edits {asked_in_all} of {breaks_in_all} breaks were asked for")
    print(f"{'FAILED' if failed else 'ok'}: {failed} of 8000 differ")
    return failed != 0


def starts(wrapped):
    start = 0
    for line in wrapped:
        yield start, line
        start += len(line)


def has_break_inside(line, start, ends):
    return any(place in ends for place in range(start + 1, start + len(line)))


if __name__ == "__main__":
    sys.exit(main())
