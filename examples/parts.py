#!/usr/bin/env python3
"""Breaks of texts in parts, for GNU parallel:

    parts.py plan BYTES FILE..        writes the range of each part, as lines `START END FILE`
    parts.py count RANGE..            writes how many breaks the ranges have; each range is a line as above

A part has so many BYTES and what is left of the paragraph there.
"""

import mmap
import os
import sys

from lbk import Table


def plan(size, path, table=Table.unicode()):
    """The ranges of a file's parts."""
    whole = os.path.getsize(path)
    start = 0
    if whole == 0:
        return
    with open(path, "rb") as file, mmap.mmap(file.fileno(), 0, access=mmap.ACCESS_READ) as text:
        while start < whole:
            end = table.cut(text, min(whole, start + size))
            yield start, end
            start = end


def columns(path, start, end, table=Table.unicode()):
    """The breaks of a part, in columns."""
    with open(path, "rb") as file:
        file.seek(start)
        return table.break_columns(file.read(end - start), goes_on=end < os.path.getsize(path), start=start)


def main():
    if len(sys.argv) < 3 or sys.argv[1] not in ("plan", "count"):
        sys.exit(__doc__)
    if sys.argv[1] == "plan":
        for path in sys.argv[3:]:
            for start, end in plan(int(sys.argv[2]), path):
                print(start, end, path)
        return
    found = 0
    for line in sys.argv[2:]:
        start, end, path = line.split(" ", 2)
        found += len(columns(path, int(start), int(end))[0])
    print(found)


if __name__ == "__main__":
    main()
