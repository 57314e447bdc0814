#!/usr/bin/env python3
"""Writes the segments of a text between its breaks, as `lbk segment` does: `S start end kind rule` for each.

    breaks.py [PROFILE] < TEXT
"""

import sys

import lbk


def main():
    profile = 2 if sys.argv[1:] == ["2"] else 1
    start = 0
    for found in lbk.breaks(sys.stdin.buffer.read(), profile):
        print("S", start, found.at, found.kind.name.title(), found.rule.label)
        start = found.at


main()
