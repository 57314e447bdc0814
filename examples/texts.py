#!/usr/bin/env python3
"""Breaks, segments, columns and words of texts."""

import lbk
from lbk import Break, Kind, Rule

# Offsets count code points of a str, and bytes of a bytes object.
assert list(lbk.segments("naïve text")) == ["naïve ", "text"]
first, last = lbk.breaks("naïve text")
assert (first, last) == (Break(6, Kind.MAY, Rule.LB18), Break(10, Kind.MUST, Rule.LB3))
assert [found.at for found in lbk.breaks("naïve text".encode())] == [7, 11]

# All breaks at once, as columns of numbers that numpy takes without copying.
places, kinds, rules = lbk.break_columns("one two\nthree")
assert places.tolist() == [4, 8, 13]
assert kinds.count(Kind.MUST) == 2

# Many texts in one call: the breaks of the second are at the indices offsets[1] to offsets[2].
offsets, places, kinds, rules = lbk.break_list_columns(["one two", "a b c"])
assert places[offsets[1] : offsets[2]].tolist() == [2, 4, 5]

# A text that arrives in pieces of any size, for example from a socket.
stream = lbk.Stream()
assert stream.feed("one t") == [Break(4, Kind.MAY, Rule.LB18)]
assert stream.finish("wo") == [Break(7, Kind.MUST, Rule.LB3)]

# Words, and paragraphs with their segments and words.
assert list(lbk.words("Can't we?")) == ["Can't", "we"]
first, second = lbk.passages("one two\nthree")
assert (first.segments, first.words, second.start) == (["one ", "two\n"], ["one", "two"], 8)
