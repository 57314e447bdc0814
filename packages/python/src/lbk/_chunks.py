"""Chunks of a text."""

import copy
import mmap
import sys
from collections.abc import Iterator
from operator import index
from typing import Any, Literal, TypeAlias

from ._numbers import Rule
from ._results import Chunk, ChunkColumns, Kind

Unit: TypeAlias = 'Literal["bytes"] | None'
Limits: TypeAlias = "tuple[int, int, int, int]"


def limits_of(most: int, words: "int | None", least: "int | None", overlap: int) -> Limits:
    """The limits as numbers, with 0 for any number of words. Raises ValueError for a limit that is
    out of range."""
    most, overlap = index(most), index(overlap)
    least = most // 2 if least is None else index(least)
    if most < 1:
        raise ValueError(f"most must be 1 or more, not {most}")
    if words is not None and index(words) < 1:
        raise ValueError(f"words must be 1 or more, or None, not {words}")
    if not 0 <= least <= most:
        raise ValueError(f"least must be from 0 to most ({most}), not {least}")
    if not 0 <= overlap <= most // 2:
        raise ValueError(f"overlap must be from 0 to half of most ({most}), not {overlap}")
    # (no text is larger)
    largest = sys.maxsize
    at_most = 0 if words is None else min(index(words), largest)
    return min(most, largest), at_most, min(least, largest), min(overlap, largest // 2)


def is_in_bytes(unit: Unit) -> bool:
    if unit not in (None, "bytes"):
        raise ValueError(f"unit must be None or 'bytes', not {unit!r}")
    return unit is not None


class Chunks(Iterator[Chunk[Any]]):
    """An iterator over the chunks of a text, from their columns."""

    def __init__(self, columns: ChunkColumns, text: Any) -> None:
        # Slices of a str, of bytes or of a mapped file are str or bytes.
        self._columns, self._text = columns, text if isinstance(text, (str, bytes, mmap.mmap)) else bytes(text)
        self._numbers = iter(range(len(columns.starts)))

    def __next__(self) -> Chunk[Any]:
        k = next(self._numbers)
        start, end, words, kind, rule, alone = (column[k] for column in self._columns)
        return Chunk(start, end, self._text[start:end], words, Kind(kind), Rule(rule), bool(alone))

    def __copy__(self) -> "Chunks":
        same = Chunks(self._columns, self._text)
        same._numbers = copy.copy(self._numbers)
        return same

    def __reduce__(self) -> tuple[Any, ...]:
        return iter, (list(copy.copy(self)),)
