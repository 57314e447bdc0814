"""The results of the calls."""

import enum
from array import array
from collections.abc import Iterable
from typing import Any, AnyStr, Generic, NamedTuple

from . import _calls
from ._numbers import Rule


class Kind(enum.IntEnum):
    """Whether a line may or must end at an offset. A break has MAY or MUST."""

    NO = _calls.LBK_NO
    MAY = _calls.LBK_MAY
    MUST = _calls.LBK_MUST


def _pickled(columns: tuple[Any, ...]) -> tuple[Any, ...]:
    """Pickles columns, with each memoryview as an array, because memoryviews cannot be pickled."""
    arrays = (array(one.format, one.tobytes()) if isinstance(one, memoryview) else one for one in columns)
    return _unpickled, (type(columns), *arrays)


def _unpickled(kind: type[Any], *arrays: Any) -> Any:
    return kind(*(memoryview(one) if isinstance(one, array) else one for one in arrays))


def _counted(columns: tuple[Any, ...], **counts: int) -> str:
    """What columns show of themselves: not their numbers, which may be millions, but how many there are."""
    told = ", ".join(f"{count:,} {name if count != 1 else name[:-1]}" for name, count in counts.items())
    return f"<lbk.{type(columns).__name__} of {told}>"


class Columns(NamedTuple):
    """The breaks of a text, in order: the k-th break has the k-th entry of each column."""

    places: memoryview
    """The offsets, as in `Break.at`: signed numbers of 8 bytes (format "q")."""
    kinds: bytearray
    """The numbers of `Kind`."""
    rules: bytearray
    """The numbers of `Rule`."""

    def __reduce__(self) -> tuple[Any, ...]:
        return _pickled(self)

    def __repr__(self) -> str:
        return _counted(self, breaks=len(self.places))


class ListColumns(NamedTuple):
    """The breaks of many texts, one text after the other. Those of `texts[k]` have the indices
    `offsets[k]` up to `offsets[k + 1]`, as in a list array of Apache Arrow."""

    offsets: memoryview
    """Numbers of format "q", one more than there are texts."""
    places: memoryview
    kinds: bytearray
    rules: bytearray

    def __reduce__(self) -> tuple[Any, ...]:
        return _pickled(self)

    def __repr__(self) -> str:
        return _counted(self, texts=len(self.offsets) - 1, breaks=len(self.places))


class WordColumns(NamedTuple):
    """The words of a text, in order: word k is the text from `starts[k]` up to `ends[k]`."""

    starts: memoryview
    """Numbers of format "q"."""
    ends: memoryview

    def __reduce__(self) -> tuple[Any, ...]:
        return _pickled(self)

    def __repr__(self) -> str:
        return _counted(self, words=len(self.starts))


class PassageColumns(NamedTuple):
    """The passages of a text, in order, as list arrays of Apache Arrow: numbers of format "q". The
    k-th has the segments `segment_offsets[k]` up to `segment_offsets[k + 1]` and the words
    `word_offsets[k]` up to `word_offsets[k + 1]`."""

    segment_offsets: memoryview
    places: memoryview
    """Segment `i` is the text from `places[i]` to `places[i + 1]`."""
    word_offsets: memoryview
    starts: memoryview
    """Word `j` is the text from `starts[j]` to `ends[j]`."""
    ends: memoryview

    def __reduce__(self) -> tuple[Any, ...]:
        return _pickled(self)

    def __repr__(self) -> str:
        return _counted(self, passages=len(self.segment_offsets) - 1, segments=len(self.places) - 1, words=len(self.starts))


class ChunkColumns(NamedTuple):
    """The chunks of a text, in order: the k-th chunk has the k-th entry of each column."""

    starts: memoryview
    """Numbers of format "q", as in `Chunk.start`."""
    ends: memoryview
    words: memoryview
    kinds: bytearray
    """The numbers of `Kind`."""
    rules: bytearray
    """The numbers of `Rule`."""
    alone: bytearray
    """1 for each chunk that exceeds the limits, else 0."""

    def __reduce__(self) -> tuple[Any, ...]:
        return _pickled(self)

    def __repr__(self) -> str:
        return _counted(self, chunks=len(self.starts))


class Chunk(NamedTuple, Generic[AnyStr]):
    """A part of a text that ends at a break outside words."""

    start: int
    """Its offset, in code points of a `str` or in bytes."""
    end: int
    """The offset of its end."""
    text: AnyStr
    words: int
    """The number of its words (UAX #29)."""
    kind: Kind
    """Whether a line may or must end at its end."""
    rule: Rule
    """The rule of UAX #14 that decided there."""
    alone: bool
    """Whether it exceeds the limits, because it has no cut within them."""


class Passage(NamedTuple, Generic[AnyStr]):
    """A paragraph with its line end: a part of a text up to a required break."""

    start: int
    """Its offset, in code points of a `str` or in bytes."""
    text: AnyStr
    segments: list[AnyStr]
    """The passage cut at each of its breaks."""
    words: list[AnyStr]
    """Its words (UAX #29): each part between word boundaries that has a letter or a number."""


def _members(numbers: Iterable[int]) -> tuple[int, ...]:
    """The member of each number from 0 to 255, or else the number itself."""
    members = {int(number): number for number in numbers}
    return tuple(members.get(number, number) for number in range(256))


_calls.name_numbers(_members(Kind), _members(Rule))
