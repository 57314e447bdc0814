"""Texts that arrive in pieces."""

from collections.abc import Iterable, Iterator
from typing import Any, Self

from . import _calls
from ._calls import Break
from ._table import Table, Text


class Stream:
    """The breaks of a text that arrives in pieces of any size, for example from a socket:

        stream = lbk.Stream()
        while piece := socket.recv(4096):
            for found in stream.feed(piece): ...
        for found in stream.finish(): ...

    However the text is cut, the breaks are those of the whole text, each once, with offsets from
    the start of the stream. The pieces are all `str`, or all bytes, and may end inside a character.
    A stream keeps no earlier piece. Copy or pickle it to come back to an offset. Only one thread
    may feed it at a time. Without a table it uses the built-in one.
    """

    __slots__ = ("_table", "_state", "_is_str", "_ended")

    def __init__(self, table: "Table | None" = None, profile: int = 1) -> None:
        if not isinstance(table, (Table, type(None))):
            raise TypeError(f"a Table is required, not {type(table).__name__!r}")
        self._table = table or Table.unicode()
        self._state = _calls.new_stream(profile)
        self._is_str: bool | None = None
        self._ended = False

    def feed(self, piece: Text) -> list[Break]:
        """Takes the next piece, which may be empty, and returns the breaks that it settles. A break
        is settled once the character after it has arrived; with profile 2 one break before a
        quotation mark may wait for more.

        Raises TypeError if some pieces are `str` and others bytes, and ValueError after the end.
        """
        return self._take(piece, False)

    def finish(self, piece: "Text | None" = None) -> list[Break]:
        """Takes the last piece, if there is one, and returns the breaks that are left. The last one
        is the end of the text."""
        if piece is None:
            piece = "" if self._is_str else b""
        return self._take(piece, True)

    def breaks(self, pieces: Iterable[Text]) -> Iterator[Break]:
        """The breaks of all pieces, each as soon as it is settled."""
        for piece in pieces:
            yield from self.feed(piece)
        yield from self.finish()

    def _take(self, piece: Text, is_last: bool) -> list[Break]:
        if self._ended:
            raise ValueError("the stream has ended")
        is_str = isinstance(piece, str)
        if self._is_str is not None and is_str != self._is_str:
            raise TypeError("all pieces of a stream must be str, or all must be bytes-like")
        found = _calls.feed(self._table._memory, self._state, piece, is_last)
        self._is_str, self._ended = is_str, is_last
        return found

    def __copy__(self) -> Self:
        same = object.__new__(type(self))
        same.__setstate__(self.__getstate__())
        return same

    def __getstate__(self) -> tuple[Any, ...]:
        return self._table, bytes(self._state), self._is_str, self._ended

    def __setstate__(self, state: tuple[Any, ...]) -> None:
        self._table, data, self._is_str, self._ended = state
        self._state = bytearray(data)
