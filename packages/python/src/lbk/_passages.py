"""Passages of a text."""

import contextlib
import copy
import threading
from collections.abc import Iterator
from typing import Any

from . import _calls
from ._calls import Break
from ._results import Kind, Passage


class Passages(Iterator[Passage[Any]]):
    """An iterator over the passages of a text, from its breaks."""

    def __init__(self, breaks: Iterator[Break], text: Any) -> None:
        self._breaks, self._text = breaks, text
        self._start = self._last = 0
        self._segments: list[Any] = []
        self._turn = threading.Lock()

    @contextlib.contextmanager
    def _alone(self) -> Iterator[None]:
        if not self._turn.acquire(blocking=False):
            raise ValueError(_calls.SHARED)
        try:
            yield
        finally:
            self._turn.release()

    def __next__(self) -> Passage[Any]:
        with self._alone():
            for found in self._breaks:
                self._segments.append(self._text[self._last : found.at])
                self._last = found.at
                if found.kind is Kind.MUST:
                    passage = self._text[self._start : self._last]
                    words = list(_calls.Found.of(None, passage, 1, _calls.WORDS))
                    made = Passage(self._start, passage, self._segments, words)
                    self._start, self._segments = self._last, []
                    return made
        raise StopIteration

    def __copy__(self) -> "Passages":
        with self._alone():
            same = Passages(copy.copy(self._breaks), self._text)
            same._start, same._last, same._segments = self._start, self._last, [*self._segments]
        return same

    def __reduce__(self) -> tuple[Any, ...]:
        return iter, (list(copy.copy(self)),)
