"""Line breaks by UAX #14, the Unicode Line Breaking Algorithm: where a line may end, and must.

    >>> list(lbk.segments("naïve text"))
    ['naïve ', 'text']
    >>> next(lbk.breaks("naïve text"))
    Break(at=6, kind=<Kind.MAY: 1>, rule=<Rule.LB18: 144>)

The functions are the calls of the built-in table, `Table.unicode()`, and documented there. Any
number of threads may use them at the same time.
"""

from ._calls import UNICODE_VERSION, WORDS_UNICODE_VERSION, Break
from ._calls import VERSION as __version__
from ._fault import Fault
from ._numbers import Cause, File, Rule
from ._results import Chunk, ChunkColumns, Columns, Kind, ListColumns, Passage, PassageColumns, WordColumns
from ._stream import Stream
from ._table import Table

__all__ = [
    "UNICODE_VERSION", "WORDS_UNICODE_VERSION", "Break", "Cause", "Chunk", "ChunkColumns", "Columns", "Fault", "File",
    "Kind", "ListColumns", "Passage", "PassageColumns", "Rule", "Stream", "Table", "WordColumns", "__version__",
    "break_columns", "break_list_columns", "breaks", "chunk_columns", "chunks", "class_of", "cut", "cut_before",
    "passage_columns", "passages", "positions", "safe_break", "segments", "word_columns", "word_ranges", "words",
]

_table = Table.unicode()
breaks, positions, segments, words, word_ranges = (
    _table.breaks, _table.positions, _table.segments, _table.words, _table.word_ranges)
passages, chunks, class_of = _table.passages, _table.chunks, _table.class_of
break_columns, break_list_columns, word_columns = (
    _table.break_columns, _table.break_list_columns, _table.word_columns)
passage_columns, chunk_columns = _table.passage_columns, _table.chunk_columns
cut, cut_before, safe_break = _table.cut, _table.cut_before, _table.safe_break

# Users, and what they pickle, know these by their public names.
for _public in (
    Cause, Chunk, ChunkColumns, Columns, Fault, File, Kind, ListColumns, Passage, PassageColumns, Rule, Stream, Table,
    WordColumns,
):
    _public.__module__ = __name__
