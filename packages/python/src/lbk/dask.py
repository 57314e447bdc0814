"""Texts larger than a machine, by Dask. It needs the extra `lbk[dask]`.

    >>> import lbk.dask
    >>> lbk.dask.save(lbk.dask.read_columns("/shared/corpus/*.txt"), "/shared/breaks").compute()

Each file is a text. It is cut into parts at required breaks (`Table.cut`). Each task gets the name
and the range of a part, reads the part itself, and keeps the result where it is, because moving
texts or breaks costs more than finding them. Tasks are pure: if one runs again because its worker
died, it returns and saves the same result under the same name.

The calls use the built-in table, which is passed as its version of Unicode: a worker with another
version raises a ValueError. For a table of your own, pass the name that `share` or `broadcast`
returned as `table`; each process maps it once.

The breaks of all parts of a file, joined, are those of the file: each task says whether the file
goes on after its part (`goes_on` of `Table.break_columns`). That is the law of joined texts
(`joined_parts`), proved for any number of parts of any bytes.
"""

# Only some versions of the imported packages have types.
# mypy: disable-error-code="import", allow-subclassing-any, allow-untyped-calls

import os
from collections.abc import Callable, Iterable
from pathlib import Path
from typing import Any, Literal

from dask.bag.core import Bag, from_sequence
from dask.base import tokenize
from dask.highlevelgraph import HighLevelGraph
from dask.utils import parse_bytes

from ._calls import UNICODE_VERSION
from ._chunks import Limits, Unit, is_in_bytes, limits_of
from ._parts import Errors, Part, PartColumns, TextFault, part_columns, part_paragraphs, plan
from ._results import Columns
from ._saving import Format, Saved, save_items
from ._table import Name, Table, built_in

__all__ = [
    "PartColumns", "Saved", "TextFault", "breaks", "broadcast", "chunks", "faults", "read_columns", "read_text", "save",
    "segments", "share", "words",
]

Faults = Literal["raise", "keep"]

# What a task gets in place of a file's name for the built-in table.
_BUILT_IN = "unicode:"

# The tables that this process has mapped, and the files of those that `broadcast` sent.
_tables: dict[str, Table] = {}
_broadcast: dict[str, str] = {}


def share(table: Table, name: Name) -> str:
    """Saves a table to a file that all workers can read, and returns the name to pass to the other
    calls."""
    path = os.path.abspath(os.fsdecode(name))
    table.save(path)
    return path


def broadcast(client: Any, table: Table) -> str:
    """Sends a table once to each worker of a cluster without a shared folder, also to workers that
    join later. Each saves and maps it. Returns the name to pass to the other calls."""
    from distributed import WorkerPlugin

    class Receive(WorkerPlugin):
        def __init__(self, name: str, data: bytes) -> None:
            self.name, self.data = name, data

        def setup(self, worker: Any) -> None:
            # (imported by name, because this class is sent without the module)
            from lbk import Table, dask

            path = Path(worker.local_directory, f"{self.name}-{os.getpid()}")
            Table.from_bytes(self.data).save(path)
            dask._broadcast[self.name] = str(path)

    data = table.to_bytes()
    name = f"lbk-table-{table._digest}"
    register = getattr(client, "register_plugin", None) or client.register_worker_plugin
    register(Receive(name, data))
    _broadcast_here(name, table)
    return name


def _broadcast_here(name: str, table: Table) -> None:
    """Keeps the table in the sending process, which cuts files with it."""
    _tables[name] = table


def _open(name: str) -> Table:
    if name.startswith(_BUILT_IN):
        return built_in(name.removeprefix(_BUILT_IN))
    if name not in _tables:
        _tables[name] = Table.open(_broadcast.get(name, name))
    return _tables[name]


def _name_of(table: Any) -> str:
    if table is None:
        return _BUILT_IN + UNICODE_VERSION
    if isinstance(table, Table):
        raise TypeError("pass the table by the name that share or broadcast returned; a task must not contain a table")
    return os.fsdecode(table)


def read_text(
    paths: Any,
    blocksize: "int | str | None" = "32 MiB",
    *,
    table: "Name | None" = None,
    errors: Errors = "replace",
    on_fault: Faults = "raise",
    compression: "str | None" = "infer",
    storage_options: "dict[str, Any] | None" = None,
) -> Bag:
    """A bag of the paragraphs of files, as str, each with its line end. Joined, they are the texts.

    `paths` is a name, a pattern or a list, with or without a protocol of fsspec. A part has
    `blocksize` bytes and the rest of the paragraph there; with None, and for a compressed file, it
    is the whole file. Ill-formed bytes are read as U+FFFD, or are a fault with `errors="strict"`.

    A TextFault names the file and the byte, if a file cannot be read, changed since it was cut, or
    is ill-formed. The task raises it. With `on_fault="keep"` the bag has the fault in place of the
    part; the other calls pass it on, and `faults` finds it.
    """
    parts = _plan(paths, table, blocksize, compression, storage_options)
    return _bag_of(parts, _paragraphs, _name_of(table), errors, on_fault)


def read_columns(
    paths: Any,
    blocksize: "int | str | None" = "32 MiB",
    *,
    table: "Name | None" = None,
    profile: int = 1,
    errors: Errors = "replace",
    on_fault: Faults = "raise",
    compression: "str | None" = "infer",
    storage_options: "dict[str, Any] | None" = None,
) -> Bag:
    """A bag with the PartColumns of each part of the files: all breaks, with their byte offsets in
    the file. Otherwise it behaves like read_text."""
    _check_profile(profile)
    parts = _plan(paths, table, blocksize, compression, storage_options)
    return _bag_of(parts, _part_columns, _name_of(table), profile, errors, on_fault)


def breaks(texts: Any, profile: int = 1, *, table: "Name | None" = None) -> Any:
    """The breaks of each text: a bag of Columns for a bag, or a dataframe with `places`, `kinds` and
    `rules` for a dataframe's column. These are numpy arrays; offsets of a str count code points.
    Each item is a separate text, so its end is a break by LB3. None stays None."""
    _check_profile(profile)
    name = _name_of(table)
    if isinstance(texts, Bag):
        return texts.map_partitions(_map_texts, _all_breaks, name, profile)
    return _series(texts).map_partitions(_breaks_frame, name, profile,
        meta={column: object for column in Columns._fields})


def segments(texts: Any, profile: int = 1, *, table: "Name | None" = None) -> Any:
    """The segments of each text, as a list: a bag for a bag, a column for a dataframe's column."""
    _check_profile(profile)
    return _lists(texts, _all_segments, _name_of(table), profile)


def words(texts: Any) -> Any:
    """The words of each text (UAX #29), as a list: a bag for a bag, a column for a dataframe's
    column. For a paragraph they are those of `Table.passages`."""
    return _lists(texts, _all_words, None, 1)


def chunks(
    texts: Any, most: int = 500, words: "int | None" = None, least: "int | None" = None, overlap: int = 0, *,
    unit: Unit = None, profile: int = 1, table: "Name | None" = None,
) -> Any:
    """The chunks of each text, with the limits of `Table.chunks`.

    For a bag returns a bag with a dict for each chunk: `start`, `end`, `words` and `text`. If an
    item of the bag is a dict with its text at "text", its other entries are copied to each of its
    chunks. For a dataframe's column returns a dataframe with a row for each chunk, with the index
    of its text. None has no chunk.
    """
    _check_profile(profile)
    asked = (limits_of(most, words, least, overlap), unit, profile)
    is_in_bytes(unit)
    name = _name_of(table)
    if isinstance(texts, Bag):
        return texts.map_partitions(_chunk_dicts, name, asked)
    return _series(texts).map_partitions(_chunk_frame, name, asked, meta=_CHUNK_TYPES)


def faults(bag: Bag) -> Bag:
    """The faults in a bag that was read with `on_fault="keep"`."""
    found: Bag = bag.filter(_is_fault)
    return found


def save(bag: Bag, folder: Name, format: "Format | None" = None) -> Bag:
    """Saves each partition to a file in a folder, and returns a bag with a Saved for each.

    `format` is "parquet", "npz" or "jsonl". The default is "parquet" if pyarrow is installed, else
    "npz" for columns and "jsonl" for other items. The first two formats store the items of a
    partition as columns, those of a list at `offsets[k]` up to `offsets[k + 1]`. Kept faults go to
    a separate file of JSON lines. A file has the partition's number in its name, and is written
    completely or not at all.
    """
    if format not in (None, "parquet", "npz", "jsonl"):
        raise ValueError(f"format must be parquet, npz or jsonl, not {format!r}")
    numbers = from_sequence(range(bag.npartitions), npartitions=bag.npartitions)
    saved: Bag = bag.map_partitions(save_items, numbers, os.fsdecode(folder), format)
    return saved


def _check_profile(profile: int) -> None:
    if profile not in (1, 2):
        raise ValueError(f"profile must be 1 or 2, not {profile!r}")


def _plan(paths: Any, table: "Name | None", blocksize: Any, compression: Any, storage_options: Any) -> list[Part]:
    size = parse_bytes(blocksize) if isinstance(blocksize, str) else blocksize
    if size is not None and size < 1:
        raise ValueError("a part must have at least one byte")
    parts = plan(paths, _open(_name_of(table)), size, compression, storage_options)
    if not parts:
        raise FileNotFoundError(f"no file matches {paths}")
    return parts


def _bag_of(parts: list[Part], call: Any, *arguments: Any) -> Bag:
    """A bag with one partition and one task for each part. If separate tasks made the parts, workers
    would have to ask the scheduler once more for each."""
    name = f"lbk{call.__name__}-{tokenize(parts, *arguments)}"
    tasks = {(name, k): (call, part, *arguments) for k, part in enumerate(parts)}
    return Bag(HighLevelGraph.from_collections(name, tasks), name, len(parts))


def _or_fault(call: "Callable[[], list[Any]]", on_fault: Faults) -> list[Any]:
    try:
        return call()
    except TextFault as fault:
        if on_fault == "raise":
            raise
        return [fault]


def _paragraphs(part: Part, table: str, errors: Errors, on_fault: Faults) -> list[Any]:
    return _or_fault(lambda: part_paragraphs(part, _open(table), errors), on_fault)


def _part_columns(part: Part, table: str, profile: int, errors: Errors, on_fault: Faults) -> list[Any]:
    return _or_fault(lambda: [part_columns(part, _open(table), profile, errors)], on_fault)


def _is_fault(item: Any) -> bool:
    return isinstance(item, TextFault)


def _is_text(item: Any) -> bool:
    """Whether it is a text: not a fault, not None, and not a missing value of pandas."""
    return not _is_fault(item) and item is not None and item == item and type(item).__name__ != "NAType"


def _map_texts(items: Iterable[Any], call: Any, table: "str | None", profile: int) -> list[Any]:
    """The results of a call for each text. Faults and None stay as they are."""
    items = list(items)
    found = iter(call([item for item in items if _is_text(item)], None if table is None else _open(table), profile))
    return [next(found) if _is_text(item) else item if _is_fault(item) else None for item in items]


def _all_breaks(texts: list[Any], table: Table, profile: int) -> Iterable[Columns]:
    import numpy as np

    offsets, places, kinds, rules = table.break_list_columns(texts, profile)
    columns: list[Any] = [np.frombuffer(places, np.int64), np.frombuffer(kinds, np.uint8),
        np.frombuffer(rules, np.uint8)]
    for start, end in zip(offsets, offsets[1:]):
        yield Columns(*(column[start:end] for column in columns))


def _all_segments(texts: list[Any], table: Table, profile: int) -> Iterable[list[Any]]:
    return (list(table.segments(text, profile)) for text in texts)


def _all_words(texts: list[Any], _table: None, _profile: int) -> Iterable[list[Any]]:
    return (list(Table.words(text)) for text in texts)


def _series(texts: Any) -> Any:
    if not hasattr(texts, "map_partitions") or getattr(texts, "ndim", 0) != 1:
        raise TypeError(f"a bag or a column of a dataframe is required, not a {type(texts).__name__}")
    return texts


def _lists(texts: Any, call: Any, table: "str | None", profile: int) -> Any:
    if isinstance(texts, Bag):
        return texts.map_partitions(_map_texts, call, table, profile)
    column = _series(texts)
    return column.map_partitions(_list_column, call, table, profile, meta=(column.name, object))


def _list_column(texts: Any, call: Any, table: "str | None", profile: int) -> Any:
    import pandas as pd

    return pd.Series(_map_texts(texts.tolist(), call, table, profile), index=texts.index, name=texts.name, dtype=object)


def _breaks_frame(texts: Any, table: str, profile: int) -> Any:
    import pandas as pd

    found = _map_texts(texts.tolist(), _all_breaks, table, profile)
    none = Columns(None, None, None)  # type: ignore[arg-type]
    return pd.DataFrame([one or none for one in found], index=texts.index, columns=Columns._fields, dtype=object)


# The limits, their unit, and the profile.
_Asked = tuple[Limits, Unit, int]

_CHUNK_TYPES = {"start": "int64", "end": "int64", "words": "int64", "text": object}


def _chunks_of(text: Any, table: str, asked: _Asked) -> Iterable[dict[str, Any]]:
    if not _is_text(text):
        return
    (most, words, least, overlap), unit, profile = asked
    for one in _open(table).chunks(text, most, words or None, least, overlap, unit=unit, profile=profile):
        yield {"start": one.start, "end": one.end, "words": one.words, "text": one.text}


def _chunk_dicts(items: Iterable[Any], table: str, asked: _Asked) -> list[Any]:
    found: list[Any] = []
    for item in items:
        if _is_fault(item):
            found.append(item)
            continue
        others = item if isinstance(item, dict) else {"text": item}
        found += ({**others, **one} for one in _chunks_of(others["text"], table, asked))
    return found


def _chunk_frame(texts: Any, table: str, asked: _Asked) -> Any:
    import pandas as pd

    found = [list(_chunks_of(text, table, asked)) for text in texts.tolist()]
    rows = [one for chunks in found for one in chunks]
    index = texts.index.repeat([len(chunks) for chunks in found])
    return pd.DataFrame(rows, index=index, columns=list(_CHUNK_TYPES)).astype(_CHUNK_TYPES)
