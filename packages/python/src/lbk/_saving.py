"""Saves results, a file for each partition."""

# Only some versions of the imported packages have types.
# mypy: disable-error-code="import"

import io
import json
import os
from collections.abc import Iterable
from typing import Any, Literal, NamedTuple

import numpy as np
from fsspec.core import url_to_fs
from fsspec.implementations.local import LocalFileSystem

from ._parts import PartColumns, TextFault
from ._results import Columns

Format = Literal["parquet", "npz", "jsonl"]


class Saved(NamedTuple):
    """A saved partition."""

    name: str
    """The file."""
    items: int
    """The number of items in it."""
    faults: int
    """The number of faults in its file of faults, which exists if this is not 0."""


def save_items(items: Iterable[Any], numbers: Iterable[int], folder: str, format: "Format | None") -> list[Saved]:
    items = list(items)
    faults = [item for item in items if isinstance(item, TextFault)]
    items = [item for item in items if not isinstance(item, TextFault)]
    # (an empty partition has empty columns)
    are_columns = all(isinstance(item, (Columns, PartColumns)) for item in items)
    chosen = format or ("parquet" if _has_pyarrow() else "npz" if are_columns else "jsonl")
    if chosen == "npz" and not are_columns:
        raise TypeError("npz is for columns only")
    (number,) = numbers
    name = f"{folder}/part-{number:06}"
    write = {"parquet": _parquet, "npz": _npz, "jsonl": _lines}[chosen]
    _put(f"{name}.{chosen}", write(items, are_columns))
    if faults:
        rows = [{"path": fault.path, "at": fault.at, "why": fault.why} for fault in faults]
        _put(f"{name}.faults.jsonl", _lines(rows, False))
    return [Saved(f"{name}.{chosen}", len(items), len(faults))]


def _has_pyarrow() -> bool:
    try:
        import pyarrow.parquet  # noqa: F401
    except ImportError:
        return False
    return True


def _put(name: str, data: bytes) -> None:
    """Writes a file atomically, so that a worker that dies leaves a whole file or none."""
    fs, path = url_to_fs(name)
    if not isinstance(fs, LocalFileSystem):
        fs.makedirs(fs._parent(path), exist_ok=True)
        fs.pipe_file(path, data)
        return
    os.makedirs(os.path.dirname(path), exist_ok=True)
    new = f"{path}.{os.getpid()}.new"
    try:
        with open(new, "wb") as file:
            file.write(data)
        os.replace(new, path)
    finally:
        if os.path.exists(new):
            os.unlink(new)


def _lines(items: list[Any], are_columns: bool) -> bytes:
    rows = (_row(item) if are_columns else item for item in items)
    return "".join(f"{json.dumps(row, ensure_ascii=False)}\n" for row in rows).encode("utf-8", "replace")


def _row(item: Any) -> dict[str, Any]:
    return {field: value.tolist() if isinstance(value, np.ndarray) else value
        for field, value in item._asdict().items()}


def _arrays(items: list[Any]) -> tuple[dict[str, Any], dict[str, Any]]:
    """The fields with one value per item, and those with many, joined."""
    offsets = np.zeros(len(items) + 1, np.int64)
    np.cumsum([len(item.places) for item in items], out=offsets[1:])
    kinds = {"places": np.int64, "kinds": np.uint8, "rules": np.uint8}
    many = {field: np.concatenate([np.empty(0, kind), *(getattr(item, field) for item in items)])
        for field, kind in kinds.items()}
    one = {}
    if any(isinstance(item, PartColumns) for item in items):
        one = {field: np.array([getattr(item, field) for item in items]) for field in ("path", "start", "end")}
    return one, {"offsets": offsets, **many}


def _npz(items: list[Any], _are_columns: bool) -> bytes:
    one, many = _arrays(items)
    file = io.BytesIO()
    np.savez(file, **one, **many)
    return file.getvalue()


def _parquet(items: list[Any], are_columns: bool) -> bytes:
    import pyarrow
    import pyarrow.parquet

    if are_columns:
        one, many = _arrays(items)
        offsets = many.pop("offsets")
        columns = {field: pyarrow.array(values) for field, values in one.items()}
        columns |= {field: pyarrow.LargeListArray.from_arrays(offsets, values) for field, values in many.items()}
    elif items and all(isinstance(item, dict) for item in items):
        fields = {field: None for item in items for field in item}
        columns = {field: pyarrow.array([item.get(field) for item in items]) for field in fields}
    else:
        columns = {"values": pyarrow.array(items)}
    sink = io.BytesIO()
    pyarrow.parquet.write_table(pyarrow.table(columns), sink)
    return sink.getvalue()
