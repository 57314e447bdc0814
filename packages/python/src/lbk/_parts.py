"""Parts of files: ranges of bytes that tasks read and break independently."""

# Only some versions of the imported packages have types.
# mypy: disable-error-code="import"

import copy
import mmap
import threading
from dataclasses import dataclass
from typing import Any, Literal, NamedTuple

import numpy as np
from fsspec.core import OpenFile, get_fs_token_paths
from fsspec.implementations.local import LocalFileSystem
from fsspec.utils import infer_compression

from ._results import Kind
from ._table import Table

Errors = Literal["replace", "strict"]

# How many bytes of a remote file are read at first to find a cut.
WINDOW = 1 << 16

# The most bytes of a character. A cut depends only on as many bytes before `at` and after the cut
# (`only_bytes_near_a_cut`, which is proved), so only these are read.
LONGEST = 4

# How many bytes of memory a thread keeps for the parts that it reads, one after the other.
KEPT = 1 << 26


class TextFault(ValueError):
    """A file that cannot be read, that changed since it was cut, or that is ill-formed (with
    `errors="strict"`)."""

    path: str
    at: int
    """The offset in the file; that of the part if the fault is at no byte."""
    why: str

    def __init__(self, path: str, at: int, why: str) -> None:
        super().__init__(path, at, why)
        self.path, self.at, self.why = path, at, why

    def __str__(self) -> str:
        return f"{self.path}: byte {self.at}: {self.why}"


@dataclass(frozen=True)
class Part:
    """The bytes `start` to `end` of a file, between two required breaks, or from its start or to
    its end. `end` is None for a file that is read whole."""

    file: OpenFile
    start: int
    end: "int | None"
    is_last: bool

    @property
    def path(self) -> str:
        """The file's name, with its protocol for a remote file."""
        return str(self.file.path if isinstance(self.file.fs, LocalFileSystem) else self.file.full_name)


class PartColumns(NamedTuple):
    """The breaks of a part, in order, as numpy arrays. The columns of all parts of a file, joined,
    are those of the file."""

    path: str
    start: int
    end: int
    """The part's end in the file, or in the decompressed text of a compressed file."""
    places: Any
    """int64: the offset of each break in the file."""
    kinds: Any
    """uint8: the numbers of `Kind`."""
    rules: Any
    """uint8: the numbers of `Rule`."""


def plan(
    paths: Any, table: Table, blocksize: "int | None", compression: "str | None",
    storage_options: "dict[str, Any] | None"
) -> list[Part]:
    """The parts of all files, in the order of the files. A file that cannot be cut is one part, so
    that the task that reads it reports why."""
    fs, _, names = get_fs_token_paths(paths, mode="rb", storage_options=storage_options or {})
    parts = []
    for name in names:
        kind = infer_compression(name) if compression == "infer" else compression
        file = OpenFile(fs, name, compression=kind)
        places: list[Any] = [0, None]
        if kind is None and blocksize is not None:
            try:
                places = _cuts(file, table, blocksize)
            except Exception:
                pass
        parts += [Part(file, start, end, k == len(places) - 2)
            for k, (start, end) in enumerate(zip(places, places[1:]))]
    return parts


def _cuts(file: OpenFile, table: Table, blocksize: int) -> list[int]:
    """The start of each part of a file, and the file's end."""
    size = file.fs.size(file.path)
    places = [0]
    if isinstance(file.fs, LocalFileSystem):
        with open(file.path, "rb") as opened, mmap.mmap(opened.fileno(), 0, access=mmap.ACCESS_READ) as data:
            while places[-1] + blocksize < size:
                places.append(min(table.cut(data, places[-1] + blocksize), size))
    else:
        while places[-1] + blocksize < size:
            places.append(_cut_from_afar(file, size, table, places[-1] + blocksize))
    return places if len(places) > 1 and places[-1] == size else [*places, size]


def _cut_from_afar(file: OpenFile, size: int, table: Table, at: int) -> int:
    """As Table.cut, but reads only the bytes of the file near the offset."""
    start, window = max(0, at - LONGEST), WINDOW
    data = b""
    while True:
        data += file.fs.cat_file(file.path, start=start + len(data), end=min(size, start + window))
        cut = table.cut(data, at - start)
        if cut + LONGEST <= len(data) or start + len(data) >= size:
            return start + cut
        window *= 2


_kept = threading.local()


def _memory(size: int) -> memoryview:
    """Memory for a part. It reuses that of the previous part, because the system clears new memory,
    which takes as long as to read into it."""
    if size > KEPT:
        return memoryview(bytearray(size))
    if len(getattr(_kept, "memory", b"")) < size:
        _kept.memory = bytearray(size)
    return memoryview(_kept.memory)[:size]


def _fill(memory: memoryview, file: Any) -> memoryview:
    """Reads until the memory is full or the file ends."""
    count = 0
    while count < len(memory) and (more := file.readinto(memory[count:])):
        count += more
    return memory[:count].toreadonly()


def read_part(part: Part, errors: Errors = "replace") -> memoryview:
    """A part's bytes, valid up to the next call in this thread. It reads one byte more, to see
    whether the file goes on as it did."""
    try:
        # (a copy, because an OpenFile also closes what other threads opened by it)
        with copy.copy(part.file) as file:
            if part.end is None:
                data = memoryview(file.read())
                size = len(data)
            else:
                size = part.end - part.start
                file.seek(part.start)
                data = _fill(_memory(size + 1), file)
    except Exception as error:
        raise TextFault(part.path, part.start, f"{type(error).__name__}: {error}") from error
    if len(data) < size:
        raise TextFault(part.path, part.start + len(data), "the file is shorter than when it was cut into parts")
    if part.is_last != (len(data) == size):
        raise TextFault(part.path, part.start + size, "the file size has changed since it was cut into parts")
    data = data[:size]
    if errors == "strict":
        try:
            str(data, "utf-8")
        except UnicodeDecodeError as error:
            raise TextFault(part.path, part.start + error.start, f"ill-formed UTF-8: {error.reason}") from error
    return data


def _columns(data: memoryview, part: Part, table: Table, profile: int, start: int) -> tuple[Any, Any, Any]:
    """The breaks of a part's bytes; the first byte has the offset `start`."""
    places, kinds, rules = table.break_columns(data, profile, goes_on=not part.is_last, start=start)
    return np.frombuffer(places, np.int64), np.frombuffer(kinds, np.uint8), np.frombuffer(rules, np.uint8)


def part_columns(part: Part, table: Table, profile: int, errors: Errors) -> PartColumns:
    data = read_part(part, errors)
    places, kinds, rules = _columns(data, part, table, profile, part.start)
    return PartColumns(part.path, part.start, part.start + len(data), places, kinds, rules)


def part_paragraphs(part: Part, table: Table, errors: Errors) -> list[str]:
    """The paragraphs of a part, each up to its required break."""
    data = read_part(part, errors)
    places, kinds, _ = _columns(data, part, table, 1, 0)
    ends = places[kinds == Kind.MUST].tolist()
    return [str(data[start:end], "utf-8", "replace") for start, end in zip([0, *ends], ends)]
