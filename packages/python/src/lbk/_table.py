"""A table of character properties, and the calls that use it."""

import functools
import mmap
import os
import sys
from array import array
from collections.abc import Iterable, Iterator
from pathlib import Path
from typing import Any, Protocol, Self, TypeAlias, overload

from . import _calls, _database
from ._calls import Break
from ._chunks import Chunks, Unit, is_in_bytes, limits_of
from ._fault import Fault
from ._numbers import Cause
from ._passages import Passages
from ._results import Chunk, ChunkColumns, Columns, ListColumns, Passage, PassageColumns, WordColumns


class _Buffer(Protocol):
    """The arguments of `memoryview`, for type checkers that know PEP 688."""

    def __buffer__(self, flags: int, /) -> memoryview: ...


class _NumpyArray(Protocol):
    @property
    def __array_interface__(self) -> dict[str, Any]: ...


Bytes: TypeAlias = "bytes | bytearray | memoryview | mmap.mmap | array[int] | _Buffer | _NumpyArray"
Text: TypeAlias = "str | Bytes"
Name: TypeAlias = "str | bytes | os.PathLike[str] | os.PathLike[bytes]"

_new = tuple.__new__


class Table:
    """The properties of each code point that the rules use, 1.1 MB.

    `unicode` returns the built-in table. `load`, `from_files`, `read`, `from_bytes` and `open` make
    tables of files of your own. A table never changes, so any number of threads may use it. It is
    pickled as its bytes; the built-in one as its version of Unicode; one that `open` mapped as the
    name of its file; one of `load` as its folder and digest. If this process has another version,
    or the folder another table, unpickling raises a ValueError that names it.

    Texts are `str`, with offsets in code points, or bytes of UTF-8, with offsets in bytes: `bytes`,
    `bytearray`, `memoryview`, `mmap`, and other objects with the buffer protocol and one-byte
    items. Ill-formed bytes are read as U+FFFD, as `decode("utf-8", "replace")` does, and so is each
    surrogate in a `str`. `profile` 1 has the rules of Unicode 15.0; 2 has LB15a and LB15b in place
    of LB15. The calls raise TypeError for what is not a text, and ValueError for an unknown
    profile.
    """

    __slots__ = ("_memory", "_origin")
    _memory: bytearray | mmap.mmap
    _origin: tuple[Any, ...]
    """A call that makes the same table, and its arguments, or nothing."""

    def __init__(self) -> None:
        raise TypeError("get a Table by unicode, load, from_files, read, from_bytes or open")

    @classmethod
    def _of(cls, memory: bytearray | mmap.mmap, call: Any = None, *arguments: str) -> Self:
        table = object.__new__(cls)
        table._memory, table._origin = memory, (call, arguments) if call else ()
        return table

    @staticmethod
    def unicode() -> "Table":
        """The built-in table, of the version UNICODE_VERSION. A process has one."""
        return _UNICODE

    @classmethod
    def load(cls, folder: "_database.Folder") -> Self:
        """Loads the table of a folder of the Unicode Character Database: LineBreak.txt,
        EastAsianWidth.txt, extracted/DerivedGeneralCategory.txt and emoji/emoji-data.txt, or all
        four side by side.

        Raises OSError if a file cannot be read, and Fault if a file is not the one that Unicode
        published for the version UNICODE_VERSION.
        """
        memory = _read_folder(folder)
        return cls._of(memory, _load_again, os.path.abspath(folder), _digest_of(memory))

    @classmethod
    def from_files(cls, line_break: Name, east_asian: Name, category: Name, emoji: Name, *,
        strict: bool = True) -> Self:
        """Loads the table of any four files, given by their names. Raises OSError if one cannot be
        read, and Fault as `read` does."""
        names = [os.fsdecode(name) for name in (line_break, east_asian, category, emoji)]
        try:
            return cls.read(*(Path(name).read_bytes() for name in names), strict=strict)
        except Fault as fault:
            place = names[fault.file - 1] if fault.file else ""
            raise Fault(fault.file, fault.line, fault.cause, place, fault.claim) from None

    @classmethod
    def read(cls, line_break: Bytes, east_asian: Bytes, category: Bytes, emoji: Bytes, *, strict: bool = True) -> Self:
        """Makes the table of the contents of four files. Raises Fault for the first fault in them,
        and MemoryError. With `strict`, also refuses a truncated file (CUT): its first line claims a
        name that Unicode published, such as `# LineBreak-15.0.0.txt`, and its last is not
        `# EOF`."""
        files = [_unchanging(one) for one in (line_break, east_asian, category, emoji)]
        cut = next((number for number, one in enumerate(files, 1) if _calls.is_cut(one)), None) if strict else None
        if cut is not None:
            raise Fault(cut, 0, Cause.CUT)
        return cls._of(_read(files, False))

    @classmethod
    def from_bytes(cls, data: Bytes) -> Self:
        """Makes a table of the bytes that `to_bytes` returned. Raises ValueError if they are not an
        intact table of this version."""
        memory = bytearray(_view(data))
        _check(memory, "these bytes are", " (packed ones: `Table.unpack`)")
        return cls._of(memory)

    @classmethod
    def open(cls, name: Name) -> Self:
        """Maps a file that `save` wrote, so that the processes of a machine share its memory.

        Raises OSError if the file cannot be read, and ValueError if it is not an intact table of
        this version.
        """
        path = os.path.abspath(os.fsdecode(name))
        with open(path, "rb") as file:
            if os.fstat(file.fileno()).st_size != _calls.TABLE_SIZE:
                raise ValueError(f"{path} is not a table of this version")
            memory = mmap.mmap(file.fileno(), 0, access=mmap.ACCESS_READ)
        _check(memory, f"{path} is")
        return cls._of(memory, Table.open, path)

    def to_bytes(self) -> bytes:
        """The bytes of the table, for `from_bytes`."""
        return bytes(self._memory)

    def pack(self) -> bytes:
        """The table in a packed form of a few kilobytes, for `unpack`. It is the same on every
        machine."""
        return _calls.pack(self._memory)

    @classmethod
    def unpack(cls, data: Bytes) -> Self:
        """Unpacks the result of `pack`. Raises ValueError if the bytes are not a packed table of
        this version."""
        memory = bytearray(_calls.TABLE_SIZE)
        cause = _calls.unpack(memory, _unchanging(data))
        if cause != Cause.NONE:
            raise ValueError(_calls.cause_text(cause))
        return cls._of(memory)

    def save(self, name: Name) -> None:
        """Saves the table to a file, for `open`. A file of this name is replaced atomically."""
        path = Path(os.fsdecode(name))
        new = path.with_name(f"{path.name}.{os.getpid()}.new")
        try:
            new.write_bytes(self._memory)
            new.replace(path)
        finally:
            new.unlink(missing_ok=True)

    def breaks(self, text: Text, profile: int = 1) -> Iterator[Break]:
        """The breaks of a text, in order. The last break of a text that is not empty is its end."""
        return _calls.Found.of(self._memory, text, profile, _calls.BREAKS)

    def positions(self, text: Text, profile: int = 1) -> Iterator[Break]:
        """All positions of a text, in order: one before each character and one at the end, each
        with the rule that decided. Positions without a break have the kind NO."""
        return _calls.Found.of(self._memory, text, profile, _calls.POSITIONS)

    @overload
    def segments(self, text: str, profile: int = 1) -> Iterator[str]: ...
    @overload
    def segments(self, text: Bytes, profile: int = 1) -> Iterator[bytes]: ...
    def segments(self, text: Any, profile: int = 1) -> Iterator[Any]:
        """The text cut at each break: slices of a `str`, or `bytes`."""
        return _calls.Found.of(self._memory, text, profile, _calls.SEGMENTS)

    def break_columns(self, text: Text, profile: int = 1, *, goes_on: bool = False, start: int = 0) -> Columns:
        """All breaks of a text, in columns. For a part of a text that goes on, pass `goes_on`: its
        end is then a break only if a line must end there whatever follows, by LB4 or LB5 (not after
        a CR, which LF may follow). `start`, the part's start in that text, is added to each
        offset."""
        places, kinds, rules = _calls.columns(self._memory, text, profile, goes_on, start)
        return _new(Columns, (memoryview(places).cast("q"), kinds, rules))

    def break_list_columns(self, texts: Iterable[Text], profile: int = 1) -> ListColumns:
        """All breaks of many texts, in columns."""
        if isinstance(texts, (str, bytes, bytearray, memoryview)):
            raise TypeError(f"an iterable of texts is required, not one {type(texts).__name__}")
        offsets, places, kinds, rules = _calls.list_columns(self._memory, texts, profile)
        return ListColumns(memoryview(offsets).cast("q"), memoryview(places).cast("q"), kinds, rules)

    def cut(self, text: Text, at: int) -> int:
        """The first offset at or after `at` where a part of the text may begin: one with a required
        break, or the text's end if there is none.

        The breaks of the parts are those of the text, if `break_columns` gets the `start` of each
        part, and `goes_on` for each except the last. Raises ValueError for a negative offset.
        """
        return _calls.cut(self._memory, text, at)

    def cut_before(self, text: Text, at: int) -> int:
        """The last such offset at or before `at`: no break after it depends on the text before it."""
        return _calls.cut_before(self._memory, text, at)

    def safe_break(self, text: Text, profile: int = 1) -> int:
        """The last break before the end of a text, or 0 if there is none. The breaks after it are
        those of the text that begins there. It reads the last paragraph of the text."""
        return _calls.safe_break(self._memory, text, profile)

    def class_of(self, character: str | int) -> str:
        """The line breaking class of a character or a code point as LB1 resolves it, such as "AL";
        "" for a surrogate. Raises ValueError for a number that is not a code point."""
        code = ord(character) if isinstance(character, str) else character
        if not 0 <= code <= sys.maxunicode:
            raise ValueError(f"a code point must be from 0 to 0x10FFFF, not {code}")
        return _calls.class_of(self._memory, code)

    @overload
    @staticmethod
    def words(text: str) -> Iterator[str]: ...
    @overload
    @staticmethod
    def words(text: Bytes) -> Iterator[bytes]: ...
    @staticmethod
    def words(text: Any) -> Iterator[Any]:
        """The words of a text (UAX #29): each part between neighbouring word boundaries that has a
        letter or a number. Slices of a `str`, or `bytes`. They need no table."""
        return _calls.Found.of(None, text, 1, _calls.WORDS)

    @staticmethod
    def word_ranges(text: Text) -> Iterator[tuple[int, int]]:
        """The start and the end of each word, as offsets."""
        return _calls.Found.of(None, text, 1, _calls.WORD_RANGES)

    @overload
    def passages(self, text: str, profile: int = 1) -> Iterator[Passage[str]]: ...
    @overload
    def passages(self, text: Bytes, profile: int = 1) -> Iterator[Passage[bytes]]: ...
    def passages(self, text: Any, profile: int = 1) -> Iterator[Any]:
        """The text cut after each break of the kind MUST, each passage with its segments and
        words."""
        breaks = self.breaks(text, profile)
        # Slices of these types are str or bytes.
        return Passages(breaks, text if isinstance(text, (str, bytes, mmap.mmap)) else bytes(text))

    @staticmethod
    def word_columns(text: Text) -> WordColumns:
        """The start and the end of each word, in columns."""
        starts, ends = _calls.word_columns(text)
        return WordColumns(memoryview(starts).cast("q"), memoryview(ends).cast("q"))

    def passage_columns(self, text: Text, profile: int = 1) -> PassageColumns:
        """The passages, their segments and their words, in columns."""
        columns = _calls.passage_columns(self._memory, text, profile)
        return PassageColumns(*(memoryview(one).cast("q") for one in columns))

    @overload
    def chunks(
        self, text: str, most: int = 500, words: "int | None" = None, least: "int | None" = None, overlap: int = 0, *,
        unit: Unit = None, profile: int = 1,
    ) -> Iterator[Chunk[str]]: ...
    @overload
    def chunks(
        self, text: Bytes, most: int = 500, words: "int | None" = None, least: "int | None" = None, overlap: int = 0, *,
        unit: Unit = None, profile: int = 1,
    ) -> Iterator[Chunk[bytes]]: ...
    def chunks(
        self, text: Any, most: int = 500, words: "int | None" = None, least: "int | None" = None, overlap: int = 0, *,
        unit: Unit = None, profile: int = 1,
    ) -> Iterator[Any]:
        """The text cut for search and retrieval, always at a break outside words (UAX #29). Without
        overlap the chunks, joined, are the text.

        A chunk has at most `most` code points of a `str`, or bytes of bytes, and at most `words`
        words. It ends early, at its last required break, if at least `least` of it up to there
        (half of `most` by default) is in no earlier chunk. The next chunk repeats at most `overlap`
        of it, and at most half of it. Text without a cut within the limits is a chunk that exceeds
        them, with `alone`. With `unit="bytes"` the limits count UTF-8 bytes of a `str`, too; its
        offsets do not. Raises ValueError for limits that are out of range: `most` and `words` have
        to be 1 or more, `least` at most `most`, and `overlap` at most half of it.
        """
        columns = self.chunk_columns(text, most, words, least, overlap, unit=unit, profile=profile)
        return Chunks(columns, text)

    def chunk_columns(
        self, text: Text, most: int = 500, words: "int | None" = None, least: "int | None" = None, overlap: int = 0, *,
        unit: Unit = None, profile: int = 1,
    ) -> ChunkColumns:
        """The chunks of `chunks`, in columns."""
        limits = limits_of(most, words, least, overlap)
        starts, ends, counts, *others = _calls.chunk_columns(self._memory, text, profile, *limits, is_in_bytes(unit))
        places = memoryview(starts).cast("q"), memoryview(ends).cast("q")
        return ChunkColumns(*places, memoryview(counts).cast("q"), *others)

    @property
    def _digest(self) -> str:
        return _digest_of(self._memory)

    def __repr__(self) -> str:
        return f"<lbk.Table: rules of Unicode {_calls.UNICODE_VERSION}, digest {self._digest}>"

    def __eq__(self, other: object) -> bool:
        if not isinstance(other, Table):
            return NotImplemented
        return memoryview(self._memory) == memoryview(other._memory)

    def __hash__(self) -> int:
        return hash(self._digest)

    def __copy__(self) -> Self:
        return self

    def __deepcopy__(self, _: object) -> Self:
        return self

    def __reduce__(self) -> tuple[Any, ...]:
        return self._origin or (Table.from_bytes, (self.to_bytes(),))


def _read(files: Iterable[Bytes], are_published: bool) -> bytearray:
    line_break, east_asian, category, emoji = map(_unchanging, files)
    memory = bytearray(_calls.TABLE_SIZE)
    file, line, cause = _calls.read(memory, line_break, east_asian, category, emoji, are_published)
    if cause == Cause.OUT_OF_MEMORY:
        raise MemoryError
    if cause != Cause.NONE:
        raise Fault(file, line, cause)
    return memory


def built_in(version: str) -> Table:
    """The built-in table, for a process that was sent it by one with this version of Unicode."""
    if version != _calls.UNICODE_VERSION:
        raise ValueError(f"the table is of Unicode {version}, and this lbk has {_calls.UNICODE_VERSION}")
    return _UNICODE


def _read_folder(folder: "_database.Folder") -> bytearray:
    files = _database.contents(folder)
    try:
        return _read(files, True)
    except Fault as fault:
        claim = ""
        if fault.cause == Cause.NOT_PUBLISHED:
            claim = f"{_calls.claim_text(fault.file, files[fault.file - 1])}; {_calls.remedy_text()}"
        place = _database.place_of(folder, fault.file) if fault.file else os.fspath(folder)
        raise Fault(fault.file, fault.line, fault.cause, place, claim) from None


def _digest_of(memory: bytearray | mmap.mmap) -> str:
    return memory[8:16].hex()


def _load_again(folder: str, digest: str) -> Table:
    """Unpickles a table of a folder. A process that unpickles many makes it once."""
    changed = ValueError(f"the files in {folder} now give a different table from the pickled one")
    try:
        memory = _read_again(*_database.contents(folder))
    except Fault as fault:
        raise changed from fault
    if _digest_of(memory) != digest:
        raise changed
    return Table._of(memory, _load_again, folder, digest)


@functools.lru_cache(maxsize=1)
def _read_again(*files: bytes) -> bytearray:
    return _read(files, True)


def _unchanging(data: Bytes) -> bytes:
    return data if isinstance(data, bytes) else bytes(_view(data))


def _view(data: Any) -> memoryview:
    return memoryview(data)


def _check(memory: bytearray | mmap.mmap, subject: str, advice: str = "") -> None:
    if len(memory) != _calls.TABLE_SIZE or not _calls.check(memory):
        raise ValueError(f"{subject} not an intact table of this version{advice}")


_memory = bytearray(_calls.TABLE_SIZE)
_calls.unicode(_memory)
_UNICODE = Table._of(_memory, built_in, _calls.UNICODE_VERSION)
