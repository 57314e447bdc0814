"""The four files in a folder of the Unicode Character Database."""

import errno
import os
from pathlib import Path
from typing import TypeAlias

Folder: TypeAlias = "str | os.PathLike[str]"

# Where each file may be: in Unicode's layout of the folder, or with all files side by side.
_PLACES = (
    ("LineBreak.txt",),
    ("EastAsianWidth.txt",),
    ("extracted/DerivedGeneralCategory.txt", "DerivedGeneralCategory.txt"),
    ("emoji/emoji-data.txt", "emoji-data.txt"),
)


def contents(folder: Folder) -> list[bytes]:
    """The contents of the four files in a folder."""
    return [_first_of(Path(folder), places).read_bytes() for places in _PLACES]


def place_of(folder: Folder, file: int) -> str:
    """The path of one of the files, by its number in a `Fault`."""
    return str(_first_of(Path(folder), _PLACES[file - 1]))


def _first_of(folder: Path, places: tuple[str, ...]) -> Path:
    for place in places:
        if (folder / place).is_file():
            return folder / place
    raise FileNotFoundError(errno.ENOENT, os.strerror(errno.ENOENT), str(folder / places[0]))
