"""Where the files of the Unicode Character Database are: the published ones, or those of the stored runs."""

import os
from pathlib import Path

from checks.harness import TOP

NAMES = ["LineBreak.txt", "EastAsianWidth.txt", "extracted/DerivedGeneralCategory.txt", "emoji/emoji-data.txt"]
OPTIONS = ["--line-break", "--east-asian", "--category", "--emoji"]
# Texts and a test beside them in the whole database.
TEXTS = ["NamesList.txt", "Index.txt", "emoji/emoji-test.txt", "auxiliary/LineBreakTest.txt", "PropList.txt"]
MISSING = "the published files of Unicode 15.0 (Debian's package unicode-data; elsewhere UNICODE_DATA names their folder)"


def published():
    """The folder of the published files of Unicode 15.0, or None where they are not there."""
    folder = Path(os.environ.get("UNICODE_DATA", "/usr/share/unicode"))
    first = folder / NAMES[0]
    if not all((folder / it).is_file() for it in NAMES):
        return None
    with open(first, encoding="utf-8") as file:
        return folder if "LineBreak-15.0.0" in file.readline() else None


def lacking(folder):
    """Those of the texts that a folder with the four files lacks."""
    return [it for it in TEXTS if not (folder / it).is_file()]


def property_files():
    """The four property files: the published ones where they are there, and else those of the stored runs."""
    folder = published()
    if folder:
        return [folder / it for it in NAMES]
    return [TOP / "crates/lbk/data" / Path(it).name for it in NAMES]


def options(files):
    """The options that name four property files."""
    return [str(word) for pair in zip(OPTIONS, files) for word in pair]


def layers_input(files, text):
    """What `trials_bench layers` reads: four property files and a text, each but the last with a zero byte behind
    it."""
    return b"\0".join([*(Path(it).read_bytes() for it in files), text])
