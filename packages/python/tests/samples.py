"""Small files of their own for the tests, and texts."""

import os
import pathlib
import random

import lbk

LINE_BREAK = b"000A;LF\n000D;CR\n0020;SP\n0061..007A;AL\n00AB;QU\n00BB;QU\n00E0..00FF;AL\n0301;CM\n4E00;ID\n1F600;ID\nFFFD;ID\n"
CATEGORY = b"00AB;Pi\n00BB;Pf\n"
FILES = (LINE_BREAK, b"", CATEGORY, b"")


# Where the published files of this version of Unicode are, where they are.
PUBLISHED = pathlib.Path(os.environ.get("UNICODE_DATA", "/usr/share/unicode"))
HAS_PUBLISHED = (PUBLISHED / "LineBreak.txt").exists()
PLACES = ("LineBreak.txt", "EastAsianWidth.txt", "extracted/DerivedGeneralCategory.txt", "emoji/emoji-data.txt")


def table():
    return lbk.Table.read(*FILES)


def found(table, text, profile=1):
    """The breaks of a text, as tuples."""
    return [tuple(one) for one in table.breaks(text, profile)]


def places(table, text, profile=1):
    return [one.at for one in table.breaks(text, profile)]


def random_text(chance, most):
    """A str of characters of one to four bytes, among which are surrogates."""
    return "".join(chance.choices("ab  \n\r«»éà\u0301一\U0001f600\ud800\udfff\0", k=chance.randrange(most)))


def random_bytes(chance, most):
    """Bytes, many of them ill-formed."""
    pieces = [b"a", b" ", b"\n", b"\r", "é".encode(), "一".encode(), "😀".encode(), b"\xe4\xb8", b"\xf0\x9f\x98", b"\x80",
        b"\xff", b"\xed\xa0\x80"]
    return b"".join(chance.choices(pieces, k=chance.randrange(most)))


def chance(seed=1):
    return random.Random(seed)
