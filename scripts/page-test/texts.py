"""The texts that scripts/page tries, and what the library for C decides of them."""
import ctypes
import hashlib
import json
import random
import re
import subprocess
from pathlib import Path

SEED = 36
SIZE = 1_000_000
ROOM = 64
# The letters of made-up texts of a million bytes, the most letters in a word, and what separates words.
SCRIPTS = {
    "latin": ("abcdefghijklmnopqrstuvwxyzéöß", 9, [" ", " ", ", ", ". ", "-", " (", ") ", " « ", " » ", "\n",
        " 3,50 € "]),
    "cyrillic": ("абвгдежзиклмнопрстухцчшщыэюя", 11, [" ", " ", ", ", ". ", " — ", " „", "“ ", "\n", " №5 "]),
    "japanese": ("あいうえおかきくけこっゃアイウ日本語東京改行", 7, ["、", "。", "「", "」", "ー", "\n", " ", "100%"]),
    "korean": ("가각간대한민국은공화주의이다", 6, [" ", " ", ", ", ". ", "(", ") ", "\n", "2024년 "]),
    "hindi": ("कखगघचजटडणतदधनपबभमयरलवशसहािीुूेैोौ्ं", 8, [" ", " ", "। ", ", ", "-", "\n", "\u200d"]),
}


class State(ctypes.Structure):
    _fields_ = [("at", ctypes.c_size_t), ("row", ctypes.c_uint16), ("profile", ctypes.c_uint8),
        ("ended", ctypes.c_uint8)]


class Break(ctypes.Structure):
    _fields_ = [("at", ctypes.c_size_t), ("kind", ctypes.c_uint8), ("rule", ctypes.c_uint8)]


class Label(ctypes.Structure):
    _fields_ = [("text", ctypes.c_char * 4)]


def test_lines(folder):
    """The texts of the lines of the published test, if its folder is there."""
    if folder is None:
        return []
    lines = (folder / "auxiliary/LineBreakTest.txt").read_text(encoding="utf-8").splitlines()
    rows = ([it for it in line.partition("#")[0].split() if it not in "×÷"] for line in lines)
    return ["".join(chr(int(it, 16)) for it in row) for row in rows if row]


def made_text(draw, letters, most, between, size):
    """Words of some letters with something between any two, of so many bytes, up to the end of a line."""
    parts, left = [], size - 1
    while left > 0:
        part = "".join(draw.choices(letters, k=draw.randint(1, most))) + draw.choice(between)
        left -= len(part.encode())
        parts.append(part)
    return ("".join(parts) + "\n").encode()


def random_bytes(draw, size):
    """Bytes, partly text and partly ill-formed."""
    pieces = [b"word ", " « été » ".encode(), "日本語。".encode(), b"\xff\xfe", b"\xe2\x80", b"\xf0\x9f\x98", b"\r\n",
        "👩‍👧".encode()]
    return b"".join(draw.choice(pieces) if draw.random() < 0.9 else draw.randbytes(3) for _ in range(size // 5))


def short_strings(draw, count):
    """Strings of a few units, some of them lone surrogates."""
    pieces = ["a", " ", "«", "»", "\u0301", "日", "。", "-", "1", "\n", "\u200d", "😀", "\ud800", "\udc00", "\udfff\udbff"]
    return ["".join(draw.choices(pieces, k=draw.randint(0, 12))) for _ in range(count)]


def write_texts(here, folder, given):
    """The texts that are tried, as files: those of the database, if its folder is there, made-up ones, and the first
    million bytes of those given."""
    draw = random.Random(SEED)
    made = {name: made_text(draw, *how, SIZE) for name, how in SCRIPTS.items()}
    if folder is not None:
        made["published-test"] = "\n".join(test_lines(folder)).encode("utf-8", "replace")
    made |= {"ill-formed": random_bytes(draw, SIZE), "empty": b"", "one-byte": b"a"}
    made |= {f"first-of-{Path(it).name}": Path(it).read_bytes()[:SIZE] for it in given}
    for name, text in made.items():
        (here / name).write_bytes(text)
    print(f"made-up texts are of the seed {SEED}")
    published = [] if folder is None else [folder / "NamesList.txt", folder / "LineBreak.txt"]
    return [*published, *(here / it for it in made)]


def decide_texts(here, texts):
    """Has the library for C decide the texts: rows of `digest of the lines, call, profile, text`."""
    rows = []
    for text in texts:
        calls = [("position", profile, [here / "positions", profile]) for profile in "12"]
        calls += [("break", profile, [*command, "breaks"]) for _, profile, command in calls]
        for call, profile, command in [*calls, ("word", "", [here / "words"])]:
            with open(text, "rb") as given:
                lines = subprocess.run(command, stdin=given, stdout=subprocess.PIPE, check=True).stdout
            rows.append([hashlib.sha256(lines).hexdigest(), call, profile, str(text)])
    return rows


def units_at(text):
    """The place in UTF-16 units for each place in UTF-8 bytes at which a scalar of a text begins or ends."""
    places, at, units = {0: 0}, 0, 0
    for scalar in text:
        at += len(scalar.encode())
        units += 1 + (scalar > "\uffff")
        places[at] = units
    return places


def positions_of(library, table, profile, text):
    """The positions of a well-formed text as the library for C gives them, in UTF-16 units, as `3 may 18`."""
    places, read = units_at(text), text.encode()
    state, block, count, rows = State(profile=profile - 1), (Break * ROOM)(), ROOM, []
    while count == ROOM:
        count = library.lbk_positions(table, ctypes.byref(state), read, len(read), block, ROOM)
        rows += [f"{places[it.at]} {('no', 'may', 'must')[it.kind]} {library.lbk_label(it.rule).text.decode()}"
            for it in block[:count]]
    return ", ".join(rows)


def library_at(path):
    """The library for C, with a call that fills a table, and one that packs it."""
    called = ctypes.CDLL(str(path))
    called.lbk_unicode.argtypes, called.lbk_unicode.restype = [ctypes.c_void_p], None
    called.lbk_pack.argtypes = [ctypes.c_void_p, ctypes.c_void_p, ctypes.c_size_t]
    called.lbk_pack.restype = ctypes.c_size_t
    return called


def write_packed(library, table, to):
    """Writes the packed form of a saved table."""
    called, read = library_at(library), ctypes.create_string_buffer(table.read_bytes())
    packed = ctypes.create_string_buffer(called.lbk_pack(read, None, 0))
    called.lbk_pack(read, packed, len(packed))
    to.write_bytes(packed.raw)


def decide_strings(library, table_size, folder, to):
    """Writes strings with their positions, as JSON: the lines of the published test each alone, and short strings."""
    called = library_at(library)
    called.lbk_positions.argtypes = [ctypes.c_void_p] * 2 + [ctypes.c_char_p, ctypes.c_size_t, ctypes.c_void_p,
        ctypes.c_size_t]
    called.lbk_positions.restype, called.lbk_label.restype = ctypes.c_size_t, Label
    read = ctypes.create_string_buffer(table_size)
    called.lbk_unicode(read)
    rows = []
    for text in [*test_lines(folder), *short_strings(random.Random(SEED), 5000)]:
        # Two adjacent surrogates are a pair in a string of UTF-16.
        whole = text.encode("utf-16-le", "surrogatepass").decode("utf-16-le", "replace") if re.search("[\ud800-\udfff]",
            text) else text
        rows += [[text, profile, positions_of(called, read, profile, whole)] for profile in (1, 2)]
    to.write_text(json.dumps(rows), encoding="utf-8")
