"""Files by their whole names and to their last rows, and those that may not be read."""

import os

from checks.files_and_pipes.place import CATEGORY, LINE_BREAK, long_file, with_name, words_of
from checks.unicode_files import OPTIONS

# The user that has leave for little, on each system of this kind.
NOBODY = 65534
LENGTHS = (2_097_153, 2_500_001, 3_333_333, 4_194_305, 6_000_000, 8_388_608)

# For each place of a file: its row that decides, a text, and what is shown with that row and without it.
DECIDES = [
    (LINE_BREAK, b"0061;ID\n", "aa", "× 0061 ÷ 0061 !\t# 2 31 3\n", "× 0061 × 0061 !\t# 2 28 3\n"),
    (b"", b"0028;W\n", "a(", "× 0061 ÷ 0028 !\t# 2 31 3\n", "× 0061 × 0028 !\t# 2 30 3\n"),
    (CATEGORY, b"0E31;Mn\n", "a\u0e31", "× 0061 × 0E31 !\t# 2 9 3\n", "× 0061 × 0E31 !\t# 2 28 3\n"),
    (
        b"",
        b"1FAFF;Extended_Pictographic\n",
        "\U0001faff\U0001f3fb",
        "× 1FAFF × 1F3FB !\t# 2 30b 3\n",
        "× 1FAFF ÷ 1F3FB !\t# 2 31 3\n",
    ),
]


# Names, and similar names of other files with other contents.
NAMED = [
    ("a name that ends in a space", "name ", ["name"]),
    ("a name that begins with a space", " name", ["name"]),
    ("a name that ends in a line end", "name\n", ["name"]),
    ("a name of scalars of each size", "né-の-😀", ["ne-の-😀", "né-の-", "NÉ-の-😀", "ne\u0301-の-😀", "n--"]),
    ("a name without an ending", "name", ["name.txt", "NAME", "name.gz", "name~", ".name", "name-15.0.0.txt"]),
    ("a name of 200 bytes", "n" * 200, ["n" * length for length in (1, 63, 64, 99, 100, 127, 128, 199)]),
    ("a name of 1,201 bytes", "./" * 500 + "m" * 201, ["m" * length for length in (1, 64, 100, 200)]),
    ("a name of 1,401 bytes", "./" * 600 + "m" * 201, ["m" * length for length in (1, 64, 100, 200)]),
    ("a name of 4,095 bytes", "./" * 1_947 + "m" * 201, ["m" * length for length in (1, 64, 100, 200)]),
]


def marked(text, line):
    """What `mark` writes of a text of two scalars, by the line that `show` writes of it."""
    return (text[0] + ("÷" if " ÷ " in line else "") + text[1:] + "\n").encode()


def run(place):
    for k, (front, last, text, decided, plain) in enumerate(DECIDES):
        given, option = text.encode(), OPTIONS[k]
        for task, with_row, without in (
            ("show", decided.encode(), plain.encode()),
            ("mark", marked(text, decided), marked(text, plain)),
        ):
            words = lambda name, task=task, k=k: words_of(task, with_name(k, name))
            what = f"{task} {option}"
            place.write("short", front)
            place.row(f"{what}: without the row", words("short"), given, 0, without)
            for length in LENGTHS:
                place.write("long", long_file(front, last, length))
                place.row(f"{what}: a file of {length} bytes whose last row decides", words("long"), given, 0, with_row)
            names(place, what, words, (given, front, last, with_row))
        without_leave(place, k, front + last, given)


def names(place, what, words, contents):
    given, front, last, with_row = contents
    for kind, name, others in NAMED:
        for other in others:
            place.write(other, front)
        place.write(name, front + last)
        place.row(f"{what}: {kind}", words(name), given, 0, with_row)
        os.remove(place.folder / name)
        err = f"lbk: {name}: the file cannot be read: no such file\n".replace("\n:", "\\u{a}:").encode()
        place.row(f"{what}: {kind}, which is not there", words(name), given, 1, b"", err)
        for other in others:
            os.remove(place.folder / other)


def without_leave(place, k, contents, given):
    """A file and a folder that may not be read, by a user who is not root, since root may read all."""
    user = NOBODY if os.getuid() == 0 else None
    closed = place.folder / "closed"
    closed.mkdir(exist_ok=True)
    for name, path in (("secret", place.folder / "secret"), ("closed/file", closed)):
        place.write(name, contents)
        path.chmod(0)
        words = words_of("show", with_name(k, name))
        err = f"lbk: {name}: the file cannot be read: permission denied\n".encode()
        place.row(f"{OPTIONS[k]}: {name} without leave", words, given, 1, b"", err, user)
        path.chmod(0o755)
