#!/usr/bin/env python3
"""Writes the words of texts by the rules of UAX #29 as they are printed.

    word_oracle.py FOLDER random COUNT SEED TEXT > WANTED    random bytes into TEXT, and their words
    word_oracle.py FOLDER published TEXT > WANTED            the same of the published test
    word_oracle.py FOLDER scalars TEXT > WANTED              the same of each assigned scalar

FOLDER has the files of the Unicode Character Database, as Debian's package unicode-data does. A
word is written as the line `W START END`. The published test and the scalars are a line each. It
shares nothing with the library: it knows the properties from the files, and each rule is one line.
"""
import random
import sys

# Scalars of each value of Word_Break, with the same values from version 15.0 to 18.0.
SAMPLES = (
    "\r\n\v\u2028\u200d\u0308\u094d\u093e\u00ad\u2060\U0001f1e6\U0001f1fa\u30a2\u30fc\u05d0\u05ea"
    "\u0041\u007a\u00e9\u0436\uac00\u0627"
    "\u003a\u00b7\u002c\u003b\u002e\u2018\u2024\u0027\u0022\u0030\u0039\u0665"
    "\u005f\u203f\u0020\u3000\u4e00\u3042\u0e01\u2615\U0001f600"
    "\U0001f3fb\U0001f469\ufffd\uff9e\u24b6\u2160\u00bd\u002d\u0021\u0000"
)
ENDS = ("CR", "LF", "Newline")
SKIPPED = ("Extend", "Format", "ZWJ")
ILL_FORMED = (b"\x80", b"\xc3", b"\xe0\x80", b"\xe4\xb8", b"\xed\xa0\x80", b"\xf0\x9f\x98", b"\xf4\x90", b"\xff")


def values_of(path, default):
    """The property that a file gives to each code."""
    values = {}
    for line in open(path, encoding="utf-8"):
        row = [part.strip() for part in line.partition("#")[0].split(";")]
        if len(row) == 2:
            first, _, last = row[0].partition("..")
            for code in range(int(first, 16), int(last or first, 16) + 1):
                values[code] = row[1]
    return lambda code: values.get(code, default)


def members_of(path, name):
    """The codes that a file gives a property."""
    has = set()
    for line in open(path, encoding="utf-8"):
        row = [part.strip() for part in line.partition("#")[0].split(";")]
        if len(row) == 2 and row[1] == name:
            first, _, last = row[0].partition("..")
            has.update(range(int(first, 16), int(last or first, 16) + 1))
    return has


class Rules:
    def __init__(self, folder):
        self.value = values_of(f"{folder}/auxiliary/WordBreakProperty.txt", "Other")
        self.category = values_of(f"{folder}/extracted/DerivedGeneralCategory.txt", "Cn")
        self.pictographic = members_of(f"{folder}/emoji/emoji-data.txt", "Extended_Pictographic")

    def is_boundary(self, codes, at):
        """Whether a boundary is before codes[at], by the rules in their order (UAX #29, section 4.1.1)."""
        if at == 0 or at == len(codes):
            return True  # WB1, WB2
        last, value = self.value(codes[at - 1]), self.value(codes[at])
        if (last, value) == ("CR", "LF"):
            return False  # WB3
        if last in ENDS or value in ENDS:
            return True  # WB3a, WB3b
        if last == "ZWJ" and codes[at] in self.pictographic:
            return False  # WB3c
        if last == value == "WSegSpace":
            return False  # WB3d
        if value in SKIPPED:
            return False  # WB4
        units = self.units(codes)
        here = next(n for n, (k, _) in enumerate(units) if k == at)
        unit = lambda n: units[n][1] if 0 <= n < len(units) else None
        if self.is_joined(*(unit(here + n) for n in (-2, -1, 0, 1))):
            return False
        if unit(here - 1) == unit(here) == "Regional_Indicator":  # WB15, WB16
            run = 0
            while unit(here - 1 - run) == "Regional_Indicator":
                run += 1
            return run % 2 == 0
        return True  # WB999

    def units(self, codes):
        """What WB4 leaves, as places and values: marks count as one with what stands before them, but at the start of
        the text or a line."""
        found = []
        for k, code in enumerate(codes):
            own = self.value(code)
            if own not in SKIPPED or k == 0 or self.value(codes[k - 1]) in ENDS:
                found.append((k, own))
        return found

    def is_joined(self, far_left, left, right, far_right):
        """Whether one of the rules WB5 to WB13b matches between the values of two units on each side."""
        letter = ("ALetter", "Hebrew_Letter")
        mid_letter = ("MidLetter", "MidNumLet", "Single_Quote")
        mid_num = ("MidNum", "MidNumLet", "Single_Quote")
        return (
            left in letter and right in letter  # WB5
            or left in letter and right in mid_letter and far_right in letter  # WB6
            or far_left in letter and left in mid_letter and right in letter  # WB7
            or left == "Hebrew_Letter" and right == "Single_Quote"  # WB7a
            or left == "Hebrew_Letter" and right == "Double_Quote" and far_right == "Hebrew_Letter"  # WB7b
            or far_left == "Hebrew_Letter" and left == "Double_Quote" and right == "Hebrew_Letter"  # WB7c
            or left == right == "Numeric"  # WB8
            or left in letter and right == "Numeric"  # WB9
            or left == "Numeric" and right in letter  # WB10
            or far_left == "Numeric" and left in mid_num and right == "Numeric"  # WB11
            or left == "Numeric" and right in mid_num and far_right == "Numeric"  # WB12
            or left == right == "Katakana"  # WB13
            or left in letter + ("Numeric", "Katakana", "ExtendNumLet") and right == "ExtendNumLet"  # WB13a
            or left == "ExtendNumLet" and right in letter + ("Numeric", "Katakana")  # WB13b
        )

    def words(self, codes, sizes, start=0):
        """The byte ranges of the parts between boundaries that have a letter or a number."""
        at, has_letter = start, False
        begin = start
        for k, code in enumerate(codes):
            if k > 0 and self.is_boundary(codes, k):
                if has_letter:
                    yield begin, at
                begin, has_letter = at, False
            has_letter = has_letter or self.category(code)[0] in "LN"
            at += sizes[k]
        if has_letter:
            yield begin, at


def read(data):
    """The scalars of some bytes, U+FFFD for ill-formed pieces, and how many bytes each takes."""
    codes, sizes = [], []
    at = 0
    while at < len(data):
        for size in range(1, 5):
            try:
                codes.append(ord(data[at : at + size].decode("utf-8")))
                break
            except UnicodeDecodeError as error:
                if error.reason != "unexpected end of data" or at + size >= len(data):
                    size = max(1, error.end - error.start)
                    codes.append(0xFFFD)
                    break
        sizes.append(size)
        at += size
    return codes, sizes


def random_text(source):
    data = b""
    for _ in range(source.randrange(1, 14)):
        choice = source.random()
        if choice < 0.08:
            data += source.choice(ILL_FORMED)
        elif choice < 0.1:
            data += bytes([source.randrange(256)])
        else:
            data += source.choice(SAMPLES).encode()
    return data


def published(folder):
    for line in open(f"{folder}/auxiliary/WordBreakTest.txt", encoding="utf-8"):
        words = line.partition("#")[0].split()
        # U+2701 was Extended_Pictographic in version 15.0, and is not in 18.0.
        if words and "2701" not in words:
            yield words


def main():
    folder, what = sys.argv[1], sys.argv[2]
    rules = Rules(folder)
    text = bytearray()
    if what == "random":
        source = random.Random(int(sys.argv[4]))
        for _ in range(int(sys.argv[3])):
            data = random_text(source)
            codes, sizes = read(data + b"\n")
            for begin, end in rules.words(codes, sizes, len(text)):
                print("W", begin, end)
            text += data + b"\n"
        path = sys.argv[5]
    elif what == "scalars":
        for code in range(0x110000):
            if rules.category(code) not in ("Cn", "Cs", "Co"):
                data = chr(code).encode()
                if rules.category(code)[0] in "LN":
                    print("W", len(text), len(text) + len(data))
                text += data + b"\n"
        path = sys.argv[3]
    else:
        for words in published(folder):
            begin, has_letter = len(text), False
            for word in words:
                if word == "÷":
                    if has_letter:
                        print("W", begin, len(text))
                    begin, has_letter = len(text), False
                elif word != "×":
                    has_letter = has_letter or rules.category(int(word, 16))[0] in "LN"
                    text += chr(int(word, 16)).encode()
            text += b"\n"
        path = sys.argv[3]
    with open(path, "wb") as out:
        out.write(text)


if __name__ == "__main__":
    main()
