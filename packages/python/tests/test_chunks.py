"""Chunks, compared with a literal form of their definition."""

import copy
import pickle
import sys
import typing
import unittest

import lbk
import samples
from lbk import Kind, Table

PIECES = [
    "a", "bc ", "word ", "カタカナ", "日本", "語。", "\n", "\r\n", "can't ", "x-y ", "1,234 ", " ", "“q” ", "é", "\n\n",
    "http://a.b/c ", "😀", "\ud800",
]


class Cut(typing.NamedTuple):
    """A break outside words, and how many words are before it."""

    at: int
    words: int
    kind: int
    rule: int


def cuts_of(table, text, profile):
    ranges, passed, cuts = list(Table.word_ranges(text)), 0, []
    for at, kind, rule in table.breaks(text, profile):
        while passed < len(ranges) and ranges[passed][1] <= at:
            passed += 1
        if passed == len(ranges) or at <= ranges[passed][0]:
            cuts.append(Cut(at, passed, kind, rule))
    return cuts


def defined(cuts, most, words, least, overlap):
    """The chunks of a text with these cuts, by their definition: (start, end, words, kind, rule, alone)."""
    found, start, told = [], Cut(0, 0, 0, 0), 0

    def fits(since, cut):
        return cut.at - since.at <= most and (words is None or cut.words - since.words <= words)

    while ahead := [cut for cut in cuts if cut.at > told]:
        good = [cut for cut in ahead if fits(start, cut)]
        early = [cut for cut in good if cut.kind == Kind.MUST and cut.at - told >= least]
        end = ahead[0] if not good else good[-1] if good == ahead else (early or good)[-1]
        found.append((start.at, end.at, end.words - start.words, end.kind, end.rule, not fits(start, end)))
        # The next one may begin within this one: with so much of it, and at most half, if the next cut then fits.
        said = [
            cut for cut in cuts
            if start.at < cut.at < end.at and end.at - cut.at <= overlap and 2 * (end.at - cut.at) <= end.at - start.at
            and any(next.at > end.at for next in cuts) and fits(cut, next(it for it in cuts if it.at > end.at))
        ]
        start, told = (said or [end])[0], end.at
    return found


def random_limits(chance):
    most = chance.choice((1, 2, 3, 8, 20, 50, 200))
    words = chance.choice((None, None, 1, 3, 9))
    return most, words, chance.randrange(most + 1), chance.randrange(most // 2 + 1)


def listed(columns):
    return list(zip(*columns))


class Chunks(unittest.TestCase):
    @classmethod
    def setUpClass(cls):
        cls.table = Table.unicode()

    def random_text(self, chance):
        """A str, or bytes, some of them ill-formed."""
        text = "".join(chance.choices(PIECES, k=chance.choice((0, 1, 3, 10, 40))))
        return text if chance.random() < 0.5 else text.encode("utf-8",
            chance.choice(("replace", "surrogatepass")))[chance.randrange(3):]

    def test_columns_are_those_of_the_definition(self):
        chance = samples.chance(31)
        for _ in range(4000):
            text, limits, profile = self.random_text(chance), random_limits(chance), chance.choice((1, 2))
            wanted = defined(cuts_of(self.table, text, profile), *limits)
            found = listed(self.table.chunk_columns(text, *limits, profile=profile))
            self.assertEqual(found, wanted, (text, limits, profile))

    def test_limits_in_bytes_of_a_str(self):
        chance = samples.chance(32)
        for _ in range(1000):
            text, limits = "".join(chance.choices(PIECES[:-1], k=chance.choice((1, 10, 40)))), random_limits(chance)
            found = self.table.chunk_columns(text, *limits, unit="bytes")
            in_bytes = [
                (len(text[:start].encode()), len(text[:end].encode()), *others) for start, end, *others in listed(found)
            ]
            self.assertEqual(in_bytes, listed(self.table.chunk_columns(text.encode(), *limits)))

    def test_more_chunks_than_any_block_has(self):
        for text in ("ab é. " * 30_000, "ab cd. " * 30_000, ("é" * 300 + "\n") * 2000, ("日本語。" * 50 + "\n\n") * 300):
            cuts = cuts_of(self.table, text, 1)
            for most, overlap in ((1, 0), (7, 3), (500, 0), (500, 100)):
                found = list(self.table.chunks(text, most, overlap=overlap))
                self.assertEqual(found[-1].end, len(text))
                self.assertEqual({one.end for one in found} - {cut.at for cut in cuts}, set())
                if overlap == 0:
                    self.assertEqual("".join(one.text for one in found), text)
                for before, after in zip(found, found[1:]):
                    self.assertTrue(before.start < after.start <= before.end < after.end)
                    self.assertLessEqual(2 * (before.end - after.start), before.end - before.start)

    def test_objects(self):
        found = list(self.table.chunks("one twó. three\nfour five six", 12, least=12, overlap=5))
        self.assertEqual([one.text for one in found], ["one twó. ", "three\nfour ", "four five ", "five six"])
        first = found[0]
        self.assertEqual((first.start, first.end, first.words), (0, 9, 2))
        self.assertEqual((first.kind, str(first.rule), first.alone), (Kind.MAY, "18", False))
        self.assertIsInstance(first, lbk.Chunk)
        self.assertIs(type(first.kind), Kind)
        self.assertIs(type(first.alone), bool)
        (alone,) = self.table.chunks(b"abcdef", 3)
        self.assertEqual((alone.text, alone.alone), (b"abcdef", True))
        for text in (b"ab cd", bytearray(b"ab cd"), memoryview(b"ab cd")):
            self.assertEqual([one.text for one in self.table.chunks(text, 3)], [b"ab ", b"cd"])
        self.assertEqual(list(self.table.chunks("")), [])

    def test_iterators_are_copied_and_pickled(self):
        found = self.table.chunks("one two three four", 5)
        first = next(found)
        rest = [one.text for one in copy.copy(found)]
        self.assertEqual((first.text, rest), ("one ", ["two ", "three ", "four"]))
        self.assertEqual([one.text for one in pickle.loads(pickle.dumps(found))], rest)
        self.assertEqual([one.text for one in found], rest)
        columns = self.table.chunk_columns("one two three four", 5)
        self.assertEqual(pickle.loads(pickle.dumps(columns)), columns)
        self.assertEqual(columns.starts.format, "q")

    def test_wrong_limits_are_named(self):
        wrong = {"most": (0, -1), "words": (0, -5), "least": (-1, 11), "overlap": (-1, 6)}
        for name, numbers in wrong.items():
            for number in numbers:
                with self.assertRaisesRegex(ValueError, rf"^{name} must be .*, not {number}$"):
                    self.table.chunks("a b", **{"most": 10, name: number})
        for name in wrong:
            self.assertRaises(TypeError, self.table.chunks, "a b", **{name: "3"})
        self.assertRaisesRegex(ValueError, "unit", self.table.chunks, "a b", unit="words")
        self.assertRaises(ValueError, self.table.chunks, "a b", profile=3)
        for text in (3, None, ["a"]):
            self.assertRaises(TypeError, self.table.chunks, text)

    def test_numbers_of_any_size(self):
        for most in (sys.maxsize, sys.maxsize + 1, 10**40):
            found = list(self.table.chunks("a b\né", most, words=most, overlap=most // 2))
            self.assertEqual([one.text for one in found], ["a b\né"])

    def test_without_a_table(self):
        self.assertEqual([one.text for one in lbk.chunks("one two", 4)], ["one ", "two"])


if __name__ == "__main__":
    unittest.main()
