"""Words and passages."""

import array
import mmap
import pickle
import tempfile
import unittest

import samples
from lbk import Passage, Table


def listed(text, columns):
    """The passages that columns have."""
    offsets, places, word_offsets, starts, ends = columns
    found = []
    for k in range(len(offsets) - 1):
        first, last = offsets[k], offsets[k + 1]
        segments = [text[places[i] : places[i + 1]] for i in range(first, last)]
        words = [text[starts[j] : ends[j]] for j in range(word_offsets[k], word_offsets[k + 1])]
        found.append(Passage(places[first], text[places[first] : places[last]], segments, words))
    return found


class Words(unittest.TestCase):
    def test_words_of_a_text(self):
        text = "Can't we say 3.2 “naïve 一二” — no?!"
        words = ["Can't", "we", "say", "3.2", "naïve", "一", "二", "no"]
        self.assertEqual(list(Table.words(text)), words)
        self.assertEqual(list(samples.table().words(text.encode())), [word.encode() for word in words])
        self.assertEqual([text[start:end] for start, end in Table.word_ranges(text)], words)
        self.assertEqual(list(Table.word_ranges("é, à")), [(0, 1), (3, 4)])
        self.assertEqual(list(Table.word_ranges("é, à".encode())), [(0, 2), (4, 6)])

    def test_a_text_may_have_none(self):
        for text in ("", b"", " ", "?!", b"\xff"):
            self.assertEqual(list(Table.words(text)), [])

    def test_more_words_than_any_block_has(self):
        for word in ("ab", "é", "😀a"):
            text = 100_000 * f"{word} "
            self.assertEqual(list(Table.words(text)), list(Table.words(f"{word} ")) * 100_000)
            self.assertEqual(list(Table.words(text.encode())), list(Table.words(f"{word} ".encode())) * 100_000)

    def test_places_in_bytes_and_code_points_agree(self):
        chance = samples.chance(7)
        for _ in range(300):
            text = samples.random_text(chance, 60).encode("utf-8", "replace").decode()
            data = text.encode()
            ranges = [(len(data[:start].decode()), len(data[:end].decode())) for start, end in Table.word_ranges(data)]
            self.assertEqual(list(Table.word_ranges(text)), ranges)

    def test_columns_are_the_ranges(self):
        chance = samples.chance(8)
        texts = [make(chance, 60) for make in (samples.random_text, samples.random_bytes) for _ in range(200)]
        for text in [*texts, "", b"", 100_000 * "ab é ", 3000 * "?!" + 3000 * "a "]:
            columns = Table.word_columns(text)
            self.assertEqual(list(zip(*columns)), list(Table.word_ranges(text)))
            self.assertEqual(pickle.loads(pickle.dumps(columns)), columns)
        for wrong in (3, None, ["a"]):
            self.assertRaises(TypeError, Table.word_columns, wrong)

    def test_each_object_of_bytes_and_nothing_else(self):
        for text in (bytearray(b"ab cd"), memoryview(b"ab cd"), array.array("B", b"ab cd")):
            self.assertEqual(list(Table.words(text)), [b"ab", b"cd"])
        for text in (3, None, ["a"], array.array("I", [97])):
            for call in (Table.words, Table.word_ranges, samples.table().passages):
                self.assertRaises(TypeError, call, text)


class Passages(unittest.TestCase):
    @classmethod
    def setUpClass(cls):
        cls.table = samples.table()

    def test_columns_are_the_passages(self):
        chance = samples.chance(9)
        texts = [make(chance, 60) for make in (samples.random_text, samples.random_bytes) for _ in range(300)]
        for text in [*texts, "", b"", 1000 * "ab é\n", "a " * 1000]:
            text = text.encode("utf-8", "replace").decode() if isinstance(text, str) else text
            for profile in (1, 2):
                found = self.table.passage_columns(text, profile)
                self.assertEqual(listed(text, found), list(self.table.passages(text, profile)))
                self.assertEqual(pickle.loads(pickle.dumps(found)), found)
        for wrong in (3, None):
            self.assertRaises(TypeError, self.table.passage_columns, wrong)
        self.assertRaises(ValueError, self.table.passage_columns, "a", 3)

    def test_passages_of_a_text(self):
        found = list(self.table.passages("é cd.\r\n\nef"))
        wanted = [(0, "é cd.\r\n", ["é ", "cd.\r\n"], ["é", "cd"]), (7, "\n", ["\n"], []), (8, "ef", ["ef"], ["ef"])]
        self.assertEqual(found, wanted)
        self.assertEqual(found[0].words, ["é", "cd"])
        self.assertIsInstance(found[0], Passage)
        wanted = [(0, b"ab\n", [b"ab\n"], [b"ab"]), (3, b"c", [b"c"], [b"c"])]
        for text in (b"ab\nc", bytearray(b"ab\nc"), memoryview(b"ab\nc")):
            self.assertEqual(list(self.table.passages(text)), wanted)
        with tempfile.TemporaryFile() as file:
            file.write(b"ab\nc")
            file.flush()
            with mmap.mmap(file.fileno(), 0, access=mmap.ACCESS_READ) as text:
                self.assertEqual(list(self.table.passages(text)), wanted)
        self.assertEqual(list(self.table.passages("")), [])

    def test_passages_are_the_text(self):
        chance = samples.chance(8)
        for make in (samples.random_text, samples.random_bytes):
            for _ in range(300):
                text, profile = make(chance, 60), chance.choice((1, 2))
                found = list(self.table.passages(text, profile))
                nothing = type(text)()
                self.assertEqual(nothing.join(one.text for one in found), text)
                self.assertEqual([segment for one in found for segment in one.segments],
                    list(self.table.segments(text, profile)))
                self.assertEqual([word for one in found for word in one.words], list(Table.words(text)))
                for one in found:
                    self.assertEqual(text[one.start :][: len(one.text)], one.text)
                    self.assertEqual(nothing.join(one.segments), one.text)

    def test_what_is_no_profile_is_refused(self):
        self.assertRaises(ValueError, self.table.passages, "a", 3)
