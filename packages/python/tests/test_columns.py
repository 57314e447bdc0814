"""Breaks in columns."""

import array
import unittest

import samples
from lbk import Kind


class Columns(unittest.TestCase):
    @classmethod
    def setUpClass(cls):
        cls.table = samples.table()

    def test_columns_are_those_of_the_breaks(self):
        chance = samples.chance()
        for _ in range(300):
            for text in (samples.random_text(chance, 60), samples.random_bytes(chance, 60)):
                for profile in (1, 2):
                    found = self.table.break_columns(text, profile)
                    self.assertEqual(list(zip(*found)), samples.found(self.table, text, profile))

    def test_columns_are_buffers(self):
        found = self.table.break_columns("é à\n一")
        self.assertEqual((found.places.format, found.places.itemsize), ("q", 8))
        self.assertEqual(array.array("q", found.places), array.array("q", [2, 4, 5]))
        self.assertEqual(array.array("q", found.places.tobytes()).tolist(), [2, 4, 5])
        for column in (found.kinds, found.rules):
            view = memoryview(column)
            self.assertEqual((view.format, view.nbytes), ("B", 3))
        self.assertEqual(found.kinds.count(Kind.MUST), 2)

    def test_columns_have_names_and_an_order(self):
        found = self.table.break_columns("a b")
        self.assertEqual(found._fields, ("places", "kinds", "rules"))
        places, kinds, rules = found
        self.assertEqual((places.tolist(), list(kinds)), ([2, 3], [Kind.MAY, Kind.MUST]))
        self.assertEqual(len(rules), 2)

    def test_columns_of_many_texts_stand_one_after_the_other(self):
        chance = samples.chance()
        texts = ["a b", "", "é è", "é è".encode(), b"", bytearray(b"a b"), memoryview(b"a b")]
        texts += [samples.random_text(chance, 50) for _ in range(1000)] + [samples.random_bytes(chance, 50)
            for _ in range(1000)]
        for profile in (1, 2):
            found = self.table.break_list_columns(texts, profile)
            self.assertEqual(found.offsets.format, "q")
            self.assertEqual(len(found.offsets), len(texts) + 1)
            self.assertEqual(found.offsets[0], 0)
            self.assertEqual(found.offsets[-1], len(found.places))
            for text, start, end in zip(texts, found.offsets, found.offsets[1:]):
                one = self.table.break_columns(text, profile)
                self.assertEqual(found.places[start:end], one.places)
                self.assertEqual(found.kinds[start:end], one.kinds)
                self.assertEqual(found.rules[start:end], one.rules)

    def test_many_texts_can_be_any_iterable(self):
        self.assertEqual(self.table.break_list_columns([]).offsets.tolist(), [0])
        for texts in (("a b", "c"), iter(["a b", "c"]), {"a b": 1, "c": 2}, (text for text in ("a b", "c"))):
            self.assertEqual(self.table.break_list_columns(texts).places.tolist(), [2, 3, 1])

    def test_one_text_is_not_many(self):
        for text in ("ab", b"ab", bytearray(b"ab"), memoryview(b"ab"), 3, None):
            self.assertRaises(TypeError, self.table.break_list_columns, text)

    def test_a_value_that_is_no_text_is_named_by_its_row(self):
        said = "a str or a bytes-like object is required, not"
        for row, wrong, message in (
            (0, 3, f"row 0: {said} 'int'"), (2, None, f"row 2: {said} 'NoneType'"),
            (1500, float("nan"), f"row 1500: {said} 'float'"),
            (1, array.array("q", [1]), "row 1: a contiguous object of single bytes is required"),
        ):
            texts = ["a b"] * 2000
            texts[row] = wrong
            with self.assertRaises(TypeError) as raised:
                self.table.break_list_columns(texts)
            self.assertEqual(str(raised.exception), message)

    def test_columns_show_how_many_they_are(self):
        many = self.table.break_list_columns(["a b"] * 100_000)
        self.assertEqual(repr(many), "<lbk.ListColumns of 100,000 texts, 200,000 breaks>")
        self.assertEqual(repr(self.table.break_list_columns([])), "<lbk.ListColumns of 0 texts, 0 breaks>")
        self.assertEqual(repr(self.table.break_columns("a")), "<lbk.Columns of 1 break>")
        self.assertEqual(str(self.table.break_columns("a b\n" * 1000)), "<lbk.Columns of 2,000 breaks>")
        self.assertEqual(repr(self.table.word_columns("a b")), "<lbk.WordColumns of 2 words>")
        self.assertEqual(repr(self.table.passage_columns("a b\nc")),
            "<lbk.PassageColumns of 2 passages, 3 segments, 3 words>")
        self.assertEqual(repr(self.table.chunk_columns("a b", most=2)), "<lbk.ChunkColumns of 2 chunks>")

    def test_numpy_takes_columns_as_they_are(self):
        try:
            import numpy
        except ImportError:
            self.skipTest("numpy is not there")
        found = self.table.break_columns("é à\n一")
        places, kinds = numpy.asarray(found.places), numpy.asarray(found.kinds)
        self.assertEqual((places.dtype, places.tolist()), (numpy.int64, [2, 4, 5]))
        self.assertTrue(numpy.shares_memory(places, numpy.frombuffer(found.places, dtype=numpy.int64)))
        self.assertEqual(places[kinds == Kind.MUST].tolist(), [4, 5])
        text = "é à\n一".encode()
        self.assertEqual(list(self.table.breaks(numpy.frombuffer(text, numpy.uint8))), list(self.table.breaks(text)))
