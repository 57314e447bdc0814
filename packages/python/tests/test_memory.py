"""What is held while breaks are asked for, and that all of it is given back."""

import copy
import gc
import mmap
import sys
import tempfile
import unittest
import weakref

import samples


class Text(str):
    """One that can be referred to weakly."""


class Memory(unittest.TestCase):
    @classmethod
    def setUpClass(cls):
        cls.table = samples.table()

    def each_call(self, text):
        list(self.table.breaks(text))
        next(self.table.breaks(text), None)
        self.table.breaks(text)
        list(self.table.segments(text))
        next(self.table.segments(text), None)
        found = self.table.breaks(text)
        for _ in zip(range(3), found):
            list(copy.copy(found))
        found.__reduce__()
        self.table.break_columns(text)
        self.table.break_list_columns([text, text])
        next(self.table.chunks(text, 50, overlap=20))
        self.table.chunk_columns(text, 7, words=2, unit="bytes")

    def test_no_reference_is_left(self):
        texts = ("a b " * 5000, "é b " * 5000, "\ud800 " * 5000, b"a b " * 5000, bytearray(b"a b " * 5000),
            memoryview(b"a b " * 5000))
        for text in texts:
            with self.subTest(type(text)):
                before = sys.getrefcount(text), sys.getrefcount(self.table._memory), sys.getrefcount(type(text))
                for _ in range(20):
                    self.each_call(text)
                after = sys.getrefcount(text), sys.getrefcount(self.table._memory), sys.getrefcount(type(text))
                self.assertEqual(after, before)

    def test_no_reference_is_left_by_errors(self):
        text = object()
        before = sys.getrefcount(text), sys.getrefcount(self.table._memory)
        for _ in range(100):
            for call in (self.table.breaks, self.table.segments, self.table.break_columns):
                self.assertRaises(TypeError, call, text)
                self.assertRaises(ValueError, call, "a b", 3)
            self.assertRaises(TypeError, self.table.chunks, text)
            self.assertRaises(ValueError, self.table.chunks, "a b", profile=3)
            self.assertRaises(TypeError, self.table.break_list_columns, ["a b", text])
        self.assertEqual((sys.getrefcount(text), sys.getrefcount(self.table._memory)), before)

    def test_no_memory_is_left(self):
        texts = ("a b " * 200, "é b " * 200, "\ud800 " * 20, b"a b " * 200, bytearray(b"a b " * 20),
            memoryview(b"a b " * 20))

        def blocks(rounds):
            for _ in range(rounds):
                for text in texts:
                    self.each_call(text)
            gc.collect()
            return sys.getallocatedblocks()

        before = blocks(100)
        self.assertLess(blocks(400) - before, 200)

    def test_objects_go_with_their_last_reference(self):
        text = Text("a b é")
        gone = weakref.ref(text)
        found = self.table.segments(text)
        self.assertEqual(next(found), "a ")
        del text
        self.assertIsNotNone(gone())
        del found
        self.assertIsNone(gone())

    def test_a_cycle_is_collected(self):
        text = Text("a b é")
        text.found = self.table.segments(text)
        gone = weakref.ref(text)
        del text
        gc.collect()
        self.assertIsNone(gone())

    def test_an_iterator_keeps_its_table(self):
        found = samples.table().breaks("a b")
        gc.collect()
        self.assertEqual([one.at for one in found], [2, 3])

    def test_an_object_that_can_be_written_is_taken_as_it_was(self):
        text = bytearray(b"ab cd " * 5000)
        found = self.table.breaks(text)
        first = next(found)
        text.clear()
        text += b"x"
        self.assertEqual([one.at for one in [first, *found]], [place for place in range(3, 30_001, 3)])

    def test_no_buffer_is_held_between_the_calls(self):
        with tempfile.TemporaryFile() as file:
            file.write(b"ab cd " * 5000)
            file.flush()
            text = mmap.mmap(file.fileno(), 0, access=mmap.ACCESS_READ)
            view = memoryview(b"ab cd " * 5000)
            for one in (text, view):
                found, segments = self.table.breaks(one), self.table.segments(one)
                self.assertEqual((next(found).at, next(segments)), (3, b"ab "))
                one.close() if one is text else one.release()
                with self.assertRaises(ValueError):
                    list(found)
                with self.assertRaises(ValueError):
                    list(segments)

    def test_a_table_is_not_written_by_its_users(self):
        with memoryview(self.table.to_bytes()) as before:
            self.each_call("a « b » c")
            self.assertEqual(before, self.table.to_bytes())
