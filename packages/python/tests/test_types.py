"""What mypy says of the package, and of programs that use it."""

import importlib.util
import os
import pathlib
import subprocess
import sys
import tempfile
import textwrap
import unittest

import lbk

PACKAGE = pathlib.Path(lbk.__file__).resolve().parent


@unittest.skipUnless(importlib.util.find_spec("mypy"), "mypy is not there")
class Types(unittest.TestCase):
    @classmethod
    def setUpClass(cls):
        folder = tempfile.TemporaryDirectory()
        cls.addClassCleanup(folder.cleanup)
        cls.folder = pathlib.Path(folder.name)

    def check(self, *words):
        """What mypy says, over the package as it is here."""
        command = [sys.executable, "-m", "mypy", "--strict", "--no-error-summary", "--cache-dir", self.folder / "cache",
            *words]
        environment = {**os.environ, "LD_PRELOAD": ""}
        done = subprocess.run(command, cwd=PACKAGE.parent, env=environment, capture_output=True, text=True, timeout=600,
            check=False)
        return done.stdout + done.stderr

    def said_of(self, program):
        return self.check("-c", textwrap.dedent(program))

    def test_the_package(self):
        self.assertEqual(self.check("-p", "lbk"), "")

    def test_a_break_has_types_however_it_is_taken(self):
        program = """
            from collections.abc import Iterator
            from typing import assert_type
            import lbk
            table = lbk.Table.unicode()
            at, kind, rule = next(table.breaks("a b"))
            assert_type(at, int)
            assert_type(kind, lbk.Kind)
            assert_type(rule, lbk.Rule)
            for found in sorted(lbk.breaks(b"a b")):
                assert_type(found, lbk.Break)
                assert_type(found.rule.text, str)
            assert_type(lbk.segments("a b"), Iterator[str])
            assert_type(lbk.segments(bytearray(b"a b")), Iterator[bytes])
            assert_type(lbk.words("a b"), Iterator[str])
            assert_type(lbk.break_columns("a b"), lbk.Columns)
            assert_type(list(table.passages(b"a b"))[0].words, list[bytes])
            assert_type(lbk.chunks("a b", most=9, words=None, unit="bytes"), Iterator[lbk.Chunk[str]])
            for chunk in table.chunks(b"a b", 9, overlap=2):
                assert_type(chunk.text, bytes)
                assert_type(chunk.rule, lbk.Rule)
        """
        self.assertEqual(self.said_of(program), "")

    def test_what_is_no_text_is_refused(self):
        calls = ("table.breaks", "lbk.segments", "lbk.chunks", "table.break_columns", "lbk.Stream().feed")
        lines = ["import lbk", "table = lbk.Table.unicode()",
            *(f"{call}({text})" for call in calls for text in ("3", "['a']", "None"))]
        said = self.said_of("\n".join(lines))
        for number in range(3, len(lines) + 1):
            self.assertRegex(said, rf"(?m)^<string>:{number}: error: ")

    @unittest.skipUnless(importlib.util.find_spec("numpy"), "numpy is not there")
    def test_numpy_arrays_are_texts(self):
        program = """
            from typing import assert_type
            from collections.abc import Iterator
            import numpy
            import lbk
            table = lbk.Table.from_bytes(numpy.zeros(1, numpy.uint8))
            text = numpy.frombuffer(b"a b", numpy.uint8)
            table.breaks(text)
            table.break_columns(text)
            table.break_list_columns([text, "a"])
            table.cut(text, 0)
            lbk.Stream(table).feed(text)
            assert_type(table.segments(text), Iterator[bytes])
        """
        self.assertEqual(self.said_of(program), "")
