"""What the package says of itself."""

import doctest
import pathlib
import tomllib
import unittest

import lbk

PROJECT = pathlib.Path(__file__).resolve().parents[1] / "pyproject.toml"


class Metadata(unittest.TestCase):
    def run_examples(self, text):
        examples = doctest.DocTestParser().get_doctest(text.replace("```", ""), {"lbk": lbk}, "shown", None, 0)
        self.assertTrue(examples.examples)
        said = []
        doctest.DocTestRunner(verbose=False).run(examples, out=said.append)
        self.assertEqual(said, [])

    def test_the_docstring_shows_what_happens(self):
        self.run_examples(lbk.__doc__)

    @unittest.skipUnless(PROJECT.exists(), "the project's file is not there")
    def test_the_description_shows_what_happens(self):
        self.run_examples(tomllib.loads(PROJECT.read_text(encoding="utf-8"))["project"]["readme"]["text"])
