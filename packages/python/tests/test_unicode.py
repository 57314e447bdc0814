"""The built-in table, and the functions that use it."""

import pickle
import subprocess
import sys
import unittest
from unittest import mock

import lbk
import samples
from lbk import Break, Kind, Rule, Table, _calls

# A text, and what else each call needs.
CALLS = {
    "breaks": (), "positions": (), "segments": (), "words": (), "word_ranges": (), "passages": (), "chunks": (4,),
    "break_columns": (), "word_columns": (), "passage_columns": (), "chunk_columns": (4,), "cut": (1,),
    "cut_before": (9,), "safe_break": (),
}
TEXTS = ("a «é» b\n一e 😀", "a «é» b\n一e 😀".encode(), "")


class Unicode(unittest.TestCase):
    def test_it_is_one_and_whole(self):
        self.assertIs(Table.unicode(), Table.unicode())
        self.assertEqual(Table.from_bytes(Table.unicode().to_bytes()), Table.unicode())
        self.assertNotEqual(Table.unicode(), samples.table())

    @unittest.skipUnless(samples.HAS_PUBLISHED, "the published files are not there")
    def test_it_is_that_of_the_published_files(self):
        self.assertEqual(Table.unicode(), Table.load(samples.PUBLISHED))

    def test_the_functions_are_its_calls(self):
        for name, arguments in CALLS.items():
            for text in TEXTS:
                for call in (getattr(lbk, name), pickle.loads(pickle.dumps(getattr(lbk, name)))):
                    found, wanted = call(text, *arguments), getattr(Table.unicode(), name)(text, *arguments)
                    if hasattr(wanted, "__next__"):
                        found, wanted = list(found), list(wanted)
                    self.assertEqual(found, wanted, name)
        self.assertEqual(lbk.break_list_columns(TEXTS), Table.unicode().break_list_columns(TEXTS))
        self.assertEqual((lbk.class_of("一"), lbk.class_of(0x301)), ("ID", "CM"))
        self.assertEqual(list(lbk.breaks("a b")), [Break(2, Kind.MAY, Rule.LB18), Break(3, Kind.MUST, Rule.LB3)])
        self.assertEqual(list(lbk.segments("a « b »", 2)), ["a ", "« b »"])
        self.assertRaises(ValueError, lbk.breaks, "a", 3)

    def test_a_stream_without_a_table(self):
        for profile in (1, 2):
            for text in TEXTS[:2]:
                self.assertEqual(list(lbk.Stream(profile=profile).breaks([text])), list(lbk.breaks(text, profile)))

    def test_it_is_pickled_as_its_version(self):
        for protocol in range(2, pickle.HIGHEST_PROTOCOL + 1):
            data = pickle.dumps(Table.unicode(), protocol)
            self.assertLess(len(data), 100)
            self.assertIs(pickle.loads(data), Table.unicode())
        with mock.patch.object(_calls, "UNICODE_VERSION", "16.0"):
            with self.assertRaisesRegex(ValueError, "of Unicode 15.0, and this lbk has 16.0"):
                pickle.loads(data)

    def test_no_file_is_opened(self):
        program = (
            "import sys\n"
            "opened = []\n"
            "sys.addaudithook(lambda event, words: opened.append(str(words[0])) if event == 'open' else None)\n"
            "import lbk\n"
            "others = [name for name in opened if not name.endswith(('.py', '.pyc', '.so'))]\n"
            "print(list(lbk.segments('a b')), len(list(lbk.chunks('a b', 2))), others if opened else 'none')\n"
        )
        command = [sys.executable, "-B", "-c", program]
        said = subprocess.run(command, capture_output=True, text=True, check=True).stdout
        self.assertEqual(said, "['a ', 'b'] 2 []\n")
