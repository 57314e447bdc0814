"""What goes from one process to another."""

import copy
import itertools
import mmap
import multiprocessing
import os
import pathlib
import pickle
import tempfile
import threading
import time
import unittest
from concurrent.futures import ProcessPoolExecutor

import samples
from lbk import Columns, ListColumns, Table

TEXTS = ["é à\n一", "", "a « b » c", b"a b\r\nc d", "ab cd\n" * 400]
# gcc's checkers of memory do not release their locks in a forked process, which may then wait forever.
STARTS = ("spawn",) if "libasan" in os.environ.get("LD_PRELOAD", "") else ("fork", "spawn")


def protocols(lowest=0):
    return range(lowest, pickle.HIGHEST_PROTOCOL + 1)


class Values(unittest.TestCase):
    @classmethod
    def setUpClass(cls):
        cls.table = samples.table()

    def calls(self):
        table = self.table
        return table.breaks, table.positions, table.segments, table.words, table.word_ranges, table.passages

    def test_columns(self):
        for text in TEXTS:
            for found, kind in ((self.table.break_columns(text), Columns),
                (self.table.break_list_columns(TEXTS), ListColumns)):
                for protocol in protocols():
                    same = pickle.loads(pickle.dumps(found, protocol))
                    self.assertEqual((type(same), same), (kind, found))
                    self.assertEqual([type(one) for one in same], [type(one) for one in found])
                    self.assertEqual((same.places.format, same.places.tobytes()), ("q", found.places.tobytes()))
                self.assertEqual(copy.deepcopy(found), found)

    def test_iterators_are_what_is_left_of_them(self):
        for text in TEXTS:
            for call in self.calls():
                wanted = list(call(text))
                for taken in (0, 1, 3, 20, len(wanted)):
                    found = call(text)
                    self.assertEqual(list(itertools.islice(found, taken)), wanted[:taken])
                    left = wanted[taken:]
                    with self.subTest(call.__name__, text=text[:20], taken=taken):
                        for protocol in protocols(2):
                            self.assertEqual(list(pickle.loads(pickle.dumps(found, protocol))), left)
                        self.assertEqual(list(copy.deepcopy(found)), left)
                        one = copy.copy(found)
                        self.assertEqual((list(one), list(found), list(one)), (left, left, []))

    def test_iterators_over_a_map(self):
        with tempfile.TemporaryFile() as file:
            file.write(b"ab cd\nef " * 1000)
            file.flush()
            with mmap.mmap(file.fileno(), 0, access=mmap.ACCESS_READ) as text:
                for call in self.calls():
                    self.assertEqual(list(pickle.loads(pickle.dumps(call(text)))), list(call(text[:])))

    def test_an_iterator_that_another_thread_uses_says_so(self):
        text = 4_000_000 * b"a"
        for call in (self.table.breaks, self.table.passages):
            for act in (next, copy.copy, pickle.dumps):
                said, end = set(), time.monotonic() + 60

                def use(act):
                    try:
                        act(found)
                    except StopIteration:
                        pass
                    except ValueError as error:
                        said.add(str(error))

                while not said and time.monotonic() < end:
                    found = call(text)
                    threads = [threading.Thread(target=use, args=[one]) for one in (next, act, act, act)]
                    for thread in threads:
                        thread.start()
                    for thread in threads:
                        thread.join()
                self.assertEqual(said,
                    {"another thread is using this iterator; give each thread its own"})


@unittest.skipUnless(samples.HAS_PUBLISHED, "the published files are not there")
class Folders(unittest.TestCase):
    def setUp(self):
        folder = tempfile.TemporaryDirectory()
        self.addCleanup(folder.cleanup)
        self.folder = pathlib.Path(folder.name)
        for place in samples.PLACES:
            file = self.folder / place
            file.parent.mkdir(exist_ok=True)
            file.write_bytes((samples.PUBLISHED / place).read_bytes())

    def test_a_table_of_a_folder_is_its_name_and_digest(self):
        table = Table.load(self.folder)
        for protocol in protocols(2):
            data = pickle.dumps(table, protocol)
            self.assertIn(str(self.folder).encode(), data)
            self.assertLess(len(data), 300)
            same = pickle.loads(data)
            self.assertEqual(same, table)
            self.assertEqual(pickle.dumps(same, protocol), data)

    def test_a_folder_that_changed_is_named(self):
        data = pickle.dumps(Table.load(self.folder))
        self.assertEqual(pickle.loads(data), Table.load(self.folder))
        file = self.folder / samples.PLACES[0]
        file.write_bytes(file.read_bytes() + b"\n")
        self.assertRaisesRegex(ValueError, f"files in {self.folder} now give a different table", pickle.loads, data)
        file.unlink()
        with self.assertRaises(FileNotFoundError) as caught:
            pickle.loads(data)
        self.assertEqual(caught.exception.filename, str(file))

    def test_another_digest_is_refused(self):
        table = Table.load(self.folder)
        data = pickle.dumps(table)
        self.assertIn(table._digest.encode(), data)
        other = data.replace(table._digest.encode(), b"0123456789abcdef")
        self.assertRaisesRegex(ValueError, f"files in {self.folder} now give a different table", pickle.loads, other)

    def test_processes_share_the_work(self):
        for table in (Table.unicode(), Table.load(self.folder), samples.table()):
            for start in STARTS:
                with self.subTest(start), ProcessPoolExecutor(2, multiprocessing.get_context(start)) as processes:
                    for call in (table.break_columns, table.breaks, table.segments, table.passages):
                        found = list(processes.map(call, TEXTS))
                        self.assertEqual([list(one) for one in found], [list(call(text)) for text in TEXTS])
