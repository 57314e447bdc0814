"""Many threads at once, and interpreters."""

import os
import pathlib
import subprocess
import sys
import textwrap
import threading
import time
import unittest
from concurrent.futures import ThreadPoolExecutor

import lbk
import samples


class Threads(unittest.TestCase):
    @classmethod
    def setUpClass(cls):
        cls.table = samples.table()

    def test_threads_share_a_table(self):
        texts = [count * "a 一" for count in range(1, 2000, 50)]
        wanted = [samples.found(self.table, text) for text in texts]
        with ThreadPoolExecutor(8) as threads:
            self.assertEqual(list(threads.map(lambda text: samples.found(self.table, text), texts)), wanted)
            columns = list(threads.map(self.table.break_columns, texts))
        self.assertEqual([list(zip(*one)) for one in columns], wanted)

    def test_other_threads_run_during_a_long_call(self):
        calls = (
            lambda text: self.table.break_columns(text),
            lambda text: self.table.break_list_columns([text]),
            lambda text: next(self.table.breaks(text)),
            lambda text: next(self.table.segments(text)),
        )
        # Without breaks but at its end, so that each call goes through all of it at once.
        text = 20_000_000 * b"a"
        for call in calls:
            # Other load on the machine can keep the thread from its turns, but not each time.
            self.assertTrue(any(self.turns_during(call, text) > 20 for _ in range(10)))

    @staticmethod
    def turns_during(call, text):
        """How often another thread had its turn during a call."""
        times, ended = [], []

        def tick():
            while not ended:
                times.append(time.perf_counter())
                time.sleep(0)

        thread = threading.Thread(target=tick)
        thread.start()
        while not times:
            time.sleep(0)
        start = time.perf_counter()
        call(text)
        end = time.perf_counter()
        ended.append(True)
        thread.join()
        return sum(start < one < end for one in times)

    def test_an_iterator_in_many_threads_gives_each_break_once(self):
        text = 50_000 * "a b\n"
        found, places, busy = self.table.breaks(text), [], []

        def take():
            while True:
                try:
                    places.append(next(found).at)
                except StopIteration:
                    return
                except ValueError:
                    # Another thread asks for more at this time.
                    busy.append(True)

        threads = [threading.Thread(target=take) for _ in range(8)]
        for thread in threads:
            thread.start()
        for thread in threads:
            thread.join()
        self.assertEqual(sorted(places), samples.places(self.table, text))


class Interpreters(unittest.TestCase):
    @staticmethod
    def run_in_another(create):
        """What an interpreter that is made so raises where it imports the package and uses it, in a process of its
        own."""
        program = f"""
            try:
                import _interpreters as interpreters
            except ImportError:
                import _xxsubinterpreters as interpreters
            made = interpreters.create({create})
            try:
                raised = interpreters.run_string(made, "import lbk; assert [*lbk.words('a b')] == ['a', 'b']")
                print(raised.formatted if raised else "")
            except Exception as error:
                print(error)
        """
        environment = {**os.environ, "PYTHONPATH": str(pathlib.Path(lbk.__file__).resolve().parents[1])}
        command = [sys.executable, "-W", "ignore", "-c", textwrap.dedent(program)]
        return subprocess.run(command, env=environment, capture_output=True, text=True, check=True).stdout.strip()

    def test_interpreters_that_share_a_lock_can_import_it(self):
        create = "'legacy'" if sys.version_info >= (3, 13) else "isolated=False"
        self.assertEqual(self.run_in_another(create), "")

    @unittest.skipUnless(sys.version_info >= (3, 12), "all interpreters share a lock")
    def test_others_cannot(self):
        self.assertRegex(self.run_in_another(""), "ImportError.*does not support loading in subinterpreters")
