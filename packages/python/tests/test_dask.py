"""Files in parts, by Dask, against the same texts as they are. scripts/corpora tries clusters."""

import contextlib
import gzip
import json
import pickle
import sys
import tempfile
import threading
import unittest
from concurrent.futures import ThreadPoolExecutor
from pathlib import Path
from unittest import mock

import samples
from lbk import Kind, Table

try:
    import dask
    import dask.bag
    import dask.dataframe
    import fsspec
    import numpy
    import pandas

    import lbk.dask
    from lbk import _parts
except ImportError as missing:
    raise unittest.SkipTest(f"the tests of lbk.dask, which needs {missing.name}") from None

# LF is a letter here, and `a` ends a line.
OTHER = (b"000A;AL\n000D;CR\n0061;BK\n0062;AL\n", b"", b"", b"")


def joined(parts):
    """The breaks of all parts of a file."""
    return [tuple(map(int, one)) for part in parts for one in zip(part.places, part.kinds, part.rules)]


class WithFiles(unittest.TestCase):
    @classmethod
    def setUpClass(cls):
        dask.config.set(scheduler="synchronous")

    def setUp(self):
        folder = tempfile.TemporaryDirectory()
        self.addCleanup(folder.cleanup)
        self.folder = Path(folder.name)
        self.table = samples.table()
        self.name = lbk.dask.share(self.table, self.folder / "table")

    def write(self, name, data):
        path = self.folder / name
        path.write_bytes(data)
        return str(path)

    def columns(self, paths, blocksize, **options):
        return lbk.dask.read_columns(paths, blocksize, **{"table": self.name, **options}).compute()

    def paragraphs(self, paths, blocksize, **options):
        return lbk.dask.read_text(paths, blocksize, **{"table": self.name, **options}).compute()

    def is_whole(self, parts, path, size):
        """The parts of a file lie side by side."""
        self.assertEqual([part.path for part in parts], [path] * len(parts))
        self.assertEqual([part.start for part in parts] + [size], [0] + [part.end for part in parts])


class Files(WithFiles):
    def test_parts_have_the_breaks_of_the_text(self):
        chance = samples.chance(21)
        other = Table.read(*OTHER)
        other_name = lbk.dask.share(other, self.folder / "other")
        for round in range(60):
            data = samples.random_bytes(chance, 120)
            path = self.write("text", data)
            for table, name in ((self.table, self.name), (other, other_name)):
                for profile in (1, 2):
                    parts = self.columns(path, chance.randrange(1, 40), table=name, profile=profile)
                    self.is_whole(parts, path, len(data))
                    self.assertEqual(joined(parts), samples.found(table, data, profile))
                self.assertEqual("".join(self.paragraphs(path, chance.randrange(1, 40), table=name)),
                    data.decode("utf-8", "replace"))

    def test_the_last_break_of_a_part_has_its_rule(self):
        path = self.write("text", b"ab\r\n\r\ncd\n\xef\xbf\xbdx")
        parts = self.columns(path, 1)
        self.assertEqual([part.rules.tolist()[-1] // 8 for part in parts], [5, 5, 5, 3])
        self.assertEqual([(part.start, part.end) for part in parts], [(0, 4), (4, 6), (6, 9), (9, 13)])

    def test_paragraphs_are_those_of_passages(self):
        chance = samples.chance(22)
        for _ in range(50):
            text = samples.random_bytes(chance, 80)
            path = self.write("text", text)
            found = lbk.dask.read_text(path, chance.randrange(1, 30), table=self.name)
            passages = list(self.table.passages(text.decode("utf-8", "replace")))
            self.assertEqual(found.compute(), [one.text for one in passages])
            self.assertEqual(lbk.dask.words(found).compute(), [one.words for one in passages])
            self.assertEqual(lbk.dask.segments(found, table=self.name).compute(), [one.segments for one in passages])

    def test_a_file_that_is_far_away_is_cut_alike(self):
        chance = samples.chance(23)
        memory = fsspec.filesystem("memory")
        window, _parts.WINDOW = _parts.WINDOW, 1
        self.addCleanup(setattr, _parts, "WINDOW", window)
        for round in range(100):
            data = samples.random_bytes(chance, 200)
            path = self.write("text", data)
            memory.pipe_file("/text", data)
            size = chance.randrange(1, 40)
            near, far = self.columns(path, size), self.columns("memory://text", size)
            self.assertEqual([(one.start, one.end) for one in far], [(one.start, one.end) for one in near])
            self.assertEqual(joined(far), joined(near))

    def test_parts_do_not_share_memory(self):
        chance = samples.chance(24)
        data = b"".join(samples.random_bytes(chance, 90) for _ in range(3000))
        path = self.write("text", data)
        kept = _parts.KEPT
        self.addCleanup(setattr, _parts, "KEPT", kept)
        for limit in (kept, 100):
            _parts.KEPT = limit
            with dask.config.set(scheduler="threads", num_workers=4):
                parts = self.columns(path, 5000)
                self.is_whole(parts, path, len(data))
                # (not assertEqual, which goes through long lists for minutes to show how they differ)
                self.assertTrue(joined(parts) == samples.found(self.table, data))
                self.assertTrue("".join(self.paragraphs(path, 5000)) == data.decode("utf-8", "replace"))

    def test_threads_read_parts_of_a_file_at_the_same_time(self):
        one, two = _parts.plan(self.write("text", b"ab\ncd\n"), self.table, 3, None, None)
        is_open, is_closed, fill = threading.Event(), threading.Event(), _parts._fill

        def fill_in_turn(memory, file):
            if threading.current_thread() is threading.main_thread():
                self.assertTrue(is_open.wait(60))
            else:
                is_open.set()
                is_closed.wait(60)
            return fill(memory, file)

        with mock.patch.object(_parts, "_fill", fill_in_turn), ThreadPoolExecutor(1) as others:
            second = others.submit(lambda: bytes(_parts.read_part(two)))
            self.assertEqual(bytes(_parts.read_part(one)), b"ab\n")
            is_closed.set()
            self.assertEqual(second.result(60), b"cd\n")

    def test_compressed_and_empty_files(self):
        text = "é ab\ncd\r\n".encode() * 50
        (self.folder / "text.gz").write_bytes(gzip.compress(text))
        (part,) = self.columns(str(self.folder / "text.gz"), 10)
        self.assertEqual((part.start, part.end, joined([part])), (0, len(text), samples.found(self.table, text)))
        self.assertEqual("".join(self.paragraphs(str(self.folder / "text.gz"), 10)), text.decode())
        empty = self.write("empty", b"")
        self.assertEqual([(part.start, part.end, len(part.places)) for part in self.columns(empty, 10)], [(0, 0, 0)])
        self.assertEqual(self.paragraphs(empty, None), [])

    def test_many_files_are_texts_of_their_own(self):
        texts = {self.write(f"{name}.txt", text): text for name, text in (("a", b"ab\ncd"), ("b", b"ef"),
            ("c", b"\n\n\n"))}
        found = self.columns(str(self.folder / "*.txt"), 2)
        for path, text in texts.items():
            parts = [part for part in found if part.path == path]
            self.is_whole(parts, path, len(text))
            self.assertEqual(joined(parts), samples.found(self.table, text))
        self.assertEqual(joined(self.columns(list(texts), None)), joined(found))
        self.assertRaises(FileNotFoundError, self.columns, str(self.folder / "*.none"), 2)

    def test_faults_name_the_file_and_the_byte(self):
        good = self.write("good", b"ab\ncd\n")
        bad = self.write("bad", b"ab\ncd\n\xe4\xb8\ne\n")
        gone = str(self.folder / "gone")
        for read, wanted in ((self.paragraphs, ["ab\n", "cd\n"] * 2), (self.columns, [(0, 3), (3, 6)] * 2)):
            with self.assertRaises(lbk.dask.TextFault) as caught:
                read([good, bad], 1, errors="strict")
            self.assertEqual((caught.exception.path, caught.exception.at), (bad, 6))
            self.assertRaises(lbk.dask.TextFault, read, [good, gone], 1)
            found = read([good, bad, gone], 1, errors="strict", on_fault="keep")
            faults = [item for item in found if isinstance(item, lbk.dask.TextFault)]
            others = [item for item in found if not isinstance(item, lbk.dask.TextFault)]
            self.assertEqual([(fault.path, fault.at) for fault in faults], [(bad, 6), (gone, 0)])
            self.assertIn("FileNotFoundError", str(faults[1]))
            self.assertEqual([item if isinstance(item, str) else (item.start, item.end) for item in others][:4], wanted)
            self.assertEqual(str(pickle.loads(pickle.dumps(faults[0]))),
                f"{bad}: byte 6: ill-formed UTF-8: invalid continuation byte")
        broken = self.write("broken.gz", gzip.compress(b"ab" * 1000)[:-9])
        (fault,) = self.columns(broken, None, on_fault="keep")
        self.assertEqual((fault.path, fault.at), (broken, 0))

    def test_a_file_that_changed_is_a_fault(self):
        for now, at in ((b"ab\nc", 4), (b"ab\ncd\nef", 6), (b"", 0)):
            path = self.write("text", b"ab\ncd\n")
            bag = lbk.dask.read_columns(path, 1, on_fault="keep")
            self.write("text", now)
            faults = lbk.dask.faults(bag).compute()
            self.assertEqual(faults[-1].path, path)
            self.assertIn(at, [fault.at for fault in faults])

    def test_tables_go_by_name(self):
        path = self.write("text", b"ab\ncd" * 50)
        self.assertRaises(TypeError, lbk.dask.read_text, path, table=self.table)
        for bag in (lbk.dask.read_text(path, 8, table=self.name), lbk.dask.read_columns(path, 8, table=self.name)):
            self.assertEqual(len(dict(bag.dask)), bag.npartitions)
            self.assertLess(len(pickle.dumps(dict(bag.dask))), 2000 * bag.npartitions)
        self.assertRaises(ValueError, lbk.dask.read_columns, path, profile=3)
        self.assertRaises(ValueError, lbk.dask.read_columns, path, 0)

    def test_without_a_table_it_is_the_built_in_one(self):
        text = "ab «é» cd\nef 一\n" * 9
        path, chance = self.write("text", text.encode()), samples.chance(24)
        for profile in (1, 2):
            bag = lbk.dask.read_columns(path, chance.randrange(1, 60), profile=profile)
            self.assertEqual(joined(bag.compute()), samples.found(Table.unicode(), text.encode(), profile))
            self.assertIn(f"unicode:{lbk.UNICODE_VERSION}", str(dict(bag.dask)))
        bag = lbk.dask.read_text(path, 30)
        self.assertEqual(bag.compute(), text.splitlines(True))
        self.assertEqual(lbk.dask.segments(bag).compute(), [list(lbk.segments(one)) for one in text.splitlines(True)])
        texts = dask.bag.from_sequence([text])
        (found,) = lbk.dask.breaks(texts, 2).compute()
        self.assertEqual(list(zip(*found)), samples.found(Table.unicode(), text, 2))
        wanted = [(one.start, one.text) for one in lbk.chunks(text, 20)]
        self.assertEqual([(one["start"], one["text"]) for one in lbk.dask.chunks(texts, 20).compute()], wanted)
        with mock.patch.object(lbk._calls, "UNICODE_VERSION", "16.0"):
            self.assertRaisesRegex(ValueError, "of Unicode 15.0, and this lbk has 16.0", bag.compute)

    def test_bags_and_columns_of_texts(self):
        texts = ["naïve text", None, "", "a\nb"]
        bag = dask.bag.from_sequence(texts, npartitions=2)
        found = lbk.dask.breaks(bag, 2, table=self.name).compute()
        frame = dask.dataframe.from_pandas(pandas.DataFrame({"t": texts}, index=[3, 1, 4, 2]), npartitions=2,
            sort=False)
        broken = lbk.dask.breaks(frame.t, 2, table=self.name).compute()
        cut = lbk.dask.segments(frame["t"], table=self.name).compute()
        word = lbk.dask.words(frame["t"]).compute()
        self.assertEqual(list(broken.index), [3, 1, 4, 2])
        self.assertEqual(list(cut.index), [3, 1, 4, 2])
        for k, text in enumerate(texts):
            if text is None:
                self.assertEqual((found[k], broken.places.iloc[k], cut.iloc[k], word.iloc[k]), (None,) * 4)
                continue
            wanted = samples.found(self.table, text, 2)
            self.assertEqual(list(zip(*found[k])), wanted)
            self.assertEqual(list(zip(*broken.iloc[k])), wanted)
            self.assertEqual(cut.iloc[k], list(self.table.segments(text)))
            self.assertEqual(word.iloc[k], list(Table.words(text)))
        self.assertEqual(lbk.dask.segments(bag, table=self.name).compute()[3], ["a\n", "b"])
        self.assertRaises(TypeError, lbk.dask.words, texts)
        self.assertRaises(TypeError, lbk.dask.breaks, frame)


    def test_chunks_of_bags_and_columns(self):
        texts = ["naïve text é", None, "", "a\nb c"]
        limits = {"most": 4, "least": 2, "overlap": 1}
        wanted = [[one._asdict() for one in self.table.chunks(text or "", **limits)] for text in texts]
        wanted = [[{name: one[name] for name in ("start", "end", "words", "text")} for one in found]
            for found in wanted]
        self.assertGreater(len(wanted[0]), 2)
        bag = dask.bag.from_sequence(texts, npartitions=2)
        self.assertEqual(lbk.dask.chunks(bag, table=self.name, **limits).compute(),
            [one for found in wanted for one in found])
        named = dask.bag.from_sequence([{"id": k, "text": text} for k, text in enumerate(texts)], npartitions=3)
        rows = lbk.dask.chunks(named, table=self.name, **limits).compute()
        self.assertEqual(rows, [{"id": k, **one} for k, found in enumerate(wanted) for one in found])
        frame = dask.dataframe.from_pandas(pandas.DataFrame({"t": texts}, index=[3, 1, 4, 2]), npartitions=2,
            sort=False)
        cut = lbk.dask.chunks(frame.t, table=self.name, **limits).compute()
        self.assertEqual(list(cut.index), [index for index, found in zip([3, 1, 4, 2], wanted) for _ in found])
        self.assertEqual(cut.to_dict("records"), [one for found in wanted for one in found])
        in_bytes = lbk.dask.chunks(bag, 7, table=self.name, unit="bytes").compute()
        self.assertEqual(in_bytes[0]["text"], "naïve ")
        self.assertRaisesRegex(ValueError, "overlap", lbk.dask.chunks, bag, 4, overlap=3)
        self.assertRaises(ValueError, lbk.dask.chunks, bag, unit="words")
        self.assertRaises(ValueError, lbk.dask.chunks, bag, profile=3)
        self.assertRaises(TypeError, lbk.dask.chunks, texts)


class Saving(WithFiles):
    def saved(self, bag, format=None):
        return lbk.dask.save(bag, self.folder / "out", format).compute()

    def test_columns(self):
        text = b"ab cd\nef\n\nx" * 20
        bag = lbk.dask.read_columns(self.write("text", text), 30, table=self.name)
        found = []
        for one in self.saved(bag, "npz"):
            self.assertEqual((one.items, one.faults), (1, 0))
            data = numpy.load(one.name)
            self.assertEqual(data["offsets"].tolist(), [0, len(data["places"])])
            found += zip(data["places"].tolist(), data["kinds"].tolist(), data["rules"].tolist())
        self.assertEqual(found, samples.found(self.table, text))
        rows = [json.loads(line) for one in self.saved(bag, "jsonl")
            for line in Path(one.name).read_text().splitlines()]
        self.assertEqual([at for row in rows for at in row["places"]], samples.places(self.table, text))
        self.assertEqual([row["start"] for row in rows[1:]], [row["end"] for row in rows[:-1]])

    def test_lists_and_faults(self):
        good, bad = self.write("good", b"ab c\nd\n"), self.write("bad", b"\xff")
        bag = lbk.dask.segments(lbk.dask.read_text([good, bad], errors="strict", on_fault="keep"))
        first, second = self.saved(bag, "jsonl")
        self.assertEqual([json.loads(line) for line in Path(first.name).read_text().splitlines()],
            [["ab ", "c\n"], ["d\n"]])
        self.assertEqual((first.items, first.faults, second.items, second.faults), (2, 0, 0, 1))
        (fault,) = (json.loads(line) for line in Path(second.name.replace(".jsonl",
            ".faults.jsonl")).read_text().splitlines())
        self.assertEqual((fault["path"], fault["at"]), (bad, 0))
        self.assertRaises(TypeError, self.saved, lbk.dask.read_text(good), "npz")
        self.assertRaises(ValueError, self.saved, bag, "csv")

    def test_chunks(self):
        texts = [self.write(f"{k}", text) for k, text in enumerate((b"ab cd\nef gh", b"\xff", b"", b"i j k"))]
        bag = lbk.dask.chunks(lbk.dask.read_text(texts, errors="strict", on_fault="keep"), 3)
        saved = self.saved(bag, "jsonl")
        rows = [json.loads(line) for one in saved for line in Path(one.name).read_text().splitlines()]
        self.assertEqual([row["text"] for row in rows], ["ab ", "cd\n", "ef ", "gh", "i ", "j k"])
        self.assertEqual(rows[1], {"text": "cd\n", "start": 3, "end": 6, "words": 1})
        self.assertEqual([one.faults for one in saved], [0, 1, 0, 0])
        again = [Path(one.name).read_bytes() for one in self.saved(bag, "jsonl")]
        self.assertEqual(again, [Path(one.name).read_bytes() for one in saved])
        self.assertEqual(len(list((self.folder / "out").iterdir())), 5)

    def test_a_partition_is_saved_whole_or_not_at_all(self):
        bag = lbk.dask.read_columns(self.write("text", b"ab\n" * 9), 3)
        names = sorted(one.name for one in self.saved(bag, "npz"))
        before = [Path(name).read_bytes() for name in names]
        self.assertEqual(sorted(one.name for one in self.saved(bag, "npz")), names)
        self.assertEqual(sorted(map(str, (self.folder / "out").iterdir())), names)
        self.assertEqual([numpy.load(name)["places"].tolist() for name in names], [[3 * k + 3] for k in range(9)])
        self.assertEqual(len(before), 9)

    def test_parquet(self):
        try:
            import pyarrow.parquet
        except ImportError:
            bag = lbk.dask.read_columns(self.write("text", b"ab\n"))
            self.assertTrue(self.saved(bag)[0].name.endswith(".npz"))
            self.skipTest("pyarrow is not there")
        text = b"ab cd\nef\n\nx" * 20
        bag = lbk.dask.read_columns(self.write("text", text), 30)
        names = [one.name for one in self.saved(bag)]
        self.assertTrue(all(name.endswith(".parquet") for name in names))
        rows = [row for name in names for row in pyarrow.parquet.read_table(name).to_pylist()]
        self.assertEqual([at for row in rows for at in row["places"]], samples.places(self.table, text))
        self.assertEqual({Kind(kind) for row in rows for kind in row["kinds"]}, {Kind.MAY, Kind.MUST})
        lists = lbk.dask.words(lbk.dask.read_text(self.write("text", text), 30))
        rows = [row["values"] for one in self.saved(lists) for row in pyarrow.parquet.read_table(one.name).to_pylist()]
        self.assertEqual(rows, lists.compute())


class Broadcast(WithFiles):
    def test_workers_without_a_shared_folder(self):
        from distributed import Client, LocalCluster

        path = self.write("text", b"ab cd\n" * 50)
        options = {"n_workers": 1, "threads_per_worker": 1, "processes": False, "dashboard_address": None,
            "silence_logs": 50}
        with contextlib.closing(LocalCluster(local_directory=str(self.folder),
            **options)) as cluster, Client(cluster) as client:
            name = lbk.dask.broadcast(client, self.table)
            lbk.dask._tables.clear()
            lbk.dask._tables.update({name: self.table})
            bag = lbk.dask.read_columns(path, 20, table=name)
            lbk.dask._tables.clear()
            self.assertEqual(joined(client.compute(bag).result()), samples.found(self.table, b"ab cd\n" * 50))
            self.assertIn(name, lbk.dask._broadcast)
