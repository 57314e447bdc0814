"""Tables: their sources, what is refused, and where they are saved."""

import copy
import os
import pathlib
import pickle
import re
import tempfile
import unittest

import lbk
import samples
from lbk import Cause, Fault, File, Table, _calls

LONG_LINE = b"#" + 1024 * b"x"
ROW = "{:04X};AL\n"


class Folders(unittest.TestCase):
    def setUp(self):
        folder = tempfile.TemporaryDirectory()
        self.addCleanup(folder.cleanup)
        self.folder = pathlib.Path(folder.name)

    def put(self, places, contents):
        for place, content in zip(places, contents):
            file = self.folder / place
            file.parent.mkdir(parents=True, exist_ok=True)
            file.write_bytes(content)

    @unittest.skipUnless(samples.HAS_PUBLISHED, "the published files are not there")
    def test_the_published_files_in_each_layout(self):
        contents = [(samples.PUBLISHED / place).read_bytes() for place in samples.PLACES]
        table = Table.read(*contents)
        layouts = {
            "as Unicode lays it out": samples.PLACES,
            "side by side": [place.rpartition("/")[2] for place in samples.PLACES],
        }
        for name, places in layouts.items():
            with self.subTest(name):
                self.put([f"{name}/{place}" for place in places], contents)
                self.assertEqual(Table.load(self.folder / name), table)
                self.assertEqual(Table.load(str(self.folder / name)), table)
        self.put(samples.PLACES, [content.replace(b"\n", b"\r\n") for content in contents])
        self.assertEqual(list(Table.load(self.folder).breaks("«é» 1.5")), list(table.breaks("«é» 1.5")))

    @unittest.skipUnless(samples.HAS_PUBLISHED, "the published files are not there")
    def test_files_that_were_changed_are_refused(self):
        contents = [(samples.PUBLISHED / place).read_bytes() for place in samples.PLACES]
        for number, content in enumerate(contents):
            middle = len(content) // 2
            flipped = content[:middle] + bytes([content[middle] ^ 1]) + content[middle + 1 :]
            for wrong in (content[:-1], content[:middle], flipped, content + b"\n", b""):
                self.put(samples.PLACES, [*contents[:number], wrong, *contents[number + 1 :]])
                with self.assertRaises(Fault) as caught:
                    Table.load(self.folder)
                fault = caught.exception
                self.assertEqual((fault.file, fault.line, fault.cause), (number + 1, 0, Cause.NOT_PUBLISHED))

    def test_files_of_another_origin_are_refused(self):
        self.put(samples.PLACES, samples.FILES)
        with self.assertRaises(Fault) as caught:
            Table.load(self.folder)
        self.assertEqual((caught.exception.file, caught.exception.cause), (File.LINE_BREAK, Cause.NOT_PUBLISHED))

    def test_what_a_file_claims_is_said(self):
        claims = (
            (File.LINE_BREAK, b"# LineBreak-14.0.0.txt\n", "this is Unicode 14.0.0, and lbk needs 15.0.0"),
            (File.EAST_ASIAN, b"# EastAsianWidth-15.1.txt\n", "this is Unicode 15.1.0, and lbk needs 15.0.0"),
            (File.EMOJI, b"# emoji-data.txt\n# Used with Emoji Version 14.0 and",
                "this is Emoji 14.0, and lbk needs 15.0"),
            (File.EMOJI, b"# emoji-data\n# Used with Emoji Version 5.0.1", "this is Emoji 5.0.1, and lbk needs 15.0.0"),
            (File.EMOJI, b"# emoji-data-15.0\n", "this is not emoji-data.txt of the Unicode Character Database"),
            (File.LINE_BREAK, b"0061;AL\n# LineBreak-14.0.0\n",
                "this is not LineBreak.txt of the Unicode Character Database"),
            (
                File.CATEGORY, b"# DerivedGeneralCategory-15.0.0.txt\n",
                "the file was changed or truncated: it differs from Unicode 15.0.0's DerivedGeneralCategory.txt",
            ),
        )
        for file, data, said in claims:
            self.assertEqual(_calls.claim_text(file, data), said)
        self.put(samples.PLACES, [claims[0][1], b"", b"", b""])
        with self.assertRaises(Fault) as caught:
            Table.load(self.folder)
        place = str(self.folder / "LineBreak.txt")
        self.assertEqual((caught.exception.place, str(caught.exception)),
            (place, f"{place}: {claims[0][2]}; {_calls.remedy_text()}"))
        self.assertEqual(str(pickle.loads(pickle.dumps(caught.exception))), str(caught.exception))

    def test_a_fault_of_files_by_name_has_the_name(self):
        names = [self.folder / str(number) for number in range(4)]
        for name in names:
            name.write_bytes(b"# LineBreak-14.0.0.txt\n" if name == names[0] else b"")
        with self.assertRaisesRegex(Fault, f"^{names[0]}: the file was truncated: "):
            Table.from_files(*names)
        names[0].write_bytes(b"0061;AL\nno row\n")
        with self.assertRaisesRegex(Fault, f"^{names[0]}:2: the line "):
            Table.from_files(*names)

    def test_a_missing_file_is_named(self):
        self.put(samples.PLACES, samples.FILES)
        (self.folder / "emoji/emoji-data.txt").unlink()
        with self.assertRaises(FileNotFoundError) as caught:
            Table.load(self.folder)
        self.assertEqual(caught.exception.filename, str(self.folder / "emoji/emoji-data.txt"))
        with self.assertRaises(FileNotFoundError) as caught:
            Table.load(self.folder / "nowhere")
        self.assertEqual(caught.exception.filename, str(self.folder / "nowhere/LineBreak.txt"))

    def test_files_by_name(self):
        names = [self.folder / str(number) for number in range(4)]
        for name, content in zip(names, samples.FILES):
            name.write_bytes(content)
        self.assertEqual(Table.from_files(*names), samples.table())
        self.assertEqual(Table.from_files(*map(os.fsencode, names)), samples.table())
        self.assertRaises(FileNotFoundError, Table.from_files, *names[:3], self.folder / "nowhere")

    def test_a_table_is_made_by_its_methods(self):
        self.assertRaises(TypeError, Table)
        self.assertRaises(TypeError, Table.load)
        self.assertRaises(TypeError, Table.read, "text", b"", b"", b"")
        self.assertRaises(TypeError, Table.read, b"", b"", b"", 3)


class Faults(unittest.TestCase):
    CASES = (
        (Cause.FILE_TOO_LONG, 0, bytes(8_388_609)),
        (Cause.LINE_TOO_LONG, 2, b"\n" + LONG_LINE),
        (Cause.ROW_SYNTAX, 2, b"0061;AL\nno row\n"),
        (Cause.RANGE, 1, b"0062..0061;AL\n"),
        (Cause.RANGE, 1, b"110000;AL\n"),
        (Cause.UNKNOWN_VALUE, 1, b"0061;NONE\n"),
        (Cause.OVERLAP, 2, b"0061..0063;AL\n0062;ID\n"),
        (Cause.TOO_MANY_ROWS, 65_537, "".join(map(ROW.format, range(65_537))).encode()),
    )

    def test_each_is_named(self):
        for cause, line, content in self.CASES:
            for file in (File.LINE_BREAK, File.EAST_ASIAN, File.CATEGORY, File.EMOJI):
                if file is not File.LINE_BREAK and content.endswith(b"\n"):
                    continue  # Its rows have the values of LineBreak.txt.
                with self.subTest(cause.name, file=file.name):
                    with self.assertRaises(Fault) as caught:
                        Table.read(*(content if one == file else b"" for one in range(1, 5)))
                    fault = caught.exception
                    self.assertEqual((fault.file, fault.line, fault.cause), (file, line, cause))
                    self.assertIsInstance(fault, ValueError)

    def test_the_message_has_the_file_and_the_line(self):
        with self.assertRaises(Fault) as caught:
            Table.read(b"0061;AL\nno row\n", b"", b"", b"")
        self.assertRegex(str(caught.exception), r"^LineBreak\.txt:2: the line ")
        self.assertRegex(str(Fault(File.EMOJI, 0, Cause.FILE_TOO_LONG)), r"^emoji-data\.txt: the file ")

    def test_each_cause_has_a_text_of_its_own(self):
        texts = {str(Fault(File.NO_FILE, 0, cause)) for cause in Cause}
        self.assertEqual(len(texts), len(Cause))
        self.assertTrue(all(text.rpartition(": ")[2] for text in texts))

    def test_a_fault_can_be_pickled(self):
        fault = Fault(File.LINE_BREAK, 2, Cause.ROW_SYNTAX)
        for protocol in range(pickle.HIGHEST_PROTOCOL + 1):
            same = pickle.loads(pickle.dumps(fault, protocol))
            self.assertEqual((type(same), same.file, same.line, same.cause),
                (Fault, File.LINE_BREAK, 2, Cause.ROW_SYNTAX))
            self.assertEqual(str(same), str(fault))
        self.assertEqual(str(copy.copy(fault)), str(fault))


class Kept(unittest.TestCase):
    def setUp(self):
        folder = tempfile.TemporaryDirectory()
        self.addCleanup(folder.cleanup)
        self.name = os.path.join(folder.name, "table")
        self.table = samples.table()

    def test_a_table_can_be_saved(self):
        self.table.save(self.name)
        mapped = Table.open(self.name)
        self.assertEqual(list(mapped.breaks("ab cd\nef")), list(self.table.breaks("ab cd\nef")))
        self.assertEqual(mapped, self.table)
        self.assertEqual(os.listdir(os.path.dirname(self.name)), ["table"])
        # A process that has mapped it keeps what it mapped.
        Table.read(b"", b"", b"", b"").save(self.name)
        self.assertEqual(mapped, self.table)
        self.assertNotEqual(Table.open(self.name), self.table)

    def test_a_table_can_be_bytes(self):
        data = self.table.to_bytes()
        for form in (data, bytearray(data), memoryview(data)):
            self.assertEqual(Table.from_bytes(form), self.table)

    def test_what_is_no_whole_table_is_refused(self):
        data = bytearray(self.table.to_bytes())
        data[1000] ^= 1
        for wrong in (data, data[:1000], b"", bytes(data) + b"x"):
            said = r"^these bytes are not an intact table .* \(packed ones: `Table.unpack`\)$"
            self.assertRaisesRegex(ValueError, said, Table.from_bytes, wrong)
            pathlib.Path(self.name).write_bytes(wrong)
            self.assertRaisesRegex(ValueError, f"^{re.escape(self.name)} is not an? .*table", Table.open, self.name)
        self.assertRaises(TypeError, Table.from_bytes, "text")
        self.assertRaises(TypeError, Table.from_bytes, 3)
        self.assertRaises(FileNotFoundError, Table.open, self.name + ".nowhere")

    def test_a_packed_table_is_unpacked(self):
        packed = self.table.pack()
        self.assertLess(len(packed), 200)
        for form in (packed, bytearray(packed), memoryview(packed)):
            self.assertEqual(Table.unpack(form), self.table)
        other_layout = packed[:3] + bytes([packed[3] + 1]) + packed[4:]
        for wrong, said in (
            (b"", "are not a packed table"),
            (self.table.to_bytes(), "are not a packed table"),
            (other_layout, "by another version"),
            (packed[:-1], "changed or cut"),
            (packed[:-1] + b"x", "changed or cut"),
        ):
            self.assertRaisesRegex(ValueError, said, Table.unpack, wrong)
        self.assertRaises(TypeError, Table.unpack, "text")

    def test_a_table_can_be_pickled(self):
        self.table.save(self.name)
        for table, most in ((self.table, len(self.table.to_bytes()) + 1000), (Table.open(self.name), 1000)):
            for protocol in range(2, pickle.HIGHEST_PROTOCOL + 1):
                data = pickle.dumps(table, protocol)
                self.assertEqual(pickle.loads(data), self.table)
                self.assertLess(len(data), most if protocol > 2 else 2 * most)
        self.assertIs(copy.copy(self.table), self.table)
        self.assertIs(copy.deepcopy([self.table])[0], self.table)

    def test_breaks_can_be_pickled(self):
        found = list(self.table.breaks("a b\nc"))
        for protocol in range(pickle.HIGHEST_PROTOCOL + 1):
            self.assertEqual(pickle.loads(pickle.dumps(found, protocol)), found)

    def test_equality(self):
        other = Table.read(b"", b"", b"", b"")
        self.assertEqual(samples.table(), self.table)
        self.assertEqual(hash(samples.table()), hash(self.table))
        self.assertNotEqual(other, self.table)
        self.assertNotEqual(self.table, None)

    def test_representation(self):
        digest = self.table.to_bytes()[8:16].hex()
        self.assertEqual(repr(self.table), f"<lbk.Table: rules of Unicode {lbk.UNICODE_VERSION}, digest {digest}>")

    def test_versions(self):
        self.assertRegex(lbk.__version__, r"^\d+\.\d+\.\d+$")
        self.assertEqual(lbk.UNICODE_VERSION, "15.0")
