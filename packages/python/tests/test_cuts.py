"""Where a text may be cut, and positions that are no breaks."""

import array
import mmap
import tempfile
import unittest

import lbk
import samples
from lbk import Break, Kind, Rule, Table

# LF is a letter here, and `a` ends a line.
OTHER = (b"000A;AL\n000D;CR\n0061;BK\n0062;AL\n", b"", b"", b"")


def joined(table, text, cut, profile):
    """The breaks of two parts, with the place of each in the text."""
    first = table.break_columns(text[:cut], profile, goes_on=True)
    second = table.break_columns(text[cut:], profile, start=cut)
    return [*zip(*first), *zip(*second)]


class Cuts(unittest.TestCase):
    def test_cuts_of_a_text(self):
        table = samples.table()
        text = "é cd.\r\nef"
        self.assertEqual([table.cut(text, at) for at in range(11)], [0, 7, 7, 7, 7, 7, 7, 7, 9, 9, 9])
        self.assertEqual([table.cut_before(text, at) for at in range(11)], [0, 0, 0, 0, 0, 0, 0, 7, 7, 9, 9])
        self.assertEqual([table.cut(text.encode(), at) for at in (0, 1, 8, 9, 10)], [0, 8, 8, 10, 10])
        self.assertEqual(table.cut("", 0), 0)
        self.assertEqual(table.cut_before(b"", 3), 0)

    def test_breaks_after_a_safe_break(self):
        table = samples.table()
        self.assertEqual([table.safe_break(text) for text in ("ab c d", "ab\ncd", "ab\n", "ab", "", "é c d",
            "é c d".encode())], [5, 3, 0, 0, 0, 4, 5])
        chance = samples.chance(12)
        for make in (samples.random_text, samples.random_bytes):
            for _ in range(200):
                text, profile = make(chance, 40), chance.choice((1, 2))
                safe = table.safe_break(text, profile)
                after = [(safe + at, kind, rule) for at, kind, rule in table.breaks(text[safe:], profile)]
                self.assertEqual(after, [one for one in samples.found(table, text, profile) if one[0] > safe])
        with self.assertRaises(ValueError):
            table.safe_break("a", 3)
        with self.assertRaises(TypeError):
            table.safe_break(3)

    def test_files_that_were_cut(self):
        head, end = b"# LineBreak-15.0.0.txt\n", b"\n# EOF\n"
        whole = Table.read(head + samples.LINE_BREAK + end, *samples.FILES[1:])
        self.assertEqual(whole, samples.table())
        names = (head, b"# EastAsianWidth-15.1.0.txt\n", b"# DerivedGeneralCategory-15.0.0.txt\r\n",
            b"# emoji-data.txt\n")
        for number, name in enumerate(names, 1):
            files = list(samples.FILES)
            files[number - 1] = name + files[number - 1]
            with self.assertRaises(lbk.Fault) as caught:
                Table.read(*files)
            self.assertEqual((caught.exception.file, caught.exception.cause), (number, lbk.Cause.CUT))
            self.assertIn(": the file was truncated: ", str(caught.exception))
            self.assertEqual(Table.read(*files, strict=False), whole)
            files[number - 1] += b"\n#EOF\n\n"
            self.assertEqual(Table.read(*files), whole)

    def test_classes(self):
        table = samples.table()
        self.assertEqual([table.class_of(one) for one in ("a", " ", 0x4E00, "\n", 0xD800)],
            ["AL", "SP", "ID", "LF", ""])
        for wrong in (-1, 0x110000):
            with self.assertRaises(ValueError):
                table.class_of(wrong)
        for wrong in ("", "ab", None):
            with self.assertRaises(TypeError):
                table.class_of(wrong)

    def test_the_table_decides(self):
        table = Table.read(*OTHER)
        self.assertEqual([table.cut(b"b\nbab\n", at) for at in range(7)], [0, 4, 4, 4, 4, 6, 6])
        self.assertEqual(samples.table().cut(b"b\nbab\n", 1), 2)

    def test_all_places_of_random_texts(self):
        chance = samples.chance(11)
        for table in (samples.table(), Table.read(*OTHER)):
            for make in (samples.random_text, samples.random_bytes):
                for _ in range(200):
                    self.compare(table, make(chance, 40), chance.choice((1, 2)))

    def compare(self, table, text, profile):
        whole = samples.found(table, text, profile)
        ends = [at for at, kind, _ in whole if kind == Kind.MUST and at < len(text)]
        safe = [0, *ends, len(text)]
        for at in range(len(text) + 2):
            within = min(at, len(text))
            self.assertEqual(table.cut(text, at), min(one for one in safe if one >= within))
            self.assertEqual(table.cut_before(text, at), max(one for one in safe if one <= within))
        for cut in ends:
            self.assertEqual(joined(table, text, cut, profile), whole)

    def test_a_part_ends_where_a_line_must(self):
        table = samples.table()
        for part, ends in (("a", []), ("a ", []), ("a\r", [(2, 2, 40)]), ("a\n", [(2, 2, 40)]), ("", [])):
            self.assertEqual([*zip(*table.break_columns(part, goes_on=True))], ends)
        self.assertRaises(TypeError, table.break_columns, "a", 1, True)

    def test_the_start_of_a_part_is_added_to_its_places(self):
        chance, table = samples.chance(13), samples.table()
        for start in (0, 1, 1 << 32, (1 << 62) - 1):
            for text in (samples.random_text(chance, 9000), samples.random_bytes(chance, 90)):
                places, kinds, rules = table.break_columns(text, start=start)
                self.assertEqual([(at - start, *others) for at, *others in zip(places, kinds, rules)],
                    samples.found(table, text))
        for error, start in ((ValueError, -1), (ValueError, 1 << 62), (OverflowError, 1 << 70), (TypeError, "1")):
            with self.assertRaises(error):
                table.break_columns("a", start=start)

    def test_what_is_no_place_or_no_text_is_refused(self):
        for call in (samples.table().cut, samples.table().cut_before):
            self.assertRaises(ValueError, call, "a", -1)
            self.assertRaises(TypeError, call, "a", "a")
            self.assertRaises(TypeError, call, 3, 0)
            self.assertRaises(TypeError, call, array.array("I", [97]), 0)
            self.assertRaises(OverflowError, call, "a", 1 << 70)

    def test_a_map_of_a_file(self):
        with tempfile.TemporaryFile() as file:
            file.write(b"ab\ncd" * 2000)
            file.flush()
            with mmap.mmap(file.fileno(), 0, access=mmap.ACCESS_READ) as text:
                self.assertEqual(samples.table().cut(text, 4999), 5003)
                self.assertEqual(samples.table().cut_before(text, 4999), 4998)


class Positions(unittest.TestCase):
    def test_positions_of_a_text(self):
        found = list(samples.table().positions("é c"))
        self.assertEqual(found[0], Break(0, Kind.NO, Rule.LB2))
        self.assertEqual([(one.at, one.kind, one.rule.label) for one in found[1:]],
            [(1, 0, "7"), (2, 1, "18"), (3, 2, "3")])
        self.assertEqual(list(samples.table().positions(b"")), [Break(0, Kind.NO, Rule.LB2)])

    def test_those_where_a_line_ends_are_the_breaks(self):
        chance = samples.chance(12)
        table = samples.table()
        for make in (samples.random_text, samples.random_bytes):
            for most in (60, 5000):
                for _ in range(50):
                    text, profile = make(chance, most), chance.choice((1, 2))
                    all_places = [tuple(one) for one in table.positions(text, profile)]
                    self.assertEqual([one for one in all_places if one[1] != Kind.NO],
                        samples.found(table, text, profile))
                    if isinstance(text, str):
                        self.assertEqual([at for at, _, _ in all_places], list(range(len(text) + 1)))

    def test_what_is_no_text_is_refused(self):
        self.assertRaises(TypeError, samples.table().positions, 3)
        self.assertRaises(ValueError, samples.table().positions, "a", 3)
        self.assertIn(Kind.NO, lbk.Kind)
