"""What is taken for a text, and what is found in it."""

import array
import itertools
import json
import mmap
import tempfile
import unittest

from lbk import Break, Cause, Fault, File, Kind, Rule, Table, _calls

import samples


class Texts(unittest.TestCase):
    @classmethod
    def setUpClass(cls):
        cls.table = samples.table()

    def test_breaks_of_a_text(self):
        wanted = [(3, Kind.MAY, Rule.LB18), (6, Kind.MUST, Rule.LB5), (8, Kind.MUST, Rule.LB3)]
        self.assertEqual(samples.found(self.table, "ab cd\nef"), wanted)
        self.assertEqual(samples.found(self.table, b"ab cd\nef"), wanted)

    def test_an_empty_text_has_none(self):
        for text in ("", b"", bytearray(), memoryview(b"")):
            self.assertEqual(list(self.table.breaks(text)), [])
            self.assertEqual(list(self.table.segments(text)), [])
            self.assertEqual([len(column) for column in self.table.break_columns(text)], [0, 0, 0])

    def test_places_count_code_points_of_a_str_and_bytes_of_bytes(self):
        text = "é à 😀一"
        self.assertEqual(samples.places(self.table, text), [2, 4, 5, 6])
        self.assertEqual(samples.places(self.table, text.encode()), [3, 6, 10, 13])

    def test_segments_are_slices(self):
        self.assertEqual(list(self.table.segments("é à 😀一\nb")), ["é ", "à ", "😀", "一\n", "b"])
        for data in (b"ab cd", bytearray(b"ab cd"), memoryview(b"ab cd"), memoryview(bytearray(b"ab cd"))):
            self.assertEqual(list(self.table.segments(data)), [b"ab ", b"cd"])

    def test_each_object_of_bytes_is_a_text(self):
        data = "é à\n一".encode()
        with tempfile.TemporaryFile() as file:
            file.write(data)
            file.flush()
            with mmap.mmap(file.fileno(), 0, access=mmap.ACCESS_READ) as read, mmap.mmap(file.fileno(), 0) as written:
                backwards = memoryview(data[::-1])[::-1]
                for text in (bytearray(data), memoryview(data), array.array("B", data), array.array("b", data),
                    backwards, read, written):
                    with self.subTest(type(text)):
                        self.assertEqual(list(self.table.breaks(text)), list(self.table.breaks(data)))
                        self.assertEqual(list(self.table.segments(text)), list(self.table.segments(data)))
                        self.assertEqual(self.table.break_columns(text), self.table.break_columns(data))

    def test_nothing_else_is_a_text(self):
        for text in (3, 2.5, None, ["a"], ("a",), {"a"}, object(), iter("a"), array.array("I", [97]),
            memoryview(b"abcd").cast("B", (2, 2))):
            with self.subTest(type(text)):
                for call in (self.table.breaks, self.table.segments, self.table.break_columns):
                    self.assertRaises(TypeError, call, text)
                self.assertRaises(TypeError, self.table.break_list_columns, ["a", text])
        with self.assertRaisesRegex(TypeError, "a str or a bytes-like object is required, not 'int'"):
            self.table.breaks(3)

    def test_subclasses_of_texts_are_texts(self):
        class Word(str):
            pass

        class Data(bytes):
            pass

        self.assertEqual(list(self.table.segments(Word("é b"))), ["é ", "b"])
        self.assertEqual(list(self.table.segments(Data(b"a b"))), [b"a ", b"b"])

    def test_more_breaks_than_any_block_has(self):
        for word in ("a ", "é ", "😀 "):
            text = 100_000 * word
            ends = list(range(len(word), len(text) + 1, len(word)))
            self.assertEqual(samples.places(self.table, text), ends)
            self.assertEqual(self.table.break_columns(text).places.tolist(), ends)
            self.assertEqual(list(self.table.segments(text)), 100_000 * [word])

    def test_a_break_at_each_byte(self):
        # More breaks than are expected of so many bytes.
        self.assertEqual(self.table.break_columns(100_000 * "\n").places.tolist(), list(range(1, 100_001)))

    def test_profiles_differ_at_quotation_marks(self):
        text = "a « b » c"
        self.assertEqual(samples.places(self.table, text), [2, 4, 6, 8, 9])
        self.assertEqual(samples.places(self.table, text, profile=2), [2, 8, 9])
        self.assertEqual(self.table.break_columns(text, profile=2).places.tolist(), [2, 8, 9])
        self.assertEqual(list(self.table.segments(text, 2)), ["a ", "« b » ", "c"])
        self.assertEqual(self.table.break_list_columns([text, text], 2).places.tolist(), [2, 8, 9, 2, 8, 9])

    def test_what_is_no_profile_is_refused(self):
        for call in (self.table.breaks, self.table.segments, self.table.break_columns):
            for profile in (0, 3, -1):
                self.assertRaisesRegex(ValueError, "profile must be 1 or 2", call, "a", profile)
            self.assertRaises(OverflowError, call, "a", 1 << 70)
            for profile in ("1", None, 1.0):
                self.assertRaises(TypeError, call, "a", profile)

    def test_ill_formed_bytes_are_replaced_as_python_does(self):
        chance = samples.chance()
        for _ in range(500):
            data = samples.random_bytes(chance, 20)
            replaced = data.decode("utf-8", "replace")
            wanted = [one[1:] for one in samples.found(self.table, replaced)]
            self.assertEqual([one[1:] for one in samples.found(self.table, data)], wanted, data)
            self.assertEqual(b"".join(self.table.segments(data)), data)

    def test_a_surrogate_is_read_as_a_replacement_character_at_its_place(self):
        self.assertEqual(samples.places(self.table, "a\ud800b"), [1, 2, 3])
        # As many as are one character in UTF-16 are two surrogates in a str.
        self.assertEqual(list(self.table.segments("\ud83d\ude00 \udfff")), ["\ud83d", "\ude00 ", "\udfff"])
        chance = samples.chance()
        for size in (20, 20_000):
            for _ in range(100):
                text = samples.random_text(chance, size)
                replaced = "".join("\ufffd" if "\ud800" <= one <= "\udfff" else one for one in text)
                self.assertEqual(self.table.break_columns(text), self.table.break_columns(replaced))
                self.assertEqual("".join(self.table.segments(text)), text)

    def test_zero_bytes_are_text(self):
        self.assertEqual(list(self.table.segments("a\0 b")), ["a\0 ", "b"])


class Breaks(unittest.TestCase):
    def setUp(self):
        self.one = next(samples.table().breaks("ab cd"))

    def test_fields(self):
        at, kind, rule = self.one
        self.assertEqual((at, kind, rule), (3, Kind.MAY, Rule.LB18))
        self.assertIs(kind, Kind.MAY)
        self.assertIs(rule, Rule.LB18)
        self.assertEqual((self.one.at, self.one.kind, self.one.rule), (3, Kind.MAY, Rule.LB18))
        with self.assertRaises(AttributeError):
            self.one.at = 4
        match self.one:
            case Break(place, kind=Kind.MAY):
                self.assertEqual(place, 3)
            case _:
                self.fail("it does not match")

    def test_equality(self):
        self.assertEqual(self.one, Break(3, Kind.MAY, Rule.LB18))
        self.assertEqual(hash(self.one), hash(Break(at=3, kind=Kind.MAY, rule=Rule.LB18)))
        others = (Break(4, Kind.MAY, Rule.LB18), Break(3, Kind.MUST, Rule.LB18), Break(3, Kind.MAY, Rule.LB3))
        for other in (*others, (3, Kind.MAY, Rule.LB18), None):
            self.assertNotEqual(self.one, other)

    def test_order(self):
        fields = [(at, kind, rule) for at in (3, 1 << 40) for kind in (Kind.MAY, Kind.MUST)
            for rule in (Rule.LB3, Rule.LB18)]
        ordered = [Break(*one) for one in fields]
        self.assertEqual(sorted(reversed(ordered)), ordered)
        for (k, one), (j, two) in itertools.product(enumerate(ordered), repeat=2):
            self.assertEqual((one < two, one <= two, one > two, one >= two), (k < j, k <= j, k > j, k >= j))
        with self.assertRaises(TypeError):
            self.one < (3, Kind.MAY, Rule.LB18)

    def test_items(self):
        self.assertEqual((len(self.one), self.one[0], self.one[-2]), (3, 3, Kind.MAY))
        self.assertIs(self.one[2], Rule.LB18)
        for index in (3, -4):
            self.assertRaises(IndexError, self.one.__getitem__, index)

    def test_it_is_a_dict_for_who_asks(self):
        self.assertEqual(self.one._asdict(), {"at": 3, "kind": Kind.MAY, "rule": Rule.LB18})
        self.assertNotIsInstance(self.one, tuple)
        self.assertEqual(json.loads(json.dumps(self.one._asdict())), {"at": 3, "kind": 1, "rule": int(Rule.LB18)})

    def test_what_is_no_break_is_refused(self):
        for fields in ((), (1,), (1, 2, 3, 4), ("1", 1, 1)):
            self.assertRaises(TypeError, Break, *fields)
        self.assertRaises(ValueError, Break, -1, 1, 1)
        self.assertRaises(OverflowError, Break, 1, 256, 1)

    def test_representation(self):
        self.assertEqual(repr(self.one), f"Break(at=3, kind={Kind.MAY!r}, rule={Rule.LB18!r})")


class Rules(unittest.TestCase):
    def test_names_are_those_of_the_standard(self):
        self.assertEqual(Rule.LB8a.label, "8a")
        self.assertEqual([f"LB{rule.label}" for rule in Rule], [rule.name for rule in Rule])
        self.assertIn("LB31", Rule.__members__)
        self.assertNotIn("LBs", Rule.__members__)

    def test_a_rule_is_written_as_its_label(self):
        self.assertEqual((str(Rule.LB18), f"{Rule.LB8a}", f"{Rule.LB8a:>4}"), ("18", "8a", "  8a"))
        self.assertEqual((Rule.LB18 + 0, repr(Rule.LB18)), (144, "<Rule.LB18: 144>"))

    def test_a_format_of_numbers_writes_the_number(self):
        for form in ("d", "03d", "x", "#b", ".1f", "%", "n"):
            self.assertEqual(format(Rule.LB18, form), format(int(Rule.LB18), form))
        self.assertEqual((f"{Rule.LB18:s}", f"{Rule.LB18:d>4}"), ("18", "dd18"))

    def test_each_rule_says_what_it_says(self):
        self.assertEqual(Rule.LB18.text, "A break is allowed after spaces.")
        self.assertEqual(len({rule.text for rule in Rule} - {""}), len(Rule))
        self.assertEqual([_calls.rule_text(number) for number in (0, 255, 256)], ["", "", ""])

    def test_each_class_says_what_it_is(self):
        self.assertEqual([one.__name__ for one in (Rule, Cause, File, Kind, Fault, Table, Break) if not one.__doc__],
            [])
