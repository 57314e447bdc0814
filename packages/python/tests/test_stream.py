"""Texts in pieces."""

import array
import copy
import itertools
import pickle
import threading
import unittest

import samples
from lbk import Break, Kind, Rule, Stream


def pieces_of(chance, text, count):
    """The text cut at random offsets; some may be equal."""
    places = sorted(chance.randrange(len(text) + 1) for _ in range(count))
    return [text[a:b] for a, b in zip([0, *places], [*places, len(text)])]


class Streams(unittest.TestCase):
    @classmethod
    def setUpClass(cls):
        cls.table = samples.table()

    def found(self, pieces, profile=1):
        return list(Stream(self.table, profile).breaks(pieces))

    def test_a_stream(self):
        stream = Stream(self.table)
        self.assertEqual(stream.feed(b"ab c"), [Break(3, Kind.MAY, Rule.LB18)])
        self.assertEqual(stream.feed(b"d\n"), [])
        self.assertEqual(stream.feed(b"ef"), [Break(6, Kind.MUST, Rule.LB5)])
        self.assertEqual(stream.finish(b"g"), [Break(9, Kind.MUST, Rule.LB3)])

    def test_an_empty_stream_has_none(self):
        for pieces in ([], [""], [b""], ["", ""]):
            self.assertEqual(self.found(pieces), [])
        self.assertEqual(Stream(self.table).finish(), [])

    def test_however_a_text_is_cut_the_breaks_are_those_of_the_whole(self):
        chance = samples.chance(5)
        for make in (samples.random_text, samples.random_bytes):
            for size, most in ((30, 6), (400, 40)):
                for _ in range(150):
                    text, profile = make(chance, size), chance.choice((1, 2))
                    wanted = list(self.table.breaks(text, profile))
                    self.assertEqual(self.found(pieces_of(chance, text, chance.randrange(most)), profile), wanted, text)

    def test_all_cuttings_of_short_texts(self):
        texts = ["a\r\n«é»", "» \u0301«", "\ud800é\r\r", "a «\u0301b» \n", "😀\r\n一"]
        for text, profile in itertools.product(texts + [text.encode("utf-8", "surrogatepass") for text in texts],
            (1, 2)):
            wanted = list(self.table.breaks(text, profile))
            for cuts in range(4):
                for places in itertools.combinations_with_replacement(range(len(text) + 1), cuts):
                    pieces = [text[a:b] for a, b in zip([0, *places], [*places, len(text)])]
                    self.assertEqual(self.found(pieces, profile), wanted, pieces)

    def test_a_place_can_wait_over_many_pieces(self):
        for word in ("é", "é".encode()):
            space, opening, mark = (" ", "»", "\u0301") if isinstance(word, str) else (b" ", "»".encode(),
                "\u0301".encode())
            for last in (word, space):
                text = [word, space, word, opening, *(1000 * [mark]), last, word]
                joined = type(word)().join(text)
                for profile in (1, 2):
                    self.assertEqual(self.found(text, profile), list(self.table.breaks(joined, profile)))

    def test_each_byte_and_each_code_point(self):
        chance = samples.chance(6)
        text, data = samples.random_text(chance, 5000), samples.random_bytes(chance, 5000)
        self.assertEqual(self.found(text), list(self.table.breaks(text)))
        self.assertEqual(self.found(data[k : k + 1] for k in range(len(data))), list(self.table.breaks(data)))

    def test_large_pieces(self):
        for text in (100_000 * "é a\n", 100_000 * "a b\n", 100_000 * b"a b\n"):
            self.assertEqual(self.found([text, text]), list(self.table.breaks(text + text)))

    def test_a_break_comes_with_the_character_after_it(self):
        stream = Stream(self.table)
        found = [stream.feed(one) for one in "a b\rc"]
        self.assertEqual([[one.at for one in some] for some in found], [[], [], [2], [], [4]])
        self.assertEqual([one.at for one in stream.finish()], [5])

    def test_nothing_comes_after_the_end(self):
        stream = Stream(self.table)
        stream.finish("a")
        self.assertRaises(ValueError, stream.feed, "b")
        self.assertRaises(ValueError, stream.finish)

    def test_pieces_are_of_one_kind(self):
        for first, second in (("a", b"b"), (b"a", "b"), ("", b"")):
            stream = Stream(self.table)
            stream.feed(first)
            self.assertRaises(TypeError, stream.feed, second)
            self.assertEqual([one.at for one in stream.finish(first)], [2] if first else [])
        for piece in (3, None, ["a"], array.array("I", [97])):
            self.assertRaises(TypeError, Stream(self.table).feed, piece)
        for piece in (bytearray(b"a b"), memoryview(b"a b"), array.array("B", b"a b")):
            self.assertEqual([one.at for one in self.found([piece])], [2, 3])

    def test_what_is_no_table_is_refused(self):
        for table in ("15.0", self.table.to_bytes()):
            self.assertRaisesRegex(TypeError, f"a Table is required, not '{type(table).__name__}'", Stream, table)

    def test_what_is_no_profile_is_refused(self):
        self.assertRaises(ValueError, Stream, self.table, 3)
        self.assertRaises(TypeError, Stream, self.table, "1")

    def test_a_stream_is_a_value(self):
        text = "é «b» c\r\n" * 10
        wanted = list(self.table.breaks(text, 2))
        for cut in range(len(text)):
            stream = Stream(self.table, 2)
            first = stream.feed(text[:cut])
            for same in (copy.copy(stream), copy.deepcopy(stream), pickle.loads(pickle.dumps(stream)), stream):
                self.assertEqual(first + same.feed(text[cut:]) + same.finish(), wanted)

    def test_one_thread_at_a_time(self):
        stream, refused = Stream(self.table), []
        piece = 3_000_000 * b"a"

        def feed():
            for _ in range(10):
                try:
                    stream.feed(piece)
                except ValueError:
                    refused.append(True)

        threads = [threading.Thread(target=feed) for _ in range(4)]
        for thread in threads:
            thread.start()
        for thread in threads:
            thread.join()
        size = (40 - len(refused)) * len(piece)
        self.assertEqual([one.at for one in stream.finish()], [size])
