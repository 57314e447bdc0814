"""Each call compared with lbk_breaks of the shared library that LBK_LIBRARY names."""

import ctypes
import os
import unittest

import samples
from lbk import Table


CODES = (range(0x80), range(0x80, 0xD800), range(0xE000, 0x110000))


class State(ctypes.Structure):
    _fields_ = [("at", ctypes.c_size_t), ("row", ctypes.c_uint16), ("profile", ctypes.c_uint8),
        ("ended", ctypes.c_uint8)]


class Found(ctypes.Structure):
    _fields_ = [("at", ctypes.c_size_t), ("kind", ctypes.c_uint8), ("rule", ctypes.c_uint8)]


def in_code_points(data, breaks):
    at = before = 0
    for end, kind, rule in breaks:
        at += len(data[before:end].decode())
        before = end
        yield at, kind, rule


@unittest.skipUnless("LBK_LIBRARY" in os.environ, "LBK_LIBRARY names no library")
class AgainstC(unittest.TestCase):
    @classmethod
    def setUpClass(cls):
        cls.table = Table.unicode()
        cls.memory = ctypes.create_string_buffer(cls.table.to_bytes(), len(cls.table.to_bytes()))
        cls.call = ctypes.CDLL(os.environ["LBK_LIBRARY"]).lbk_breaks
        cls.call.restype = ctypes.c_size_t
        cls.call.argtypes = [
            ctypes.c_void_p, ctypes.POINTER(State), ctypes.c_char_p, ctypes.c_size_t, ctypes.POINTER(Found),
            ctypes.c_size_t,
        ]

    def breaks(self, data, profile):
        block = (Found * (len(data) + 1))()
        count = self.call(self.memory, State(profile=profile - 1), data, len(data), block, len(block))
        return [(one.at, one.kind, one.rule) for one in block[:count]]

    def compare(self, data, profile):
        wanted = self.breaks(data, profile)
        self.assertEqual(samples.found(self.table, data, profile), wanted)
        self.assertEqual(list(zip(*self.table.break_columns(data, profile))), wanted)
        ends = [at for at, _, _ in wanted]
        self.assertEqual(list(self.table.segments(data, profile)), [data[a:b] for a, b in zip([0, *ends], ends)])
        return wanted

    def test_bytes(self):
        chance = samples.chance(2)
        for _ in range(1000):
            self.compare(samples.random_bytes(chance, 60), chance.choice((1, 2)))
        for size in (10_000, 100_000):
            for profile in (1, 2):
                self.compare(samples.random_bytes(chance, size), profile)

    def test_str(self):
        chance = samples.chance(3)
        for size, times in ((60, 1000), (20_000, 5)):
            for _ in range(times):
                codes = (chance.choice(CODES) for _ in range(chance.randrange(size)))
                text, profile = "".join(chr(chance.choice(one)) for one in codes), chance.choice((1, 2))
                wanted = list(in_code_points(text.encode(), self.breaks(text.encode(), profile)))
                self.assertEqual(samples.found(self.table, text, profile), wanted)
                self.assertEqual(list(zip(*self.table.break_columns(text, profile))), wanted)
                ends = [at for at, _, _ in wanted]
                self.assertEqual(list(self.table.segments(text, profile)),
                    [text[a:b] for a, b in zip([0, *ends], ends)])

    def test_many(self):
        chance = samples.chance(4)
        texts = [samples.random_bytes(chance, 60) for _ in range(2000)]
        for profile in (1, 2):
            offsets, *columns = self.table.break_list_columns(texts, profile)
            found = list(zip(*columns))
            for text, start, end in zip(texts, offsets, offsets[1:]):
                self.assertEqual(found[start:end], self.breaks(text, profile))
