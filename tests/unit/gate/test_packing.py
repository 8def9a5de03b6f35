#!/usr/bin/python3
"""Tests of streams that are packed by gzip.   usage: tests/unit/gate/test_packing.py

Needs python3-aiohttp, python3-passlib and python3-bcrypt (Debian packages)."""
import gzip
import random
import unittest
import zlib
from unittest import mock

import standing  # noqa: F401: where the modules are
from acd_service.gate import packing
from acd_service.gate.packing import LONG, SHORT, Packed, takes_gzip


class Pipe:
    def __init__(self):
        self.told, self.is_closed = [], False

    def write(self, *parts):
        self.told.append(b"".join(parts))

    def is_gone(self):
        return self.is_closed


class PackingTest(unittest.TestCase):
    def setUp(self):
        packing.kept.cache_clear()
        packing.kept_shortly.cache_clear()
        self.pipe = Pipe()
        self.packed = Packed(self.pipe)

    def test_each_write_can_be_read_at_once(self):
        """However long; and all of it is one file of gzip, which is whole."""
        chance, unpacked = random.Random(1), zlib.decompressobj(zlib.MAX_WBITS | 16)
        unpacked.decompress(self.pipe.told[0])
        writes = [[bytes(chance.choices(range(97, 123), k=size)) for size in sizes]
                  for sizes in ((1,), (0, 5), (SHORT - 1, SHORT, SHORT + 1), (LONG - 1,), (LONG, 3), (70000, 70000), (9,))]
        for parts in writes:
            self.packed.write(*parts)
            self.assertEqual(unpacked.decompress(self.pipe.told[-1]), b"".join(parts))
        self.assertEqual(len(self.pipe.told), len(writes) + 1)
        self.packed.end()
        self.assertEqual(gzip.decompress(b"".join(self.pipe.told)), b"".join(map(b"".join, writes)))

    def test_what_several_are_sent_is_packed_once(self):
        for names in (bytes(range(256)) * 20, bytes(range(256)) * 2):
            others = [Packed(Pipe()) for _ in range(5)]
            with mock.patch.object(packing.zlib, "compressobj", side_effect=zlib.compressobj) as made:
                for number, other in enumerate(others):
                    other.write(b"%d," % number, names, b"}")
                    other.end()
            self.assertEqual((made.call_count, {gzip.decompress(b"".join(other.pipe.told))[2:] for other in others}), (1, {names + b"}"}))

    def test_what_is_long_becomes_short(self):
        self.packed.write(b'"agent":"7",' * 1000)
        self.assertLess(len(self.pipe.told[-1]), 200)

    def test_it_is_gone_with_its_pipe(self):
        self.assertFalse(self.packed.is_gone())
        self.pipe.is_closed = True
        self.assertTrue(self.packed.is_gone())

    def test_who_takes_it(self):
        for field in ("gzip", "GZIP", "deflate, gzip;q=0.5", "br,gzip ; q=1"):
            self.assertTrue(takes_gzip(field), field)
        for field in ("", "identity", "gzip;q=0", "gzip; q=0.000, br", "x-gzipped", "*"):
            self.assertFalse(takes_gzip(field), field)


if __name__ == "__main__":
    unittest.main()
