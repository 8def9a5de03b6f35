"""Of log: what is said of a log that SQLite wrote, and that was cut or spoilt then, beside what SQLite itself finds in it."""
import contextlib
import shutil
import sqlite3
import struct
import unittest
from unittest import mock

import service_ground as ground
from acd_service import log
from acd_service.log import Damaged, Sound, Torn, Unreadable, look

HEAD, FRAME, PAGE = 32, 24, 1024
COMMITS = 6


def summed(order, first, second, data):
    """The checksum of SQLite's description (fileformat2.html, 4.2), a word at a time."""
    words = struct.unpack(f"{order}{len(data) // 4}I", data)
    for one, other in zip(words[::2], words[1::2]):
        first = (first + one + second) % 2**32
        second = (second + other + first) % 2**32
    return first, second


def swapped(data):
    """The same log with checksums over words whose highest byte comes first."""
    magic = (int.from_bytes(data[:4]) | 1).to_bytes(4)
    head = magic + data[4:24]
    sums = summed(">", 0, 0, head)
    made = head + struct.pack(">2I", *sums)
    for at in range(HEAD, len(data), FRAME + PAGE):
        front, page = data[at:at + 16], data[at + FRAME:at + FRAME + PAGE]
        sums = summed(">", *summed(">", *sums, front[:8]), page)
        made += front + struct.pack(">2I", *sums) + page
    return made


class Frames(ground.Case):
    def setUp(self):
        super().setUp()
        self.log = self.folder / "book-wal"
        with contextlib.closing(sqlite3.connect(self.folder / "book", isolation_level=None)) as book:
            for words in (f"PRAGMA page_size = {PAGE}", "PRAGMA journal_mode = WAL", "PRAGMA wal_autocheckpoint = 0", "CREATE TABLE rows (number)"):
                book.execute(words)
            for number in range(1, COMMITS):
                book.execute("INSERT INTO rows VALUES (?)", (number,))
            for end in ("", "-wal"):
                shutil.copy(self.folder / f"book{end}", self.folder / f"kept{end}")
        shutil.copy(self.folder / "kept-wal", self.log)
        self.data = self.log.read_bytes()
        self.count = (len(self.data) - HEAD) // (FRAME + PAGE)
        self.ends = [frame for frame in range(1, self.count + 1) if self.data[self.at(frame) + 4:self.at(frame) + 8] != bytes(4)]

    @staticmethod
    def at(frame):
        return HEAD + (frame - 1) * (FRAME + PAGE)

    def of(self, data):
        self.log.write_bytes(data)
        return look(self.log)

    def spoilt(self, *offsets):
        data = bytearray(self.data)
        for offset in offsets:
            data[offset] ^= 1
        return bytes(data)

    def found(self, data):
        """The rows that SQLite finds with a log."""
        for end, content in (("", (self.folder / "kept").read_bytes()), ("-wal", data)):
            (self.folder / f"tried{end}").write_bytes(content)
        with contextlib.closing(sqlite3.connect(self.folder / "tried")) as book:
            try:
                return [number for number, in book.execute("SELECT number FROM rows ORDER BY number")]
            except sqlite3.OperationalError:
                return []

    def test_commits_as_they_were_made(self):
        self.assertEqual((len(self.ends), self.ends[-1]), (COMMITS, self.count))
        self.assertEqual(self.of(self.data), Sound())
        self.assertEqual(self.found(self.data), [1, 2, 3, 4, 5])

    def test_nothing_in_it(self):
        self.log.unlink()
        self.assertEqual(look(self.log), Sound())
        for data in (b"", bytes(HEAD), self.data[:HEAD], self.data[:HEAD + FRAME - 1], bytes(4096), b"\0" + self.data[1:]):
            self.assertEqual(self.of(data), Sound())

    def test_a_commit_that_is_not_whole(self):
        """A cut within the last commit, or a last frame that is spoilt: what was committed before is there."""
        last = self.ends[-2] + 1
        self.assertEqual(self.of(self.data[:self.at(self.count) + FRAME + PAGE - 1]), Sound() if last == self.count else Torn(last, self.at(last)))
        self.assertEqual(self.of(self.spoilt(self.at(self.count) + FRAME + 7)), Torn(last, self.at(last)))
        self.assertEqual(self.found(self.spoilt(self.at(self.count) + FRAME + 7)), [1, 2, 3, 4])

    def test_a_frame_that_ends_no_commit(self):
        """Whole frames of a commit whose end never came."""
        data = bytearray(self.data)
        data[self.at(self.count) + 4:self.at(self.count) + 8] = bytes(4)
        at = self.at(self.count)
        before = struct.unpack_from(">2I", data, at - FRAME - PAGE + 16)
        data[at + 16:at + 24] = struct.pack(">2I", *summed("<", *summed("<", *before, data[at:at + 8]), data[at + FRAME:]))
        first = self.ends[-2] + 1
        self.assertEqual(self.of(bytes(data)), Torn(first, self.at(first)))

    def test_each_spoilt_frame(self):
        """A frame with two commits after it is damage, from this frame on; SQLite reads the rows before it alone."""
        for frame in range(1, self.ends[-3] + 1):
            for inside in (0, 4, 16, 20, FRAME, FRAME + PAGE - 1):
                data = self.spoilt(self.at(frame) + inside)
                with self.subTest(frame=frame, inside=inside):
                    self.assertEqual(self.of(data), Damaged(frame, self.at(frame)))
            rows = [number for number, end in zip(range(1, COMMITS), self.ends[1:]) if end < frame]
            self.assertEqual(self.found(self.spoilt(self.at(frame) + FRAME)), rows)

    def test_a_page_of_no_number(self):
        data = bytearray(self.data)
        data[self.at(1):self.at(1) + 4] = bytes(4)
        self.assertEqual(self.of(bytes(data)), Damaged(1, self.at(1)))

    def test_old_frames_after_the_last_commit(self):
        """Frames of before have another salt, and count for nothing."""
        old = bytearray(self.data[HEAD:])
        for frame in range(self.count):
            old[frame * (FRAME + PAGE) + 8] ^= 1
        self.assertEqual(self.of(self.data + bytes(old)), Sound())

    def test_words_of_either_order(self):
        self.assertEqual(self.found(swapped(self.data)), [1, 2, 3, 4, 5])
        self.assertEqual(self.of(swapped(self.data)), Sound())
        with mock.patch.object(log.sys, "byteorder", "big"), mock.patch.object(log, "array", lambda _, data: mock_array(data)):
            self.assertEqual(self.of(self.data), Sound())

    def test_heads(self):
        """One that can't be read, with frames after it; and the same with nothing after it."""
        damaged = self.spoilt(16)
        self.assertEqual(self.of(damaged), Unreadable("its head is damaged"))
        self.assertEqual(self.of(self.spoilt(3)), Unreadable("its head is damaged"))
        for at, value, why in ((4, 3007001, "its head names version 3007001 of the form"), (8, 1000, "its head names pages of 1000 bytes"), (8, 131072, "its head names pages of 131072 bytes")):
            head = bytearray(self.data[:24])
            head[at:at + 4] = value.to_bytes(4)
            data = bytes(head) + struct.pack(">2I", *summed("<", 0, 0, head)) + self.data[HEAD:]
            self.assertEqual(self.of(data), Unreadable(why))
        self.assertEqual(self.of(damaged[:HEAD] + bytes(100000)), Sound())
        self.assertEqual(self.of(damaged[:HEAD] + bytes(99999) + b"x"), Unreadable("its head is damaged"))

    def test_a_log_that_cannot_be_read(self):
        with self.assertRaises(IsADirectoryError):
            look(self.folder)


class mock_array(list):
    """Words on a machine whose highest byte comes first."""

    def __init__(self, data):
        super().__init__(struct.unpack(f">{len(data) // 4}I", data))

    def byteswap(self):
        self[:] = [int.from_bytes(word.to_bytes(4), "little") for word in self]


if __name__ == "__main__":
    unittest.main()
