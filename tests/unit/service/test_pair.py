"""Of pair: the note of which file and log belong together, and what is said of the two where one was exchanged, removed or moved."""
import os
import shutil
import unittest
from unittest import mock

import service_ground as ground
from acd_service import pair

EMPTIED = b"x" * 41


class Pairs(ground.Case):
    def setUp(self):
        super().setUp()
        self.file.write_bytes(b"a desk's file")
        self.log = pair.log_of(self.file)
        self.log.write_bytes(EMPTIED + b"a frame")

    def exchange(self, path):
        """Another file of the same content at its place."""
        path.rename(f"{path}.before")
        shutil.copy(f"{path}.before", path)

    def test_names(self):
        self.assertEqual((self.log.name, pair.note_of(self.file).name), ("desk.db-wal", "desk.db-pair"))

    def test_a_log_that_a_program_leaves(self):
        """It goes where there was none and it holds nothing, whatever becomes of the program."""
        for before, after, stays in ((None, EMPTIED, False), (None, EMPTIED + b"a frame", True), (EMPTIED, EMPTIED, True), (None, None, False)):
            self.log.unlink(missing_ok=True)
            if before:
                self.log.write_bytes(before)
            with self.subTest(before=before, after=after), self.assertRaises(KeyError), pair.no_log_left(self.file):
                if after:
                    self.log.write_bytes(after)
                raise KeyError
            self.assertEqual(self.log.exists(), stays)

    def test_what_the_note_has(self):
        pair.remember(self.file)
        lines = pair.note_of(self.file).read_text().splitlines()
        self.assertEqual([line.split()[:2] for line in lines], [["file", str(os.stat(self.file).st_ino)], ["log", str(os.stat(self.log).st_ino)]])
        for line in lines:
            self.assertRegex(line, r"\A(file|log) \d+ \d+(\.\d+)?\Z")
        pair.remember(self.file, is_left=True)
        found = os.stat(self.file)
        self.assertEqual(pair.note_of(self.file).read_text().splitlines()[2:], [f"left {found.st_size} {found.st_mtime_ns} {len(EMPTIED) + 7}"])
        self.log.unlink()
        pair.remember(self.file)
        self.assertEqual(pair.read_note(self.file)["log"], "none")

    def test_how_long_a_start_took(self):
        """It stays in the note over later starts and stops, and counts for nothing else."""
        pair.remember_opening(self.file, pair.Opening(5, 1.0))
        self.assertEqual((pair.note_of(self.file).exists(), pair.last_opening(self.file)), (False, None))
        pair.remember(self.file)
        self.assertTrue(pair.is_noted(self.file))
        pair.remember_opening(self.file, pair.Opening(105_500, 1.126))
        self.assertEqual(pair.note_of(self.file).read_text().splitlines()[2:], ["opened 105500 1.13"])
        for is_left in (False, True, False):
            pair.remember(self.file, is_left)
            self.assertEqual((pair.last_opening(self.file), pair.is_noted(self.file)), ((105_500, 1.13), not is_left))
        self.exchange(self.log)
        self.assertEqual((pair.is_noted(self.file), pair.is_split(self.file)), (False, True))

    def test_a_note_of_no_start_that_took_long(self):
        pair.remember(self.file)
        before = pair.note_of(self.file).read_text()
        for line in ("opened 5", "opened 5 1", "opened -5 1.00", "opened 5 nan", "opened 5 1.00 x", "opened \u0665 1.00", "opened"):
            pair.note_of(self.file).write_text(f"{before}{line}\n")
            self.assertEqual(pair.last_opening(self.file), None, line)

    def test_the_note_is_the_owners(self):
        if os.geteuid():
            self.skipTest("only root gives a file away")
        os.chown(self.file, 12345, 12346)
        pair.remember(self.file)
        found = os.stat(pair.note_of(self.file))
        self.assertEqual((found.st_uid, found.st_gid, found.st_mode & 0o777), (12345, 12346, 0o600))

    def test_no_note(self):
        self.assertEqual(pair.read_note(self.file), {})
        pair.note_of(self.file).write_bytes(b"file \xff\n")
        self.assertEqual(pair.read_note(self.file), {})
        self.assertEqual((pair.is_split(self.file), pair.lost(self.file), pair.is_gone(self.file)), (False, 0, False))

    def test_of_two_pairs(self):
        """One of the two is another one; of both nobody knows."""
        for exchanged, is_split in (((), False), ((self.file,), True), ((self.log,), True), ((self.file, self.log), False)):
            with self.subTest(exchanged=exchanged):
                pair.remember(self.file)
                for path in exchanged:
                    self.exchange(path)
                self.assertEqual(pair.is_split(self.file), is_split)

    def test_of_two_pairs_where_nothing_is_in_the_log(self):
        pair.remember(self.file)
        self.exchange(self.file)
        self.log.write_bytes(EMPTIED)
        self.assertFalse(pair.is_split(self.file))
        self.log.write_bytes(EMPTIED + b"x")
        self.assertTrue(pair.is_split(self.file))

    def test_a_note_without_a_log_splits_nothing(self):
        self.log.unlink()
        pair.remember(self.file)
        self.log.write_bytes(EMPTIED + b"x")
        self.exchange(self.file)
        self.assertFalse(pair.is_split(self.file))

    def test_lost(self):
        """The log held something at the stop and is gone, and the file is as it was then."""
        pair.remember(self.file, is_left=True)
        self.assertEqual(pair.lost(self.file), 0)
        size = self.log.stat().st_size
        self.log.unlink()
        self.assertEqual(pair.lost(self.file), size)
        self.log.write_bytes(EMPTIED)
        self.assertEqual(pair.lost(self.file), size)
        os.utime(self.file, (1, 1))
        self.assertEqual(pair.lost(self.file), 0)

    def test_not_lost(self):
        """It held nothing at the stop; or somebody wrote the file, so that it has another size; or the note isn't one of a stop."""
        self.log.write_bytes(EMPTIED)
        pair.remember(self.file, is_left=True)
        self.log.unlink()
        self.assertEqual(pair.lost(self.file), 0)
        self.log.write_bytes(EMPTIED + b"x")
        pair.remember(self.file, is_left=True)
        self.log.unlink()
        at = os.stat(self.file).st_mtime_ns
        self.file.write_bytes(b"longer than before")
        os.utime(self.file, ns=(at, at))
        self.assertEqual(pair.lost(self.file), 0)
        pair.note_of(self.file).write_text("left 1 2\n")
        self.assertEqual(pair.lost(self.file), 0)

    def test_gone(self):
        """After a start without a stop: the note names a log that isn't there."""
        pair.remember(self.file)
        self.assertFalse(pair.is_gone(self.file))
        self.log.unlink()
        self.assertTrue(pair.is_gone(self.file))
        pair.remember(self.file)
        self.assertFalse(pair.is_gone(self.file))
        self.log.write_bytes(EMPTIED)
        pair.remember(self.file, is_left=True)
        self.log.unlink()
        self.assertFalse(pair.is_gone(self.file))

    def test_a_full_disk_leaves_the_old_note(self):
        pair.remember(self.file)
        before = pair.note_of(self.file).read_bytes()
        with mock.patch("os.fsync", side_effect=OSError(28, "No space left on device")), self.assertRaises(OSError):
            pair.remember(self.file, is_left=True)
        self.assertEqual(ground.snapshot(self.home), {"desk.db": b"a desk's file", "desk.db-wal": self.log.read_bytes(), "desk.db-pair": before})


if __name__ == "__main__":
    unittest.main()
