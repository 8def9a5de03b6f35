#!/usr/bin/python3
"""Tests of put, and of each program's small files that it puts in their place.   usage: tests/unit/service/test_put.py"""
import asyncio
import csv
import datetime
import os
import stat
import sys
import tempfile
import unittest
from pathlib import Path
from unittest import mock

sys.path.append(str(Path(__file__).resolve().parents[3] / "service"))
from acd_service import chain, copy, put, record_days, restoring  # noqa: E402
from acd_service.gate.sessions import Session, Sessions  # noqa: E402
from acd_service.pair import remember  # noqa: E402


def records(folder, number):
    """The file of a day's records, of so many rows."""
    first, tomorrow = datetime.date(2026, 1, 1), datetime.date(2026, 1, 2)
    with record_days.Days(folder, first, tomorrow, {kind: ["number"] for kind in record_days.KINDS}, csv.writer) as days:
        for row in range(number):
            days.write("records", first, [row])


def sessions(folder, number):
    """The gate's file, of so many sessions."""
    kept = Sessions(folder / "sessions", mock.Mock(now=lambda: {"ana": "hash"}))
    kept.found = {str(one): Session("ana", "bound", one, one) for one in range(number)}
    asyncio.run(kept.keep())


def state(folder, number):
    """What a restore says of itself."""
    put_away = restoring.PutAway(folder, folder / "desk.db")
    put_away.number = number
    put_away.save()


def pair(folder, number):
    """The note of which file and which log belong together, with a log of so many bytes."""
    (folder / "desk.db-wal").write_bytes(bytes(number))
    remember(folder / "desk.db", is_left=True)


def writers(folder):
    """Each small file that one of the programs puts in its place: its name, its path and what writes it, for a number, whose content is another one each time."""
    (folder / "desk.db").touch()
    chained = folder / "chained.db"
    return [("the note of a pair", folder / "desk.db-pair", lambda number: pair(folder, number)),
            ("the note of an archive", chain.note_of(chained), lambda number: chain.put_note(chained, chain.Note("a", number, "b", "c"))),
            ("a digest", folder / "one.sha256", lambda number: chain.put_digest(folder / "one", number)),
            ("the state of a restore", folder / "state.json", lambda number: state(folder, number)),
            ("the number of a copy", folder / "executed", lambda number: copy.counted(folder, folder / "desk.db", number)),
            ("a day's records", folder / "records/2026-01-01.csv", lambda number: records(folder, number)),
            ("the gate's sessions", folder / "sessions", lambda number: sessions(folder, number))]


class Put(unittest.TestCase):
    def setUp(self):
        self.folder = Path(self.enterContext(tempfile.TemporaryDirectory()))

    def steps(self, write):
        """What goes to the disk, in turn: a file with the content that it has by then, a folder, or a name."""
        found, sync, name = [], os.fsync, os.replace

        def synced(file):
            at = Path(f"/proc/self/fd/{file}")
            found.append("folder" if stat.S_ISDIR(os.fstat(file).st_mode) else at.read_text())
            sync(file)

        def named(new, path):
            found.append("name")
            name(new, path)

        with mock.patch("os.fsync", synced), mock.patch("os.replace", named):
            write()
        return found

    def test_each_small_file_is_on_the_disk(self):
        for what, path, write in writers(self.folder):
            for number in (1, 2):
                with self.subTest(what, number=number):
                    found = self.steps(lambda: write(number))
                    self.assertTrue(path.read_text())
                    # a day has three files of records
                    self.assertEqual((found[0], set(found[1::3]), set(found[2::3])), (path.read_text(), {"name"}, {"folder"}))

    def test_mode_is_as_asked_for_whatever_the_umask(self):
        for umask in (0o000, 0o027, 0o077):
            before = os.umask(umask)
            try:
                put.put(self.folder / "file", "text", 0o640)
            finally:
                os.umask(before)
            self.assertEqual(stat.S_IMODE((self.folder / "file").stat().st_mode), 0o640)

    def test_remains_of_a_killed_try_make_room(self):
        (self.folder / ".file.new").write_text("half of another")
        put.put(self.folder / "file", "text")
        self.assertEqual([(one.name, one.read_text()) for one in self.folder.iterdir()], [("file", "text")])

    def test_a_fault_leaves_the_file_as_it_was(self):
        put.put(self.folder / "file", "old")
        with mock.patch("os.fsync", side_effect=OSError(28, "No space left on device")), self.assertRaises(OSError):
            put.put(self.folder / "file", "new")
        self.assertEqual([(one.name, one.read_text()) for one in self.folder.iterdir()], [("file", "old")])


if __name__ == "__main__":
    unittest.main()
