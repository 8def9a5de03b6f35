"""Of chain: the notes of archives, the copies of these, and whether a file goes on from one, as stock SQLite has them."""
import hashlib
import os
import shutil
import subprocess
import unittest
from pathlib import Path
from unittest import mock

import service_ground as ground
from acd_service import chain
from acd_service.chain import Broken, Note


def sha256(path):
    return hashlib.sha256(path.read_bytes()).hexdigest()


class Notes(ground.Case):
    NOTE = Note("desk.db-2026-11-28-81234", 81234, "5e88")
    TEXT = "archive desk.db-2026-11-28-81234\nlast 81234\ndigest 5e88\n"
    BEFORE = TEXT + "was 131 1800000000.5\n"

    def test_form(self):
        chain.put_note(self.file, self.NOTE)
        self.assertEqual((self.home / "desk.db.archive").read_text(), self.TEXT)
        self.assertEqual(chain.read_note(self.file), self.NOTE)

    def test_of_before(self):
        """It has a line more, and keeps it."""
        chain.note_of(self.file).write_text(self.BEFORE)
        found = chain.read_note(self.file)
        self.assertEqual((found, found.text()), (Note("desk.db-2026-11-28-81234", 81234, "5e88", "131 1800000000.5"), self.BEFORE))

    def test_none_and_what_is_none(self):
        self.assertIsNone(chain.read_note(self.file))
        for text in ("", "archive a\n", self.TEXT.replace("81234\n", "x\n"), self.TEXT.replace("digest", "sum"), b"\xff"):
            chain.note_of(self.file).write_bytes(text if isinstance(text, bytes) else text.encode())
            with self.subTest(text=text), self.assertRaisesRegex(Broken, r"\A/.*/desk\.db\.archive is no note of an archive\Z"):
                chain.read_note(self.file)

    def test_a_digest_is_changed_in_place(self):
        old, new = "0" * 64, "f" * 64
        chain.put_note(self.file, Note("a", 1, old, "was"))
        note = chain.note_of(self.file)
        before = os.stat(note).st_ino
        chain.change_digest(note, "b", old, new)
        chain.change_digest(note, "a", "1" * 64, new)
        self.assertEqual(chain.read_note(self.file).digest, old)
        chain.change_digest(note, "a", old, new)
        self.assertEqual((chain.read_note(self.file), os.stat(note).st_ino), (Note("a", 1, new, "was"), before))
        chain.change_digest(self.home / "none.archive", "a", old, new)
        self.assertFalse((self.home / "none.archive").exists())

    def test_a_chain(self):
        """From the last one back; a note is looked for beside the file first; one that goes round ends."""
        copies = self.folder / "archives"
        copies.mkdir()
        chain.put_note(self.file, Note("c", 3, "", ""))
        chain.put_note(self.home / "c", Note("b", 2, "", ""))
        chain.put_note(copies / "b", Note("a", 1, "", ""))
        self.assertEqual([note.name for note in chain.chain(self.file)], ["c", "b"])
        self.assertEqual([note.name for note in chain.chain(self.file, [copies])], ["c", "b", "a"])
        chain.put_note(copies / "a", Note("c", 3, "", ""))
        self.assertEqual([note.name for note in chain.chain(self.file, [copies])], ["c", "b", "a"])

    def test_names(self):
        self.assertEqual(chain.name_for(self.file, 81234, 1795867200), "desk.db-2026-11-28-81234")
        for name, holds in (("desk.db-2026-11-28-81234", True), ("desk.db-12026-11-28-1", True), ("deskxdb-2026-11-28-81234", False), ("desk.db-2026-11-28-", False),
                            ("desk.db-2026-11-28-81234.archive", False)):
            self.assertEqual(chain.is_name(self.file, name), holds)

    def test_a_broken_off_exchange(self):
        self.file.write_bytes(b"new")
        beside = self.home / "desk.db.carry"
        beside.mkdir()
        self.assertIsNone(chain.unfinished(self.file))
        chain.put_note(beside / "desk.db", Note("a", 1, "", "131 1.5"))
        said, _, steps = chain.unfinished(self.file).partition("; this ends it: ")
        self.assertEqual(said, f"a carry-over of {self.file} was broken off before 1.17")
        (beside / "desk.db").write_bytes(b"old")
        both = chain.unfinished(self.file).partition("; this ends it: ")[2]
        self.assertEqual(both, f"mv {beside}/desk.db {self.home}/a && {steps}")
        subprocess.run(both, shell=True, check=True)
        self.assertEqual({one.name: one.read_bytes() for one in self.home.iterdir()}, {"desk.db": b"new", "a": b"old", "desk.db.archive": b"archive a\nlast 1\ndigest \nwas 131 1.5\n"})
        self.assertIsNone(chain.unfinished(self.file))
        beside.mkdir()
        born = subprocess.run(["stat", "--format=%i %.9W", self.file], capture_output=True, text=True, env={**os.environ, "LC_ALL": "C"}).stdout.strip()
        chain.put_note(beside / "desk.db", Note("a", 1, "", born))
        self.assertIsNone(chain.unfinished(self.file))


class Copies(ground.Case):
    def setUp(self):
        super().setUp()
        self.copies, self.archive = self.folder / "archives", self.home / "one"
        self.archive.write_bytes(b"an archive")
        self.note = Note("one", 1, sha256(self.archive), "")

    def test_where_an_archive_is(self):
        (self.copies / "one").mkdir(parents=True)
        self.assertEqual(chain.place(self.note, self.copies, self.home), self.archive)
        with self.assertRaisesRegex(Broken, f"^the archive one isn't in {self.copies} or {self.folder}$"):
            chain.place(self.note, self.copies, self.folder)

    def test_a_copy_is_kept_once(self):
        chain.put_note(self.archive, Note("zero", 0, "", ""))
        chain.keep(self.archive, self.note, self.copies)
        self.assertEqual(subprocess.run(["sha256sum", "--check", "--status", "one.sha256"], cwd=self.copies).returncode, 0)
        self.assertEqual((self.copies / "one.archive").read_bytes(), chain.note_of(self.archive).read_bytes())
        self.assertEqual(self.copies.stat().st_mode & 0o777, 0o700)
        before = ground.snapshot(self.copies)
        self.archive.write_bytes(b"another")
        chain.keep(self.archive, self.note, self.copies)
        self.assertEqual(ground.snapshot(self.copies), before)
        self.assertEqual(sorted(before), ["one", "one.archive", "one.sha256"])

    def test_another_archive(self):
        chain.keep(self.archive, self.note, self.copies)
        with self.assertRaisesRegex(Broken, f"^{self.copies}/one is another archive than that which was noted: its digest is another one$"):
            chain.keep(self.archive, self.note.__class__("one", 1, "0" * 64, ""), self.copies)

    def test_what_is_not_the_noted_one(self):
        self.copies.mkdir()
        (self.copies / ".one.new").write_bytes(b"remains")
        with self.assertRaisesRegex(Broken, f"^{self.archive} isn't the archive that was noted: its digest is another one$"):
            chain.keep(self.archive, Note("one", 1, "0" * 64, ""), self.copies)
        self.archive.unlink()
        with self.assertRaisesRegex(Broken, f"^{self.archive} can't be copied into {self.copies}$"):
            chain.keep(self.archive, self.note, self.copies)
        self.assertFalse((self.copies / "one").exists())

    def test_a_look(self):
        self.assertEqual(list(chain.look(self.copies)), [])
        chain.keep(self.archive, self.note, self.copies)
        (self.copies / "one-wal").write_bytes(b"x" * 41)
        (self.copies / ".half").write_bytes(b"x")
        self.assertEqual(list(chain.look(self.copies)), [])
        (self.copies / "one").write_bytes(b"an archivf")
        (self.copies / "two").write_bytes(b"")
        self.assertEqual(list(chain.look(self.copies)), [f"{self.copies}/one isn't what was copied: its digest is another one", f"{self.copies}/two has no digest beside it, two.sha256"])
        (self.copies / "one-wal").write_bytes(b"x" * 42)
        self.assertIn(f"{self.copies}/one-wal has no digest beside it, one-wal.sha256", list(chain.look(self.copies)))


class Continues(ground.Case):
    """A file of which stock SQLite cut what its archive has."""

    def setUp(self):
        super().setUp()
        self.desk(ground.PLAN + ground.arrives(1) + ground.tick(1, 300000))
        self.archive = self.carried(ground.arrives(2, "0305678", 300100), 5)

    def test_the_rows_of_both(self):
        self.assertEqual(ground.rows(self.file, "SELECT min(stamp), max(stamp) FROM kept"), [(6, 6)])
        self.assertIsNone(chain.differences(self.file, self.archive))

    def test_what_differs(self):
        for statement, of, told in (("UPDATE meta SET max_calls = max_calls - 1", self.file, "the limits are others"),
                                    ("DELETE FROM kept", self.file, "its kept aren't whole"),
                                    ("UPDATE meta SET last_stamp = 4, last_event = 0", self.archive, "its kept aren't whole"),
                                    ("DELETE FROM events", self.file, "its events aren't whole")):
            other = Path(shutil.copy(of, self.folder / "other"))
            ground.changed(other, statement)
            with self.subTest(statement):
                self.assertEqual(chain.differences(*((other, self.archive) if of == self.file else (self.file, other))), told)

    def test_a_shared_row_that_differs(self):
        whole = self.folder / "whole"
        shutil.copy(self.archive, whole)
        self.assertIsNone(chain.differences(whole, self.archive))
        ground.changed(whole, "UPDATE kept SET moment = moment + 1 WHERE stamp = 4")
        self.assertEqual(chain.differences(whole, self.archive), "stamp 4 of kept is another one")
        shutil.copy(self.archive, whole)
        ground.changed(whole, "UPDATE events SET call = 9 WHERE number = 1")
        self.assertEqual(chain.differences(whole, self.archive), "number 1 of events is another one")

    def test_the_programs_audit(self):
        self.assertEqual(chain.audited(["acd"], self.file, self.archive), (0, "sound\n"))
        self.program("acd", "exit 2")
        self.assertIsNone(chain.audited(["acd"], self.file, self.archive))
        self.program("acd", 'echo "$*"; exit 3')
        self.assertEqual(chain.audited(["acd"], "F", "A", "--whole"), (3, "audit --whole --file F --archive A\n"))

    def test_what_goes_to_the_disk(self):
        """The copy of an archive has its bytes on the disk before its name."""
        steps, sync, name = [], os.fsync, os.replace
        copies = self.folder / "archives"
        with mock.patch("os.fsync", lambda file: (steps.append(os.readlink(f"/proc/self/fd/{file}")), sync(file))), mock.patch("os.replace", lambda *one: (steps.append(str(one[1])), name(*one))):
            chain.keep(self.archive, Note(self.archive.name, 5, sha256(self.archive), ""), copies)
        place = str(copies / self.archive.name)
        self.assertLess(steps.index(str(copies / f".{self.archive.name}.new")), steps.index(place))
        self.assertEqual(steps[steps.index(place):], [place, str(copies)])


if __name__ == "__main__":
    unittest.main()
