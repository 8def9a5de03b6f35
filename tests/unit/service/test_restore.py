"""Of a restore and its undo: the files that are there after each, whenever one is broken off; what is refused, and with which status."""
import contextlib
import fcntl
import json
import os
import shutil
import unittest
from pathlib import Path
from unittest import mock

import service_ground as ground
from acd_service import audit, chain, pair, restoring, settings
from service_ground import moments_out, rows, said

MOMENT = "2026-11-28T100000Z"
SOUND = audit.Finding(audit.SOUND, "sound; executed 3", 3)
# what changes names, each of which may be the last that is done
STEPS = ("rename", "replace", "link", "symlink", "unlink", "rmdir")


class BrokenOff(BaseException):
    """As a power cut ends it."""


@contextlib.contextmanager
def broken_off(number):
    """The step of this number isn't done any more."""
    left = [number]

    def counted(step):
        def done(*words, **more):
            if any(".put-away." in str(word) or str(word).endswith(".new") for word in words[:1]):
                return step(*words, **more)
            left[0] -= 1
            if left[0] < 0:
                raise BrokenOff
            return step(*words, **more)
        return done

    with contextlib.ExitStack() as stack:
        for name in STEPS:
            stack.enter_context(mock.patch.object(os, name, counted(getattr(os, name))))
        try:
            yield
        except BrokenOff:
            pass


class Restores(ground.Case):
    def setUp(self):
        super().setUp()
        self.copies = self.folder / "copies"
        self.enterContext(mock.patch.object(settings, "FILE", self.folder / "acd.env"))
        self.words = ("restore", "--file", self.file, "--folder", self.copies)

    def lay(self, text=ground.PLAN, moment=MOMENT):
        """A copy of a desk's file that executed these lines."""
        folder = self.copies / moment
        folder.mkdir(parents=True)
        ground.lines(folder / "desk.db", text)
        pair.log_of(folder / "desk.db").unlink(missing_ok=True)
        return folder

    def put_away(self):
        found, = self.home.glob("put-away-*")
        return found

    def count(self, file=None):
        return rows(file or self.file, "SELECT count(*) FROM kept")[0][0]


class BothWays(Restores):
    def setUp(self):
        super().setUp()
        self.killed(ground.PLAN + ground.arrives(1) + ground.arrives(2))
        self.lay()
        self.before = ground.snapshot(self.home)

    def test_there_and_back(self):
        done = said(*self.words, MOMENT)
        self.assertEqual((done.status, done.faults), (0, ""))
        self.assertRegex(moments_out(done.out), rf"\ARestored X into {self.file}\. .*{self.home}/put-away-X.*--undo.*\n\Z")
        self.assertEqual((self.count(), pair.holds_something(pair.log_of(self.file))), (3, False))
        self.assertEqual(self.file.stat().st_mode & 0o777, 0o600)
        away = ground.snapshot(self.put_away())
        self.assertEqual({name: away[name] for name in self.before}, self.before)
        self.assertFalse(pair.is_split(self.file))
        # what the restored file was written to meanwhile is kept
        ground.lines(self.file, ground.arrives(9))
        done = said("restore", "--file", self.file, "--undo")
        self.assertEqual((done.status, done.faults), (0, ""))
        self.assertRegex(moments_out(done.out), rf"\ATook the restore of X back: {self.file} is as before\. .*{self.home}/taken-back-X\n\Z")
        self.assertEqual({name: content for name, content in ground.snapshot(self.home).items() if name in self.before}, self.before)
        taken, = self.home.glob("taken-back-*")
        self.assertEqual((self.count(taken / "desk.db"), self.count()), (4, 5))
        self.assertEqual(list(self.home.glob("put-away-*")), [])

    def test_the_old_words(self):
        self.assertEqual(said("--file", self.file, "--folder", self.copies, "--restore", MOMENT, by="acd-copy").status, 0)
        self.assertEqual(self.count(), 3)
        self.assertEqual(said("--file", self.file, "--undo", by="acd-copy").status, 0)
        self.assertEqual(self.count(), 5)

    def test_the_last_of_several(self):
        """An undo takes the last one back, and the next undo the one before."""
        self.lay(ground.PLAN + ground.arrives(1), "2026-11-27T100000Z")
        for moment in (MOMENT, "2026-11-27T100000Z"):
            self.assertEqual(said(*self.words, moment).status, 0)
        counts = [self.count()]
        for _ in range(2):
            self.assertEqual(said("restore", "--file", self.file, "--undo").status, 0)
            counts.append(self.count())
        self.assertEqual(counts, [4, 3, 5])

    def test_where_no_file_was(self):
        for name in self.before:
            (self.home / name).unlink()
        self.assertEqual(said(*self.words, MOMENT).status, 0)
        self.assertEqual(self.count(), 3)
        self.assertEqual(said("restore", "--file", self.file, "--undo").status, 0)
        self.assertEqual([one.name for one in (self.file, pair.log_of(self.file)) if os.path.lexists(one)], [])

    def test_a_copy_with_a_request_that_was_sent_again(self):
        with mock.patch.object(audit, "audited", lambda *_: audit.Finding(audit.AGAIN, "sound up to request 2; and so on", 3)):
            done = said(*self.words, MOMENT)
        self.assertEqual((done.status, done.out.splitlines()[0]), (0, "sound up to request 2; and so on"))


class BrokenOffs(Restores):
    """Broken off before each step, once: no command finds half of it, and what is run then ends it."""

    def setUp(self):
        super().setUp()
        self.enterContext(mock.patch.object(audit, "audited", lambda *_: SOUND))
        # there is no power cut here, and a disk takes its time
        self.enterContext(mock.patch.object(os, "fsync"))
        self.enterContext(mock.patch.object(pair, "identity", lambda path: str(os.stat(path).st_ino) if path.exists() else "none"))
        self.new = self.copies / MOMENT
        self.new.mkdir(parents=True)
        (self.new / "desk.db").write_bytes(b"new")
        (self.new / "desk.db-wal").write_bytes(b"log of the new")

    def lay(self):
        for one in self.home.iterdir():
            shutil.rmtree(one) if one.is_dir() and not one.is_symlink() else one.unlink()
        self.file.write_bytes(b"old")
        pair.log_of(self.file).write_bytes(b"log of the old")

    def now(self):
        """The file with its log, where a command would open it; else nothing."""
        if os.path.islink(self.file) or not self.file.exists() or self.file.stat().st_nlink > 1:
            return None
        log = pair.log_of(self.file)
        return self.file.read_bytes(), log.read_bytes() if log.exists() else b""

    def each(self, begin, words):
        """The file and its log after each step of these words, which begin so."""
        number, found = 0, None
        while found is None or number < 60:
            self.lay()
            begin()
            with broken_off(number):
                found = said(*words)
                if found.status == 0:
                    return
            number += 1
            yield number
        self.fail("it comes to no end")

    def test_a_restore(self):
        old, new = (b"old", b"log of the old"), (b"new", b"log of the new")
        seen, count = set(), 0
        for count in self.each(lambda: None, (*self.words, MOMENT)):
            at = self.now()
            self.assertIn(at, (None, old, new))
            if at is None:
                told = restoring.unfinished(self.file)
                self.assertIn(f"the restore of {MOMENT} isn't ended", told)
                self.assertEqual(said("copy", "--file", self.file, "--folder", self.copies), (1, "", f"acdctl copy: {told}\n"))
            seen.add(at)
            ends_by_undo = count % 2 == 0
            done = said("restore", "--file", self.file, "--undo") if ends_by_undo else said(*self.words, MOMENT)
            if ends_by_undo and done.status:
                self.assertEqual((at, done.faults.count("\n")), (old, 1))
            else:
                self.assertEqual(done.status, 0, done)
            self.assertEqual(self.now(), old if ends_by_undo else new, f"step {count}")
        self.assertEqual(seen, {None, old, new})
        self.assertGreaterEqual(count, 7)

    def test_an_undo(self):
        old, new = (b"old", b"log of the old"), (b"new", b"log of the new")
        seen, count = set(), 0

        def begin():
            self.assertEqual(said(*self.words, MOMENT).status, 0)

        for count in self.each(begin, ("restore", "--file", self.file, "--undo")):
            at = self.now()
            self.assertIn(at, (None, old, new))
            if at is None:
                self.assertIn(f"the undo of {MOMENT} isn't ended", restoring.unfinished(self.file))
                self.assertEqual(said(*self.words, MOMENT).status, 1)
            seen.add(at)
            done = said("restore", "--file", self.file, "--undo")
            self.assertTrue(done.status == 0 or at == old, done)
            self.assertEqual(self.now(), old, f"step {count}")
        self.assertEqual(seen, {None, old, new})
        self.assertGreaterEqual(count, 7)

    def test_another_moment_meanwhile(self):
        """One that was broken off has to be ended first."""
        other = self.copies / "2026-11-27T100000Z"
        shutil.copytree(self.new, other)
        for count in self.each(lambda: None, (*self.words, MOMENT)):
            if self.now() is None:
                done = said(*self.words, other.name)
                self.assertEqual((done.status, done.out, done.faults.count("\n")), (1, "", 1))
                self.assertIn(f"the restore of {MOMENT} isn't ended", done.faults)
                return
        self.fail("it was never broken off midway")

    def test_files_that_somebody_exchanged_meanwhile(self):
        for count in self.each(lambda: None, (*self.words, MOMENT)):
            if self.now() is None and os.path.islink(self.file):
                log = pair.log_of(self.file)
                if log.exists():
                    log.rename(self.folder / "theirs")
                log.write_bytes(b"somebody's")
                done = said(*self.words, MOMENT)
                self.assertEqual((done.status, log.read_bytes()), (1, b"somebody's"))
                self.assertIn(f"{log} isn't the one any more that it was when this was begun", done.faults)
                return
        self.fail("it was never broken off midway")

    def test_what_was_put_away_is_gone(self):
        self.lay()
        self.assertEqual(said(*self.words, MOMENT).status, 0)
        (self.put_away() / "desk.db").unlink()
        self.refused(("restore", "--file", self.file, "--undo"), 1, "hasn't the file any more that was put away")
        self.assertEqual(self.now(), (b"new", b"log of the new"))

    def test_a_full_disk_keeps_no_note_that_is_not_true(self):
        self.lay()
        pair.remember(self.file)
        with mock.patch.object(pair, "remember", side_effect=OSError(28, "No space left on device")):
            self.assertEqual(said(*self.words, MOMENT).status, 0)
        self.assertEqual((pair.note_of(self.file).exists(), self.now()), (False, (b"new", b"log of the new")))


class Archives(Restores):
    """A copy of before a carry-over, and one of after it."""

    def setUp(self):
        super().setUp()
        self.desk(ground.PLAN + ground.arrives(1) + ground.tick(1, 300000))
        self.earlier = self.copies / "2026-11-27T100000Z"
        self.earlier.mkdir(parents=True)
        shutil.copy(self.file, self.earlier)
        self.archive = self.carried(ground.arrives(2, "0305678", 300100), 5)
        self.note = chain.Note(self.archive.name, 5, chain.digest(self.archive), "1 1.5")
        chain.put_note(self.file, self.note)
        self.later = self.copies / MOMENT
        self.later.mkdir()
        for one in (self.file, chain.note_of(self.file)):
            shutil.copy(one, self.later)

    def test_back_before_the_carry_over(self):
        """The archive, which only the later file goes on from, is put away with it."""
        before = {name: content for name, content in ground.snapshot(self.home).items() if not name.endswith("-pair")}
        self.assertEqual(said(*self.words, self.earlier.name).status, 0)
        self.assertEqual((self.count(), self.archive.exists(), chain.note_of(self.file).exists()), (5, False, False))
        self.assertEqual(said("restore", "--file", self.file, "--undo").status, 0)
        after = ground.snapshot(self.home)
        self.assertEqual({name: after[name] for name in before}, before)

    def test_an_archive_that_the_copies_alone_have(self):
        chain.keep(self.archive, self.note, chain.copies_of(self.copies))
        for one in (self.archive, chain.note_of(self.file), self.file):
            one.unlink()
        self.assertEqual(said(*self.words, MOMENT).status, 0)
        self.assertEqual((self.archive.exists(), chain.digest(self.archive), chain.read_note(self.file)), (True, self.note.digest, self.note))

    def test_an_archive_that_nobody_has(self):
        self.archive.unlink()
        before = ground.snapshot(self.home)
        self.refused((*self.words, MOMENT), 1, f"the archive {self.archive.name} isn't in .*; nothing was touched")
        self.assertEqual(ground.snapshot(self.home), before)


class Refusals(Restores):
    def setUp(self):
        super().setUp()
        self.desk(ground.PLAN + ground.arrives(1))
        self.lay()

    def untouched(self, words, status, pattern):
        before = ground.snapshot(self.home)
        self.refused(words, status, pattern)
        self.assertEqual(ground.snapshot(self.home), before)
        self.assertEqual([one.name for one in self.home.iterdir() if "put-away" in one.name], [])

    def test_command_lines(self):
        for words in ((), (MOMENT, "--undo"), ("--none",), (MOMENT, "other"), ("--keep", "3", MOMENT)):
            with self.subTest(words):
                done = said("restore", *words)
                self.assertEqual((done.status, done.out, done.faults.startswith("acdctl restore: ")), (2, "", True), done)

    def test_help(self):
        done = said("restore", "--help")
        self.assertEqual((done.status, done.faults), (0, ""))
        for word in ("--file", "--folder", "--undo", "MOMENT"):
            self.assertIn(word, done.out)

    def test_moments(self):
        for moment in ("2026-11-29T100000Z", "", ".", "../copies/" + MOMENT, "archives"):
            with self.subTest(moment):
                self.untouched((*self.words, moment), 1, f"there is no copy {moment} of desk.db in {self.copies}; there are: {MOMENT}")
        shutil.rmtree(self.copies / MOMENT)
        self.untouched((*self.words, MOMENT), 1, "there are: none")

    def test_nothing_to_take_back(self):
        self.untouched(("restore", "--file", self.file, "--undo"), 1, "there is no restore to take back")

    def test_beside_a_desk(self):
        desk, _ = self.serves()
        before = self.file.read_bytes()
        self.refused((*self.words, MOMENT), 1, rf"{self.file} is open in process {desk.pid} \(acd serve --file {self.file}\).*; nothing was touched")
        self.assertEqual(self.file.read_bytes(), before)

    def test_beside_another_restore(self):
        folder = os.open(self.home, os.O_RDONLY)
        self.addCleanup(os.close, folder)
        fcntl.flock(folder, fcntl.LOCK_EX)
        self.untouched((*self.words, MOMENT), 1, "another program, .*; nothing was touched")

    def test_one_of_several_machines(self):
        (self.home / "at").write_text("1\n")
        self.untouched((*self.words, MOMENT), 1, f"{self.home}/at says that this is one of several machines: .*; nothing was touched")

    def test_of_another_user(self):
        if os.geteuid():
            self.skipTest("only root gives a file away")
        os.chown(self.file, 2, 2)
        with mock.patch.object(os, "geteuid", lambda: 54321):
            self.untouched((*self.words, MOMENT), 1, f"only root and the user bin put a copy of {self.file} back")
        self.assertEqual(restoring.name_of(54321), "54321")

    def test_a_copy_that_is_not_sound(self):
        ground.changed(self.copies / MOMENT / "desk.db", "UPDATE agents SET name = 'Bea'")
        self.untouched((*self.words, MOMENT), 1, "the copy isn't sound: the audit says 'differs at request [0-9]+.*'; nothing was touched")

    def test_a_disk_that_fails(self):
        self.program("cp", "exit 1")
        self.untouched((*self.words, MOMENT), 1, f"{self.copies}/{MOMENT}/desk.db can't be copied; nothing was touched")
        with mock.patch.object(restoring, "sync", side_effect=OSError(5, "Input/output error")):
            self.untouched((*self.words, MOMENT), 1, "")

    def test_half_folders_are_nobodys(self):
        """What a killed restore left before its state was written is cleared away."""
        (self.home / ".put-away.x/new").mkdir(parents=True)
        other = self.home / "put-away-other"
        other.mkdir()
        (other / "state.json").write_text(json.dumps({"file": "other.db"}))
        self.assertEqual(said(*self.words, MOMENT).status, 0)
        self.assertEqual(((self.home / ".put-away.x").exists(), Path(other / "state.json").exists()), (False, True))


if __name__ == "__main__":
    unittest.main()
