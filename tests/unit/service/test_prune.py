"""Of prune: which archive is made, where it gets its place, what the file's note says, and what is left where something fails. A stand-in prunes."""
import fcntl
import os
import shutil
import subprocess
import tempfile
import unittest
from pathlib import Path
from unittest import mock

import service_ground as ground
from acd_service import chain, copy, held, prune, settings, unit
from service_ground import changed, lines, rows, said

STAND_IN = Path(__file__).with_name("prune_stand_in.py")
DAY = 86400
# a plan, and then a caller each day
DAYS = ground.PLAN + "".join(ground.arrives(day, f"03012{day}", day * DAY) for day in range(1, 8))
STAMPS = "SELECT stamp FROM kept ORDER BY stamp"
# a request of the first days, which acts once more
AGAIN = '700000 {"requester":"pbx","invoke":1,"service":"arriveCall","caller":"030121","called":"100"}\n'


def stamps(file):
    return [stamp for stamp, in rows(file, STAMPS)]


class Pruning(ground.Case):
    def setUp(self):
        super().setUp()
        self.noted = self.folder / "noted"
        self.enterContext(mock.patch.dict(os.environ, {"PRUNE_NOTED": str(self.noted), "PRUNE_UP_TO": "5"}))
        self.enterContext(mock.patch.object(settings, "FILE", self.folder / "acd.env"))
        self.program("acd", f'[ "$1" != prune ] || exec /usr/bin/python3 -S {STAND_IN} "$@"\nexec {ground.ACD} "$@"')
        self.words = ("prune", "--file", self.file)
        self.copies = self.home / "copies"

    def has(self, **more):
        self.enterContext(mock.patch.dict(os.environ, {name: str(value) for name, value in more.items()}))

    def prunes(self):
        """The words of each run of the program over the file itself, without the file."""
        found = self.noted.read_text().splitlines() if self.noted.exists() else []
        return [line.partition(f"--file {self.file} ")[2] for line in found if f"--file {self.file} " in line]

    def names(self):
        """What is beside the file, but for logs that hold nothing."""
        return {one.name for one in self.home.iterdir() if not (one.name.endswith("-wal") and one.stat().st_size <= 41)}

    def audited(self, archive):
        """By the program, and that the archive is what was noted."""
        self.assertEqual(chain.digest(archive), chain.read_note(self.file).digest)
        with tempfile.TemporaryDirectory() as folder:
            both = [shutil.copy(each, folder) for each in (self.file, archive)]
            return subprocess.run([ground.ACD, "audit", "--file", both[0], "--archive", both[1]], capture_output=True, text=True).stdout

    def unchanged(self, words, status, pattern, by="acdctl"):
        """It ends with this status, and this in a line; all is as before."""
        before = {name: text for name, text in ground.snapshot(self.home).items() if not name.endswith("-wal")}
        done = said(*words, by=by)
        self.assertEqual((done.status, done.out), (status, ""), done)
        self.assertRegex(done.faults, rf"\A{by if by != 'acdctl' else f'acdctl {words[0]}'}: .*(?:{pattern}).*\n\Z")
        self.assertEqual({name: text for name, text in ground.snapshot(self.home).items() if not name.endswith("-wal")}, before)


class ByHand(Pruning):
    def test_a_file_and_its_archive(self):
        self.desk(DAYS)
        self.file.chmod(0o640)
        whole, inode = rows(self.file, "SELECT * FROM kept"), self.file.stat().st_ino
        done = said(*self.words)
        self.assertEqual(done, (0, "pruned up to request 5\n", ""))
        archive = self.home / "desk.db-1970-01-08-10"
        self.assertEqual((stamps(self.file), self.file.stat().st_ino), ([6, 7, 8, 9, 10], inode))
        self.assertEqual((rows(archive, "SELECT * FROM kept"), archive.stat().st_mode & 0o777), (whole, 0o640))
        self.assertEqual(self.names(), {"desk.db", "desk.db.archive", archive.name})
        self.assertEqual(chain.note_of(self.file).read_text(), f"archive {archive.name}\nlast 10\ndigest {chain.digest(archive)}\n")
        self.assertEqual(self.audited(archive), "sound\n")
        self.assertEqual(self.prunes(), [f"--archive {archive} --days 2"])

    def test_the_next_one(self):
        """The archive of the first one gets the note that the file had."""
        self.desk(DAYS)
        said(*self.words)
        first = chain.read_note(self.file)
        lines(self.file, ground.arrives(8, "030128", 8 * DAY))
        self.has(PRUNE_UP_TO=9)
        self.assertEqual(said(*self.words, "--keep", "1000"), (0, "pruned up to request 9\n", ""))
        second = chain.read_note(self.file)
        self.assertEqual([note.name for note in chain.chain(self.file)], ["desk.db-1970-01-09-11", "desk.db-1970-01-08-10"])
        self.assertEqual(chain.read_note(self.home / second.name), first)
        self.assertEqual((self.audited(self.home / second.name), stamps(self.home / second.name)), ("sound\n", [6, 7, 8, 9, 10, 11]))
        self.assertEqual(self.prunes()[-1], f"--archive {self.home / second.name} --keep 1000")

    def test_what_its_archive_has_is_not_copied_again(self):
        self.desk(DAYS)
        said(*self.words)
        names = self.names()
        self.has(PRUNE_UP_TO=8)
        self.assertEqual(said(*self.words), (0, "pruned up to request 8\n", ""))
        self.assertEqual((self.names(), stamps(self.file)), (names, [9, 10]))

    def test_nothing(self):
        """No archive is made. By the names of before it has the status of before."""
        self.desk(DAYS)
        self.has(PRUNE_UP_TO=0)
        self.assertEqual(said(*self.words), (0, "nothing to prune\n", ""))
        self.assertEqual(said("carry", "--file", self.file, "--days", "3"), (3, "nothing to prune\n", ""))
        self.assertEqual(said("--file", self.file, "--keep", "1000", by="acd-carry"), (3, "nothing to prune\n", ""))
        # a unit of an office's own
        self.assertEqual(said("carry", "--look", "--file", self.file), (1, "nothing to prune\n", ""))
        self.assertEqual((self.names(), self.prunes()), ({"desk.db"}, []))

    def test_by_the_old_name(self):
        self.desk(DAYS)
        self.assertEqual(said("--file", self.file, "--days", "3", "--desk", self.bin / "acd", by="acd-carry"), (0, "pruned up to request 5\n", ""))
        self.assertEqual((stamps(self.file), self.prunes()[0].endswith("--days 3")), ([6, 7, 8, 9, 10], True))

    def test_days_of_the_settings(self):
        self.desk(DAYS)
        (self.folder / "acd.env").write_text(f"ACD_FILE={self.file}\nACD_CARRY_DAYS=5\n")
        self.assertEqual(said("prune"), (0, "pruned up to request 5\n", ""))
        self.assertTrue(self.prunes()[0].endswith("--days 5"))
        self.assertEqual(said("prune", "--file", self.file).status, 0)
        self.assertTrue(self.noted.read_text().endswith(" --days 2\n"))
        (self.folder / "acd.env").write_text(f"ACD_FILE={self.file}\nACD_CARRY_DAYS=many\n")
        self.assertEqual(said("prune")[::2], (2, "acdctl prune: ACD_CARRY_DAYS: 'many' isn't a whole number from 1 to 36500\n"))

    def test_more_to_go(self):
        self.desk(DAYS)
        self.has(PRUNE_STEP=2)
        self.assertEqual(said(*self.words).out, "pruned up to request 2, more to go\npruned up to request 4, more to go\npruned up to request 5\n")
        self.assertEqual(len(self.prunes()), 3)

    def test_a_program_that_does_not_get_on(self):
        self.desk(DAYS)
        self.has(PRUNE_SAYS="pruned up to request 4, more to go", PRUNE_ENDS=0)
        done = said(*self.words)
        self.assertEqual((done.status, len(self.prunes())), (1, 2))
        self.assertRegex(done.faults, "it pruned up to request 4 before")

    def test_what_is_in_the_log_alone(self):
        self.killed(DAYS)
        self.assertEqual(said(*self.words), (0, "pruned up to request 5\n", ""))
        self.assertEqual(stamps(self.home / "desk.db-1970-01-08-10"), list(range(1, 11)))

    def test_a_request_that_was_sent_again(self):
        self.desk(DAYS)
        said(*self.words)
        lines(self.file, AGAIN)
        self.has(PRUNE_UP_TO=7)
        self.assertEqual(said(*self.words), (0, "sound, but request 11 was sent again; executed 11\npruned up to request 7\n", ""))

    def test_what_a_killed_one_left(self):
        """Its folder goes; and so does its archive, unless the file's note names it or it is another file."""
        self.desk(DAYS)
        for number, is_ours in enumerate((True, True, False)):
            left = self.home / f".prune.desk.db.{number}"
            left.mkdir()
            name = f"desk.db-1970-01-01-{number}"
            (left / name).write_text("made")
            if is_ours:
                os.link(left / name, self.home / name)
            else:
                (self.home / name).write_text("mine")
            (self.home / f"{name}.archive").write_text("note")
        chain.put_note(self.file, chain.Note("desk.db-1970-01-01-1", 1, ""))
        prune.clear(self.file)
        (self.home / ".prune.other.db.1").mkdir()
        prune.clear(self.file)
        self.assertEqual(self.names(), {"desk.db", "desk.db.archive", ".prune.other.db.1", *(f"desk.db-1970-01-01-{number}{end}" for number in (1, 2) for end in ("", ".archive"))})


class Faults(Pruning):
    def test_what_the_program_says(self):
        self.desk(DAYS)
        for line, status, pattern in (("differs at request 7", 3, "differs at request 7; .* wasn't pruned"), ("acd: no memory", 1, "acd: no memory"), ("what?", 0, r"what\?"),
                                      ("kill", 0, "acd prune was ended by signal 9; ")):
            with self.subTest(line), mock.patch.dict(os.environ, {"PRUNE_SAYS": line, "PRUNE_ENDS": str(status)}):
                self.unchanged(self.words, 1, pattern)

    def test_an_unsound_file(self):
        self.desk(DAYS)
        changed(self.file, "UPDATE kept SET status = 409 WHERE stamp = 4")
        self.unchanged(self.words, 1, f"{self.file} isn't sound: the audit says 'differs at request 4'; nothing was changed")

    def test_an_archive_that_is_not_there(self):
        self.desk(DAYS)
        said(*self.words)
        (self.home / "desk.db-1970-01-08-10").unlink()
        self.unchanged(self.words, 1, "the archive desk.db-1970-01-08-10 isn't in")

    def test_no_room(self):
        """The note can't be written: the archive goes."""
        self.desk(DAYS)

        def full(file, note):
            raise OSError(28, "No space left on device")

        with mock.patch.object(chain, "put_note", full):
            self.unchanged(self.words, 1, "No space left on device")

    def test_a_name_that_is_taken(self):
        self.desk(DAYS)
        for end in ("", ".archive", "-wal"):
            taken = self.home / f"desk.db-1970-01-08-10{end}"
            taken.write_text("mine" * 20)
            with self.subTest(end):
                self.unchanged(self.words, 1, f"{taken} is there already; nothing was changed")
            taken.unlink()

    def test_files(self):
        self.unchanged(self.words, 1, f"there is no file {self.file}")
        self.desk(DAYS)
        if os.geteuid() == 0:
            os.chown(self.file, 1, 1)
            self.unchanged(self.words, 1, f"only the user daemon prunes {self.file}: runuser -u daemon -- acdctl prune")
            os.chown(self.file, 0, 0)
        with mock.patch.object(prune.pair, "is_split", lambda _: True):
            self.unchanged(self.words, 1, f"{self.file}-wal isn't this file's: acdctl ready says what to do")
        with mock.patch.object(chain, "unfinished", lambda _: "this ends it"):
            self.unchanged(self.words, 1, "this ends it")
        self.unchanged((*self.words, "--prepared"), 1, f"{self.file} continues no archive; nothing was changed")

    def test_beside_somebody(self):
        self.desk(DAYS)
        desk, _ = self.serves()
        self.unchanged(self.words, 1, f"{self.file} is open in process {desk.pid} .*; nothing was touched")
        desk.kill()
        desk.wait()
        folder = os.open(self.home, os.O_RDONLY)
        try:
            fcntl.flock(folder, fcntl.LOCK_EX)
            self.unchanged(self.words, 1, "is pruned or put back, or a caller is forgotten in its archives, just now; nothing was changed")
        finally:
            os.close(folder)

    def test_command_lines(self):
        for words in (("--days", "0"), ("--days", "x"), ("--keep", "999"), ("--days", "2", "--keep", "1000"), ("--prepared", "--stop"), ("--stop", "--file", "F"),
                      ("--start", "--folder", "C"), ("--from", "x", "--to", "y"), ("x",)):
            with self.subTest(words):
                done = said("prune", *words)
                self.assertEqual((done.status, done.out, done.faults.count("\n")), (2, "", 1), done)


class OverTheService(Pruning):
    """What acd-prune.service runs: a desk serves, and there are good copies."""

    def setUp(self):
        super().setUp()
        self.enterContext(mock.patch.object(copy, "NGINX", self.folder / "nginx"))
        self.prepare = (*self.words, "--prepare", "--days", "2")

    def served(self):
        self.desk(DAYS)
        return self.serves()[0]

    def copied(self):
        self.assertEqual(said("copy", "--file", self.file).status, 0)
        self.archive = self.home / "desk.db-1970-01-08-10"

    def test_a_night(self):
        desk = self.served()
        self.copied()
        self.assertEqual(said(*self.prepare), (0, f"{self.archive} has all that is to be pruned\n", ""))
        self.assertEqual((desk.poll(), chain.read_note(self.file).name, stamps(self.file)), (None, self.archive.name, list(range(1, 11))))
        self.assertEqual(self.audited(self.archive), "sound\n")
        desk.kill()
        desk.wait()
        self.assertEqual(said(*self.words, "--prepared", "--days", "2"), (0, "pruned up to request 5\n", ""))
        self.assertEqual((stamps(self.file), self.audited(self.archive)), ([6, 7, 8, 9, 10], "sound\n"))
        self.assertEqual(self.names(), {"desk.db", "desk.db.archive", "copies", self.archive.name})

    def test_the_newest_copy(self):
        """Those of another name aren't good ones."""
        self.desk(DAYS)
        self.copied()
        lines(self.file, ground.arrives(8, "030128", 8 * DAY))
        self.assertEqual(said("copy", "--file", self.file).status, 0)
        newest = max(self.copies.glob("*Z"))
        shutil.copytree(newest, self.copies / "9999-01-01T000000Z.early")
        (self.copies / "9999-01-01T000000Z").mkdir()
        self.serves()
        self.assertEqual(said(*self.prepare).out, f"{self.home}/desk.db-1970-01-09-11 has all that is to be pruned\n")
        self.assertTrue(newest.is_dir())

    def test_nothing(self):
        """On a second time too, beside a copy of before: the desk isn't stopped for it."""
        desk = self.served()
        self.copied()
        with mock.patch.dict(os.environ, {"PRUNE_UP_TO": "0"}):
            self.assertEqual(said(*self.prepare), (1, "nothing to prune\n", ""))
        self.assertFalse(self.archive.exists())
        said(*self.prepare)
        desk.kill()
        desk.wait()
        said(*self.words, "--prepared")
        self.serves()
        self.assertEqual(said(*self.prepare), (1, "nothing to prune\n", ""))

    def prepared(self):
        """What a night's steps say."""
        return said(*self.words, "--prepared", "--days", "2")

    def test_a_night_takes_the_steps_that_it_has_time_for(self):
        """The first one, and each other one of which it can be thought that ten seconds aren't over by its end, as it takes as long as the one before; by hand all."""
        self.desk(DAYS)
        said(*self.prepare)
        whole, has, now, stepped = self.file.read_bytes(), {}, [0.0], prune.run

        def run(*words):
            now[0] += next(has["seconds"])
            return stepped(*words)

        self.has(PRUNE_STEP=1)
        self.enterContext(mock.patch.object(prune, "run", run))
        self.enterContext(mock.patch.object(prune, "time", mock.Mock(monotonic=lambda: now[0])))
        for seconds, steps in (((11, 1), 1), ((5.5, 1), 1), ((5, 5, 1), 2), ((4, 4, 1), 2), ((4, 2, 3, 1), 3), ((1, 6, 1), 2), ((2, 2, 2, 3, 1), 4), ((1, 1, 1, 1, 1), 5)):
            with self.subTest(seconds):
                self.file.write_bytes(whole)
                has["seconds"] = iter(seconds)
                up_to = [f"pruned up to request {number}{', more to go' if number < 5 else ''}\n" for number in range(1, steps + 1)]
                rest = "more to go: the next run goes on, since nobody is answered meanwhile\n" if steps < 5 else ""
                self.assertEqual((self.prepared().out, stamps(self.file)), ("".join(up_to) + rest, list(range(steps + 1, 11))))
                self.assertEqual(self.audited(self.home / "desk.db-1970-01-08-10"), "sound\n")
        self.file.write_bytes(whole)
        has["seconds"] = iter((0, 20, 20, 20, 20, 20))
        self.assertEqual((said(*self.words).out.count("more to go"), stamps(self.file)), (4, [6, 7, 8, 9, 10]))

    def test_the_rest_of_a_night(self):
        """The next ones go on by the archive that there is, as long as it has a whole step; by a new one then."""
        self.desk(DAYS)
        self.copied()
        self.has(PRUNE_STEP=2, PRUNE_UP_TO=7)
        self.enterContext(mock.patch.object(prune, "LONGEST", 0.0))
        for day, up_to, archive in ((8, "2, more to go", self.archive), (9, "4, more to go", self.archive), (10, "6, more to go", self.archive),
                                    (11, "7", self.home / "desk.db-1970-01-11-13")):
            desk, _ = self.serves()
            self.assertEqual(said(*self.prepare), (0, f"{archive} has all that is to be pruned\n", ""))
            desk.kill()
            desk.wait()
            self.assertEqual(self.prepared().out.splitlines()[0], f"pruned up to request {up_to}")
            self.assertEqual(self.audited(archive), "sound\n")
            lines(self.file, ground.arrives(day, f"03013{day}", day * DAY))
            self.assertEqual(said("copy", "--file", self.file).status, 0)
        self.assertEqual([note.name for note in chain.chain(self.file)], ["desk.db-1970-01-11-13", self.archive.name])

    def test_a_second_run_before_the_next_copy(self):
        """It does the next step, and the third one the last."""
        self.desk(DAYS)
        self.copied()
        self.has(PRUNE_STEP=2)
        self.enterContext(mock.patch.object(prune, "LONGEST", 0.0))
        for up_to in ("2, more to go", "4, more to go", "5"):
            desk, _ = self.serves()
            self.assertEqual(said(*self.prepare), (0, f"{self.archive} has all that is to be pruned\n", ""))
            desk.kill()
            desk.wait()
            self.assertEqual(self.prepared().out.splitlines()[0], f"pruned up to request {up_to}")
        self.serves()
        self.assertEqual(said(*self.prepare), (1, "nothing to prune\n", ""))

    def test_by_hand_after_a_night_that_left_some(self):
        """All goes, by an archive that has all."""
        self.desk(DAYS)
        said(*self.prepare)
        self.has(PRUNE_STEP=2, PRUNE_UP_TO=11)
        with mock.patch.object(prune, "LONGEST", 0.0):
            self.prepared()
        lines(self.file, ground.arrives(8, "030128", 8 * DAY) + ground.arrives(9, "030129", 9 * DAY))
        done = said(*self.words)
        self.assertEqual((done.status, done.out.splitlines()[-1], stamps(self.file)), (0, "pruned up to request 11", [12]))
        self.assertEqual(chain.read_note(self.file).name, "desk.db-1970-01-10-12")

    def test_a_copy_of_another_history(self):
        """Of before a restore, which gave the file another inode; and one that is older than the file's archive."""
        self.desk(DAYS)
        self.copied()
        self.file.rename(self.home / "aside")
        shutil.copyfile(self.home / "aside", self.file)
        self.serves()
        self.unchanged(self.prepare, 255, f"the newest good copy in {self.copies} is of another file than {self.file} is now: systemctl start acd-copy; nothing was changed")

    def test_a_copy_that_is_older_than_the_archive(self):
        self.desk(DAYS)
        self.copied()
        lines(self.file, ground.arrives(8, "030128", 8 * DAY))
        self.assertEqual(said(*self.words).status, 0)
        self.serves()
        self.unchanged(self.prepare, 255, "the newest good copy is older than desk.db-1970-01-09-11: systemctl start acd-copy; nothing was changed")

    def test_what_has_to_be_mended(self):
        """By another status than that of a night with nothing to do."""
        self.served()
        self.unchanged(self.prepare, 255, f"there is no good copy of {self.file} in {self.copies}: systemctl start acd-copy; nothing was changed")
        self.copied()
        self.unchanged((*self.words, "--prepare", "--days", "x"), 255, "isn't a whole number")
        with mock.patch.dict(os.environ, {"PRUNE_SAYS": "kill", "PRUNE_ENDS": "0"}):
            self.unchanged(self.prepare, 255, "acd prune was ended by signal 9")
        with mock.patch.object(prune, "end_of", side_effect=KeyError("last")):
            self.unchanged(self.prepare, 255, "KeyError: 'last'; nothing was changed")
        with mock.patch.object(held, "unit", lambda _: "acd-follow"):
            self.unchanged(self.prepare, 255, f"{self.file} is open in acd-follow: prune it by hand; nothing was changed")
        (self.home / "at").write_text("7\n")
        self.unchanged(self.prepare, 255, "one of several machines: all are pruned at once, by hand; nothing was changed")

    def test_the_unit(self):
        with mock.patch.object(unit, "stop") as stop, mock.patch.object(unit, "start") as start:
            if os.geteuid() == 0:
                self.assertEqual((said("prune", "--stop").status, stop.call_count, start.call_count), (0, 1, 0))
                (self.folder / "acd.env").write_text("ACD_CARRY_DAYS=x\nACD_COPIES=x\n")
                self.assertEqual((said("prune", "--start").status, stop.call_count, start.call_count), (0, 1, 1))
            with mock.patch.object(os, "geteuid", lambda: 1):
                self.refused(("prune", "--stop"), 1, "only root stops and starts the desk's unit: systemctl start acd-prune")

    def test_a_file_that_is_written_just_now(self):
        """Nobody knows whether it is pruned already, so it isn't passed over."""
        self.file.write_bytes(b"")
        self.assertEqual([prune.is_pruned(self.file, line) for line in ("nothing to prune", "pruned up to request 5")], [True, False])


if __name__ == "__main__":
    unittest.main()
