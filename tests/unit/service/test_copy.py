"""Of copies: what is kept under which name, what is told and with which status, which older ones stay, and what is said of nginx's configurations."""
import contextlib
import itertools
import os
import re
import shutil
import subprocess
import tempfile
import time
import types
import unittest
from pathlib import Path
from unittest import mock

import service_ground as ground
from acd_service import audit, chain, copy, halt, held, pair, settings
from service_ground import moments_out, rows, said

NOW = (ground.SERVICE / "nginx/nginx.conf").read_text()
# without what refuses a stranger, as it was up to 1.14
BEFORE = "".join(line for line in NOW.splitlines(keepends=True) if "secure_link" not in line)


class OldProxies(unittest.TestCase):
    def named(self, **files):
        """The files that are named, of these by their folders."""
        with tempfile.TemporaryDirectory() as folder, mock.patch.object(copy, "NGINX", Path(folder)):
            for name, texts in files.items():
                place = Path(folder, name.replace("_", "-" if "sites" in name else "."))
                place.mkdir()
                for file, text in texts.items():
                    (place / file).write_bytes(text)
            return [str(file.relative_to(folder)) for file in copy.old_proxies()]

    def test_without_nginx(self):
        self.assertEqual(self.named(), [])

    def test_of_this_version(self):
        self.assertEqual(self.named(conf_d={"desk.conf": NOW.encode()}), [])

    def test_of_before(self):
        found = self.named(conf_d={"desk.conf": BEFORE.encode(), "other.conf": b"server { return 404; }", "desk.conf.old": BEFORE.encode()},
                           sites_enabled={"north": b"# \xff\n" + BEFORE.encode(), "default": b""})
        self.assertEqual(found, ["conf.d/desk.conf", "sites-enabled/north"])


class Copies(ground.Case):
    def setUp(self):
        super().setUp()
        self.copies = self.folder / "copies"
        self.words = ("copy", "--file", self.file, "--folder", self.copies)
        self.enterContext(mock.patch.object(copy, "NGINX", self.folder / "nginx"))
        self.enterContext(mock.patch.object(settings, "FILE", self.folder / "acd.env"))

    def good(self, *more):
        """A good copy, of which alone something is said; its folder."""
        done = said(*self.words, *more)
        self.assertEqual((done.status, moments_out(done.out), done.faults), (0, f"sound: {self.copies}/X\n", ""))
        return Path(done.out.split()[-1])

    def bad(self, pattern, *more):
        """No good copy; the folder in which it is kept."""
        done = said(*self.words, *more)
        self.assertEqual((done.status, done.faults.count("\n")), (1, 1), done)
        self.assertNotIn("sound: ", done.out)
        found = re.search(rf"\Aacdctl copy: {pattern}; it is in (\S+), and all older copies are kept\n\Z", done.faults)
        self.assertTrue(found, done.faults)
        self.assertEqual(list(self.copies.glob(".new.*")), [])
        return Path(found[1])


class Copying(Copies):
    def test_a_good_copy(self):
        self.desk(ground.PLAN + ground.arrives(1))
        self.file.chmod(0o644)
        made = self.good()
        self.assertEqual(rows(made / "desk.db", "SELECT requester, invoke FROM kept ORDER BY stamp"), rows(self.file, "SELECT requester, invoke FROM kept ORDER BY stamp"))
        self.assertEqual([one.stat().st_mode & 0o777 for one in (made, *sorted(made.iterdir()))], [0o700, *[0o600] * len(list(made.iterdir()))])
        born = subprocess.run(["stat", "--format=%i %.9W", self.file], capture_output=True, text=True, env={**os.environ, "LC_ALL": "C"}).stdout
        self.assertEqual((self.copies / "executed").read_text(), f"executed 4\ndevice {os.stat(self.file).st_dev}\ninode {born}")

    def test_what_is_in_the_log_alone(self):
        self.killed(ground.PLAN + ground.arrives(1) + ground.arrives(2))
        log = pair.log_of(self.file).read_bytes()
        made = self.good()
        self.assertEqual(rows(made / "desk.db", "SELECT count(*), max(stamp) FROM kept"), [(5, 5)])
        self.assertEqual(pair.log_of(self.file).read_bytes(), log)

    def test_beside_a_desk_that_runs(self):
        """It is halted, for a moment, and goes on."""
        self.desk()
        desk, _ = self.serves()
        done = said(*self.words)
        self.assertEqual((done.status, done.faults), (0, ""))
        self.assertRegex(moments_out(done.out), rf"\Athe desk was halted for \d+ ms\nsound: {self.copies}/X\n\Z")
        self.assertFalse(halt.Desk(desk.pid, "").is_halted())

    def test_a_halted_desk_goes_on(self):
        self.desk()
        desk, _ = self.serves()
        one = halt.Desk(desk.pid, "")
        one.halt(time.monotonic() + 60)
        self.assertTrue(one.is_halted())
        self.assertEqual(said("copy", "--file", self.file, "--continue"), (0, "", ""))
        ground.until(lambda: not one.is_halted())

    def test_a_file_that_was_removed_from_under_a_desk(self):
        self.desk(ground.PLAN + ground.arrives(1))
        desk, _ = self.serves()
        self.file.unlink()
        done = said(*self.words)
        self.assertEqual(done.status, 1)
        first, second = done.faults.splitlines()
        self.assertIn(f"the file {self.file} was removed from under the desk, process {desk.pid}", first)
        self.assertIn(f"this copy is of what the desk has open; it is in {self.copies}/moved-X", moments_out(second))
        made, = self.copies.glob("moved-*")
        self.assertEqual(rows(made / "desk.db", "SELECT count(*) FROM kept"), [(4,)])

    def test_a_folder_of_a_damaged_log(self):
        """It is copied all the same, and the status says that somebody has to look."""
        self.desk()
        (self.home / "damaged-x").mkdir()
        (self.home / "damaged-x/desk.db-wal").write_bytes(b"x")
        (self.home / "damaged-y").mkdir()
        done = said(*self.words)
        self.assertEqual((done.status, moments_out(done.out)), (1, f"sound: {self.copies}/X\n"))
        self.assertEqual(done.faults, f"acdctl copy: {self.home}/damaged-x is there: the log was damaged as the desk was started\n")

    def test_fewer_requests(self):
        self.desk(ground.PLAN)
        before = self.file.read_bytes()
        ground.lines(self.file, ground.arrives(1))
        self.good()
        self.file.write_bytes(before)
        made = self.bad("the copy has 3 executed requests, and the last one of the same file had 4: requests are missing")
        self.assertTrue(made.name.startswith("fewer-"))
        self.assertTrue((self.copies / "executed").read_text().startswith("executed 4\n"))

    def test_another_file_is_counted_anew(self):
        self.desk(ground.PLAN + ground.arrives(1))
        self.good()
        (self.home / "new").write_bytes(self.file.read_bytes())
        os.replace(self.home / "new", self.file)
        done = said(*self.words)
        self.assertEqual((done.status, done.out.splitlines()[0]), (0, "this is another file than that of the last copy, which had 4 executed requests: counted anew, from 4"))
        (self.copies / "executed").write_text("executed many\n")
        self.assertEqual(said(*self.words).out.count("\n"), 1)

    def test_what_is_not_sound(self):
        """Of those whose name has no moment the last is kept."""
        self.desk(ground.PLAN + ground.arrives(1))
        ground.changed(self.file, "UPDATE agents SET name = 'Bea'")
        for _ in range(2):
            made = self.bad("the copy isn't sound: the audit says 'differs at request [0-9]+.*'")
            self.assertEqual(made, self.copies / "unsound")
        self.assertEqual(sorted(one.name for one in self.copies.iterdir()), ["unsound"])

    def test_what_the_audit_says(self):
        self.desk()
        for verdict, why, end in ((audit.EARLY, "the copy's log ends early, answered requests are missing: the audit says 'so'", ".early"),
                                  (audit.UNAUDITED, "the copy's audit wasn't ended: so", ".unaudited")):
            with mock.patch.object(audit, "audited", lambda *_: audit.Finding(verdict, "so")):
                self.assertTrue(self.bad(re.escape(why)).name.endswith(end))

    def test_a_request_that_was_sent_again(self):
        """It is kept as a good one, and what was found is noted beside it."""
        self.desk()
        with mock.patch.object(audit, "audited", lambda *_: audit.Finding(audit.AGAIN, "sound up to request 3; and so on", 3)):
            done = said(*self.words)
        self.assertEqual((done.status, moments_out(done.out), done.faults), (0, f"kept: {self.copies}/X\n", ""))
        made = Path(done.out.split()[-1])
        self.assertEqual((made / "desk.db.again").read_text(), "sound up to request 3; and so on\n")
        self.assertFalse(copy.is_sound(made))

    def test_two_in_one_second(self):
        self.desk()
        with mock.patch.object(time, "strftime", side_effect=["2026-11-28T100000Z"] * 2 + ["2026-11-28T100000Z", "2026-11-28T100001Z", "2026-11-28T100001Z"]):
            made = []
            for _ in range(2):
                (self.copies / ".new.x").mkdir(parents=True)
                made.append(copy.kept(self.copies / ".new.x", self.copies, "{}").name)
        self.assertEqual(made, ["2026-11-28T100000Z", "2026-11-28T100001Z"])

    def test_a_signal_leaves_no_half_copy(self):
        self.desk()
        self.program("cp", f"kill -TERM {os.getpid()}; sleep 5")
        self.assertEqual(said(*self.words).status, 1)
        self.assertEqual(list(self.copies.iterdir()), [])

    def test_faults_of_the_disk(self):
        self.desk()
        self.program("cp", "exit 1")
        self.refused(self.words, 1, "the copy wasn't made whole; no copy is kept")
        self.copies.rmdir()
        self.copies.write_text("")
        self.refused(self.words, 1, f"{self.copies}: File exists")


class WithAnArchive(Copies):
    def setUp(self):
        super().setUp()
        self.desk(ground.PLAN + ground.arrives(1) + ground.tick(1, 300000))
        self.archive = self.carried(ground.arrives(2, "0305678", 300100), 5)
        self.note = chain.Note(self.archive.name, 5, chain.digest(self.archive), "1 1.5")
        chain.put_note(self.file, self.note)

    def test_it_is_copied_once(self):
        for _ in range(2):
            done = said(*self.words)
            self.assertEqual((done.status, moments_out(done.out), done.faults), (0, f"sound; executed 6\nsound: {self.copies}/X\n", ""))
        self.assertEqual(sorted(one.name for one in (self.copies / "archives").iterdir()), [self.archive.name, f"{self.archive.name}.sha256"])
        self.assertEqual((self.copies / "archives" / self.archive.name).read_bytes(), self.archive.read_bytes())
        (self.copies / "archives" / self.archive.name).write_bytes(b"another")
        with mock.patch.object(audit, "audited", lambda *_: audit.Finding(audit.SOUND, "sound", 6)), mock.patch.object(copy, "clear_away") as cleared:
            done = said(*self.words)
        self.assertEqual((done.status, done.faults), (1, f"acdctl copy: {self.copies}/archives/{self.archive.name} isn't what was copied: its digest is another one\n"))
        cleared.assert_not_called()

    def test_one_that_is_not_there(self):
        self.archive.unlink()
        made = self.bad(f"the copy can't be audited with its archive: the archive {self.archive.name} isn't in {self.copies}/archives")
        self.assertTrue(made.name.endswith(".unaudited"))

    def test_of_the_file_that_it_goes_on_from(self):
        """The number of before counts for the file that was carried over."""
        self.copies.mkdir()
        (self.copies / "executed").write_text(f"executed 7\ndevice {os.stat(self.file).st_dev}\ninode 1 1.5\n")
        done = said(*self.words)
        self.assertEqual((done.status, done.faults.startswith("acdctl copy: the copy has 6 executed requests, and the last one of the same file had 7: requests are missing")), (1, True), done)


class Refusals(Copies):
    def test_command_lines(self):
        for words in (("--keep", "0"), ("--keep", "1000"), ("--keep", "x"), ("--halt", "-1"), ("--halt", "1000"), ("--none",), ("x",), ("--undo", "--continue"),
                      ("--restore", "x", "--undo"), ("--file",)):
            with self.subTest(words):
                done = said("copy", *words)
                self.assertEqual((done.status, done.out, done.faults.startswith("acdctl copy: ")), (2, "", True), done)

    def test_files(self):
        self.refused(self.words, 1, f"there is no file {self.file}")
        self.desk()
        if os.geteuid() == 0:
            os.chown(self.file, 1, 1)
            self.refused(self.words, 1, f"only the user daemon makes copies of {self.file}: runuser -u daemon -- acdctl copy")
            os.chown(self.file, 0, 0)
        self.file.rename(self.home / "other")
        os.symlink("/dev/null/the restore of M isn't ended: so", self.file)
        self.refused(self.words, 1, "the restore of M isn't ended: so")
        self.assertFalse(self.copies.exists())

    def test_help(self):
        done = said("copy", "--help")
        self.assertEqual((done.status, done.faults), (0, ""))
        for word in ("--file", "--folder", "--keep", "--halt", "--continue"):
            self.assertIn(word, done.out)
        self.assertNotIn("--restore", done.out)
        for word in ("--restore", "--undo"):
            self.assertIn(word, said("--help", by="acd-copy").out)


class Settings(Copies):
    def read(self, *words):
        options = copy.read([*map(str, words)])
        return str(options.file), str(options.folder), options.keep, options.halt

    def test_without_any(self):
        self.assertEqual(self.read(), ("/var/lib/acd/desk.db", "/var/lib/acd/copies", 7, 20))
        self.assertEqual(self.read("--file", self.file), (str(self.file), f"{self.home}/copies", 7, 20))

    def test_of_the_units(self):
        """As systemd takes them: with quotes around a value, and as another system's editor ends its lines."""
        settings.FILE.write_bytes(f"# ACD_COPIES=3\nACD_FILE=\"{self.file}\"\r\nACD_COPY_FOLDER='{self.folder}/others'\nACD_COPIES=2\nACD_HALT=0\nnone\n".encode())
        self.assertEqual(self.read(), (str(self.file), f"{self.folder}/others", 2, 0))
        self.assertEqual(self.read("--keep", "9", "--halt", "0", "--folder", "/x"), (str(self.file), "/x", 9, 0))
        # another file has its own folder
        self.assertEqual(self.read("--file", self.folder / "other"), (f"{self.folder}/other", f"{self.folder}/copies", 7, 20))

    def test_that_are_none(self):
        for text, what in (("ACD_COPIES=0", "days: that isn't a whole number from 1 to 999"), ("ACD_HALT=x", "seconds: that isn't a whole number from 0 to 999")):
            settings.FILE.write_text(f"{text}\n")
            self.refused(("copy",), 2, f"{settings.FILE}: .*{what}")


class Meanwhile(Copies):
    """A file that is written while it is copied."""

    def setUp(self):
        super().setUp()
        self.desk()
        self.new = self.folder / "new"
        self.new.mkdir()
        self.parts = {"desk.db": self.file, "desk.db-wal": pair.log_of(self.file)}
        self.enterContext(mock.patch.object(copy, "PAUSE", 0.001))

    def write(self, *_, **__):
        self.file.write_bytes(self.file.read_bytes() + b"x")

    def test_written_after_it_was_copied(self):
        take = copy.take
        with mock.patch.object(copy, "take", lambda part, *more: (take(part, *more), self.write())), self.assertRaisesRegex(halt.Missed, copy.CHANGED):
            copy.copied(self.parts, None, self.new, None, 1)
        with self.assertRaisesRegex(halt.Missed, copy.CHANGED), copy.unchanged(self.parts):
            self.write()
        with copy.unchanged(self.parts):
            pass

    def test_gone_before_it_was_copied(self):
        self.file.unlink()
        with self.assertRaisesRegex(halt.Missed, copy.CHANGED):
            copy.copied(self.parts, None, self.new, None, 2)

    def test_written_a_moment_ago(self):
        """A later write in the same moment would show no other time, so it waits."""
        now = 1_800_000_000.5
        os.utime(self.file, (now, now))
        with mock.patch.multiple(time, time=lambda: now + 0.05, sleep=self.write), self.assertRaisesRegex(halt.Missed, copy.CHANGED):
            copy.settled(self.file)
        with mock.patch.multiple(time, time=lambda: now + 0.05, sleep=mock.DEFAULT) as clock:
            slept = clock["sleep"]
            os.utime(self.file, (now, now))
            copy.settled(self.file)
            slept.assert_called_once_with(0.1)
            slept.reset_mock()
            # a file system that counts whole seconds
            os.utime(self.file, (now - 1.5, now - 1.5))
            copy.settled(self.file)
            slept.assert_called_once_with(2.1)
            os.utime(self.file, (now - 0.1, now - 0.1))
            copy.settled(self.file)
            self.assertIsNone(copy.settled(self.folder / "none"))
            slept.assert_called_once()

    def tried(self, desk, outcomes, seconds=20, last=None, patience=60):
        """What comes of tries with these outcomes, and of the last one with this; for how many seconds each try may halt the desk for all of it; and what is told."""
        halts, outcomes = [], iter(outcomes)

        def tried(file, desk, new, seconds):
            halts.append(seconds)
            (new / "desk.db").write_bytes(b"half")
            outcome = last if seconds else next(outcomes)
            if isinstance(outcome, Exception):
                raise outcome
            return outcome

        out = mock.Mock()
        with mock.patch.multiple(copy, tried=tried, say=out, PATIENCE=patience, desks_over=lambda _: [desk] if desk else []):
            try:
                return copy.taken(self.file, self.new, seconds), halts, [call.args[0] for call in out.call_args_list]
            except copy.Fault as fault:
                return str(fault), halts, []

    def test_tries(self):
        desk = types.SimpleNamespace(process=1, moved=None)
        self.assertEqual(self.tried(desk, [halt.Missed("why"), 7]), (desk, [None, None], ["the desk was halted for 7 ms"]))
        self.assertEqual(self.tried(None, [halt.Missed("why")]), ("why; no copy is kept", [None], []))
        self.assertEqual(self.tried(None, [3]), (None, [None], []))

    def test_the_last_try_halts_it_for_all(self):
        desk = types.SimpleNamespace(process=1, moved=None)
        for last, told in ((5, ["the desk was halted for 5 ms, for all of the copy: why, N times"]), (halt.Missed("late"), [])):
            found, halts, lines = self.tried(desk, itertools.repeat(halt.Missed("why")), last=last, patience=0.2)
            self.assertEqual((halts[-1], set(halts[:-1])), (20, {None}))
            self.assertEqual([re.sub(r"\d+ times", "N times", line) for line in lines], told)
        self.assertRegex(found, r"\Alate, \d+ times, at last with the desk halted for up to 20 s \(ACD_HALT\); no copy is kept\Z")

    def test_where_it_may_not_be_halted_for_all(self):
        found, halts, _ = self.tried(types.SimpleNamespace(process=1, moved=None), itertools.repeat(halt.Missed("why")), 0, patience=0.2)
        self.assertRegex(found, r"\Awhy, \d+ times, and ACD_HALT=0 says that the desk isn't halted for all of it; no copy is kept\Z")
        self.assertEqual(set(halts), {None})

    def test_a_half_copy_is_made_what_the_file_is(self):
        """Only what differs is written; of a shorter file nothing is left."""
        made = self.new / "desk.db"
        with mock.patch.object(copy, "BLOCK", 4):
            for old, now in ((b"aaaabbbbcccc", b"aaaaxbbbcc"), (b"aaaa", b"aaaabbbbcc"), (b"abcdef", b""), (b"", b"abcdefg")):
                self.file.write_bytes(now)
                made.write_bytes(old)
                copy.take(self.file, made, time.monotonic() + 60)
                self.assertEqual(made.read_bytes(), now)
            with self.assertRaisesRegex(halt.Missed, copy.LONGER):
                copy.take(self.file, made, time.monotonic() - 1)

    def test_a_copy_that_takes_too_long(self):
        self.program("cp", "exec sleep 10")
        with self.assertRaisesRegex(halt.Missed, copy.LONGER):
            copy.take(self.file, self.new / "desk.db", time.monotonic() + 0.1)
        copy.take(self.folder / "none", self.new / "none")
        self.assertEqual(list(self.new.iterdir()), [])

    def test_a_desk_that_has_nothing_open(self):
        with mock.patch.object(held, "opened", lambda _: []), self.assertRaisesRegex(copy.Fault, "the desk, process 7, has no file open that could be copied"):
            copy.sources(self.file, halt.Desk(7, "moved"))


class Halting(Copies):
    def setUp(self):
        super().setUp()
        self.process = subprocess.Popen(["sleep", "60"])
        self.addCleanup(self.process.wait)
        self.addCleanup(self.process.kill)
        self.one = halt.Desk(self.process.pid, "")

    def test_for_as_long_as_it_lasts(self):
        with halt.halted(self.one, 30) as end:
            self.assertTrue(self.one.is_halted())
            self.assertGreater(end, time.monotonic())
        ground.until(lambda: not self.one.is_halted())

    def test_a_fault_lets_it_go_on(self):
        with self.assertRaises(ZeroDivisionError), halt.halted(self.one, 30):
            raise ZeroDivisionError
        ground.until(lambda: not self.one.is_halted())

    def test_after_some_seconds_in_any_case(self):
        with self.assertRaisesRegex(halt.Missed, "the desk ended or continued meanwhile"), halt.halted(self.one, 2):
            ground.until(lambda: not self.one.is_halted())

    def test_one_that_ended(self):
        self.process.kill()
        self.process.wait()
        with self.assertRaisesRegex(halt.Missed, "the desk ended meanwhile"), halt.halted(self.one, 1):
            pass
        self.assertFalse(self.one.is_halted())
        self.one.go_on()

    def test_one_that_does_not_halt(self):
        with mock.patch.object(halt.Desk, "is_halted", lambda _: False), self.assertRaisesRegex(halt.Missed, f"the desk, process {self.process.pid}, can't be halted"), \
                halt.halted(self.one, 0.1):
            pass

    def test_where_nothing_would_let_it_go_on(self):
        with mock.patch.object(halt, "watch", lambda *_: os._exit(1)), self.assertRaisesRegex(halt.Missed, "nothing would let the desk continue, so it wasn't halted"), \
                halt.halted(self.one, 1):
            pass


class ClearedAway(Copies):
    """Which good copies stay."""

    def setUp(self):
        super().setUp()
        self.copies.mkdir()
        self.enterContext(mock.patch.object(copy, "today", lambda: "2026-11-28"))

    def lay(self, *names):
        for name in names:
            (self.copies / name).mkdir()
            (self.copies / name / "desk.db").write_bytes(b"x" * 10)
        return self.copies / names[-1]

    def left(self, made, days, has_room=True):
        with mock.patch.object(copy, "has_room", lambda _: has_room), contextlib.redirect_stdout(None):
            copy.clear_away(self.copies, days, made)
        return sorted(one.name for one in self.copies.iterdir())

    def test_the_last_of_each_day(self):
        made = self.lay("2026-11-20T100000Z", "2026-11-26T100000Z", "2026-11-26T110000Z", "2026-11-27T100000Z", "2026-11-28T100000Z", "2026-11-28T110000Z")
        others = ["executed", "unsound", "2026-11-20T100000Z.early", "fewer-2026-11-20T100000Z"]
        self.lay(*others[1:])
        (self.copies / "executed").write_text("")
        self.assertEqual(self.left(made, 3), sorted(["2026-11-26T110000Z", "2026-11-27T100000Z", "2026-11-28T100000Z", "2026-11-28T110000Z", *others]))
        self.assertEqual(self.left(made, 1), sorted(["2026-11-28T100000Z", "2026-11-28T110000Z", *others]))

    def test_the_last_twenty_of_today(self):
        made = self.lay(*(f"2026-11-28T1000{second:02}Z" for second in range(25)))
        self.assertEqual(self.left(made, 7), [f"2026-11-28T1000{second:02}Z" for second in range(5, 25)])

    def test_where_the_disk_is_nearly_full(self):
        """Those of today go first to last, and other days' stay."""
        made = self.lay("2026-11-27T100000Z", "2026-11-28T100000Z", "2026-11-28T110000Z")
        self.assertEqual(self.left(made, 7, has_room=False), ["2026-11-27T100000Z", "2026-11-28T110000Z"])

    def test_beside_one_that_is_not_wholly_sound(self):
        made = self.lay("2026-11-26T100000Z", "2026-11-26T110000Z", "2026-11-27T100000Z", "2026-11-28T110000Z")
        for name in ("2026-11-26T110000Z", "2026-11-28T110000Z"):
            (self.copies / name / "desk.db.again").write_text("")
        self.assertEqual(self.left(made, 1), ["2026-11-26T100000Z", "2026-11-27T100000Z", "2026-11-28T110000Z"])

    def test_room(self):
        made = self.lay("2026-11-28T110000Z")
        for free, has in ((20, True), (19, False)):
            with mock.patch.object(shutil, "disk_usage", lambda _: types.SimpleNamespace(free=free)):
                self.assertEqual(copy.has_room(made), has)

    def test_half_copies(self):
        self.lay(".new.old", ".new.young")
        os.utime(self.copies / ".new.old", (time.time() - 86401,) * 2)
        copy.clear_half_copies(self.copies)
        self.assertEqual([one.name for one in self.copies.iterdir()], [".new.young"])


if __name__ == "__main__":
    unittest.main()
