"""Of forgetting a caller: what is left of the number in rows and bytes, by stock SQLite; what is put away and confirmed; a forgetting that is broken off; refusals."""
import fcntl
import json
import os
import re
import shutil
import sqlite3
import types
import unittest
from pathlib import Path
from unittest import mock

import service_ground as ground
from acd_service import chain, forget, pair, reasons
from service_ground import moments_out, rows, said

CALLER, STAYS, REQUESTER = "03055501234", "03044400001", "0777777"
NUMBER = int(f"1{CALLER}")
# the caller comes, is asked for in other services, and goes; another one comes
VISIT = f"""\
10 {{"requester":"pbx","invoke":1,"service":"arriveCall","caller":"{CALLER}","called":"100"}}
11 {{"requester":"pbx","invoke":2,"service":"deflectCall","call":1,"device":"100","to":"{CALLER}"}}
12 {{"requester":"pbx","invoke":3,"service":"setAgentState","agent":"7","requested":"loggedOn","device":"201","groups":["100","{CALLER}"]}}
13 {{"requester":"{REQUESTER}","invoke":4,"service":"clearConnection","call":1,"device":"{CALLER}"}}
14 {{"requester":"pbx","invoke":5,"service":"arriveCall","caller":"{STAYS}","called":"100"}}
15 {{"requester":"pbx","invoke":6,"service":"clearConnection","call":2,"device":"{STAYS}"}}
"""


class Archives(ground.Case):
    """A file that goes on from one archive, of which a folder of copies has a copy."""

    def setUp(self):
        super().setUp()
        self.desk(ground.PLAN + VISIT + ground.tick(1, 300000))
        self.archive = self.carried(ground.arrives(7, STAYS, 300100), 10)
        self.copies = self.home / "copies"
        self.copies.mkdir()
        chain.put_note(self.file, chain.Note(self.archive.name, 10, chain.digest(self.archive), "1 1.5"))
        chain.keep(self.archive, chain.read_note(self.file), chain.copies_of(self.copies))
        self.copied = chain.copies_of(self.copies) / self.archive.name
        self.words = ("forget", "--file", self.file)

    def forget(self, caller=CALLER, *more):
        return said(*self.words, "--archive", self.archive, "--caller", caller, *more)

    def content(self, file):
        """All rows of a file, as text."""
        return "\n".join(str(row) for table in ("meta", "acd_groups", "stations", "agents", "calls", "connections", "events", "kept") for row in rows(file, f"SELECT * FROM {table}"))


class Forgotten(Archives):
    def test_what_is_left(self):
        before, desk = self.archive.read_bytes(), self.file.read_bytes()
        was = self.content(self.archive)
        self.assertEqual((CALLER.encode() in before, rows(self.archive, "SELECT count(*) FROM events WHERE device = ?", NUMBER) != [(0,)]), (True, True))
        done = self.forget()
        self.assertEqual((done.status, done.faults), (0, ""))
        self.assertEqual(moments_out(done.out), f"the audit says 'sound, sound' of the new archives with {self.file}, as before\n"
                                                f"Removed {CALLER} from all archives. The old ones are in {self.home}/put-away-X; delete them with acdctl forget --confirm\n")
        alias, = {request["caller"] for text, in rows(self.archive, "SELECT request FROM kept WHERE stamp = 4") for request in [json.loads(text)]}
        self.assertRegex(alias, r"\A\d{15}\Z")
        for file in (self.archive, self.copied):
            data = file.read_bytes()
            self.assertEqual((CALLER.encode() in data, NUMBER.to_bytes(6, "big") in data), (False, False))
            # all other content is as it was
            self.assertEqual(self.content(file).replace(f"1{alias}", str(NUMBER)).replace(alias, CALLER), was)
        with sqlite3.connect(chain.immutable(self.archive), uri=True) as book:
            self.assertEqual((book.execute("PRAGMA freelist_count").fetchone(), book.execute("PRAGMA integrity_check").fetchone()), ((0,), ("ok",)))
        self.assertEqual(self.file.read_bytes(), desk)
        self.assertEqual([chain.read_note(self.file).digest, chain.read_digest(self.copied)], [chain.digest(self.archive)] * 2)
        away, = self.home.glob("put-away-*")
        self.assertEqual((away / self.archive.name).read_bytes(), before)
        # once more there is nothing to do; and then the old ones go
        self.assertEqual(self.forget(), (0, f"{CALLER} is in no archive\n", ""))
        self.assertEqual(said(*self.words, "--confirm"), (0, f"gone: {away}\n", ""))
        self.assertEqual(list(self.home.glob("*put-away-*")), [])
        self.assertEqual(said(*self.words, "--confirm"), (0, "", ""))

    def test_reasons_and_codes(self):
        """They have a call's number and no caller's, so they stay as they are, and nothing is told of them."""
        reasons.append(self.copies / "reasons", reasons.Code(300000, "7", "ana", 1, 10, "1970-01-01", "sale"))
        before = ground.snapshot(self.copies / "reasons")
        done = self.forget()
        self.assertEqual((done.status, "reasons" in done.out, ground.snapshot(self.copies / "reasons")), (0, False, before))
        self.assertEqual([name for name, data in ground.snapshot(self.home).items() if CALLER.encode() in data and not name.startswith("put-away-")], [])

    def test_beside_a_desk(self):
        self.serves()
        self.assertEqual(self.forget().status, 0)
        self.assertNotIn(CALLER.encode(), self.archive.read_bytes())

    def test_who_never_called(self):
        before = ground.snapshot(self.home)
        self.assertEqual(self.forget("99999999"), (0, "99999999 is in no archive\n", ""))
        self.assertEqual(ground.snapshot(self.home), before)

    def test_who_still_has_it(self):
        """Copies, folders that were put away, and archives from which the file doesn't go on."""
        (self.copies / "2026-11-28T100000Z").mkdir()
        shutil.copy(self.archive, self.copies / "2026-11-28T100000Z/desk.db")
        (self.copies / "2026-11-29T100000Z").mkdir()
        shutil.copy(self.file, self.copies / "2026-11-29T100000Z/desk.db")
        (self.home / "damaged-x").mkdir()
        (self.home / "damaged-x/desk.db").write_bytes(b"no desk's file")
        (self.home / "damaged-x/desk.db-wal").write_bytes(f'half a request "{CALLER}"'.encode())
        (self.home / "put-away-y").mkdir()
        (self.home / "put-away-y/desk.db").write_bytes(b"")
        shutil.copy(self.archive, self.home / "desk.db-1969-12-31-3")
        done = self.forget()
        self.assertEqual([line.rpartition(" is still in ")[2] for line in done.out.splitlines()[2:]],
                         [str(one) for one in (self.home / "desk.db-1969-12-31-3", self.copies / "2026-11-28T100000Z", self.home / "damaged-x")])
        self.assertEqual({line.partition(" ")[0] for line in done.out.splitlines()[2:]}, {CALLER})

    def test_a_program_that_looks_behind_no_archive(self):
        """All files are audited as one then."""
        self.program("acd", f'case "$*" in *--archive*) exit 2;; esac; exec {ground.ACD} "$@"')
        done = self.forget()
        self.assertEqual((done.status, done.faults), (0, ""), done)
        self.assertIn("the audit says 'sound' of the new archives", done.out)
        self.assertNotIn(CALLER.encode(), self.archive.read_bytes())


class Killed(BaseException):
    """It ends as by a power cut."""


class BrokenOff(Archives):
    """Ended at each step: what is run next ends it."""

    def killed_at(self, step):
        """What came of a forgetting that is killed before this step, of those after the folder has its name; nothing where it was."""
        left = [step]

        def counted(what):
            def done(*words):
                left[0] -= bool(list(self.home.glob("put-away-*")))
                if left[0] < 0:
                    raise Killed
                return what(*words)
            return done

        with mock.patch.multiple(forget, sync=counted(lambda *_: None), audits=lambda *_: "sound"), mock.patch.multiple(os, replace=counted(os.replace), link=counted(os.link)):
            try:
                return self.forget()
            except Killed:
                return None

    def test_each_step(self):
        first = ground.snapshot(self.home)
        for step in range(60):
            for one in self.home.iterdir():
                shutil.rmtree(one) if one.is_dir() else one.unlink()
            for name, content in first.items():
                (self.home / name).parent.mkdir(parents=True, exist_ok=True)
                (self.home / name).write_bytes(content)
            if self.killed_at(step):
                break
            away, = self.home.glob("put-away-*")
            if (away / "new").exists():
                self.refused((*self.words, "--confirm"), 1, f"{away} isn't ended: the same acdctl forget --caller once more ends it")
            done = self.forget()
            self.assertEqual((done.status, done.faults), (0, ""), step)
            self.assertEqual(done.out.splitlines()[-1], f"{CALLER} is in no archive")
            self.assertFalse(CALLER.encode() in self.archive.read_bytes() or CALLER.encode() in self.copied.read_bytes(), step)
            self.assertEqual([chain.read_note(self.file).digest, chain.read_digest(self.copied)], [chain.digest(self.archive)] * 2, step)
            self.assertEqual((away / self.archive.name).read_bytes(), first[self.archive.name])
        self.assertTrue(8 <= step < 59, step)

    def test_a_fault_before_anything_is_changed(self):
        before = ground.snapshot(self.home)
        for what, told in (({"copy_of": mock.Mock(side_effect=OSError(28, "No space left on device"))}, "No space left on device"),
                           ({"audits": mock.Mock(side_effect=["sound", "differs at request 4"])},
                            "the audit says 'differs at request 4' of what was made, and 'sound' of what is there; nothing was changed"),
                           ({"replace": lambda *_: None}, "has other rows of .* than .*; nothing was changed")):
            with mock.patch.multiple(forget, **{"audits": lambda *_: "sound", **what}):
                self.refused((*self.words, "--archive", self.archive, "--caller", CALLER), 1, told)
            self.assertEqual(ground.snapshot(self.home), before)

    def test_what_was_made_otherwise(self):
        """Each part of what is compared."""
        new, replace = self.folder / "new", forget.replace
        alias = "123456789012345"

        def made(*statements):
            shutil.copy(self.archive, new)
            replace(new, CALLER, alias)
            ground.changed(new, *statements)
            forget.compare(new, self.archive, CALLER, alias)

        made()
        for statement, told in (("CREATE TABLE more (one)", "has other tables than"), ("UPDATE kept SET moment = moment + 1 WHERE stamp = 5", "has other rows of kept than"),
                                ("DELETE FROM events WHERE number = 1", "has other rows of events than"), ("UPDATE agents SET name = 'Bea'", "has other rows of agents than"),
                                (f"UPDATE events SET device = {NUMBER} WHERE device = 1{alias}", "has other rows of events than")):
            with self.subTest(statement), self.assertRaisesRegex(forget.Fault, f"{told}.*; nothing was changed"):
                made(statement)
        shutil.copy(self.archive, new)
        replace(new, CALLER, alias)
        with open(new, "ab") as out:
            out.write(f'"{CALLER}"'.encode() + bytes(1000))
        with self.assertRaisesRegex(forget.Fault, f"the number is still in the bytes of {new}; nothing was changed"):
            forget.compare(new, self.archive, CALLER, alias)

    def test_an_alias_is_in_no_file(self):
        """One that somebody has is drawn again."""
        drawn = iter(CALLER + "0000" + "100000000000000" + "123456789012345")
        with mock.patch.object(forget, "MOST", 15), mock.patch.object(forget.secrets, "choice", lambda _: next(drawn)):
            with mock.patch.object(forget, "tables_with", lambda _, alias: ["kept"] if alias == "100000000000000" else []):
                self.assertEqual(forget.alias_for([(self.archive, False), (self.file, False)], self.folder), CALLER + "0000")
                self.assertEqual(forget.alias_for([(self.archive, False), (self.file, False)], self.folder), "123456789012345")


class Refused(Archives):
    def unchanged(self, words, status, pattern):
        before = ground.snapshot(self.home)
        self.refused((*self.words, *words), status, pattern)
        self.assertEqual(ground.snapshot(self.home), before)

    def test_command_lines(self):
        for words in ((), ("--caller", "12345"), ("--caller", "1" * 16), ("--caller", "x" * 8), ("--confirm", "--caller", CALLER), ("--caller", CALLER, "x"), ("--none",)):
            self.unchanged(words, 2, "")

    def test_who_is_no_caller(self):
        named = ("--archive", self.archive, "--caller")
        # the caller of the desk's file waits: no event says who it is
        has = [table for table, column in (("calls", "caller"), ("connections", "device"), ("events", "device")) if rows(self.file, f"SELECT 1 FROM {table} WHERE {column} = 1{STAYS}")]
        self.unchanged((*named, STAYS), 1, rf"{STAYS} is still in {self.file} \({', '.join([*has, 'kept'])}\)\. .*nothing was changed")
        self.unchanged((*named, REQUESTER), 1, f"{REQUESTER} is in a requester of kept in {self.archive}, and would stay there; nothing was changed")
        ground.changed(self.file, "INSERT INTO stations VALUES (1888888)", "UPDATE agents SET name = '0999999'")
        self.unchanged((*named, "888888"), 1, f"888888 isn't an outside caller's number: stations of {self.file} has it; nothing was changed")
        self.unchanged((*named, "0999999"), 1, f"0999999 is in a name of agents in {self.file}, and would stay there; nothing was changed")
        ground.changed(self.file, """UPDATE kept SET request = replace(request, '"service"', '"note":"0666666","service"')""")
        self.unchanged((*named, "0666666"), 1, f"0666666 is in request 11 of {self.file} as something other than a device, and would stay there; nothing was changed")

    def test_archives(self):
        self.unchanged(("--caller", CALLER), 1, f"{self.file} continues {self.archive.name}: name these, each by --archive; nothing was changed")
        self.unchanged(("--caller", CALLER, "--archive", self.archive, "--archive", self.file), 1, f"continues {self.archive.name}: name these")
        chain.note_of(self.file).unlink()
        self.unchanged(("--caller", CALLER, "--archive", self.archive), 1, "continues no archive: name these")
        chain.put_note(self.file, chain.Note(self.archive.name, 10, "0" * 64, "1 1.5"))
        self.unchanged(("--caller", CALLER, "--archive", self.archive), 1, f"{self.archive} isn't the archive that was noted: its digest is another one, or it has a log; nothing was changed")
        chain.put_note(self.file, chain.Note(self.archive.name, 10, chain.digest(self.archive), "1 1.5"))
        pair.log_of(self.archive).write_bytes(b"x" * 42)
        self.unchanged(("--caller", CALLER, "--archive", self.archive), 1, "or it has a log; nothing was changed")
        pair.log_of(self.archive).unlink()

    def test_an_archive_on_another_disk(self):
        stat = Path.stat

        def elsewhere(path, **more):
            found = stat(path, **more)
            return types.SimpleNamespace(st_mode=found.st_mode, st_size=found.st_size, st_dev=found.st_dev + (path == self.archive))

        with mock.patch.object(Path, "stat", elsewhere), self.assertRaisesRegex(forget.Fault, f"{self.archive} is on another disk than {self.file}: put it beside that; nothing was changed"):
            forget.chained(self.file, self.copies, [self.archive])

    def test_beside_another_one(self):
        folder = os.open(self.home, os.O_RDONLY)
        self.addCleanup(os.close, folder)
        fcntl.flock(folder, fcntl.LOCK_EX)
        self.unchanged(("--confirm",), 1, f"{self.file} is pruned, or put back, just now; nothing was changed")

    def test_one_that_was_broken_off(self):
        self.file.rename(self.home / "other")
        os.symlink("/dev/null/the restore of M isn't ended: so", self.file)
        self.unchanged(("--confirm",), 1, "the restore of M isn't ended: so")

    def test_remains_are_cleared_away(self):
        for name in (".forget.x", ".put-away.y"):
            (self.home / name).mkdir()
        self.assertEqual(said(*self.words, "--confirm"), (0, "", ""))
        self.assertEqual([one.name for one in self.home.iterdir() if one.name.startswith(".")], [])

    def test_a_file_that_is_none(self):
        self.file.write_bytes(b"x" * 4096)
        done = self.forget()
        self.assertEqual((done.status, done.out, len(re.findall(r"(?m)^acdctl forget: ", done.faults))), (1, "", 1))


class Texts(unittest.TestCase):
    def test_members_of_a_device(self):
        """In each member that has a device's number, and in no other."""
        for member in ("device", "called", "caller", "to", "group"):
            text = f'{{"{member}":"{CALLER}","note":"x"}}'
            self.assertEqual(json.loads(forget.changed(text, CALLER, "1")), {member: "1", "note": "x"})
        self.assertEqual(forget.changed(f'{{"groups":["100","{CALLER}"],"agent":"{CALLER}","call":7}}', CALLER, "1"), f'{{"agent":"{CALLER}","call":7,"groups":["100","1"]}}')

    def test_a_file_without_bytes(self):
        with ground.tempfile.NamedTemporaryFile() as file:
            self.assertFalse(forget.is_in_bytes(file.name, CALLER))


if __name__ == "__main__":
    unittest.main()
