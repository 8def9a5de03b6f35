"""Of records: a story of eight calls whose tables were reckoned by hand, printed and written as files of days; archives, names, spreadsheets, and what is refused."""
import contextlib
import csv
import datetime
import os
import shutil
import sqlite3
import sys
import time
import unittest
from pathlib import Path
from unittest import mock

import service_ground as ground
from acd_service import archives, book, calls, chain, office, pair, record_days, sheets
from service_ground import said

sys.path.append(str(ground.TOP / "tests/trials"))
from records import story  # noqa: E402

# the story's first request is of 23:58:20, and its last one of 00:03 of the next day
SIXTY_DAYS = 1700000000
FIRST, SECOND = "1970-01-01", "1970-01-02"


def only(table, day, head=True):
    """The lines of a table, with its head, that are of a day."""
    lines = table.splitlines(keepends=True)
    return "".join([lines[0] * head] + [line for line in lines[1:] if day in line])


class Printed(ground.Case):
    def setUp(self):
        super().setUp()
        self.desk(story.LINES)

    def told(self, *words):
        done = said("calls", "--file", self.file, *words)
        self.assertEqual((done.status, done.faults), (0, ""), done)
        return done.out

    def test_each_table(self):
        for words, table in (((), story.CALLS), (("--legs",), story.LEGS), (("--agents",), story.AGENTS), (("--groups",), story.GROUPS)):
            with self.subTest(words):
                self.assertEqual(self.told(*words), table)

    def test_days(self):
        by_entry = [line for line in story.CALLS.splitlines(keepends=True)[1:] if line.split(",")[3].startswith(SECOND)]
        self.assertEqual(self.told("--since", SECOND), story.CALLS.splitlines(keepends=True)[0] + "".join(by_entry))
        self.assertEqual(self.told("--until", FIRST, "--groups"), only(story.GROUPS, FIRST))
        self.assertEqual(self.told("--since", SECOND, "--until", SECOND, "--agents"), only(story.AGENTS, "1970-01-02,"))
        self.assertEqual(self.told("--since", "1970-01-03"), story.CALLS.splitlines(keepends=True)[0])

    def test_names_and_spreadsheets(self):
        settings = self.folder / "board.json"
        settings.write_text('{"names":{"agents":{"8":"=Bén"},"groups":{"100":"Rechnung"}}}', encoding="utf-8")
        first = self.told("--names", "--until", FIRST, "--office", settings).splitlines()
        self.assertEqual(first[0], f"{story.CALLS.splitlines()[0]},group_names,agent_names,rung_names")
        self.assertEqual(first[1], f"{story.CALLS.splitlines()[1]},Rechnung,Ana,")
        table = self.told("--excel", "--until", FIRST)
        self.assertEqual(table[0], "\ufeff")
        self.assertEqual(table.splitlines()[1], story.CALLS.splitlines()[1].replace(",0301,", ",'0301,"))
        legs = self.told("--excel", "--names", "--legs", "--office", settings).splitlines()
        self.assertEqual(legs[0], f"\ufeff{story.LEGS.splitlines()[0]},agent_names,group_name")
        self.assertEqual(legs[6], f"{story.LEGS.splitlines()[6]},'=Bén,")
        agents = self.told("--agents", "--excel", "--office", settings).splitlines()
        self.assertTrue(agents[2].startswith('1970-01-01,8,"Ben, senior",'))

    def test_another_zone(self):
        with mock.patch.dict(os.environ, TZ="Asia/Tokyo"):
            self.assertEqual(self.told("--until", FIRST), story.CALLS.splitlines(keepends=True)[0])
            self.assertIn("1,0301,100,1970-01-02 08:58:40,", self.told())

    def test_a_file_with_a_log(self):
        """It stays as it is, and what the log has counts."""
        other = self.home / "other.db"
        self.file = other
        self.killed(story.LINES)
        before = ground.snapshot(self.home)
        self.assertTrue(pair.holds_something(pair.log_of(other)))
        self.assertEqual(self.told(), story.CALLS)
        self.assertEqual(ground.snapshot(self.home), before)

    def test_beside_a_desk(self):
        self.serves()
        self.assertEqual(self.told("--live"), story.CALLS)
        self.refused(("calls", "--file", self.file), 1, f"{self.file} is open elsewhere")

    def test_a_reader_that_ends_early(self):
        read, write = os.pipe()
        os.close(read)
        with mock.patch.object(calls, "do", side_effect=BrokenPipeError), open(write, "w") as out, contextlib.redirect_stdout(out):
            with self.assertRaises(SystemExit) as end:
                calls.main(["--file", str(self.file)])
            self.assertTrue(os.path.samestat(os.fstat(write), os.stat(os.devnull)))
        self.assertEqual(end.exception.code, 0)


class Copies(ground.Case):
    """The newest good copy of a folder."""

    def setUp(self):
        super().setUp()
        self.copies = self.folder / "copies"

    def lay(self, moment, text=story.LINES):
        folder = self.copies / moment
        folder.mkdir(parents=True)
        ground.lines(folder / "desk.db", text)
        return folder


class Newest(Copies):
    def test_the_newest(self):
        self.lay("1970-01-02T000500Z")
        self.lay("1970-01-02T000400Z", ground.PLAN)
        for name in ("unsound", "fewer-1970-01-02T000600Z", "1970-01-02T000600Z.early"):
            (self.copies / name).mkdir()
        for name in ("desk.db-shm", "desk.db-journal", "desk.db.archive.x"):
            (self.copies / "1970-01-02T000500Z" / name.replace(".archive.x", "-wal")).write_bytes(b"")
        self.assertEqual(said("calls", "--copies", self.copies), (0, story.CALLS, ""))

    def test_one_with_the_gates_own_files(self):
        gate = self.lay("1970-01-02T000500Z") / "gate"
        gate.mkdir()
        (gate / "users").write_text("ana:$2y$08$\n")
        self.assertEqual(said("calls", "--copies", self.copies), (0, story.CALLS, ""))

    def test_one_with_a_request_that_was_sent_again(self):
        (self.lay("1970-01-02T000500Z") / "desk.db.again").write_text("sound up to request 3; and so on\n")
        self.assertEqual(said("calls", "--copies", self.copies), (0, story.CALLS, "acdctl calls: sound up to request 3; and so on\n"))

    def test_none(self):
        self.refused(("calls", "--copies", self.copies), 1, f"there is no copy in {self.copies}")
        (self.copies / "1970-01-02T000500Z").mkdir(parents=True)
        self.refused(("calls", "--copies", self.copies), 1, f"there are 0 files in {self.copies}/1970-01-02T000500Z, and not one")
        for name in ("one", "two"):
            (self.copies / "1970-01-02T000500Z" / name).write_bytes(b"")
        self.refused(("calls", "--copies", self.copies), 1, "there are 2 files in ")


class Files(Copies):
    """Files of the days that are over."""

    def setUp(self):
        super().setUp()
        self.days = self.folder / "days"
        self.days.mkdir()
        self.lay("1970-01-03T000500Z")

    def run_it(self, status=0, faults="", *more):
        done = said("records", "--copies", self.copies, *more, self.days)
        self.assertEqual((done.status, done.faults), (status, faults), done)
        return done.out

    def read(self, kind, day):
        with open(self.days / kind / f"{day}.csv", encoding="utf-8-sig", newline="") as file:
            return list(csv.reader(file))

    def test_what_is_written(self):
        self.assertEqual(self.run_it(), "6 files written\n")
        # whoever is there, or waits, at the last request is so until the moment of the copy, at 0:05 of the third day
        waits = story.CALLS.replace("8,0307,100,1970-01-02 00:03:00,100,0,,,0,", "8,0307,100,1970-01-02 00:03:00,100,0,,,86520,")
        stays = story.AGENTS.replace("02,7,Ana,180,", "02,7,Ana,86400,").replace(",77,1970-01-02 00:00:00,1970-01-02 00:03:00,", ",86297,1970-01-02 00:00:00,1970-01-03 00:00:00,")
        for kind, table in (("records", waits), ("agents", stays), ("groups", story.GROUPS)):
            head, *wanted = list(csv.reader(table.splitlines()))
            self.assertEqual(self.read(kind, FIRST)[0][:len(head)], head)
            # a ' keeps the 0 of a caller
            found = [[field.removeprefix("'") for field in row[:len(head)]] for day in (FIRST, SECOND) for row in self.read(kind, day)[1:]]
            self.assertEqual(found[:len(wanted)], wanted)
            # in each later quarter of an hour one caller waits on
            self.assertEqual({tuple(row[2:6] + row[12:14]) for row in found[len(wanted):]}, {("0", "0", "0", "0", "1", "0")} if kind == "groups" else set())
            self.assertEqual((self.days / kind).stat().st_mode & 0o777, 0o750)
            self.assertEqual((self.days / kind / f"{FIRST}.csv").stat().st_mode & 0o777, 0o640)
        self.assertEqual(self.read("records", FIRST)[1][1], "'0301")
        self.assertTrue((self.days / "records" / f"{FIRST}.csv").read_bytes().startswith(b"\xef\xbb\xbf"))
        self.assertEqual(sorted(one.name for one in self.days.rglob(".*")), [])

    def test_once_more(self):
        """What is there stays to the byte; of the last week what differs is written anew, and what somebody removed comes back."""
        self.run_it()
        before = {path: (path.stat().st_ino, path.read_bytes()) for path in self.days.rglob("*.csv")}
        self.assertEqual(self.run_it(), "0 files written\n")
        self.assertEqual({path: (path.stat().st_ino, path.read_bytes()) for path in self.days.rglob("*.csv")}, before)
        (self.days / "records" / f"{FIRST}.csv").write_text("x")
        (self.days / "agents" / f"{FIRST}.csv").unlink()
        self.assertEqual(self.run_it(), "2 files written\n")
        self.assertEqual({path: path.read_bytes() for path in self.days.rglob("*.csv")}, {path: content for path, (_, content) in before.items()})

    def test_days_in_which_nothing_was(self):
        """They have a head alone, as far back as a year: one that was removed stays so, and a file of other formulas gives way to it."""
        (self.copies / "1970-01-03T000500Z").rename(self.copies / "1970-01-07T000500Z")
        self.run_it()
        heads = {kind: self.read(kind, FIRST)[0] for kind in record_days.KINDS}
        days = [f"1970-01-0{day}" for day in range(1, 7)]
        for kind in record_days.KINDS:
            self.assertEqual(sorted(file.stem for file in (self.days / kind).glob("*.csv")), days)
        # nobody called any more, and the agent is logged on to the end of each day that is counted
        self.assertEqual(self.read("records", days[3]), [heads["records"]])
        self.assertEqual(record_days.formulas_of(self.days / "records" / f"{days[3]}.csv"), record_days.FORMULAS)
        (self.days / "records" / f"{days[3]}.csv").write_text("number,caller\n1,0301\n")
        (self.days / "records" / f"{days[4]}.csv").unlink()
        self.assertEqual((self.run_it(), self.read("records", days[3])), ("2 files written\n", [heads["records"]]))
        with mock.patch.object(record_days, "AGAIN", 1):
            (self.days / "records" / f"{days[3]}.csv").unlink()
            self.run_it()
        self.assertFalse((self.days / "records" / f"{days[3]}.csv").exists())

    def test_how_far_back(self):
        """A desk's clock may once have been wrong by years."""
        (self.copies / "1970-01-03T000500Z").rename(self.copies / "1970-01-09T000500Z")
        with mock.patch.object(record_days, "BACK", 3):
            self.run_it()
        self.assertEqual(sorted(file.stem for file in (self.days / "records").glob("*.csv")), [FIRST, SECOND, "1970-01-06", "1970-01-07", "1970-01-08"])

    def test_after_a_week(self):
        """Older ones stay as they are, also removed: somebody may have had to remove callers' numbers."""
        self.run_it()
        (self.copies / "1970-01-03T000500Z").rename(self.copies / "1970-01-10T000500Z")
        (self.days / "records" / f"{FIRST}.csv").unlink()
        (self.days / "groups" / f"{FIRST}.csv").write_text("x,formulas\n,2\n")
        self.run_it()
        self.assertFalse((self.days / "records" / f"{FIRST}.csv").exists())
        self.assertEqual((self.days / "groups" / f"{FIRST}.csv").read_text(), "x,formulas\n,2\n")

    def old(self, kind, day):
        """A file as programs of before wrote it, sixty days ago."""
        place = self.days / kind / f"{day}.csv"
        lines = [line.rpartition(",")[0] for line in place.read_text().splitlines()]
        place.write_text("".join(f"{line}\n" for line in lines))
        os.utime(place, (SIXTY_DAYS, SIXTY_DAYS))
        return place

    def test_other_formulas(self):
        """A file says by which formulas it was counted. One of before is written anew where its events are there, however old it is, and keeps its age; else it is put apart."""
        self.run_it()
        self.assertEqual({(row[-1], rows[0][-1]) for kind in record_days.KINDS for rows in [self.read(kind, FIRST)] for row in rows[1:]}, {("2", "formulas")})
        (self.copies / "1970-01-03T000500Z").rename(self.copies / "1970-03-03T000500Z")
        self.run_it()
        before = {kind: (self.days / kind / f"{FIRST}.csv").read_bytes() for kind in record_days.KINDS}
        for kind in record_days.KINDS:
            self.old(kind, FIRST)
        self.assertEqual(self.run_it(), "3 files written\n")
        self.assertEqual({kind: (self.days / kind / f"{FIRST}.csv").read_bytes() for kind in record_days.KINDS}, before)
        self.assertEqual({(self.days / kind / f"{FIRST}.csv").stat().st_mtime for kind in record_days.KINDS}, {SIXTY_DAYS})
        self.assertEqual(self.run_it(), "0 files written\n")

    def test_other_formulas_without_events(self):
        """They are apart from then on, as old as they were, until an archive is named that has them."""
        self.run_it()
        (self.copies / "1970-01-03T000500Z").rename(self.copies / "1970-03-03T000500Z")
        self.run_it()
        file = self.copies / "1970-03-03T000500Z/desk.db"
        archive = shutil.copy(file, self.folder / "archive.db")
        wanted = {kind: (self.days / kind / f"{FIRST}.csv").read_bytes() for kind in record_days.KINDS}
        last = ground.rows(file, "SELECT max(stamp) FROM kept WHERE moment < 86400")[0][0]
        event = ground.rows(file, "SELECT max(number) FROM events WHERE moment < 86400")[0][0]
        ground.changed(file, f"DELETE FROM kept WHERE stamp <= {last}", f"DELETE FROM events WHERE number <= {event}")
        old = {kind: self.old(kind, FIRST).read_bytes() for kind in record_days.KINDS}
        apart = self.days / record_days.APART
        self.assertEqual(self.run_it(0, f"acdctl records: 3 files by other formulas are in {apart} now: their events aren't there\n")[1:], " files written\n")
        self.assertEqual({kind: (apart / kind / f"{FIRST}.csv").read_bytes() for kind in record_days.KINDS}, old)
        self.assertEqual({place.stat().st_mtime for place in apart.rglob("*.csv")}, {SIXTY_DAYS})
        self.assertEqual([place for kind in record_days.KINDS for place in (self.days / kind).glob(f"{FIRST}*")], [])
        self.assertEqual(self.run_it(), "0 files written\n")
        self.run_it(0, "", "--archive", archive)
        self.assertEqual({kind: (self.days / kind / f"{FIRST}.csv").read_bytes() for kind in record_days.KINDS}, wanted)
        self.assertEqual(list(apart.rglob("*.csv")), [])

    def test_a_day_that_is_not_over(self):
        (self.copies / "1970-01-03T000500Z").rename(self.copies / "1970-01-02T000500Z")
        self.assertEqual(self.run_it(), "3 files written\n")
        self.assertEqual({path.stem for path in self.days.rglob("*.csv")}, {FIRST})

    def test_a_fault_midway(self):
        """Nothing of a file is left in its place, and no half one."""
        for kind in record_days.KINDS:
            (self.days / kind).mkdir()
        (self.days / "records" / ".1970-01-01.csv.new").write_text("of one that was killed")
        row, rows = calls.call_row, []

        def second_fails(call):
            rows.append(call)
            if len(rows) == 2:
                raise OSError(28, "No space left on device")
            return row(call)

        with mock.patch.object(calls, "call_row", second_fails):
            done = said("records", "--copies", self.copies, self.days)
        self.assertEqual((done.status, done.faults.startswith("acdctl records: ")), (1, True), done)
        self.assertEqual([one for one in self.days.rglob("*") if one.is_file()], [])

    def test_days_that_are_missing(self):
        """A file that goes on from an archive hasn't the days before its first request's whole."""
        file = self.copies / "1970-01-03T000500Z/desk.db"
        last = ground.rows(file, "SELECT max(stamp) FROM kept WHERE moment < 86400")[0][0]
        event = ground.rows(file, "SELECT max(number) FROM events WHERE moment < 86400")[0][0]
        ground.changed(file, f"DELETE FROM kept WHERE stamp <= {last}", f"DELETE FROM events WHERE number <= {event}")
        out = self.run_it(3, "acdctl records: days before 1970-01-03 aren't there as a whole: name the archives, by --archive, where they are wanted\n")
        self.assertEqual(out, "0 files written\n")

    def test_agents_who_logged_on_before_the_file(self):
        """A file that begins the day before doesn't know their groups: what is written of that day stays, and comes out of the archive else."""
        self.run_it()
        file = self.copies / "1970-01-03T000500Z/desk.db"
        archive, written = shutil.copy(file, self.folder / f"desk.db-{FIRST}-12"), (self.days / "agents" / f"{SECOND}.csv").read_bytes()
        on = ground.rows(file, "SELECT min(moment) FROM events WHERE kind = 13")[0][0]
        last, event = (ground.rows(file, f"SELECT max({column}) FROM {table} WHERE moment <= {on}")[0][0] for column, table in (("stamp", "kept"), ("number", "events")))
        ground.changed(file, f"DELETE FROM kept WHERE stamp <= {last}", f"DELETE FROM events WHERE number <= {event}")
        self.assertEqual(self.run_it(), "0 files written\n")
        self.assertEqual((self.days / "agents" / f"{SECOND}.csv").read_bytes(), written)
        for kind in record_days.KINDS:
            (self.days / kind / f"{SECOND}.csv").unlink()
        self.run_it()
        self.assertNotEqual((self.days / "agents" / f"{SECOND}.csv").read_bytes(), written)
        # with its note the archive is read, though the file has all requests of that day
        chain.put_note(file, chain.Note(Path(archive).name, last, chain.digest(archive)))
        chain.copies_of(self.copies).mkdir()
        shutil.copy(archive, chain.copies_of(self.copies))
        for kind in record_days.KINDS:
            (self.days / kind / f"{SECOND}.csv").unlink()
        self.run_it()
        self.assertEqual((self.days / "agents" / f"{SECOND}.csv").read_bytes(), written)

    def test_command_lines(self):
        for words in ((), (self.days,), ("--file", "F", "--copies", "C", self.days), ("--file", "F"), ("--file", "F", "--live", self.days)):
            self.assertEqual(said("records", *words).status, 2)
        self.assertEqual(said("records", "--file", self.folder / "none", self.days), (1, "", f"acdctl records: there is no file {self.folder}/none\n"))


class Archives(ground.Case):
    """The story, of which the archive alone has the first day."""

    def setUp(self):
        super().setUp()
        lines = story.LINES.splitlines(keepends=True)
        first = [line for line in lines if int(line.split()[0]) < 86400]
        self.desk("".join(first))
        self.archive = self.carried("".join(lines[len(first):]), len(first))
        self.note = chain.Note(self.archive.name, len(first), chain.digest(self.archive), "1 1.5")

    def test_that_are_named(self):
        for words, table in (((), story.CALLS), (("--legs",), story.LEGS), (("--agents",), story.AGENTS), (("--groups",), story.GROUPS)):
            self.assertEqual(said("calls", "--file", self.file, "--archive", self.archive, *words), (0, table, ""))

    def test_files_of_days(self):
        """With the archive's day, under the names and the limit of the office."""
        days, settings = self.folder / "days", self.folder / "board.json"
        days.mkdir()
        settings.write_text('{"names":{"groups":{"100":"Rechnung"}},"limits":{"limit":4}}', encoding="utf-8")
        self.assertEqual(said("records", "--file", self.file, "--archive", self.archive, "--office", settings, days), (0, "3 files written\n", ""))
        for kind, row, begin in (("records", 1, "1,'0301,100,1970-01-01 23:58:40,"), ("groups", 1, "1970-01-01 23:45:00,100,2,1,0,0,4,0,0,0,5,5,1,1,55")):
            found = (days / kind / f"{FIRST}.csv").read_text(encoding="utf-8-sig").splitlines()[row]
            self.assertTrue(found.startswith(begin) and ",Rechnung" in found, found)

    def test_that_the_note_names(self):
        chain.put_note(self.file, self.note)
        self.assertEqual(said("calls", "--file", self.file), (0, story.CALLS, ""))
        # in the copies' folder of archives
        copies = self.folder / "copies/1970-01-02T000500Z"
        copies.mkdir(parents=True)
        for one in (self.file, chain.note_of(self.file)):
            shutil.copy(one, copies)
        chain.copies_of(copies.parent).mkdir()
        shutil.copy(self.archive, chain.copies_of(copies.parent))
        self.assertEqual(said("calls", "--copies", copies.parent), (0, story.CALLS, ""))
        # those of days that nobody asks for aren't needed
        with mock.patch.object(chain, "place") as place:
            said("calls", "--file", self.file, "--since", "1970-01-08")
        place.assert_not_called()

    def test_that_are_not_there(self):
        for note in (None, self.note):
            if note:
                chain.put_note(self.file, note)
                self.archive.unlink()
            done = said("calls", "--file", self.file, "--agents")
            self.assertEqual(done.status, 3)
            self.assertEqual(done.faults, "acdctl calls: what was before 1970-01-02 00:00:00 isn't there: name the archives that have it, by --archive\n")
        # what is there of the second day: who was logged on, and who waited, is known by the tables
        quarters = said("calls", "--file", self.file, "--groups", "--since", SECOND)
        self.assertEqual((quarters.status, quarters.out), (3, only(story.GROUPS, SECOND)))
        self.assertEqual(said("calls", "--file", self.file, "--since", "1970-01-03").status, 0)

    def test_that_do_not_fit(self):
        first, last = self.archive, self.file
        other = self.folder / "other"
        shutil.copy(first, other)
        ground.changed(other, "DELETE FROM kept WHERE stamp = 3")
        for files, told in (((last, first), "archives are named from the oldest on"), ((other, last), f"{other} hasn't all of its requests from 1 to ")):
            done = said("calls", "--file", files[1], "--archive", files[0])
            self.assertEqual((done.status, done.out), (1, ""))
            self.assertIn(told, done.faults)
        ground.changed(last, "DELETE FROM kept WHERE stamp = (SELECT min(stamp) FROM kept)")
        done = said("calls", "--file", last, "--archive", first)
        self.assertRegex(done.faults, rf"\Aacdctl calls: requests 16 to 16 are neither in {first} nor in {last}\n\Z")

    def test_rows_of_both_that_differ(self):
        whole = self.folder / "whole"
        shutil.copy(self.archive, whole)
        with contextlib.closing(archives.opened(whole, [self.archive], self.folder)) as both:
            self.assertEqual([stamp for stamp, in both.execute("SELECT stamp FROM kept ORDER BY stamp")], list(range(1, self.note.last + 1)))
        for statement, told in (("UPDATE kept SET moment = moment + 1 WHERE stamp = 4", "differ at request 4"), ("UPDATE events SET call = 9 WHERE number = 3", "differ at event 3"),
                                ("UPDATE meta SET version = 3", f"{whole}: wrong version 3")):
            shutil.copy(self.archive, whole)
            ground.changed(whole, statement)
            with self.subTest(statement), self.assertRaisesRegex(book.Fault, told):
                archives.opened(whole, [self.archive], self.folder)


class Books(ground.Case):
    """How a file is read."""

    def test_of_another_version(self):
        self.desk()
        for version, is_read in ((1, True), (2, True), (3, False)):
            ground.changed(self.file, f"UPDATE meta SET version = {version}")
            if is_read:
                book.opened(self.file, self.folder).close()
            else:
                with self.assertRaisesRegex(book.Fault, "^wrong version 3$"):
                    book.opened(self.file, self.folder)

    def test_one_that_changes_faster_than_it_is_copied(self):
        self.desk()
        log = pair.log_of(self.file)
        heads = iter(range(100))
        with mock.patch.object(book, "head", lambda _: b"%d" % next(heads)), mock.patch.object(time, "sleep") as slept, self.assertRaisesRegex(book.Fault, "changes faster than it can be copied"):
            log.touch()
            book.copied_live(self.file, log, self.folder)
        self.assertEqual(slept.call_count, 10)

    def test_heads(self):
        log = self.folder / "log"
        self.assertEqual(book.head(log), b"")
        for data, found in ((b"", b""), (b"7" * 31, b""), (bytes(32), b""), (b"7" * 40, b"7" * 32)):
            log.write_bytes(data)
            self.assertEqual(book.head(log), found)

    def test_is_no_desks_file(self):
        with contextlib.closing(sqlite3.connect(self.file)) as made:
            made.execute("CREATE TABLE rows (number)")
        done = said("calls", "--file", self.file)
        self.assertEqual((done.status, done.out, done.faults.count("\n")), (1, "", 1))


class Offices(ground.Case):
    def told(self, text):
        """What is read of settings, and the lines that are said of them."""
        file, lines = self.folder / "board.json", []
        file.write_bytes(text.encode())
        return office.office(file, lines.append), [line.replace(str(file), "F") for line in lines]

    def test_limits(self):
        found, lines = self.told('{"limits":{"limit":30,"limit.100":"7.5","limit.110":0,"limit.120":"x","limit.130":86401},"names":{"groups":{"100":"A","7":true,"8":[]}}}')
        self.assertEqual([found.limit_of(group) for group in ("100", "110", "120", "130", "140")], [7.5, 30, 30, 30, 30])
        self.assertEqual((found.names, lines), ({"groups": {"100": "A"}, "agents": {}}, []))
        self.assertEqual(self.told("{}")[0].limit_of("100"), 20)
        self.assertEqual(self.told('{"names":{"agents":{"7":"%s"}}}' % ("x" * 100))[0].names["agents"]["7"], "x" * 80)

    def test_parts_that_cannot_be_read(self):
        for text in ("", "[]", "3", "{", "\0"):
            self.assertEqual(self.told(text), (office.Office(), ["F is not a JSON object; ignored"]))
        for zone in ("Europe/Nowhere", "../etc/passwd", ""):
            found, lines = self.told(f'{{"zone":"{zone}","limits":7,"names":[]}}')
            self.assertEqual((found.zone, found.limits, lines), (None, {}, [f"F: there is no zone {zone}"]))
        self.assertEqual(self.told('{"zone":"Europe/Berlin"}')[0].zone, "Europe/Berlin")

    def test_which_zone_counts(self):
        with ground.as_before(), mock.patch.object(office, "FILE", self.folder / "board.json"):
            self.assertEqual(office.counting(None, print), office.Office())
            office.FILE.write_text('{"zone":"Asia/Tokyo"}')
            office.counting(None, print)
            self.assertEqual(time.strftime("%z"), "+0000")
            del os.environ["TZ"]
            office.counting(None, print)
            self.assertEqual((time.strftime("%z"), os.environ["TZ"]), ("+0900", "Asia/Tokyo"))


class Sheets(unittest.TestCase):
    def test_what_a_spreadsheet_would_change(self):
        """By docs/EVERY-DAY.md: it drops a 0, shows more than eleven digits otherwise, takes =1+1 for a formula; and takes a name that begins with a digit for a date."""
        for field, is_name, guarded in (("0301", False, True), ("301", False, False), ("0", False, False), ("12345678901", False, False), ("123456789012", False, True),
                                        ("=1+1", False, True), ("1-2", False, False), ("-", True, True), ("@x", True, True), ("+49", True, True), ("'x", True, True),
                                        ("1-2", True, True), ("Ana", True, False), ("", True, False)):
            with self.subTest(field, is_name=is_name):
                self.assertEqual(sheets.guarded(field, is_name), f"'{field}" if guarded else field)


class Refusals(ground.Case):
    def test_command_lines(self):
        for words in ((), ("--file", "F", "--copies", "C"), ("--file", "F", "--legs", "--agents"), ("--file", "F", "--since", "1"), ("--file", "F", "--until", "2026-02-30"),
                      ("--copies", "C", "--live"), ("--file", "F", "--days", "D", "--since", "2026-11-28"), ("--file", "F", "--days", "D", "--until", "2026-11-28"),
                      ("--file", "F", "--days", "D", "--live"), ("--file", "F", "x")):
            with self.subTest(words):
                done = said("calls", *words)
                self.assertEqual((done.status, done.out), (2, ""), done)
        self.refused(("calls", "--file", self.folder / "none"), 1, f"there is no file {self.folder}/none")
        self.refused(("calls", "--file", self.folder), 1, "there is no file")

    def test_the_first_day_that_is_wanted(self):
        self.assertIsNone(record_days.wanted_from(self.folder))
        for kind, days in zip(record_days.KINDS, (("2026-11-27", "2026-11-26"), ("2026-11-28",), ("2026-11-28", "2026-11-25"))):
            (self.folder / kind).mkdir()
            for day in days:
                Path(self.folder / kind / f"{day}.csv").write_text("a,formulas\n1,2\n")
        self.assertEqual(record_days.wanted_from(self.folder), datetime.date(2026, 11, 28))
        for text in ("a,formulas\n1,1\n", "a\n1\n", ""):
            Path(self.folder / "groups/2026-11-25.csv").write_text(text)
            self.assertEqual(record_days.wanted_from(self.folder), datetime.date(2026, 11, 25))


if __name__ == "__main__":
    unittest.main()
