"""Cases of what a desk leaves as it ends: what is noted, and a log that somebody removed before the next start."""
import argparse
import contextlib
import os
import shutil
import sqlite3
import time
from unittest import mock

from ground import Ready, pair
from logs import Log
from trial import free_port

CALLS = range(1, 6)
# the plan's requests, and the calls
ALL = 3 + len(CALLS)


class Stops(Ready):
    def ended(self, result):
        """A desk with calls that has ended so: its file, its log and its note."""
        file = self.new()
        self.expect("it says nothing", self.starts("before it", file, CALLS, result), "")
        return file, *pair(file)

    def refused(self, what, file, *said):
        """A start is refused, also once more, whatever systemd runs behind it; what is there stays as it is."""
        held = {one: one.read_bytes() for one in file.parent.iterdir() if one.is_file()}
        for _ in range(2):
            self.fails(what, ["desk.db-wal is gone", "answered requests are lost", *said], "--file", file, "--port", free_port())
            self.expect(f"{what}: nothing more is said of it", self.stopped(file, "exit-code"), "")
        self.expect(f"{what}: all is as it was", {one: one.read_bytes() for one in file.parent.iterdir() if one.is_file()}, held)

    def try_clean(self):
        """Behind a clean stop the file alone is the desk."""
        file, log, note = self.ended("success")
        self.expect("nothing is in the log", log.stat().st_size <= 41)
        found = file.stat()
        self.expect("what is left is noted", note.read_text().splitlines()[2:], [f"left {found.st_size} {found.st_mtime_ns} {log.stat().st_size}"])
        log.unlink()
        self.expect("its log may go", self.starts("without its log", file), "")
        self.expect("nothing is lost", self.executed(file), ALL)

    def try_removed(self):
        """Behind a kill nobody wrote the log into the file: it may not go."""
        file, log, note = self.ended("signal")
        found, size = file.stat(), log.stat().st_size
        self.expect("the log holds something, and the program wasn't run", (size > 41, note.read_text().splitlines()[2:]), (True, [f"left {found.st_size} {found.st_mtime_ns} {size}"]))
        away = log.rename(file.parent / "away")
        self.refused("a log that was removed", file, f"had {size} bytes", f"there is no good copy in {file.parent / 'copies'}", f"remove {note}")
        for name in ("2026-01-01T000000Z", "2026-01-02T000000Z", "2026-01-03T000000Z-unsound", ".new.abc"):
            (file.parent / "copies" / name).mkdir(parents=True)
            shutil.copy(file, file.parent / "copies" / name)
        (file.parent / "copies/2026-01-04T000000Z").mkdir()
        self.refused("with copies", file, "the newest good copy is 2026-01-02T000000Z (acd-copy --restore 2026-01-02T000000Z)")
        log.write_bytes(bytes(41))
        self.refused("a log that was emptied", file)
        away.replace(log)
        self.expect("with the log put back", self.starts("with the log put back", file, [9]), "")
        log.unlink()
        note.unlink()
        self.expect("without the note", self.starts("without the note", file), "")
        self.expect("what was in the file is there", self.executed(file), ALL - len(CALLS))

    def try_laid_in(self):
        """Who writes the log into the file loses nothing, and the log may go."""
        def by_sqlite(file):
            with contextlib.closing(sqlite3.connect(file)) as book:
                book.execute("SELECT count(*) FROM kept").fetchone()

        for what, lay, more in (("stock sqlite3", by_sqlite, 0), ("acd report", lambda file: self.acd("report", "--file", file), 0),
                                ("acd import", lambda file: self.acd("import", "--file", file, "--plan", self.plan), 3)):
            file, log, _ = self.ended("signal")
            lay(file)
            log.unlink(missing_ok=True)
            self.expect(f"a log that {what} wrote into the file", self.starts(what, file), "")
            self.expect(f"nothing is lost by {what}", self.executed(file) - ALL in (0, more))

    def try_rewritten(self):
        """Who writes into the file without making it longer changes its time."""
        file, log, _ = self.ended("signal")
        pairs, found, size = self.module("pair"), file.stat(), log.stat().st_size
        log.unlink()
        self.expect("a log that is gone", pairs.lost(file), size)
        os.utime(file, ns=(found.st_atime_ns, found.st_mtime_ns + 1))
        self.expect("and a file that was written meanwhile", pairs.lost(file), 0)

    def try_power_cut(self):
        """Nothing was noted: a log that is missing is told, and the desk is served."""
        file, log, _ = self.ended("signal")
        self.starts("up to the power cut", file, [9], result=None)
        log.unlink()
        said = self.starts("behind it", file)
        self.expect(f"that is told in a line: {said}", (said.count("\n"), f"{log} of the last start is gone" in said), (1, True))
        self.expect("and once", self.starts("later", file), "")

    def try_removed_meanwhile(self):
        """A log that is removed from under the desk is told at its end."""
        file, log = self.new(), None
        self.starts("before it", file, [1])
        with self.served(file) as desk:
            self.ask(desk, 2)
            log, _ = pair(file)
            log.unlink()
        said = self.stopped(file, "success")
        self.expect(f"that is told in a line: {said}", (said.count("\n"), f"{log} of the last start is gone" in said), (1, True))

    def try_damage(self):
        """A log that is damaged is kept aside before it is written into the file, and behind a kill by the next start."""
        for result, told_by in (("success", 0), ("signal", 1)):
            file = self.new()
            log, _ = pair(file)
            with self.served(file) as desk:
                self.expect("it takes calls", [self.ask(desk, number) for number in range(1, 31)], [200] * 30)
            whole = Log("of the program", log.read_bytes(), file.read_bytes(), "kept")
            spoilt = whole.flipped(whole.at(whole.marks[14] + 1) + 100)
            log.write_bytes(spoilt)
            held = {"desk.db": file.read_bytes(), "desk.db-wal": spoilt}
            said = [self.stopped(file, result), self.starts("behind it", file)]
            folder, *more = sorted(file.parent.glob("damaged-*"))
            self.expect(f"{result}: both are kept once, to the byte", (more, {one.name: one.read_bytes() for one in folder.iterdir()}), ([], held))
            self.expect(f"{result}: that is told once", [("is damaged from its frame" in line, line.count("\n")) for line in said], [(place == told_by, int(place == told_by)) for place in range(2)])

    def try_no_room(self):
        """A damaged log that can't be kept aside isn't written into the file; that is told, and what is left is noted."""
        file, log, note = self.ended("signal")
        whole = Log("of the program", log.read_bytes(), file.read_bytes(), "kept")
        log.write_bytes(whole.flipped(whole.at(whole.marks[1] + 1) + 100))
        held, ready, told = log.read_bytes(), self.module(), []

        def keep(*_):
            raise ready.Fault("no room", status=ready.command.FAILED)

        ready.keep, ready.report = keep, lambda fault: told.append(str(fault))
        note.unlink()
        with mock.patch.dict(os.environ, {**self.variables, "SERVICE_RESULT": "success"}):
            ready.stopped(argparse.Namespace(file=str(file)))
        self.expect("that is told, and the log stays", (told, log.read_bytes() == held), (["no room"], True))
        self.expect("what is left is noted", note.read_text().splitlines()[-1].split()[-1], str(len(held)))

    def try_not_served(self):
        """What keeps a desk from being served is told by its start alone, and nothing is noted."""
        file, log, note = self.ended("signal")
        before = note.read_text()
        file.rename(file.parent / "away")
        for result in ("success", "exit-code"):
            self.expect("a file that is away", self.stopped(file, result), "")
        self.expect("the note is as it was", note.read_text(), before)
        (file.parent / "away").rename(file)
        self.expect("with the file back", self.starts("with the file back", file), "")

    def try_slow_writing(self):
        """A program that takes too long to write the log is ended, and what it left is noted."""
        file, log, note = self.ended("signal")
        ready, bin_of = self.module(), self.folder / "slow"
        bin_of.mkdir()
        (bin_of / "acd").write_text("#!/bin/sh\nexec sleep 45\n")
        (bin_of / "acd").chmod(0o755)
        note.unlink()
        ready.WRITING, began = 0.5, time.monotonic()
        with mock.patch.dict(os.environ, {**self.finding(bin_of), "SERVICE_RESULT": "success"}):
            ready.stopped(argparse.Namespace(file=str(file)))
        self.expect("it is ended", time.monotonic() - began < 40)
        self.expect("what is left is noted", note.read_text().splitlines()[-1].split()[-1], str(log.stat().st_size))
        self.expect("nothing is lost", (self.starts("behind it", file), self.executed(file)), ("", ALL))
