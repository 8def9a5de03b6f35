"""What acd audit --archive says of pruned files: of whole ones, of those in which something was altered, and behind wrong archives."""
import random
import shutil
import sqlite3

# by cuts the folder of tests is among those that modules are looked for in
from cuts import Cuts, Day
from ground import LEAST, Ground, firsts
from trial.files import log_of
import office

# Each alters one thing: in the file, or in its archive. Where the tables alone differ by it, that is found at the last stamp and one.
STATUS = "UPDATE kept SET status = CASE status WHEN 200 THEN 409 ELSE 200 END"
TABLES = ("INSERT INTO stations VALUES (1999999999)", "UPDATE meta SET max_calls = max_calls - 1", "UPDATE meta SET last_monitor = last_monitor + 1")


def asked(file, question):
    book = sqlite3.connect(f"{file.as_uri()}?immutable=1", uri=True)
    found = book.execute(question).fetchall()
    book.close()
    return found


def altered(file, folder, statement):
    """A copy of the file, in which a row is another one."""
    folder.mkdir(exist_ok=True)
    made = folder / file.name
    shutil.copy(file, made)
    book = sqlite3.connect(made)
    book.execute("PRAGMA journal_mode = DELETE")
    with book:
        count = book.execute(statement).rowcount
    book.close()
    if count != 1:
        raise SystemExit(f"try-years: {statement} changed {count} rows")
    return made


class Audits:
    def __init__(self, ground, seed, folder):
        self.ground, self.chance, self.folder, self.what = ground, random.Random(seed), folder, f"day {seed}"
        self.cuts = Cuts(ground, Day(office.MORNING._replace(seed=seed)), folder, self.chance)

    def said(self, file, archive, *more):
        return self.ground.ran("acd", "audit", "--file", file, "--archive", archive, *more)[:2]

    def begin(self):
        """Whether there was a place for it."""
        self.cuts.begin(LEAST + self.chance.randrange(100, 400))
        if not self.cuts.cut(self.what, LEAST + self.chance.randrange(0, len(self.cuts.day.asked) - LEAST)):
            return False
        self.cuts.go_on(self.what, self.chance.randrange(1, 100))
        self.file, self.archive = self.cuts.file, self.cuts.archives[0]
        for one in (self.file, self.archive):
            log_of(one).unlink(missing_ok=True)
        (self.last,), = asked(self.archive, "SELECT last_stamp FROM meta")
        (self.end,), = asked(self.file, "SELECT last_stamp FROM meta")
        self.first, self.event = firsts(self.file)
        return True

    def sound(self):
        """Twice, since an audit changes nothing; the archive keeps its bytes."""
        before = self.archive.read_bytes()
        for more in ((), ("--count",), ("--whole", "--count")):
            wanted = f"sound\nexecuted {self.end}\n" if more else "sound\n"
            self.ground.expect(f"{self.what}: {more}", self.said(self.file, self.archive, *more), (0, wanted))
        self.ground.expect(f"{self.what}: the archive's bytes", self.archive.read_bytes() == before)
        alone = self.ground.ran("acd", "audit", "--file", self.file)[:2]
        self.ground.expect(f"{self.what}: without its archive it differs", alone, (3, "differs at request 1\n") if self.first > 1 else (0, "sound\n"))

    def see(self, change, of, place):
        """A place of 0: it isn't seen from here."""
        for name in of:
            changed = altered(self.file if name == "file" else self.archive, self.folder / "altered", change)
            pair = (changed, self.archive) if name == "file" else (self.file, changed)
            self.ground.expect(f"{self.what}: {change} in the {name}", self.said(*pair), (3, f"differs at request {place}\n") if place else (0, "sound\n"))
            for path in changed.parent.glob("*"):
                path.unlink()

    def records(self):
        """One that both have, one that the archive alone has, and one that is newer."""
        shared = self.chance.randint(self.first, self.last) if self.first <= self.last else None
        newer = self.chance.randint(self.last + 1, self.end) if self.last < self.end else None
        for stamp, of in ((shared, ("file", "archive")), (newer, ("file",))):
            if stamp:
                self.see(f"{STATUS} WHERE stamp = {stamp}", of, stamp)
            if stamp and stamp > self.first:
                self.see(f"DELETE FROM kept WHERE stamp = {stamp}", ("file",), stamp)
        if self.first > 1:
            self.see(f"{STATUS} WHERE stamp = {self.chance.randint(1, self.first - 1)}", ("archive",), 0)

    def events(self):
        """One of both is told by the first request of its moment that both have; a newer one by its own."""
        shared = asked(self.archive, f"SELECT number, moment FROM events WHERE number >= {self.event} AND waited IS NOT NULL")
        if shared:
            number, moment = self.chance.choice(shared)
            (place,), = asked(self.archive, f"SELECT min(stamp) FROM kept WHERE moment >= {moment} AND stamp >= {self.first}")
            self.see(f"UPDATE events SET waited = waited + 1 WHERE number = {number}", ("file", "archive"), place)
        newer = asked(self.file, "SELECT number, min(stamp) FROM events JOIN kept USING (moment)"
                                 f" WHERE waited IS NOT NULL AND stamp > {self.last} GROUP BY number HAVING count(*) = 1")
        if newer:
            number, place = self.chance.choice(newer)
            self.see(f"UPDATE events SET waited = waited + 1 WHERE number = {number}", ("file",), place)

    def tables(self):
        """A monitor's number of the archive is told before, by the first reply behind it that has one."""
        (monitored,), = asked(self.file, f"SELECT min(stamp) FROM kept WHERE stamp > {self.last} AND status = 200 AND instr(request, '\"service\":\"monitorStart\"')")
        for change in TABLES:
            self.see(change, ("file",), self.end + 1)
            self.see(change, ("archive",), monitored if monitored and "last_monitor" in change else self.end + 1)

    def others(self):
        """In the wrong order; a file behind itself; an archive that isn't there."""
        swapped = 1 if self.first > 1 else self.last + 1
        self.ground.expect(f"{self.what}: in the wrong order", self.said(self.archive, self.file), (3, f"differs at request {swapped}\n"))
        self.ground.expect(f"{self.what}: behind itself", self.said(self.file, self.file)[0], 4)
        absent = self.ground.ran("acd", "audit", "--file", self.file, "--archive", "/absent/a.db")
        self.ground.expect(f"{self.what}: no archive", absent, (1, "", "acd: cannot open /absent/a.db\n"))


class OfAudits(Ground):
    def try_audits(self, days=20):
        done = 0
        for seed in range(1, days + 1):
            with self.scratch() as folder:
                audits = Audits(self, seed, folder)
                if audits.begin():
                    done += 1
                    for case in (audits.sound, audits.records, audits.events, audits.tables, audits.others):
                        case()
        self.expect("days have places for a prune", done >= days * 0.8)
