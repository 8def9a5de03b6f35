"""Pruned at random places of random days, and gone on with: answers, rows, snapshot and report are those over the whole file, and those that the switch in Python
foresees."""
import copy
import json
import random
import shutil
import sqlite3
from collections import Counter

from ground import HOUR, LEAST, Ground, firsts, goes_of, joined, without
from trial.files import held

import limits
import office
import switch
import tables

LAID = 1000000
# how often a request that was pruned, and is sent again, is answered so: by service and result or refusal
AGAIN = Counter()


class Noting(switch.Desk):
    """Notes the moment of each executed request, behind so many that were laid into the file."""

    def __init__(self, laid):
        super().__init__()
        self.moments, self.laid, self.switch.stamp = [], laid, laid

    def take(self, moment, requester, invoke, service, **members):
        reply = super().take(moment, requester, invoke, service, **members)
        if self.switch.stamp > len(self.moments) + self.laid:
            self.moments.append(self.switch.moment)
        return reply

    def rows(self):
        found = tables.rows(self)
        return {**found, "kept": [(row[0] + self.laid, *row[1:]) for row in found["kept"]]}


class Day(office.Office):
    """A day whose repeats, and other requests under a key that is used, are of what the file keeps."""

    def __init__(self, size, laid=0):
        super().__init__(size)
        self.desk, self.first, self.fed = Noting(laid), 0, 0
        self.switch = self.desk.switch

    def repeat(self, service=None):
        asked, self.asked = self.asked, self.asked[self.first:]
        if any(each[2] != service for each in self.asked):
            super().repeat(service)
        self.asked = asked

    def go_on(self, requests):
        """So many more, the last ones more than an hour later; the lines of them, and what they are answered."""
        until = len(self.asked) + requests
        while len(self.asked) < until:
            self.work()
        self.now += HOUR + 60
        while len(self.asked) < until + 3:
            self.work()
        begin, self.fed = self.fed, len(self.given)
        return self.given[begin:], self.wanted[begin:]


def lay_history(ground, file, count, seconds=0):
    """A file in which so many ticks are kept, of so many seconds."""
    ground.feed(file, [])
    book = sqlite3.connect(file, isolation_level=None)
    book.execute("PRAGMA journal_mode = DELETE")
    book.execute("BEGIN")
    text = '\'{"invoke":\' || n || \',"requester":"laid","service":"tick"}\', 200, \'{"invoke":\' || n || \',"requester":"laid","result":{}}\''
    book.execute(f"INSERT INTO kept WITH RECURSIVE numbers(n) AS (SELECT 1 UNION ALL SELECT n + 1 FROM numbers WHERE n < {count}) SELECT n, 'laid', n, n * {seconds} / {count}, {text} FROM numbers")
    book.execute("UPDATE meta SET last_stamp = ?, last_moment = ?", (count, seconds))
    book.execute("COMMIT")
    book.close()


class Cuts:
    def __init__(self, ground, day, folder, chance):
        self.ground, self.day, self.folder, self.chance = ground, day, folder, chance
        self.uncut, self.file, self.archives, self.gone = folder / "uncut.db", folder / "desk.db", [], (0, -1)

    def begin(self, requests):
        self.day.open()
        if self.day.desk.laid:
            lay_history(self.ground, self.uncut, self.day.desk.laid)
        lines, wanted = self.day.go_on(requests)
        self.ground.expect("the answers before", self.ground.feed(self.uncut, lines), wanted)
        shutil.copy(self.uncut, self.file)

    def goes(self, keep):
        """The last request that goes, and its moment; those that were laid into the file have one moment before all others."""
        rows, laid = self.day.desk.rows(), self.day.desk.laid
        return goes_of({**rows, "kept": [*([(laid, "", 0, 0)] if laid else []), *rows["kept"]]}, rows["meta"][0][8], keep)

    def cut(self, what, keep):
        """Whether there was a place for it."""
        ground, day, wanted = self.ground, self.day, self.goes(keep)
        archive, (first, _) = self.folder / f"archive-{len(self.archives)}.db", firsts(self.file)
        status, printed, faults = ground.prune_by(archive, self.file, "--keep", keep)
        if wanted is None or wanted[0] < first:
            ground.expect(f"{what}: nothing goes", (status, printed, faults), (0, "nothing to prune\n", ""))
            archive.unlink()
            return False
        ground.expect(f"{what}: {faults}", (status, printed), (0, f"pruned up to request {wanted[0]}\n"))
        ground.expect(f"{what}: the rows", held(self.file) == without(day.desk.rows(), wanted))
        ground.expect(f"{what}: the archive", held(archive) == without(day.desk.rows(), self.gone))
        self.archives.append(archive)
        self.gone, day.first = wanted, wanted[0] - day.desk.laid
        return True

    def go_on(self, what, requests):
        ground, day = self.ground, self.day
        lines, wanted = day.go_on(requests)
        ground.expect(f"{what}: the answers over the whole file", ground.feed(self.uncut, lines) == wanted)
        ground.expect(f"{what}: the answers over the pruned one", ground.feed(self.file, lines) == wanted)
        ground.expect(f"{what}: snapshot and report", ground.shown(self.file), ground.shown(self.uncut))
        ground.expect(f"{what}: the rows of before and behind", held(self.file) == without(day.desk.rows(), self.gone))

    def again(self, what):
        """Requests that were pruned act anew: they are answered as by a desk that keeps all but those."""
        desk, file = copy.deepcopy(self.day.desk), self.folder / "again.db"
        for key in list(desk.kept)[:self.day.first]:
            del desk.kept[key]
        lines, wanted = [], []
        for requester, invoke, service, members in self.chance.sample(self.day.asked[:self.day.first], min(self.day.first, 40)):
            lines.append(f"{self.day.now} {json.dumps({'requester': requester, 'invoke': invoke, 'service': service, **members})}")
            wanted.append(desk.take(self.day.now, requester, invoke, service, **members))
            AGAIN[service, json.loads(wanted[-1][4:]).get("error", {"name": "200"})["name"]] += 1
        shutil.copy(self.file, file)
        self.ground.expect(f"{what}: what was pruned is sent again", self.ground.feed(file, lines), wanted)

    def end(self, what):
        links = [*self.archives, self.file]
        for archive, file in zip(links, links[1:]):
            last = held(file)["meta"][0][8]
            self.ground.expect(f"{what}: {file.name} behind {archive.name}", self.ground.audit(file, "--archive", archive), (0, f"sound\nexecuted {last}\n", ""))
        whole = joined(self.archives, self.file, self.folder / "joined.db")
        self.ground.expect(f"{what}: archives and file together", self.ground.audit(whole), (0, f"sound\nexecuted {self.day.switch.stamp}\n", ""))


def try_day(ground, seed, laid=0):
    """How many there were: one, or three in a row."""
    chance = random.Random(seed)
    size = (office.DAY if chance.random() < 0.2 else office.MORNING)._replace(seed=seed)
    done = 0
    with ground.scratch() as folder:
        cuts = Cuts(ground, Day(size, laid), folder, chance)
        cuts.begin(LEAST + chance.randrange(20, 400))
        for number in range(chance.choice([1, 1, 3])):
            what = f"day {seed}, cut {number}"
            has = len(cuts.day.asked) - cuts.day.first
            done += cuts.cut(what, LEAST + chance.randrange(0, max(1, has - LEAST)))
            cuts.go_on(what, 200)
        cuts.again(f"day {seed}")
        cuts.end(f"day {seed}")
    return done


class OfCuts(Ground):
    def try_cuts(self):
        """Where a fault is planted a few days find it."""
        days, laid = (12, 0) if self.count.is_planted else (self.options.days, self.options.million)
        cut = sum(try_day(self, seed) for seed in range(1, days + 1))
        self.expect("days have places for prunes", cut >= days * 0.8)
        print(f"{cut} cuts in {days} days; sent again: {', '.join(f'{service} {name} {count}' for (service, name), count in sorted(AGAIN.items()))}", flush=True)
        for seed in range(laid):
            cut = try_day(self, 100000 + seed, LAID)
            print(f"{cut} cuts in a day behind {LAID} requests", flush=True)


class OfLimits(Ground):
    def try_limits(self):
        """An office at its limits, pruned where its day ends."""
        course = limits.Course().day()
        lines, half = course.lines(), len(course.asked) * 2 // 3
        # the day is shorter than the hour of which all stay; its end is long after it
        end = next(place for place, asked in enumerate(course.asked) if asked[0] == limits.LAST) + 1
        with self.scratch() as folder:
            file, archive = folder / "desk.db", folder / "archive.db"
            self.expect("the answers before", self.feed(file, lines[:half]) == course.wanted[:half])
            self.expect("within an hour", self.prune_by(archive, file, "--keep", LEAST), (0, "nothing to prune\n", ""))
            self.expect("the answers up to the end", self.feed(file, lines[half:end]) == course.wanted[half:end])
            found = held(file)
            goes = goes_of(found, found["meta"][0][8], LEAST)
            self.expect("at the limits", self.prune_by(archive, file, "--keep", LEAST), (0, f"pruned up to request {goes[0]}\n", ""))
            self.expect("the answers behind", self.feed(file, lines[end:]) == course.wanted[end:])
            self.expect("the rows", held(file) == without(tables.rows(course.desk), goes))
            whole = joined([archive], file, folder / "joined.db")
            self.expect("together", self.audit(whole), (0, f"sound\nexecuted {course.switch.stamp}\n", ""))
            print(f"at the limits: {goes[0]} of {course.switch.stamp} requests are pruned", flush=True)
