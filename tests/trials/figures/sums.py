"""Thirty days of offices that are drawn at random, each over a desk of its own, whose files of records are added up: by days, weeks, months, weekdays and hours, a group's and an agent's, a
lead's, and in the reports of weeks. All of it is reckoned from /history by board/figures.py and here, and from no file."""
import csv
import datetime
import io
import json
import os
import random
import shutil
import time
import urllib.parse
from collections import defaultdict
from unittest import mock

from trial import Lines, Trial

import figures as independent
import office

from acd_service import calls, recorded, reports
from acd_service.gate.recorded import asked_of
from acd_service.office import Office

DAYS, ASKED, LIMIT, FACTOR, ZONE = 30, 400, 20, 7, "Europe/Berlin"
# with the end of summer time, on a Sunday
FIRST = datetime.date(2026, 10, 5)
SMALL = office.MORNING._replace(requests=250, repeats=0, reused=0, live_calls=14, mixed=True)
# of a sum the figure of board/figures.py
GROUPS = {"entered": "entered", "answered": "answered", "abandoned": "abandoned", "moved": "moved", "in_time": "within", "abandoned_late": "late", "waited": "waited", "handled": "handled",
          "handling": "handling", "longest": "longest", "answered_by_stay": "answeredStay", "abandoned_by_stay": "abandonedStay", "in_time_by_stay": "withinStay", "late_by_stay": "lateStay"}
AGENTS = {"calls": "calls", "talking": "talk", "wrap_up": "work", "ready": "ready", "not_ready": "notReady"}
KEYS = {"day": "%Y-%m-%d", "week": "%G-W%V", "month": "%Y-%m", "weekday": "%u", "hour": "%H", "weekday-hour": "%u %H"}
WAYS = {"groups": [*KEYS, "each"], "agents": ["day", "week", "month", "weekday", "each"]}


class Drawn(office.Office):
    def check(self):
        """Of so short a day nothing has to come up."""


def midnight(day):
    return int(time.mktime(day.timetuple()))


def all_events(desk, moment):
    found, after = [], 0
    while True:
        page = json.loads(desk.say(f"{moment} GET /history?after={after}").partition(" ")[2])
        found += page["events"]
        if not page["events"] or found[-1]["number"] >= page["last"]:
            return found
        after = found[-1]["number"]


class Sums(Trial):
    compared = 0

    @classmethod
    def setUpClass(cls):
        """The files of the days are made once; of some there is none, and some are by other formulas."""
        super().setUpClass()
        cls.enterClassContext(mock.patch.dict(os.environ, {"TZ": ZONE}))
        time.tzset()
        cls.draw, cls.records, cls.quarters, cls.agents, cls.served = random.Random(30), cls.folder / "records", {}, {}, defaultdict(set)
        cls.records.mkdir()
        (cls.folder / "office.json").write_text("{}")
        cls.days = [FIRST + datetime.timedelta(days=number) for number in range(DAYS)]
        for seed, day in enumerate(cls.days):
            cls.make(seed, day)
        shutil.rmtree(cls.records / "reports", ignore_errors=True)
        aside = cls.draw.sample(cls.days, 6)
        cls.missing, cls.others = set(aside[:3]), set(aside[3:])
        for place, day in enumerate(aside):
            for kind in ("groups", "agents"):
                file = cls.records / kind / f"{day}.csv"
                rows = file.read_text(encoding="utf-8").splitlines()
                file.unlink()
                # of one of these days the files don't say by which formulas they are, of the others they name other ones
                by = "" if place == 3 else ",1"
                if day in cls.others:
                    file.write_text("".join(f"{row}\n" if by and row == rows[0] else f"{row.rpartition(',')[0]}{by}\n" for row in rows), encoding="utf-8")

    @classmethod
    def make(cls, seed, day):
        """A day over a desk of its own; its file of records, and what it has to come to."""
        file, begin = cls.folder / "desk.db", midnight(day) + cls.draw.randrange(5, 20) * 3600 + cls.draw.randrange(3600)
        for old in cls.folder.glob("desk.db*"):
            old.unlink()
        lines = [line.partition(" ") for line in Drawn(SMALL._replace(seed=seed + 500)).day().given]
        moments = [begin + FACTOR * int(moment) for moment, _, _ in lines]
        with Lines(cls.program, file, ["--reads"]) as desk:
            for moment, (_, _, request) in zip(moments, lines):
                desk.say(f"{moment} {request}")
            events = all_events(desk, moments[-1])
        until = midnight(day + datetime.timedelta(days=1))
        copy = cls.folder / "copies" / time.strftime("%Y-%m-%dT%H%M%SZ", time.gmtime(until + 1800))
        shutil.rmtree(copy.parent, ignore_errors=True)
        copy.mkdir(parents=True)
        for one in cls.folder.glob("desk.db*"):
            shutil.copy(one, copy)
        with mock.patch("sys.stdout", io.StringIO()):
            options = calls.asked(["--copies", str(copy.parent), "--days", str(cls.records), "--office", str(cls.folder / "office.json")])
            assert calls.do(options, cls.folder)
        found = independent.reckoned(events, midnight(day), until, {}, LIMIT, set())
        cls.quarters[day] = {tuple(key.split()): line for key, line in found["quarters"].items() if not key.startswith("all ")}
        cls.agents[day] = dict(found["agents"])
        for event in events:
            if event["event"] == "established" and "group" in event:
                cls.served[day, event["device"]].add(event["group"])

    def known(self, since, until):
        return [day for day in self.days if since <= day <= until and day not in self.missing | self.others]

    # what has to come of a question

    def rows(self, kind, days, of, led):
        """Of each part its day, its moment, whose it is, and the figures."""
        for day in days:
            lines = self.quarters[day] if kind == "groups" else {(agent, midnight(day)): line for agent, line in self.agents[day].items()}
            for (number, moment), line in lines.items():
                if (not of or number in of) and (led is None or number in led):
                    yield day, int(moment), number, line

    def sums(self, kind, lines):
        names, found = GROUPS if kind == "groups" else AGENTS, defaultdict(int)
        for line in lines:
            for name, figure in names.items():
                found[name] = max(found[name], line.get(figure, 0)) if name == "longest" else found[name] + line.get(figure, 0)
        return {name: found[name] for name in names}

    @staticmethod
    def shares(kind, sums):
        def of(part, whole):
            return part / whole if whole else None

        if kind == "agents":
            busy = sums["talking"] + sums["wrap_up"]
            return {"occupancy": of(busy, busy + sums["ready"])}
        answered, stays = sums["answered"], sums["answered_by_stay"]
        return {"level": of(sums["in_time"], answered + sums["abandoned_late"]), "level_of_answered": of(sums["in_time"], answered), "lost": of(sums["abandoned"], sums["abandoned"] + answered),
                "average_wait": of(sums["waited"], answered), "average_handling": of(sums["handling"], sums["handled"]), "level_by_stay": of(sums["in_time_by_stay"], stays + sums["late_by_stay"])}

    def line(self, kind, lines):
        sums = self.sums(kind, lines)
        told = {**sums, **self.shares(kind, sums)}
        return {**told, **({"longest": sums["longest"] if sums["answered"] else None} if kind == "groups" else {})}

    def wanted(self, kind, by, since, until, of, led):
        found, days = defaultdict(list), self.known(since, until)
        for _, moment, number, line in self.rows(kind, days, of, led):
            found[number if by == "each" else time.strftime(KEYS[by], time.localtime(moment))].append(line)
        return {key: self.line(kind, lines) for key, lines in found.items()}, self.line(kind, [line for lines in found.values() for line in lines])

    # what is told

    def ask(self, kind, by, since, until, of, led):
        query = {"kind": kind, "by": by, "since": since, "until": until, **({"of": ",".join(sorted(of))} if of else {})}
        return recorded.added(self.files, asked_of(urllib.parse.urlencode(query), led))

    def compare(self, what, has, wanted):
        """Figure by figure; a line in which nothing was may be told or not."""
        self.compared += len(wanted)
        wrong = {name: (has.get(name), value) for name, value in wanted.items() if has.get(name) != value}
        self.see(what, not wrong, wrong)

    def try_sums(self):
        self.files = recorded.Files(self.records)
        groups = sorted({number for lines in self.quarters.values() for number, _ in lines})
        agents = sorted({number for lines in self.agents.values() for number in lines})
        for number in range(ASKED):
            kind = self.draw.choice(["groups", "groups", "agents"])
            since, until = sorted(self.draw.choices([FIRST - datetime.timedelta(days=3), *self.days, self.days[-1] + datetime.timedelta(days=3)], k=2))
            of = set(self.draw.sample(groups if kind == "groups" else agents, self.draw.randrange(3)))
            led = frozenset(self.draw.sample(groups, 2)) if kind == "groups" and number % 4 == 0 else None
            self.compare_one(kind, self.draw.choice(WAYS[kind]), since, until, of, led)
        print(f"    {self.compared} figures of {ASKED} questions over {DAYS} days")

    def compare_one(self, kind, by, since, until, of, led):
        what, told = f"{kind} by {by}, {since} to {until}, {of or 'all'}, {led or 'whole'}", self.ask(kind, by, since, until, of, led)
        lines, whole = self.wanted(kind, by, since, until, of, led)
        self.compare(f"{what}: all", told.all, whole)
        has = {line["key"]: line for line in told.lines}
        for key, line in lines.items():
            self.compare(f"{what}: {key}", has.get(key, {}), line)
        for key in has.keys() - lines.keys():
            self.see(f"{what}: nothing was in {key}", not any(has[key].get(name) for name in (GROUPS if kind == "groups" else AGENTS)), has[key])
        asked = [since + datetime.timedelta(days=number) for number in range((until - since).days + 1)]
        known = self.known(since, until)
        self.expect(f"{what}: the days", (told.all["days"], told.missing, told.others),
                    (len(known), [str(day) for day in asked if day not in known and day not in self.others], [str(day) for day in asked if day in self.others]))
        if by == "day":
            self.expect(f"{what}: a line for each", [(line["key"], line["days"]) for line in told.lines], [(str(day), int(day in known)) for day in asked])

    def try_reports(self):
        """That of each week, by its groups and its days."""
        monday = FIRST
        while monday + datetime.timedelta(days=6) <= self.days[-1]:
            until = monday + datetime.timedelta(days=6)
            reports.write(self.records, Office(), until + datetime.timedelta(days=1 + self.draw.randrange(7)))
            place = self.records / "reports" / f"{monday:%G-W%V}.csv"
            _, *tables = place.read_text(encoding="utf-8-sig").replace("\r\n", "\n").split("\n\n")
            for table, by in zip(tables, ("each", "day")):
                lines, whole = self.wanted("groups", by, monday, until, set(), None)
                for row in csv.DictReader(io.StringIO(table)):
                    key = row.get("Number") or row.get("Day") or row["Group"]
                    line = whole if key == "Together" else lines.get(key.removeprefix("'"))
                    if line:
                        self.expect(f"{place.name}, {key}", {name: row[name] for name in ("Entered", "Answered", "Abandoned", "Lost, %", "Moved", "Speed of answer", "Longest wait")},
                                    {"Entered": str(line["entered"]), "Answered": str(line["answered"]), "Abandoned": str(line["abandoned"]), "Lost, %": self.percent(line["lost"]), "Moved": str(line["moved"]),
                                     "Speed of answer": self.whole(line["average_wait"]), "Longest wait": self.whole(line["longest"])})
            monday += datetime.timedelta(days=7)
        self.see("there were weeks", len(list(self.records.glob("reports/*"))) == 4)

    @staticmethod
    def percent(part):
        return "" if part is None else f"{int(10000 * part + 0.5) / 100:g}"

    @staticmethod
    def whole(seconds):
        return "" if seconds is None else str(int(seconds + 0.5))


# in acd_service.recorded: what, and the name of what has the fault
FAULTS = (
    ("the longest waits are added", "greatest", "max(one, other)", "one + other"),
    ("days of other formulas are added", "read", "if row[head.formulas] != FORMULAS:", "if False:"),
    ("gave up later isn't in the level", "of_groups", 'answered + sums["abandoned_late"]', "answered"),
    ("the average is of all who came", "of_groups", 'share(sums["waited"], answered)', 'share(sums["waited"], sums["entered"])'),
    ("after-call work is no work", "of_agents", 'sums["talking"] + sums["wrap_up"]', 'sums["talking"]'),
    ("of an hour the last quarter counts", "together", "list(map(operator.add, part.added, other.added))", "other.added"),
)
