"""Files of records of several days, added up: of groups or of agents, by days, weeks, hours and so on. Tested, not
proved.

Counts and seconds are added, and of a longest wait the greatest counts; shares and averages are reckoned of the sums.
Days without a file, and files of other formulas, are named, and never added to others."""
from __future__ import annotations

import csv
import datetime
import operator
import threading
from collections.abc import Callable, Iterator, Mapping
from dataclasses import dataclass, field
from enum import Enum
from pathlib import Path
from typing import NamedTuple

from acd_service.record_days import APART, COLUMN, FORMULAS

# days that are added up at most; bytes of a day's file; parts of files that are remembered, of some 300 bytes each
MOST_DAYS, MOST_BYTES, MOST_PARTS = 366, 1 << 24, 100_000
Day = datetime.date
Value = int | float | str | None
Line = dict[str, Value]
Stamp = tuple[int, int, int]


class Columns(NamedTuple):
    """Of a kind of files: the columns of the number and the name, those that are added up, and those of which the
    greatest counts."""
    number: str
    name: str
    added: tuple[str, ...]
    most: tuple[str, ...]


KINDS = {
    "groups": Columns("group", "group_name", (
        "entered", "answered", "abandoned", "moved", "in_time", "abandoned_late", "waited", "handled", "handling",
        "closed", "answered_by_stay", "abandoned_by_stay", "in_time_by_stay", "late_by_stay"),
        ("longest", "most_waiting")),
    "agents": Columns("agent", "name", (
        "logged_on", "ready", "talking", "wrap_up", "not_ready", "calls", "own_calls", "rings", "rings_not_answered",
        "rings_refused", "rings_hung_up"), ()),
}


class Aside(Enum):
    """Why a day isn't added."""
    MISSING, OTHERS, UNREAD = "missing", "others", "unread"


class Part(NamedTuple):
    """Of a group an hour, or of an agent a day (hour 0). `groups` are those of a lead who reads it."""
    number: str
    hour: int
    added: list[int]
    most: list[int]
    groups: frozenset[str]
    limit: str


class Content(NamedTuple):
    """A day's file."""
    parts: list[Part]
    names: dict[str, str]


def plain(text: str) -> str:
    """Without the quote before what a spreadsheet would change."""
    return text.removeprefix("'")


class Head:
    """Where a file has its columns."""

    def __init__(self, kind: str, names: list[str]) -> None:
        columns, place = KINDS[kind], {name: at for at, name in enumerate(names)}
        self.formulas = place.get(COLUMN)
        if self.formulas is None:
            return
        self.number, self.name = place[columns.number], place[columns.name]
        self.added, self.most = [place[one] for one in columns.added], [place[one] for one in columns.most]
        self.begin, self.limit, self.groups = place.get("begin"), place.get("limit"), place.get("groups")

    def part(self, row: list[str]) -> Part:
        number, groups = plain(row[self.number]), None if self.groups is None else plain(row[self.groups]).split()
        return Part(number, 0 if self.begin is None else int(row[self.begin][11:13]),
                    [int(row[at]) for at in self.added], [int(row[at] or 0) for at in self.most],
                    frozenset([number] if groups is None else groups),
                    "" if self.limit is None else f"{float(row[self.limit]):g}")


def greatest(some: list[int], others: list[int]) -> list[int]:
    return [max(one, other) for one, other in zip(some, others)]


def together(part: Part, other: Part) -> Part:
    """Two quarters of the same hour."""
    return part._replace(added=list(map(operator.add, part.added, other.added)),
                         most=greatest(part.most, other.most))


def read(file: Path, kind: str) -> Content | Aside:
    """A day's file; OSError, ValueError or LookupError where it can't be read."""
    with file.open(encoding="utf-8-sig", newline="") as stream:
        text = stream.read(MOST_BYTES + 1)
    if len(text) > MOST_BYTES:
        return Aside.UNREAD
    rows = csv.reader(text.splitlines(keepends=True))
    head = Head(kind, next(rows, []))
    if head.formulas is None:
        return Aside.OTHERS
    parts: dict[tuple[str, int], Part] = {}
    names: dict[str, str] = {}
    for row in rows:
        if row[head.formulas] != FORMULAS:
            return Aside.OTHERS
        part = head.part(row)
        names[part.number] = plain(row[head.name])
        before = parts.get((part.number, part.hour))
        parts[part.number, part.hour] = part if before is None else together(before, part)
    return Content(list(parts.values()), names)


class Files:
    """The files below a folder; those that were read last are remembered as long as they are the same."""

    def __init__(self, folder: Path | str, most: int = MOST_PARTS) -> None:
        self.folder, self.most = Path(folder), most
        self.found: dict[tuple[str, Day], tuple[Stamp, Content | Aside]] = {}
        self.size, self.lock = 0, threading.Lock()

    def day(self, kind: str, day: Day) -> Content | Aside:
        file = self.folder / kind / f"{day}.csv"
        try:
            seen = file.stat()
            stamp = seen.st_mtime_ns, seen.st_size, seen.st_ino
            with self.lock:
                known = self.found.get((kind, day))
            if known is None or known[0] != stamp:
                known = stamp, read(file, kind)
            self.remember(kind, day, known)
            return known[1]
        except FileNotFoundError:
            return Aside.OTHERS if (self.folder / APART / kind / f"{day}.csv").exists() else Aside.MISSING
        except (OSError, ValueError, LookupError, csv.Error):
            return Aside.UNREAD

    def remember(self, kind: str, day: Day, known: tuple[Stamp, Content | Aside]) -> None:
        """Those that were asked for the longest ago go where there are too many."""
        with self.lock:
            self.forget((kind, day))
            self.found[kind, day] = known
            self.size += size_of(known[1])
            while self.size > self.most and len(self.found) > 1:
                self.forget(next(iter(self.found)))

    def forget(self, key: tuple[str, Day]) -> None:
        known = self.found.pop(key, None)
        self.size -= 0 if known is None else size_of(known[1])


def size_of(content: Content | Aside) -> int:
    return len(content.parts) if isinstance(content, Content) else 0


class Asked(NamedTuple):
    """What is to be added up: of files of a kind, from one day up to another and with it, a line for each of what `by`
    says, of these numbers alone, or of all where there are none. Who leads reads what is of these groups."""
    kind: str
    since: Day
    until: Day
    by: str
    of: frozenset[str] = frozenset()
    led: frozenset[str] | None = None

    def days(self) -> Iterator[Day]:
        return map(Day.fromordinal, range(self.since.toordinal(), self.until.toordinal() + 1))

    def reads(self, part: Part) -> bool:
        return self.led is None or not self.led.isdisjoint(part.groups)


def week_of(day: Day) -> str:
    """As 2026-W48; a week begins on Monday."""
    year, week, _ = day.isocalendar()
    return f"{year}-W{week:02}"


# by what of a day lines are made, and by what of a part of it
OF_DAYS: Mapping[str, Callable[[Day], str]] = {
    "day": str, "week": week_of, "month": lambda day: f"{day:%Y-%m}", "weekday": lambda day: str(day.isoweekday())}
OF_PARTS: Mapping[str, Callable[[Day, Part], str]] = {
    "hour": lambda _, part: f"{part.hour:02}", "weekday-hour": lambda day, part: f"{day.isoweekday()} {part.hour:02}",
    "each": lambda _, part: part.number}
BY = {"groups": {*OF_DAYS, *OF_PARTS}, "agents": {*OF_DAYS, "each"}}


@dataclass(eq=False)
class Sums:
    """Of a line: the sums by column, the days that are in them, and whose they are."""
    columns: Columns
    added: list[int] = field(default_factory=list)
    most: list[int] = field(default_factory=list)
    days: set[Day] = field(default_factory=set)
    numbers: set[str] = field(default_factory=set)

    def __post_init__(self) -> None:
        self.added, self.most = [0] * len(self.columns.added), [0] * len(self.columns.most)

    def add(self, part: Part) -> None:
        self.added = list(map(operator.add, self.added, part.added))
        self.most = greatest(self.most, part.most)
        self.numbers.add(part.number)

    def figures(self) -> Line:
        found: dict[str, int] = {**dict(zip(self.columns.added, self.added)), **dict(zip(self.columns.most, self.most))}
        return {"days": len(self.days), **found, **(of_groups if self.columns.most else of_agents)(found, self.numbers)}


def share(part: int, whole: int) -> float | None:
    return part / whole if whole else None


def of_groups(sums: dict[str, int], numbers: set[str]) -> Line:
    """What is reckoned of sums, as boards do. Of several groups nobody knows how many waited at once."""
    answered, stays = sums["answered"], sums["answered_by_stay"]
    return {
        "level": share(sums["in_time"], answered + sums["abandoned_late"]),
        "level_of_answered": share(sums["in_time"], answered),
        "lost": share(sums["abandoned"], answered + sums["abandoned"]),
        "average_wait": share(sums["waited"], answered),
        "average_handling": share(sums["handling"], sums["handled"]),
        "level_by_stay": share(sums["in_time_by_stay"], stays + sums["late_by_stay"]),
        "level_of_answered_by_stay": share(sums["in_time_by_stay"], stays),
        "longest": sums["longest"] if answered else None,
        "most_waiting": sums["most_waiting"] if len(numbers) < 2 else None,
    }


def of_agents(sums: dict[str, int], _: set[str]) -> Line:
    busy = sums["talking"] + sums["wrap_up"]
    return {"occupancy": share(busy, busy + sums["ready"]), "average_talk": share(sums["talking"], sums["calls"])}


def in_order(key: str) -> tuple[int, str]:
    """Numbers by that which the digit 1 and their digits make."""
    return (int(f"1{key}"), "") if key.isdigit() else (0, key)


class Told(NamedTuple):
    """The figures of each line by its key, and of all together; names by numbers, the limits of the service level, and
    the days that aren't added."""
    kind: str
    by: str
    since: str
    until: str
    all: Line
    lines: list[Line]
    names: dict[str, str]
    limits: list[float]
    missing: list[str]
    others: list[str]
    unread: list[str]


class Added:
    """What was asked for, day by day."""

    def __init__(self, asked: Asked) -> None:
        self.asked, self.columns = asked, KINDS[asked.kind]
        self.all = Sums(self.columns)
        self.lines: dict[str, Sums] = {}
        self.aside: dict[Aside, list[str]] = {why: [] for why in Aside}
        self.names: dict[str, str] = {}
        self.limits: set[str] = set()
        self.hours: set[int] = set()

    def line(self, key: str) -> Sums:
        found = self.lines.get(key)
        if found is None:
            found = self.lines[key] = Sums(self.columns)
        return found

    def take(self, day: Day, content: Content | Aside) -> None:
        of_day = OF_DAYS.get(self.asked.by)
        line = self.line(of_day(day)) if of_day else None
        if isinstance(content, Aside):
            self.aside[content].append(str(day))
            return
        self.all.days.add(day)
        if line is not None:
            line.days.add(day)
        for part in content.parts:
            if self.asked.reads(part):
                self.names[part.number] = content.names[part.number]
                if not self.asked.of or part.number in self.asked.of:
                    self.take_part(day, part, line)

    def take_part(self, day: Day, part: Part, line: Sums | None) -> None:
        self.all.add(part)
        self.limits.add(part.limit)
        self.hours.add(part.hour)
        if line is None:
            line = self.line(OF_PARTS[self.asked.by](day, part))
            line.days.add(day)
        line.add(part)

    def fill(self) -> None:
        """Hours between others in which nothing was, and the days of those in which something was on some."""
        if self.asked.by not in ("hour", "weekday-hour"):
            return
        weekdays = {f"{day.isoweekday()} " for day in self.all.days} if self.asked.by == "weekday-hour" else {""}
        for hour in range(min(self.hours), max(self.hours) + 1) if self.hours else ():
            for weekday in weekdays:
                self.line(f"{weekday}{hour:02}").days = {
                    day for day in self.all.days if weekday in ("", f"{day.isoweekday()} ")}

    def told(self) -> Told:
        self.fill()
        if self.asked.kind == "groups" and self.asked.by == "each":
            for line in self.lines.values():
                line.days = self.all.days
        lines: list[Line] = [{"key": key, **(line.figures() if line.days else {"days": 0})}
                             for key, line in sorted(self.lines.items(), key=lambda one: in_order(one[0]))]
        kind, since, until, by, *_ = self.asked
        return Told(kind, by, str(since), str(until), self.all.figures(), lines, self.names,
                    sorted(map(float, self.limits - {""})), *(self.aside[why] for why in Aside))


def added(files: Files, asked: Asked, between: Callable[[], object] = lambda: None) -> Told:
    """The sums of what was asked for; `between` is called before each day's file."""
    found = Added(asked)
    for day in asked.days():
        between()
        found.take(day, files.day(asked.kind, day))
    return found.told()
