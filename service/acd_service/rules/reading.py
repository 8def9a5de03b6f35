"""Reads rules.toml: hours of groups, and what becomes of their callers. Tested, not proved."""
import datetime
import enum
import re
import tomllib
import zoneinfo
from collections import Counter
from collections.abc import Iterator, Mapping
from dataclasses import dataclass
from pathlib import Path
from typing import Any, NamedTuple

from acd_service.command import REFUSED, Fault
from acd_service.rules import hours
from acd_service.rules.hours import Closing, Hours, Span, Spans

WEEKDAYS = ("mon", "tue", "wed", "thu", "fri", "sat", "sun")
DEVICE, NAME = r"[0-9]{1,15}", r"[a-z0-9](-?[a-z0-9])*"
TIME = r"([01][0-9]|2[0-4]):([0-5][0-9])"
# what requesters of rules begin with, a hyphen after it, where no login is named, as on the desk's own machine
REQUESTER = "rules"
# signs of a requester, and of them those that a hyphen and a try may take
LONGEST, OF_TRY = 32, 4
# the greatest number of seconds, and of callers who wait
MOST_SECONDS, MOST_CALLS = 86400, 2000
ABOUT_HOURS = ("zone", "calendar", "hours", "days")
# where a member is: the names of tables, and numbers of items
Place = tuple[str | int, ...]


class When(enum.Enum):
    """What has to be so for a rule to hold."""
    CLOSED = "closed"
    NOBODY = "nobody"
    FULL = "full"
    LONG = "long"


# the member that has a rule's limit, and the greatest one
LIMITS = {When.NOBODY: ("seconds", MOST_SECONDS), When.FULL: ("calls", MOST_CALLS),
          When.LONG: ("seconds", MOST_SECONDS)}


@dataclass(frozen=True)
class Rule:
    """`limit` is in seconds (nobody, long) or in callers who wait (full); `to` is a group or a station, and None where
    the call ends."""
    name: str
    group: str
    when: When
    limit: int
    to: str | None

    def does(self) -> str:
        return f"to {self.to}" if self.to else "ended"


@dataclass(frozen=True)
class GroupRules:
    """The rules of a group in their order, and its hours, where it has some."""
    hours: Hours | None
    rules: tuple[Rule, ...]

    def is_closed(self, moment: float) -> bool:
        return self.hours is not None and not self.hours.is_open(moment)


Rules = Mapping[str, GroupRules]


class Wrong(NamedTuple):
    """What is wrong in the file, and at which member."""
    path: Place
    text: str


# Where a member is

def at(value: Any, path: Place) -> Any:
    for step in path:
        value = value[step]
    return value


def line_of(text: str, path: Place) -> int:
    """The line at which a member ends, or at which a table begins: the first so many lines that have it as the whole
    file does."""
    whole, lines = at(tomllib.loads(text), path), text.splitlines()
    for number in range(1, len(lines) + 1):
        for end in ("", "]", "]]"):
            try:
                found = at(tomllib.loads("\n".join([*lines[:number], end])), path)
            except (tomllib.TOMLDecodeError, LookupError):
                continue
            if isinstance(whole, dict) or found == whole:
                return number
    return len(lines)


# The reader

class Reader:
    """Reads what a file says, and collects what is wrong in it."""

    def __init__(self) -> None:
        self.wrong: list[Wrong] = []
        self.ignored: list[str] = []
        self.calendars: dict[str, tuple[Closing, ...]] = {}

    def fault(self, path: Place, text: str) -> None:
        self.wrong.append(Wrong(path, text))

    def rules(self, said: dict[str, Any]) -> dict[str, GroupRules]:
        self.names((), said, (*ABOUT_HOURS, "groups"))
        groups = said.get("groups", {})
        if not isinstance(groups, dict) or not groups:
            self.fault(("groups",) if "groups" in said else (), "groups must be tables, [groups.100] say, one at least")
            return {}
        found = {group: self.group(said, group, of) for group, of in groups.items()}
        counts = Counter(rule.name for group in found.values() for rule in group.rules)
        for group, has in found.items():
            for number, rule in enumerate(has.rules):
                if counts[rule.name] > 1:
                    self.fault(("groups", group, "rules", number), f"{counts[rule.name]} rules are called {rule.name}; "
                                                                   "each must have a name of its own (name = \"..\")")
        return found

    def names(self, path: Place, table: dict[str, Any], known: tuple[str, ...]) -> None:
        for name in table:
            if name not in known:
                self.fault((*path, name), f"no member is called {name}; here are {', '.join(known)}")

    def group(self, said: dict[str, Any], group: str, of: Any) -> GroupRules:
        path: Place = ("groups", group)
        if not re.fullmatch(DEVICE, group):
            self.fault(path, f"{group} must be a group's number, 1 to 15 digits")
        if not isinstance(of, dict):
            self.fault(path, f"groups.{group} must be a table")
            return GroupRules(None, ())
        self.names(path, of, (*ABOUT_HOURS, "rules"))
        found = self.hours({name: ((*path, name), of[name]) if name in of else ((name,), said[name])
                            for name in ABOUT_HOURS if name in of or name in said})
        listed = of.get("rules", [])
        if not isinstance(listed, list) or not listed:
            self.fault(path, "rules must be a list of tables, one at least")
            return GroupRules(found, ())
        rules = [self.rule(group, (*path, "rules", number), one) for number, one in enumerate(listed)]
        for number, rule in enumerate(rules):
            if rule and rule.when is When.CLOSED and found is None:
                self.fault((*path, "rules", number), f"a rule of closed needs hours: of [groups.{group}.hours], or of "
                                                     "[hours] for all groups")
        return GroupRules(found, tuple(filter(None, rules)))

    # rules

    def rule(self, group: str, path: Place, said: Any) -> Rule | None:
        begun = len(self.wrong)
        try:
            when = When(said["when"])
        except (ValueError, TypeError, LookupError):
            self.fault(path, f"when must be {', '.join(each.value for each in When)}")
            return None
        member, most = LIMITS.get(when, ("", 0))
        self.names(path, said, tuple(filter(None, ("when", member, "to", "end", "name"))))
        limit = said.get(member, 0)
        if member and (member not in said or type(limit) is not int or not 0 <= limit <= most):
            self.fault(path, f"{member} must be a whole number from 0 to {most}")
        name = said.get("name", f"{group}-{when.value}")
        if not isinstance(name, str) or not re.fullmatch(NAME, name):
            self.fault(path, "name must be of a-z, 0-9 and single hyphens between them")
        self.target(group, path, said)
        return Rule(name, group, when, limit, said.get("to")) if len(self.wrong) == begun else None

    def target(self, group: str, path: Place, said: dict[str, Any]) -> None:
        if ("to" in said) == ("end" in said) or said.get("end", True) is not True:
            return self.fault(path, "a rule must have to = \"110\", a group or a station, or end = true, and not both")
        to = said.get("to", "0")
        if not isinstance(to, str) or not re.fullmatch(DEVICE, to):
            self.fault((*path, "to"), "to must be the number of a group or a station as a text, \"110\" say")
        elif to == group:
            self.fault((*path, "to"), f"{to} is the group itself")

    # hours

    def hours(self, said: dict[str, tuple[Place, Any]]) -> Hours | None:
        """The hours of a group by its own members, or those of all groups, each with its path."""
        if "hours" not in said:
            for name in ("days", "calendar"):
                if name in said and said[name][0][0] == "groups":
                    self.fault(said[name][0], f"{name} needs hours: on other days they count")
            return None
        zone = self.zone(*said.get("zone", (said["hours"][0], None)))
        weekdays = self.weekdays(*said["hours"])
        dates, yearly = self.days(*said.get("days", ((), {})))
        closings = self.calendar(*said["calendar"]) if "calendar" in said else ()
        return Hours(zone, weekdays, dates, yearly, closings)

    def zone(self, path: Place, name: Any) -> zoneinfo.ZoneInfo:
        try:
            if isinstance(name, str):
                return zoneinfo.ZoneInfo(name)
        except (ValueError, OSError, zoneinfo.ZoneInfoNotFoundError):
            pass
        self.fault(path, f"there is no zone {name}" if name else "hours need a zone, zone = \"Europe/Berlin\" say")
        return zoneinfo.ZoneInfo("UTC")

    def weekdays(self, path: Place, said: Any) -> tuple[Spans, ...]:
        if not isinstance(said, dict):
            self.fault(path, "hours must be a table: mon-fri = [\"08:00-18:00\"] say")
            return ((),) * 7
        found: dict[int, Spans] = {}
        for name, listed in said.items():
            days = self.weekdays_of((*path, name), name)
            if any(day in found for day in days):
                self.fault((*path, name), f"{name} has a day that another line has too")
            found |= dict.fromkeys(days, self.spans((*path, name), listed))
        return tuple(found.get(day, ()) for day in range(7))

    def weekdays_of(self, path: Place, name: str) -> range:
        first, hyphen, last = name.partition("-")
        if first in WEEKDAYS and (not hyphen or last in WEEKDAYS):
            begin, end = WEEKDAYS.index(first), WEEKDAYS.index(last or first)
            if begin <= end:
                return range(begin, end + 1)
        self.fault(path, f"{name} must be one of {', '.join(WEEKDAYS)}, or two of them in this order, mon-fri say")
        return range(0)

    def spans(self, path: Place, listed: Any) -> Spans:
        """The hours of a day: the list is empty where it is closed."""
        if not isinstance(listed, list):
            self.fault(path, "hours of a day must be a list, [\"08:00-12:00\", \"13:00-18:00\"] say, or [] where it is "
                             "closed")
            return ()
        found = []
        for text in listed:
            match = re.fullmatch(f"{TIME}-{TIME}", text) if isinstance(text, str) else None
            span = Span(60 * int(match[1]) + int(match[2]), 60 * int(match[3]) + int(match[4])) if match else Span(0, 0)
            if not span.begin < span.end <= 24 * 60:
                self.fault(path, f"{text} must be two times of one day in their order, \"08:00-18:00\" say, 24:00 at "
                                 "most")
            found.append(span)
        return tuple(found)

    def days(self, path: Place, said: Any) -> tuple[dict[datetime.date, Spans], dict[tuple[int, int], Spans]]:
        """Of dates, and of days of each year."""
        dates: dict[datetime.date, Spans] = {}
        yearly: dict[tuple[int, int], Spans] = {}
        if not isinstance(said, dict):
            self.fault(path, "days must be a table: 2026-12-24 = [\"08:00-12:00\"] say, or 12-25 = [] of each year")
            return dates, yearly
        for name, listed in said.items():
            spans = self.spans((*path, name), listed)
            try:
                # 2000 has a 29th of February
                day = datetime.date.fromisoformat(name if len(name) == 10 else f"2000-{name}")
            except ValueError:
                self.fault((*path, name), f"{name} must be a day, 2026-12-24 say, or 12-24 of each year")
                continue
            if len(name) == 10:
                dates[day] = spans
            else:
                yearly[day.month, day.day] = spans
        return dates, yearly

    def calendar(self, path: Place, name: Any) -> tuple[Closing, ...]:
        if not isinstance(name, str) or not name.startswith("/"):
            self.fault(path, "calendar must be a file's name that begins with /")
            return ()
        if name not in self.calendars:
            self.calendars[name] = ()
            try:
                found, ignored = hours.closings_of(Path(name))
                self.calendars[name] = tuple(found)
                self.ignored += ignored
            except Fault as fault:
                self.fault(path, str(fault))
        return self.calendars[name]


# The file

class Read(NamedTuple):
    """What a file says, what is wrong in it, and what is ignored; each as a line."""
    rules: Rules
    text: str
    faults: list[str]
    ignored: list[str]


def read(file: Path, login: str) -> Read:
    """Raises Fault where there is no file. With a fault its rules aren't whole."""
    try:
        text = file.read_text()
        said = tomllib.loads(text)
    except OSError as fault:
        raise Fault(f"{file} can't be read: {fault.strerror}", status=REFUSED) from None
    except ValueError as fault:
        return Read({}, "", [f"{file}: {fault}"], [])
    reader = Reader()
    rules = reader.rules(said)
    faults = [*reader.wrong, *long_names(rules, login)]
    return Read(rules, text, located(file, text, faults), [f"{line}" for line in reader.ignored])


def long_names(rules: Rules, login: str) -> Iterator[Wrong]:
    """Rules of which no requester has room in those 32 signs."""
    room = LONGEST - len(login) - 1 - OF_TRY
    for group, has in rules.items():
        for rule in has.rules:
            if len(rule.name) > room:
                yield Wrong(("groups", group), f"the rule's name {rule.name} must have {room} signs at most, since its "
                                               f"requesters begin with {login}; give it another one (name = \"..\")")


def located(file: Path, text: str, wrong: list[Wrong]) -> list[str]:
    """Faults as lines, in the order of the file, each once."""
    lines = {(line_of(text, one.path) if one.path else 0, one.text) for one in wrong}
    return [f"{file}, line {line}: {said}" if line else f"{file}: {said}" for line, said in sorted(lines)]
