"""When a group is open: by weekday in a zone, with days that differ. Tested, not proved.

A time of day is what the zone's clocks show, so hours keep to them where these are put forward or back."""
import datetime
import functools
import importlib
from collections.abc import Mapping
from dataclasses import dataclass, field
from pathlib import Path
from typing import Any, NamedTuple
from zoneinfo import ZoneInfo

from acd_service.command import Fault

PACKAGE = "python3-icalendar"
DAY = datetime.timedelta(days=1)


class Span(NamedTuple):
    """Minutes of a day from midnight, the last one not in it: 0 to 1440."""
    begin: int
    end: int


Spans = tuple[Span, ...]


class Closing(NamedTuple):
    """A whole-day event of a calendar: its first day, how many days it lasts, its rule as RFC 5545 has it (empty where
    it comes once), and the days on which it doesn't begin all the same."""
    first: datetime.date
    days: int
    rule: str
    but: frozenset[datetime.date]

    def has(self, day: datetime.date) -> bool:
        earliest = day - (self.days - 1) * DAY
        if not self.rule:
            return earliest <= self.first <= day and self.first not in self.but
        return any(begin.date() not in self.but for begin in
                   recurring(self.rule, self.first).between(midnight(earliest), midnight(day), inc=True))


def midnight(day: datetime.date) -> datetime.datetime:
    return datetime.datetime.combine(day, datetime.time())


@functools.cache
def recurring(rule: str, first: datetime.date) -> Any:
    """The moments of a rule of RFC 5545, section 3.3.10."""
    return importlib.import_module("dateutil.rrule").rrulestr(rule, dtstart=midnight(first), cache=True)


@dataclass(frozen=True)
class Hours:
    """`weekdays` has Monday first. Of the days that differ a date counts before a day of each year, and both before
    the calendar, on whose days the group is closed."""
    zone: ZoneInfo
    weekdays: tuple[Spans, ...]
    dates: Mapping[datetime.date, Spans] = field(default_factory=dict)
    yearly: Mapping[tuple[int, int], Spans] = field(default_factory=dict)
    closings: tuple[Closing, ...] = ()

    def of(self, day: datetime.date) -> Spans:
        """The hours of a day."""
        if day in self.dates:
            return self.dates[day]
        if (day.month, day.day) in self.yearly:
            return self.yearly[day.month, day.day]
        return () if any(closing.has(day) for closing in self.closings) else self.weekdays[day.weekday()]

    def is_open(self, moment: float) -> bool:
        """Whether the group is open at this moment, in seconds since 1970."""
        local = datetime.datetime.fromtimestamp(moment, self.zone)
        minute = 60 * local.hour + local.minute
        return any(span.begin <= minute < span.end for span in self.of(local.date()))


# Calendars

def closings_of(file: Path) -> tuple[list[Closing], list[str]]:
    """The whole-day events of an iCalendar file (RFC 5545), and what is ignored in it. Raises Fault where it can't be
    read."""
    try:
        icalendar = importlib.import_module("icalendar")
    except ModuleNotFoundError:
        raise Fault(f"{file} can't be read without Debian's {PACKAGE}, which isn't installed") from None
    try:
        events = icalendar.Calendar.from_ical(file.read_bytes()).walk("VEVENT")
    except OSError as fault:
        raise Fault(f"{file} can't be read: {fault.strerror}") from None
    except (ValueError, IndexError) as fault:
        raise Fault(f"{file} is no calendar: {fault}") from None
    found: list[Closing] = []
    ignored = []
    for event in events:
        if event.get("STATUS") == "CANCELLED":
            continue
        closing = closing_of(event)
        if closing:
            found.append(closing)
        else:
            ignored.append(f"{file}: '{event.get('SUMMARY', '')}' isn't an event of whole days that can be read, "
                           "and is ignored")
    return found, ignored


def closing_of(event: Any) -> Closing | None:
    """An event of whole days; None where it is another one, or has a rule that can't be read."""
    first = event.decoded("DTSTART", None)
    if not is_day(first):
        return None
    last, lasts = event.decoded("DTEND", None), event.decoded("DURATION", None)
    days = (last - first).days if is_day(last) else lasts.days if isinstance(lasts, datetime.timedelta) else 1
    rule = event.get("RRULE")
    text = rule.to_ical().decode() if rule is not None and not isinstance(rule, list) else ""
    try:
        if text:
            recurring(text, first)
    except ValueError:
        return None
    excluded = event.get("EXDATE")
    lists = excluded if isinstance(excluded, list) else [excluded] if excluded is not None else []
    but = frozenset(as_day(one.dt) for each in lists for one in each.dts)
    return None if isinstance(rule, list) or event.get("RDATE") else Closing(first, max(days, 1), text, but)


def is_day(value: object) -> bool:
    return isinstance(value, datetime.date) and not isinstance(value, datetime.datetime)


def as_day(value: datetime.date) -> datetime.date:
    return value.date() if isinstance(value, datetime.datetime) else value
