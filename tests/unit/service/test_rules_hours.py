"""When a group is open: by weekday, zone and days that differ, at each quarter of an hour of a year; and days of calendars."""
import collections
import datetime
import importlib.util
import sys
import tempfile
import unittest
import zoneinfo
from pathlib import Path
from unittest import mock

import service_ground as ground  # noqa: F401
from acd_service.command import Fault
from acd_service.rules import hours
from acd_service.rules.hours import Closing, Hours, Span

QUARTER, HOUR, DAY = 900, 3600, 86400
# 1 January 2028, 00:00 UTC, a Saturday; the year has a 29th of February. The changes of the clock in Berlin and in New York, as their laws have them
NEW_YEAR = 1830297600
BERLIN = (1, NEW_YEAR + 85 * DAY + HOUR, 2, NEW_YEAR + 302 * DAY + HOUR)          # 26 March and 29 October, 1:00 UTC
NEW_YORK = (-5, NEW_YEAR + 71 * DAY + 7 * HOUR, -4, NEW_YEAR + 309 * DAY + 6 * HOUR)    # 12 March, 7:00 UTC, and 5 November, 6:00 UTC
# the days before each month of that year
BEFORE = (0, 31, 60, 91, 121, 152, 182, 213, 244, 274, 305, 335, 366)
WEEK = (((8 * 60, 12 * 60), (13 * 60, 18 * 60)),) * 4 + (((8 * 60, 14 * 60 + 30),), (), ((0, 3 * 60), (22 * 60, 24 * 60)))


def local(moment, changes):
    """Month, day of the month, weekday (0 is Monday) and minute of the day that clocks there show, reckoned from the changes of the clock."""
    winter, begin, summer, end = changes
    seconds = moment - NEW_YEAR + HOUR * (summer if begin <= moment < end else winter)
    day, rest = divmod(seconds, DAY)
    if not 0 <= day < 366:
        return (12, 31, 4, rest // 60) if day < 0 else (1, 1, 0, rest // 60)
    month = max(number for number in range(12) if BEFORE[number] <= day)
    return month + 1, day - BEFORE[month] + 1, (day + 5) % 7, rest // 60


def spans(*pairs):
    return tuple(Span(*pair) for pair in pairs)


class Year(unittest.TestCase):
    def setUp(self):
        self.differ = {(3, 26): ((60, 240),), (10, 29): ((120, 180),), (2, 29): ((600, 660),), (12, 25): (), (12, 26): ()}
        self.hours = {name: Hours(zoneinfo.ZoneInfo(name), tuple(spans(*day) for day in WEEK), {datetime.date(2028, 3, 26): spans((60, 240)), datetime.date(2028, 10, 29): spans((120, 180))},
                                  {(2, 29): spans((600, 660)), (12, 25): (), (12, 26): ()}) for name in ("Europe/Berlin", "America/New_York")}

    def test_each_quarter_of_an_hour(self):
        for name, changes in (("Europe/Berlin", BERLIN), ("America/New_York", NEW_YORK)):
            opened, found = 0, self.hours[name]
            for moment in range(NEW_YEAR, NEW_YEAR + 366 * DAY, QUARTER):
                month, day, weekday, minute = local(moment, changes)
                wanted = any(begin <= minute < end for begin, end in self.differ.get((month, day), WEEK[weekday]))
                opened += wanted
                if found.is_open(moment) != wanted:
                    self.fail(f"{name}: {moment}, {month}-{day} {minute // 60}:{minute % 60:02}")
            self.assertGreater(opened, 5000)

    def test_the_edges_of_a_span(self):
        """The second at which it opens is in it, the one at which it closes isn't; on 3 January 2028, a Monday."""
        begin = NEW_YEAR + 2 * DAY + 7 * HOUR
        found = self.hours["Europe/Berlin"]
        self.assertEqual([found.is_open(begin + seconds) for seconds in (-1, 0, 4 * HOUR - 1, 4 * HOUR, 5 * HOUR - 1, 5 * HOUR)], [False, True, True, False, False, True])

    def test_an_hour_that_comes_twice_and_one_that_never_comes(self):
        found = self.hours["Europe/Berlin"]
        # 29 October: open from 2:00 to 3:00, which clocks show twice
        self.assertEqual([found.is_open(BERLIN[3] + hour * HOUR) for hour in (-2, -1, 0, 1)], [False, True, True, False])
        # 26 March: open from 1:00 to 4:00, of which an hour never comes
        self.assertEqual([found.is_open(BERLIN[1] + hour * HOUR) for hour in (-2, -1, 0, 1)], [False, True, True, False])

    def test_which_days_count_before_others(self):
        day = datetime.date(2028, 12, 25)
        found = Hours(zoneinfo.ZoneInfo("UTC"), (spans((0, 1)),) * 7, {day: spans((1, 2))}, {(12, 25): spans((2, 3)), (12, 26): spans((3, 4))},
                      (Closing(day, 3, "", frozenset()),))
        self.assertEqual([found.of(day + days * hours.DAY) for days in range(-1, 4)], [spans((0, 1)), spans((1, 2)), spans((3, 4)), (), spans((0, 1))])


CALENDAR = """BEGIN:VCALENDAR
VERSION:2.0
PRODID:-//office//EN
{}END:VCALENDAR
"""


def event(*lines):
    return "".join(f"{line}\n" for line in ("BEGIN:VEVENT", "UID:1", "SUMMARY:A day", *lines, "END:VEVENT"))


class Event(dict):
    """An event as the library of calendars hands it out, of values that are read already."""
    def decoded(self, name, default):
        return self.get(name, default)


Moment = collections.namedtuple("Moment", "dt")
Excluded = collections.namedtuple("Excluded", "dts")


class Calendars(unittest.TestCase):
    def setUp(self):
        self.file = Path(self.enterContext(tempfile.TemporaryDirectory())) / "office.ics"

    def test_without_the_package(self):
        self.file.write_text(CALENDAR)
        with mock.patch.dict(sys.modules, {"icalendar": None}), self.assertRaisesRegex(Fault, "can't be read without Debian's python3-icalendar"):
            hours.closings_of(self.file)

    def days(self, *events):
        """The days of 2027 and 2028 on which it is closed, and what is ignored."""
        self.file.write_text(CALENDAR.format("".join(events)))
        found, ignored = hours.closings_of(self.file)
        begin = datetime.date(2027, 1, 1)
        return [f"{day}" for day in (begin + number * hours.DAY for number in range(731)) if any(closing.has(day) for closing in found)], ignored

    def test_an_event_that_comes_once(self):
        first = datetime.date(2027, 12, 24)
        for fields, wanted in (({}, [0]), ({"DTEND": first + 3 * hours.DAY}, [0, 1, 2]), ({"DURATION": 2 * hours.DAY}, [0, 1]),
                               ({"DTEND": first}, [0]), ({"EXDATE": Excluded([Moment(first)])}, []),
                               ({"EXDATE": [Excluded([Moment(first - hours.DAY)]), Excluded([Moment(datetime.datetime(2027, 12, 24, 8))])]}, []),
                               ({"EXDATE": Excluded([Moment(first + hours.DAY)]), "DTEND": first + 2 * hours.DAY}, [0, 1])):
            with self.subTest(fields):
                closing = hours.closing_of(Event({"DTSTART": first, **fields}))
                self.assertEqual([days for days in range(-2, 5) if closing.has(first + days * hours.DAY)], wanted)

    def test_an_event_of_no_whole_days(self):
        first = datetime.date(2027, 12, 24)
        for fields in ({}, {"DTSTART": datetime.datetime(2027, 12, 24, 8)}, {"DTSTART": first, "RDATE": [first]}, {"DTSTART": first, "RRULE": ["FREQ=YEARLY", "FREQ=DAILY"]}):
            with self.subTest(fields):
                self.assertIsNone(hours.closing_of(Event(fields)))

    @unittest.skipUnless(importlib.util.find_spec("icalendar"), "there is no icalendar (Debian package python3-icalendar)")
    def test_whole_days(self):
        for lines, wanted in ((["DTSTART;VALUE=DATE:20270101"], ["2027-01-01"]), (["DTSTART;VALUE=DATE:20270101", "DTEND;VALUE=DATE:20270103"], ["2027-01-01", "2027-01-02"]),
                              (["DTSTART;VALUE=DATE:20270101", "DURATION:P2D"], ["2027-01-01", "2027-01-02"]), (["DTSTART;VALUE=DATE:20270101", "STATUS:CANCELLED"], []),
                              (["DTSTART;VALUE=DATE:20201225", "RRULE:FREQ=YEARLY"], ["2027-12-25", "2028-12-25"]),
                              (["DTSTART;VALUE=DATE:20240229", "RRULE:FREQ=YEARLY"], ["2028-02-29"]),
                              (["DTSTART;VALUE=DATE:20201224", "DTEND;VALUE=DATE:20201226", "RRULE:FREQ=YEARLY", "EXDATE;VALUE=DATE:20271224"], ["2028-12-24", "2028-12-25"])):
            with self.subTest(lines):
                self.assertEqual(self.days(event(*lines)), (wanted, []))

    @unittest.skipUnless(importlib.util.find_spec("icalendar"), "there is no icalendar (Debian package python3-icalendar)")
    def test_what_is_ignored(self):
        told = [f"{self.file}: 'A day' isn't an event of whole days that can be read, and is ignored"]
        for lines in (["DTSTART:20270101T100000Z"], ["DTSTART;VALUE=DATE:20270101", "RDATE;VALUE=DATE:20270102"],
                      ["DTSTART;VALUE=DATE:20270101", "RRULE:FREQ=YEARLY;UNTIL=20280101T000000Z;COUNT=2"]):
            with self.subTest(lines):
                self.assertEqual(self.days(event(*lines)), ([], told))

    @unittest.skipUnless(importlib.util.find_spec("icalendar"), "there is no icalendar (Debian package python3-icalendar)")
    def test_files_that_are_none(self):
        with self.assertRaisesRegex(Fault, "office.ics can't be read: No such file"):
            hours.closings_of(self.file)
        self.file.write_text("no calendar")
        with self.assertRaisesRegex(Fault, "office.ics is no calendar"):
            hours.closings_of(self.file)


if __name__ == "__main__":
    unittest.main()
