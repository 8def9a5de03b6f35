"""Tests of what adds up files of days: each way of lines, the days that aren't added, and files that change."""
import datetime
import unittest
from unittest import mock

import recorded_ground as days
import service_ground as ground
from acd_service import recorded
from acd_service.recorded import Asked, Files, added

MONDAY = datetime.date(2026, 11, 23)
SUNDAY = datetime.date(2026, 11, 29)


class Recorded(ground.Case):
    def setUp(self):
        super().setUp()
        days.week(self.folder)
        self.files = Files(self.folder)

    def told(self, kind="groups", by="day", since=MONDAY, until=SUNDAY, of=(), led=None):
        return added(self.files, Asked(kind, since, until, by, frozenset(of), None if led is None else frozenset(led)))

    def lines(self, *members, **asked):
        """Of each line its key, the days in it, and what these members are; of a line without days nothing more."""
        return [(line["key"], line["days"], *(line[name] for name in members if line["days"])) for line in self.told(**asked).lines]

    def test_all_together(self):
        found = self.told().all
        self.assertEqual({name: found[name] for name in ("days", "entered", "answered", "abandoned", "moved", "in_time", "abandoned_late", "waited", "longest", "handled", "handling", "closed")},
                         {"days": 3, "entered": 11, "answered": 8, "abandoned": 2, "moved": 1, "in_time": 6, "abandoned_late": 1, "waited": 106, "longest": 50, "handled": 8, "handling": 670, "closed": 1})
        self.assertEqual({name: found[name] for name in ("level", "level_of_answered", "lost", "average_wait", "average_handling", "level_by_stay", "level_of_answered_by_stay")},
                         {"level": 6 / 9, "level_of_answered": 6 / 8, "lost": 2 / 10, "average_wait": 106 / 8, "average_handling": 670 / 8, "level_by_stay": 6 / 9, "level_of_answered_by_stay": 6 / 8})
        self.assertIsNone(found["most_waiting"])

    def test_days_that_are_not_added(self):
        found = self.told()
        self.assertEqual((found.missing, found.others, found.unread), (["2026-11-28", "2026-11-29"], ["2026-11-25"], ["2026-11-26"]))
        self.assertEqual(self.lines("entered"), [("2026-11-23", 1, 10), ("2026-11-24", 1, 1), ("2026-11-25", 0), ("2026-11-26", 0), ("2026-11-27", 1, 0), ("2026-11-28", 0), ("2026-11-29", 0)])
        days.lay(self.folder / "by-stay", "groups", "2026-11-28", days.TUESDAY)
        self.assertEqual(self.told().others, ["2026-11-25", "2026-11-28"])
        days.lay(self.folder, "groups", "2026-11-28", days.TUESDAY.replace(",2\n", ",3\n"))
        self.assertEqual((self.told().others, self.told().all["days"]), (["2026-11-25", "2026-11-28"], 3))

    def test_a_day_in_which_nothing_was(self):
        line = self.told(since=datetime.date(2026, 11, 27)).lines[0]
        self.assertEqual([line[name] for name in ("entered", "level", "lost", "average_wait", "longest", "most_waiting")], [0, None, None, None, None, 0])

    def test_lines(self):
        self.assertEqual(self.lines("entered", "longest", "most_waiting", by="hour"), [("09", 3, 11, 50, None), ("10", 3, 0, None, 2)])
        self.assertEqual(self.lines("entered", by="weekday"), [("1", 1, 10), ("2", 1, 1), ("3", 0), ("4", 0), ("5", 1, 0), ("6", 0), ("7", 0)])
        self.assertEqual(self.lines("entered", by="weekday-hour"), [("1 09", 1, 10), ("1 10", 1, 0), ("2 09", 1, 1), ("2 10", 1, 0), ("5 09", 1, 0), ("5 10", 1, 0)])
        self.assertEqual(self.lines("entered", "average_wait", "most_waiting", by="each"), [("100", 3, 8, 100 / 6, 3), ("0110", 3, 3, 3.0, 1)])
        self.assertEqual(self.lines("entered", by="week", until=datetime.date(2026, 12, 1)), [("2026-W48", 3, 11), ("2026-W49", 0)])
        self.assertEqual(self.lines("entered", by="month", until=datetime.date(2026, 12, 1)), [("2026-11", 3, 11), ("2026-12", 0)])

    def test_an_hour_between_others(self):
        days.lay(self.folder, "groups", "2026-11-24", days.TUESDAY + days.TUESDAY.replace("09:30", "12:00"))
        self.assertEqual(self.lines("entered", by="hour", since=MONDAY, until=datetime.date(2026, 11, 24)), [("09", 2, 11), ("10", 2, 0), ("11", 2, 0), ("12", 2, 1)])

    def test_the_last_week_of_a_year(self):
        """A week belongs to the year in which its Thursday is."""
        self.assertEqual([recorded.week_of(datetime.date(*day)) for day in ((2026, 12, 31), (2027, 1, 3), (2027, 1, 4), (2024, 12, 30))], ["2026-W53", "2026-W53", "2027-W01", "2025-W01"])

    def test_what_is_chosen(self):
        self.assertEqual(self.lines("entered", "most_waiting", of=["0110"])[:2], [("2026-11-23", 1, 3, 1), ("2026-11-24", 1, 0, 0)])
        self.assertEqual((self.told(of=["0110"]).limits, self.told().limits, self.told(of=["0110"]).names), ([30.0], [20.0, 30.0], {"100": "Rechnung", "0110": "=Help"}))
        self.assertEqual(self.told(of=["999"]).all["entered"], 0)

    def test_a_leads_groups(self):
        found = self.told(led=["0110"], by="each")
        self.assertEqual(([line["key"] for line in found.lines], found.all["entered"], found.names), (["0110"], 3, {"0110": "=Help"}))
        self.assertEqual(self.told(led=["0110"], of=["100"], by="each").lines, [])
        # an agent's line is read who served one of these groups
        self.assertEqual(self.lines("calls", kind="agents", by="each", led=["0110"]), [("7", 2, 6)])
        self.assertEqual(self.lines("ready", kind="agents", by="each", led=["120"]), [("08", 1, 600)])

    def test_agents(self):
        self.assertEqual(self.lines("calls", "talking", "wrap_up", "ready", "occupancy", "rings", "rings_refused", kind="agents", by="each"),
                         [("7", 2, 6, 2400, 600, 3600, 3000 / 6600, 18, 4), ("08", 1, 0, 0, 0, 600, 0.0, 0, 0)])
        self.assertEqual(self.lines("logged_on", "average_talk", kind="agents", of=["7"])[:2], [("2026-11-23", 1, 3600, 400.0), ("2026-11-24", 1, 3600, 400.0)])

    def test_a_file_that_changes(self):
        """What is remembered is read again where the file is another one, and where it is gone no longer known."""
        with mock.patch.object(recorded, "read", wraps=recorded.read) as read:
            self.told(until=MONDAY)
            self.told(until=MONDAY)
            self.assertEqual(read.call_count, 1)
            days.lay(self.folder, "groups", "2026-11-23", days.TUESDAY)
            self.assertEqual((self.told(until=MONDAY).all["entered"], read.call_count), (1, 2))
        (self.folder / "groups/2026-11-23.csv").unlink()
        self.assertEqual(self.told(until=MONDAY).missing, ["2026-11-23"])

    def test_what_is_remembered(self):
        """Of too many the one goes that was asked for the longest ago."""
        self.files = Files(self.folder, most=4)
        for day in ("2026-11-23", "2026-11-24", "2026-11-24"):
            self.told(since=datetime.date.fromisoformat(day), until=datetime.date.fromisoformat(day))
        self.assertEqual((list(self.files.found), self.files.size), ([("groups", MONDAY), ("groups", datetime.date(2026, 11, 24))], 4))
        days.lay(self.folder, "groups", "2026-11-30", days.TUESDAY)
        self.told(since=datetime.date(2026, 11, 30), until=datetime.date(2026, 11, 30))
        self.assertEqual(([str(day) for _, day in self.files.found], self.files.size), (["2026-11-24", "2026-11-30"], 2))

    def test_a_file_that_is_too_long(self):
        with mock.patch.object(recorded, "MOST_BYTES", 200):
            self.assertEqual(self.told(until=MONDAY).unread, ["2026-11-23"])

    def test_files_that_are_none(self):
        for text in (b"", b"\xff\xfe\x00", b"formulas\n2\n", ("begin,group,formulas\n" + "x" * 9).encode()):
            (self.folder / "groups/2026-11-23.csv").write_bytes(text)
            found = self.told(until=MONDAY)
            self.assertEqual((found.all["days"], found.others + found.unread), (0, ["2026-11-23"]), text)

    def test_between_days(self):
        """Who asks may leave before each day."""
        asked = []
        added(self.files, Asked("groups", MONDAY, SUNDAY, "day"), lambda: asked.append(1))
        self.assertEqual(len(asked), 7)


if __name__ == "__main__":
    unittest.main()
