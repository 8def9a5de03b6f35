"""rules.toml: what it says, and in which line something is wrong."""
import datetime
import importlib.util
import tempfile
import textwrap
import unittest
import zoneinfo
from pathlib import Path

import service_ground as ground
from acd_service.command import Fault
from acd_service.rules import reading
from acd_service.rules.hours import Span
from acd_service.rules.reading import Rule, When
from sections import section

WHOLE = """\
zone = "Europe/Berlin"

[hours]
mon-thu = ["08:00-12:00", "13:00-18:00"]
sat = ["09:00-24:00"]

[days]
2026-12-24 = ["08:00-12:00"]
12-25 = []
02-29 = ["10:00-11:00"]

[groups.100]
rules = [
    {when = "closed", to = "299"},
    {when = "nobody", seconds = 30, to = "110"},
    {when = "full", calls = 10, to = "110", name = "crowd"},
    {when = "long", seconds = 120, end = true},
]

[groups.110]
zone = "UTC"
hours = {sun = ["00:00-00:01"]}
days = {}
[[groups.110.rules]]
when = "closed"
end = true
"""


class Case(unittest.TestCase):
    def setUp(self):
        self.file = Path(self.enterContext(tempfile.TemporaryDirectory())) / "rules.toml"

    def read(self, text, login="rules"):
        self.file.write_text(text)
        found = reading.read(self.file, login)
        return found, [line.replace(f"{self.file}", "F") for line in found.faults]


class Whole(Case):
    def test_what_it_says(self):
        found, faults = self.read(WHOLE)
        self.assertEqual(faults, [])
        self.assertEqual(found.rules["100"].rules, (
            Rule("100-closed", "100", When.CLOSED, 0, "299"), Rule("100-nobody", "100", When.NOBODY, 30, "110"), Rule("crowd", "100", When.FULL, 10, "110"),
            Rule("100-long", "100", When.LONG, 120, None)))
        has = found.rules["100"].hours
        week = (Span(480, 720), Span(780, 1080))
        self.assertEqual((has.zone, has.weekdays), (zoneinfo.ZoneInfo("Europe/Berlin"), (week, week, week, week, (), (Span(540, 1440),), ())))
        self.assertEqual((has.dates, has.yearly), ({datetime.date(2026, 12, 24): (Span(480, 720),)}, {(12, 25): (), (2, 29): (Span(600, 660),)}))

    def test_a_group_of_its_own_hours(self):
        has = self.read(WHOLE)[0].rules["110"].hours
        self.assertEqual((has.zone.key, has.weekdays, has.dates, has.yearly), ("UTC", ((),) * 6 + ((Span(0, 1),),), {}, {}))

    def test_without_hours_a_group_isnt_closed(self):
        found, faults = self.read('[groups.100]\nrules = [{when = "long", seconds = 5, end = true}]\n')
        self.assertEqual((faults, found.rules["100"].hours, found.rules["100"].is_closed(0)), ([], None, False))

    def test_the_example_and_that_of_the_page(self):
        page = section((ground.TOP / "docs/EVERY-DAY.md").read_text(), "Close the line at night").partition("try-rules -->\n")[2].partition("\n   **")[0]
        for text, names in (((ground.SERVICE / "settings/rules.toml").read_text(), ["100-closed", "100-nobody", "100-full", "100-long"]), (textwrap.dedent(page), ["100-closed", "100-long"])):
            found, faults = self.read(text)
            self.assertEqual((faults, [rule.name for has in found.rules.values() for rule in has.rules]), ([], [*names, "110-closed"]))
            # 24 December 2026, a Thursday: at 11:59 and at 12:00 in Berlin; and 25 December 2028, a Monday, at 11:00
            self.assertEqual([found.rules["100"].is_closed(moment) for moment in (1798109940, 1798110000, 1861351200)], [False, True, True])


class Faults(Case):
    def told(self, text, *wanted, login="rules"):
        with self.subTest(text[-60:]):
            self.assertEqual(self.read(text, login)[1], list(wanted))

    def planted(self, old, new, *wanted):
        self.assertEqual(WHOLE.count(old), 1, old)
        self.told(WHOLE.replace(old, new), *wanted)

    def test_no_file(self):
        with self.assertRaisesRegex(Fault, "can't be read: No such file"):
            reading.read(self.file, "rules")

    def test_no_toml(self):
        self.told("zone = \n", "F: Invalid value (at line 1, column 8)")

    def test_no_groups(self):
        self.told("", "F: groups must be tables, [groups.100] say, one at least")
        self.told("\ngroups = 1", "F, line 2: groups must be tables, [groups.100] say, one at least")
        self.told("groups.100 = 1", "F, line 1: groups.100 must be a table")

    def test_names(self):
        self.planted("[hours]", "zones = 1\n[hours]", "F, line 3: no member is called zones; here are zone, calendar, hours, days, groups")
        self.planted('zone = "UTC"', "rule = 1", "F, line 21: no member is called rule; here are zone, calendar, hours, days, rules")
        self.planted("seconds = 30, ", "seconds = 30, calls = 1, ", "F, line 15: no member is called calls; here are when, seconds, to, end, name")
        self.planted("[groups.100]", "[groups.10x]", "F, line 12: 10x must be a group's number, 1 to 15 digits")

    def test_rules(self):
        why = "a rule must have to = \"110\", a group or a station, or end = true, and not both"
        self.planted('"nobody"', '"none"', "F, line 15: when must be closed, nobody, full, long")
        self.planted("seconds = 30", "seconds = 86401", "F, line 15: seconds must be a whole number from 0 to 86400")
        self.planted("seconds = 30, ", "", "F, line 15: seconds must be a whole number from 0 to 86400")
        self.planted("calls = 10", "calls = true", "F, line 16: calls must be a whole number from 0 to 2000")
        self.planted('seconds = 120, end = true', "seconds = 120", f"F, line 17: {why}")
        self.planted('seconds = 120, end = true', 'seconds = 120, end = true, to = "110"', f"F, line 17: {why}")
        self.planted('seconds = 120, end = true', 'seconds = 120, end = false', f"F, line 17: {why}")
        self.planted('"299"', "299", "F, line 14: to must be the number of a group or a station as a text, \"110\" say")
        self.planted('"299"', '"100"', "F, line 14: 100 is the group itself")
        self.planted('"crowd"', '"Crowd"', "F, line 16: name must be of a-z, 0-9 and single hyphens between them")
        self.planted('"crowd"', '"a--b"', "F, line 16: name must be of a-z, 0-9 and single hyphens between them")
        self.told("[groups.100]\n", "F, line 1: rules must be a list of tables, one at least")
        self.told("[groups.100]\nrules = [1]\n", "F, line 2: when must be closed, nobody, full, long")
        self.told('[groups.100]\nrules = [\n{when = "closed", end = true}]\n', "F, line 3: a rule of closed needs hours: of [groups.100.hours], or of [hours] for all groups")

    def test_names_that_are_there_twice(self):
        why = "2 rules are called 100-long; each must have a name of its own (name = \"..\")"
        self.planted('{when = "full", calls = 10, to = "110", name = "crowd"}', '{when = "long", seconds = 60, to = "110"}', f"F, line 16: {why}", f"F, line 17: {why}")

    def test_room_in_a_requester(self):
        """32 signs have room for a login of 15, a name of 12, a hyphen, and four signs of a try."""
        text = '[groups.100]\nrules = [{when = "long", seconds = 5, end = true, name = "%s"}]\n'
        self.told(text % "abcdefghijkl", login="abcdefghijklmno")
        self.told(text % "abcdefghijklm", "F, line 1: the rule's name abcdefghijklm must have 12 signs at most, since its requesters begin with abcdefghijklmno; give it another one "
                  "(name = \"..\")", login="abcdefghijklmno")

    def test_hours(self):
        self.planted('zone = "Europe/Berlin"', 'zone = "Europe/Nowhere"', "F, line 1: there is no zone Europe/Nowhere")
        self.planted('zone = "Europe/Berlin"\n', "", "F, line 2: hours need a zone, zone = \"Europe/Berlin\" say")
        self.planted('zone = "Europe/Berlin"', 'zone = "../x"', "F, line 1: there is no zone ../x")
        self.planted("mon-thu", "thu-mon", "F, line 4: thu-mon must be one of mon, tue, wed, thu, fri, sat, sun, or two of them in this order, mon-fri say")
        self.planted("mon-thu", "mo", "F, line 4: mo must be one of mon, tue, wed, thu, fri, sat, sun, or two of them in this order, mon-fri say")
        self.planted("mon-thu", "mon-sat", "F, line 5: sat has a day that another line has too")
        for text in ("18:00-13:00", "13:00-13:00", "13:00-24:01", "13-18", "25:00-26:00", "13:60-14:00"):
            self.planted("13:00-18:00", text, f"F, line 4: {text} must be two times of one day in their order, \"08:00-18:00\" say, 24:00 at most")
        self.planted('["09:00-24:00"]', '"09:00-24:00"', "F, line 5: hours of a day must be a list, [\"08:00-12:00\", \"13:00-18:00\"] say, or [] where it is closed")
        self.planted('[hours]\nmon-thu = ["08:00-12:00", "13:00-18:00"]\nsat = ["09:00-24:00"]\n', "hours = 1\n", "F, line 3: hours must be a table: mon-fri = [\"08:00-18:00\"] say")

    def test_days(self):
        self.planted("12-25", "12-32", "F, line 9: 12-32 must be a day, 2026-12-24 say, or 12-24 of each year")
        self.planted("2026-12-24", "2027-02-29", "F, line 8: 2027-02-29 must be a day, 2026-12-24 say, or 12-24 of each year")
        self.planted("days = {}", "days = 1", "F, line 23: days must be a table: 2026-12-24 = [\"08:00-12:00\"] say, or 12-25 = [] of each year")
        self.told('[groups.100]\ndays = {}\nrules = [{when = "long", seconds = 5, end = true}]\n', "F, line 2: days needs hours: on other days they count")

    @unittest.skipUnless(importlib.util.find_spec("icalendar"), "there is no icalendar (Debian package python3-icalendar)")
    def test_a_calendar_that_is_there(self):
        calendar = self.file.with_suffix(".ics")
        calendar.write_text("BEGIN:VCALENDAR\nVERSION:2.0\nPRODID:x\nBEGIN:VEVENT\nUID:1\nSUMMARY:A day\nDTSTART;VALUE=DATE:20270104\nEND:VEVENT\n"
                            "BEGIN:VEVENT\nUID:2\nSUMMARY:An hour\nDTSTART:20270105T080000Z\nEND:VEVENT\nEND:VCALENDAR\n")
        found, faults = self.read(WHOLE.replace("[hours]", f'calendar = "{calendar}"\n[hours]', 1))
        # Monday and Tuesday, 10:00 UTC
        self.assertEqual((faults, [found.rules["100"].is_closed(moment) for moment in (1799056800, 1799143200)]), ([], [True, False]))
        self.assertEqual(found.ignored, [f"{calendar}: 'An hour' isn't an event of whole days that can be read, and is ignored"])

    def test_calendars(self):
        self.planted("[hours]", "calendar = \"x.ics\"\n[hours]", "F, line 3: calendar must be a file's name that begins with /")
        self.planted("[hours]", "calendar = 1\n[hours]", "F, line 3: calendar must be a file's name that begins with /")
        found = self.read(WHOLE.replace("[hours]", "calendar = \"/none.ics\"\n[hours]", 1))[1]
        self.assertRegex("\n".join(found), r"\AF, line 3: /none.ics can't be read.*\Z")


if __name__ == "__main__":
    unittest.main()
