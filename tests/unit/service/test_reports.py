"""Tests of the reports of weeks: what they have to the byte, in which form, and when they are written."""
import csv
import datetime
import io
import re
import subprocess
import unittest

import recorded_ground as days
import service_ground as ground
from acd_service import reports
from acd_service.office import Office, office

TUESDAY = datetime.date(2026, 12, 1)
REPORT = """\
Report of the week,2026-W48,2026-11-23 – 2026-11-29,Hotline Nord\r
Days without records,2026-11-25,2026-11-26,2026-11-27,2026-11-28,2026-11-29\r
\r
Group,Number,Entered,Answered,Abandoned,"Lost, %",Moved,In time,Speed of answer,Longest wait,Handling time,Closed\r
Rechnung,100,8,6,2,25,1,57.14,17,50,97,1\r
'=Help,'0110,3,2,0,0,0,100,3,4,45,0\r
Together,,11,8,2,20,1,66.67,13,50,84,1\r
\r
Day,Entered,Answered,Abandoned,"Lost, %",Moved,In time,Speed of answer,Longest wait,Handling time,Closed\r
2026-11-23,10,7,2,22.22,1,75,8,25,87,1\r
2026-11-24,1,1,0,0,0,0,50,50,60,0\r
2026-11-25,,,,,,,,,,\r
2026-11-26,,,,,,,,,,\r
2026-11-27,0,0,0,,0,,,,,0\r
2026-11-28,,,,,,,,,,\r
2026-11-29,,,,,,,,,,\r
Together,11,8,2,20,1,66.67,13,50,84,1\r
\r
Agent,Number,Days,Calls,Logged on,Ready,Talk,After-call work,Not ready,Occupancy,Rings,Not answered,Refused,Hung up\r
Ana,7,2,6,7200,3600,2400,600,600,45.45,18,2,4,6\r
Ben,'08,1,0,600,600,0,0,0,0,0,0,0,0\r
Together,,2,6,7800,4200,2400,600,600,41.67,18,2,4,6\r
"""


class Reports(ground.Case):
    def setUp(self):
        super().setUp()
        days.week(self.folder)
        self.place = self.folder / "reports/2026-W48.csv"

    def test_a_report(self):
        self.assertEqual(reports.write(self.folder, Office(title="Hotline Nord"), TUESDAY), 1)
        self.assertEqual(self.place.read_bytes().decode(), "\ufeff" + REPORT)
        self.assertEqual((self.place.stat().st_mode & 0o777, self.place.parent.stat().st_mode & 0o777), (0o640, 0o750))

    def test_in_the_offices_form(self):
        names = {"groups": {"100": "Störung"}, "agents": {"7": "Jürgen"}}
        reports.write(self.folder, Office(names, {"level": "answered"}, language="de"), TUESDAY)
        found = list(csv.reader(io.StringIO(self.place.read_text(encoding="utf-8-sig")), delimiter=";"))
        self.assertEqual(found[3:5], [["Gruppe", "Nummer", "Gekommen", "Angenommen", "Aufgegeben", "Verlust, %", "Verlegt", "Rechtzeitig", "Wartezeit Ø", "Längstes Warten", "Bearbeitung Ø", "Geschlossen"],
                                      ["Störung", "100", "8", "6", "2", "25", "1", "66,67", "17", "50", "97", "1"]])
        self.assertIn(["Jürgen", "7", "2", "6", "7200", "3600", "2400", "600", "600", "45,45", "18", "2", "4", "6"], found)
        # whoever has words of another language reads English ones, in that language's form
        reports.write(self.folder, Office(language="fr"), TUESDAY)
        self.assertIn("\r\nTogether;;11;8;2;20;1;66,67;13;50;84;1\r\n", self.place.read_text(encoding="utf-8-sig").replace("\n", "\r\n"))

    def test_when(self):
        """Of the last week that is over, and again only where it differs."""
        for day, wanted in (((2026, 11, 29), []), ((2026, 11, 30), ["2026-W48.csv"]), ((2026, 12, 6), ["2026-W48.csv"]), ((2026, 12, 7), [])):
            reports.write(self.folder, Office(), datetime.date(*day))
            self.assertEqual([file.name for file in self.folder.glob("reports/*")], wanted, day)
            for file in self.folder.glob("reports/*"):
                file.unlink()
        self.assertEqual([reports.write(self.folder, Office(), TUESDAY) for _ in range(2)], [1, 0])
        days.lay(self.folder, "groups", "2026-11-28", days.TUESDAY.replace("11-24", "11-28"))
        self.assertEqual([reports.write(self.folder, Office(), TUESDAY) for _ in range(2)], [1, 0])
        self.assertNotIn("2026-11-28,,", self.place.read_text())

    def test_a_week_without_groups(self):
        for file in self.folder.glob("groups/*"):
            file.unlink()
        reports.write(self.folder, Office(), TUESDAY)
        text = self.place.read_text(encoding="utf-8-sig")
        self.assertEqual(("\nGroup" in text, "\nAgent" in text), (False, True))

    def test_the_offices_settings(self):
        for said, wanted in (('{"language":"de","title":"Nord","limits":{"level":"answered"}}', ("de", "Nord", True)), ('{"language":"Deutsch","limits":{"level":"all"}}', ("en", "", False)), ("[]", ("en", "", False)),
                             ('{"language":3,"title":4}', ("en", "4", False))):
            (self.folder / "board.json").write_text(said)
            found = office(self.folder / "board.json", str)
            self.assertEqual((found.language, found.title, found.counts_answered_alone), wanted, said)

    def test_by_mail(self):
        """The line of cron in docs/EVERY-DAY.md, on a Monday: cron makes % of \\%, and gives the rest to a shell."""
        page = (ground.TOP / "docs/EVERY-DAY.md").read_text()
        line = re.search(r"^    30 7 \* \* 1  root  (.*)$", page, re.MULTILINE)[1].replace("\\%", "%").replace("/var/lib/acd-records", str(self.folder))
        programs = self.folder / "programs"
        programs.mkdir()
        for name, text in (("date", 'exec /bin/date -d "2026-11-30 yesterday" "$3"'), ("mail", f"{{ printf '%s\\n' \"$@\"; cat; }} > {self.folder}/sent")):
            (programs / name).write_text(f"#!/bin/sh\n{text}\n")
            (programs / name).chmod(0o755)

        def run():
            subprocess.run(["/bin/sh", "-c", line], env={"PATH": f"{programs}:/usr/bin:/bin"}, timeout=20)

        run()
        self.assertFalse((self.folder / "sent").exists())
        reports.write(self.folder, Office(), TUESDAY)
        run()
        self.assertEqual((self.folder / "sent").read_text(), f"-s\nHelp line, 2026-W48\n-A\n{self.place}\noffice@desk.example\nThe report is attached.\n")

    def test_words(self):
        """They are the pages' own."""
        english = "".join((ground.TOP / "board" / name).read_text().partition(f"{word}(`")[2].partition("`);")[0]
                          for name, word in (("words.js", "ENGLISH = keyed"), ("records/words.js", "addWords")))
        area, said = "", {}
        for line in english.splitlines():
            into, word = re.fullmatch(r"\[(.*)\]", line), re.fullmatch(r"(.*?): (.*)", line)
            area = f"{into[1]}." if into else area
            if word and not into:
                said[area + word[1]] = word[2]
        german = (ground.TOP / "board/words/de.js").read_text()
        for key, text in reports.ENGLISH.items():
            if key not in ("report.title", "records.missing"):
                self.assertEqual(said[key], text, key)
                name, word = key.partition(".")[2], reports.GERMAN[key]
                self.assertRegex(german, rf"[ {{]{name}: '{re.escape(word)}'[,}}]", key)
        self.assertEqual(reports.ENGLISH.keys(), reports.GERMAN.keys())


if __name__ == "__main__":
    unittest.main()
