"""Of the gate's files of records: which days there are, and which lines a lead of some groups reads."""
import unittest

import service_ground as ground
from acd_service.gate import files

CALLS = "number,caller,groups\n1,'0301,100 '0110\n2,'0302,120\n3,'0303,\n4\n"


class Files(ground.Case):
    def put(self, name, data):
        place = self.folder / name
        place.parent.mkdir(exist_ok=True)
        place.write_bytes(data.encode())

    def test_days(self):
        for name in ("records/2026-11-28.csv", "records/2026-11-27.csv", "groups/2026-11-27.csv", "records/x.csv", "agents/2026-11-27.csv.new", "other/2026-11-27.csv"):
            self.put(name, "")
        self.assertEqual(files.days(self.folder), {"records": ["2026-11-27", "2026-11-28"], "agents": [], "groups": ["2026-11-27"]})
        (self.folder / "by-stay").mkdir()
        self.put("by-stay/groups/2026-10-27.csv", CALLS)
        self.assertEqual(files.days(self.folder), {"records": ["2026-11-27", "2026-11-28"], "agents": [], "groups": ["2026-11-27"], "by-stay/groups": ["2026-10-27"]})
        self.assertEqual(files.content(self.folder, "by-stay/groups/2026-10-27.csv", None), CALLS.encode())

    def test_a_whole_file(self):
        self.put("records/2026-11-28.csv", CALLS)
        self.assertEqual(files.content(self.folder, "records/2026-11-28.csv", None), CALLS.encode())

    def test_what_is_none(self):
        self.put("records/secret.csv", CALLS)
        self.put("other/2026-11-28.csv", CALLS)
        for name in ("records/2026-11-29.csv", "records/secret.csv", "other/2026-11-28.csv", "records/../other/2026-11-28.csv", "../2026-11-28.csv", ""):
            for groups in (None, {"100"}):
                self.assertIsNone(files.content(self.folder, name, groups))

    def test_the_lines_of_a_leads_groups(self):
        """A file for a spreadsheet has a mark, a quote before what it would change, and ends of its own."""
        for groups, lines in (({"100"}, "1,'0301,100 '0110\n"), ({"120", "9"}, "2,'0302,120\n"), ({"10"}, ""), (set(), "")):
            for mark, end in (("", "\n"), ("\ufeff", "\r\n")):
                self.put("records/2026-11-28.csv", f"{mark}{CALLS}".replace("\n", end))
                self.assertEqual(files.content(self.folder, "records/2026-11-28.csv", groups).decode(), f"{mark}number,caller,groups\n{lines}".replace("\n", end))
        self.put("groups/2026-11-28.csv", "\ufeffgroup,entered\n'0110,2\n100,3\n")
        self.assertEqual(files.content(self.folder, "groups/2026-11-28.csv", {"0110"}).decode(), "\ufeffgroup,entered\n'0110,2\n")

    def test_a_file_without_groups(self):
        """A lead reads nothing of it."""
        self.put("agents/2026-11-28.csv", "day,agent\n2026-11-28,7\n")
        self.put("agents/2026-11-27.csv", "")
        for day in ("2026-11-28", "2026-11-27"):
            self.assertIs(files.content(self.folder, f"agents/{day}.csv", {"100"}), False)


if __name__ == "__main__":
    unittest.main()
