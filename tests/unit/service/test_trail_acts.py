"""Of the gate's acts in the trail: their lines, their order among the requests, which are found, and where they are read."""
import contextlib
import csv
import io
import json
import os
import unittest
from unittest import mock

import service_ground as ground
from acd_service import gate_state, reach, settings, trail
from service_ground import said

LINES = ground.PLAN + ground.arrives(1, moment=1000) + ground.arrives(2, "0305678", moment=2000)
ACTS = [{"number": 1, "moment": 500, "login": "chef", "act": "giveName", "agent": "7", "name": "Jürgen \"J\" Müller"},
        {"number": 2, "moment": 1000, "login": "chef", "act": "giveLogin", "of": "anna", "role": "agent", "agent": "7", "groups": ["100", "110"]},
        {"number": 3, "moment": 1500, "login": "anna", "act": "changePassword"},
        {"number": 4, "moment": 2500, "login": "chef", "act": "endLogin", "of": "anna"},
        {"number": 5, "moment": 2500, "login": "chef", "act": "notDone", "number_of": 4}]
JOURNAL = "".join(json.dumps(act) + "\n" for act in ACTS)
# by hand, in Universal Time
WANTED = """\
-  plan  addGroup device 100, name "Billing", ring 20, wrap 30: done  (#1, invoke 1)
-  plan  addStation device 201: done  (#2, invoke 2)
-  plan  addAgent agent 7, name "Ana": done  (#3, invoke 3)
1970-01-01 00:08:20  chef  giveName agent 7, name "Jürgen \\"J\\" Müller": done  (act 1)
1970-01-01 00:16:40  pbx  arriveCall caller 0301234, called 100: call 1  (#4, invoke 1)
1970-01-01 00:16:40  chef  giveLogin of anna, role agent, agent 7, groups 100 110: done  (act 2)
1970-01-01 00:25:00  anna  changePassword: done  (act 3)
1970-01-01 00:33:20  pbx  arriveCall caller 0305678, called 100: call 2  (#5, invoke 2)
1970-01-01 00:41:40  chef  endLogin of anna: done  (act 4)
1970-01-01 00:41:40  chef  notDone number of 4: done  (act 5)
"""


class ActsTest(ground.Case):
    def setUp(self):
        super().setUp()
        self.desk(LINES)
        os.environ["TZ"] = "UTC"
        self.enterContext(mock.patch.object(settings, "FILE", self.folder / "acd.env"))
        self.gate = self.folder / "machine"
        self.gate.mkdir()
        self.enterContext(mock.patch.object(gate_state, "FOLDER", self.gate))

    def told(self, *words, status=0):
        done = said("trail", "--file", self.file, *words)
        self.assertEqual((done.status, done.faults), (status, ""), done)
        return done.out

    def write(self, folder, text=JOURNAL):
        folder.mkdir(exist_ok=True)
        (folder / "acts").write_text(text)

    def acts(self, *words):
        return [line.rpartition("(act ")[2].rstrip(")") for line in self.told(*words).splitlines() if "(act " in line]

    def test_in_order(self):
        self.write(self.home / "gate")
        self.assertEqual(self.told(), WANTED)

    def test_where_they_are(self):
        self.assertEqual(self.acts(), [])
        self.write(self.gate)
        self.assertEqual(self.acts(), [])  # of another desk
        with mock.patch.object(settings, "desk_file", lambda: str(self.file)):
            self.assertEqual(len(self.acts()), 5)
        self.assertEqual(len(self.acts("--own", self.gate)), 5)
        done = said("trail", "--file", self.file, "--own", self.home)
        self.assertEqual((done.status, "has no journal of acts" in done.faults), (1, True))

    def test_which_are_found(self):
        self.write(self.home / "gate")
        for words, found in ((("--requester", "chef"), "1245"), (("--requester", "anna"), "234"), (("--service", "endLogin"), "4"), (("--agent", "7"), "12"), (("--device", "110"), "2"),
                             (("--device", "999"), ""), (("--call", "1"), ""), (("--stamp", "4"), ""), (("--invoke", "1"), ""), (("--since", "1970-01-01T00:25", "--until", "1970-01-01T00:30"), "3"),
                             (("--at", "1970-01-01T00:16"), "2")):
            self.assertEqual("".join(self.acts(*words)), found, words)

    def test_a_table(self):
        self.write(self.home / "gate")
        rows = list(csv.DictReader(io.StringIO(self.told("--csv"))))
        self.assertEqual(list(rows[0])[-4:], ["act", "of", "role", "stations"])
        self.assertEqual({name: value for name, value in rows[5].items() if value},
                         {"when": "1970-01-01 00:16:40", "requester": "chef", "service": "giveLogin", "agent": "7", "groups": "100 110", "outcome": "done", "act": "2", "of": "anna", "role": "agent"})
        self.assertNotIn("role", self.told("--csv", "--stamp", "4"))

    def test_a_journal_that_was_spoiled(self):
        self.write(self.home / "gate", JOURNAL.splitlines(keepends=True)[1] + '{"number":2\n' + json.dumps({**ACTS[1], "of": "x\ny", "role": 7, "groups": ["1\x1b[2J"]}) + "\n")
        text = self.told("--service", "giveLogin")
        self.assertEqual((text.count("\n"), "\x1b" in text), (2, False), text)

    def test_by_a_login(self):
        class Desk:
            def __init__(self, *pages):
                self.pages, self.asked = list(pages), []

            def attempt(self, method, path):
                self.asked.append(path)
                status, body = self.pages.pop(0)
                return mock.Mock(status=status, body=body)

        from acd_service import trail_acts
        desk = Desk((200, {"acts": ACTS[:3], "last": 5}), (200, {"acts": ACTS[3:], "last": 5}))
        found = trail_acts.found(None, "https://desk.example:8443", desk, None)
        self.assertEqual(([act.number for act in found], desk.asked), ([1, 2, 3, 4, 5], ["/acts?after=0", "/acts?after=3"]))
        for pages in ([(404, {})], [(200, {"acts": [], "last": 9})], [(200, {"acts": [{"number": "x"}], "last": 9})]):
            self.assertEqual(trail_acts.found(None, "https://desk.example:8443", Desk(*pages), None), [])
        self.write(self.gate)
        self.assertEqual(len(trail_acts.found(None, "unix:/run/acd/desk.sock", Desk(), None)), 5)
        with contextlib.suppress(AttributeError):
            self.assertTrue(reach.SOON and trail.ACTS)


if __name__ == "__main__":
    unittest.main()
