#!/usr/bin/python3
"""Tests of what the gate tells of records of several days.   usage: tests/unit/gate/test_sums.py

Needs python3-aiohttp, python3-passlib and python3-bcrypt (Debian packages)."""
import contextlib
import io
import json
import sys
import threading
import unittest
from pathlib import Path
from unittest import mock

from standing import FORBIDDEN, ROLES, DoorTest

from acd_service import recorded
from acd_service.gate.exchanges import Left, Question

sys.path.append(str(Path(__file__).resolve().parents[1] / "service"))
import recorded_ground as days  # noqa: E402

WEEK = "kind=groups&since=2026-11-23&until=2026-11-29&by=each"


class Sums(DoorTest):
    def setUp(self):
        super().setUp()
        self.records.mkdir(exist_ok=True)
        days.week(self.records)
        self.roles.write_text(ROLES.replace("lea lead reads=none groups=110,100", "lea lead groups=110,0110"))

    def sums(self, login, query):
        return self.ask(login, None, "GET", f"/records/sums?{query}")

    def told(self, login="planner", query=WEEK):
        status, text = self.sums(login, query)
        self.assertEqual(status, 200, text)
        return json.loads(text)

    def test_an_office(self):
        found = self.told()
        self.assertEqual({name: found[name] for name in ("kind", "since", "until", "by", "missing", "others", "unread", "limits", "names")},
                         {"kind": "groups", "since": "2026-11-23", "until": "2026-11-29", "by": "each", "missing": ["2026-11-28", "2026-11-29"], "others": ["2026-11-25"],
                          "unread": ["2026-11-26"], "limits": [20, 30], "names": {"100": "Rechnung", "0110": "=Help"}})
        self.assertEqual([(line["key"], line["days"], line["entered"], line["level"]) for line in found["lines"]], [("100", 3, 8, 4 / 7), ("0110", 3, 3, 1)])
        self.assertEqual((found["all"]["entered"], found["all"]["most_waiting"]), (11, None))
        self.assertEqual(self.told(query=WEEK + "&of=100,7")["all"]["entered"], 8)
        self.assertEqual(self.told(query=WEEK + "&of=")["all"]["entered"], 11)

    def test_a_lead(self):
        """The lines of the own groups alone, whatever is asked for."""
        for query in (WEEK, WEEK + "&of=0110"):
            self.assertEqual([line["key"] for line in self.told("lea", query)["lines"]], ["0110"])
        self.assertEqual((self.told("lea", WEEK + "&of=100")["lines"], self.told("lea")["names"]), ([], {"0110": "=Help"}))
        self.assertEqual([line["key"] for line in self.told("lea", WEEK.replace("groups", "agents"))["lines"]], ["7"])

    def test_who_may_not(self):
        for login in ("pbx", "ana", "sup", "blind", "Copy.2", "nobody"):
            self.assertEqual(self.sums(login, WEEK), FORBIDDEN, login)
        self.roles.write_text(ROLES.replace("planner office", "planner office reads=none"))
        self.assertEqual(self.sums("planner", WEEK), FORBIDDEN)

    def test_what_is_no_question(self):
        for query in ("", "kind=groups", WEEK + "&of=x", WEEK + "&of=1,,2", WEEK + "&of=" + ",".join(["1"] * 65), WEEK + "&more=1", WEEK + "&by=day", WEEK.replace("groups", "records"),
                      WEEK.replace("groups", "agents").replace("each", "hour"), WEEK.replace("each", "year"), WEEK.replace("11-29", "11-22"), WEEK.replace("2026-11-29", "2027-11-24"),
                      WEEK.replace("2026-11-29", "2026-11-31"), WEEK.replace("2026-11-23", "20261123"), WEEK.replace("2026-11-23", "../../x"), WEEK.replace("2026-11-23", "2026-1-1"), "x", "%"):
            self.assertEqual(self.sums("planner", query)[0], 400, query)
        self.assertEqual(self.told(query=WEEK.replace("2026-11-29", "2027-11-23"))["all"]["days"], 3)

    def test_the_journal(self):
        """It is told who read them."""
        with contextlib.redirect_stderr(io.StringIO()) as told:
            self.sums("planner", WEEK)
            self.exchange("HEAD", f"/records/sums?{WEEK}", None, {"X-Login": "planner"})
        self.assertEqual(told.getvalue().count("sums of groups, 2026-11-23 to 2026-11-29, taken: planner at "), 1)

    def test_who_has_left(self):
        """No file is read, also where the other end leaves between two days."""
        def question(*left):
            return Question("GET", "/records/sums", WEEK, {"x-login": "planner"}, mock.AsyncMock(), mock.Mock(side_effect=left))

        for left, read in (((True,), 0), ((False, False, True), 1)):
            with self.assertRaises(Left), mock.patch.object(recorded, "read", wraps=recorded.read) as reads:
                self.standing.do(self.gate.answer(question(*left)))
            self.assertEqual(reads.call_count, read)

    def test_it_is_no_work_of_the_loop(self):
        """Files are read in a thread, and not in the one that has the connections."""
        threads = []

        def read(*words):
            threads.append(threading.current_thread())
            return recorded.Aside.MISSING

        with mock.patch.object(recorded, "read", read):
            self.told()
        loops = self.standing.do(threads_of_loop())
        self.assertTrue(threads and loops not in threads)


async def threads_of_loop():
    return threading.current_thread()


if __name__ == "__main__":
    unittest.main()
