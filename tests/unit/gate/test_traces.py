#!/usr/bin/python3
"""Tests of the journal's lines about who came, was refused, went and took what.   usage: tests/unit/gate/test_traces.py

Needs python3-aiohttp, python3-passlib and python3-bcrypt (Debian packages)."""
import contextlib
import io
import unittest
from unittest import mock

from standing import PROXYS, DoorTest, Named, basic

from acd_service.command import INFO, NOTICE
from acd_service.gate import traces
from acd_service.gate.traces import Traces, shown


class TracesTest(Named):
    def setUp(self):
        super().setUp()
        self.now = 1000.0
        self.traces = Traces(lambda: self.now)
        self.lines = []
        self.enterContext(mock.patch.object(traces.command, "report", lambda line, priority: self.lines.append((line, priority))))

    def test_each_is_a_line(self):
        self.traces.log_in("ana", "192.0.2.1")
        self.traces.log_off("ana", "2001:db8::1")
        self.traces.download("lea", "", "groups/2026-11-27.csv")
        self.traces.refusal("eve", "192.0.2.1", "wrong password")
        self.assertEqual(self.lines, [("log-in: ana at 192.0.2.1", INFO), ("log-off: ana at 2001:db8::1", INFO),
                                      ("groups/2026-11-27.csv taken: lea at an address that nginx doesn't tell", INFO), ("refused, wrong password: eve at 192.0.2.1", NOTICE)])

    def test_who_reads_requests_is_told_once_an_hour(self):
        for login, address in (("copy", "192.0.2.1"), ("copy", "192.0.2.1"), ("copy", "192.0.2.2"), ("planner", "192.0.2.1")):
            self.traces.requests(login, address)
        self.assertEqual(len(self.lines), 3)
        self.now += 3599
        self.traces.requests("copy", "192.0.2.1")
        self.assertEqual(len(self.lines), 3)
        self.now += 1
        self.traces.requests("copy", "192.0.2.1")
        self.assertEqual(self.lines[3:], [("requests read: copy at 192.0.2.1", INFO)])

    def test_readers_are_bounded(self):
        with mock.patch.object(traces, "MOST_KNOWN", 2):
            for address in ("a", "b", "c", "a"):
                self.traces.requests("copy", address)
        self.assertEqual((len(self.lines), list(self.traces.read)), (4, [("copy", "c"), ("copy", "a")]))

    def test_an_address_has_ten_refusals_in_a_minute(self):
        """Of IPv6 a network of 64 bits has."""
        for number in range(50):
            self.traces.refusal(f"x{number}", f"2001:db8::{number:x}", "wrong password")
        self.assertEqual(len(self.lines), 11)
        self.assertEqual(self.lines[-1], ("more refusals at 2001:db8::a: none is told until a minute has passed", NOTICE))
        self.traces.refusal("ana", "192.0.2.1", "wrong password")
        self.assertEqual(len(self.lines), 12)
        self.now += 60
        self.traces.refusal("ana", "2001:db8::1", "wrong password")
        self.assertEqual(self.lines[12:], [("refused, wrong password: ana at 2001:db8::1", NOTICE)])

    def test_all_have_a_hundred(self):
        for number in range(1000):
            self.traces.refusal("ana", f"192.0.{number // 250}.{number % 250}", "wrong password")
        self.assertEqual(len(self.lines), 101)
        self.assertEqual(self.lines[-1], ("more refusals, of many addresses: none is told until a minute has passed", NOTICE))
        self.traces.log_in("sup", "192.0.2.1")
        self.assertEqual(self.lines[-1], ("log-in: sup at 192.0.2.1", INFO))
        self.assertLessEqual(len(self.traces.refused), 101)

    def test_what_is_shown(self):
        for login, wanted in (("J\xfcrgen", "J\xfcrgen"), ("a b", "'a b'"), ("", "''"), ("x\n<0>acd: all is well", repr("x\n<0>acd: all is well")), ("\x1b[2J", r"'\x1b[2J'"), ("y" * 65, repr("y" * 64)),
                              ("\u202eana", r"'\u202eana'")):
            self.assertEqual(shown(login), wanted)


class OfTheGate(DoorTest):
    def test_of_requests(self):
        """Whatever proxy asks: a stranger's address isn't taken where the proxy doesn't overwrite it."""
        (self.records / "groups").mkdir(parents=True)
        (self.records / "groups/2026-11-27.csv").write_text("group,entered\n")
        by_proxy = {"X-Proxy": PROXYS, "X-Address": "192.0.2.7"}
        with contextlib.redirect_stderr(io.StringIO()) as printed:
            cookie = {"Cookie": self.log_in("planner")[1]["set-cookie"].partition(";")[0]}
            self.assertEqual(self.log_in("planner", "guess")[0], 401)
            self.auth(basic("planner", "guess"))
            for path in ("/records/", "/records/groups/2026-11-27.csv", "/records/groups/2026-11-28.csv", "/requests", "/requests", "/who"):
                self.exchange("GET", path, None, {**by_proxy, **cookie})
            self.exchange("HEAD", "/records/groups/2026-11-27.csv", None, {**by_proxy, **cookie})
            self.exchange("GET", "/records/groups/2026-11-27.csv", None, {"X-Login": "planner", "X-Address": "192.0.2.66"})
            self.exchange("GET", "/who", None, {**by_proxy, "Authorization": basic("ana", "guess")})
            for _ in range(2):
                self.exchange("POST", "/logout", None, {"X-Address": "192.0.2.1", **cookie})
        self.assertEqual(printed.getvalue().splitlines(), [f"acd-gate: {line}" for line in (
            "log-in: planner at 192.0.2.1", "refused, wrong password: planner at 192.0.2.1", "refused, wrong password: planner at 192.0.2.1", "groups/2026-11-27.csv taken: planner at 192.0.2.7",
            "requests read: planner at 192.0.2.7", "groups/2026-11-27.csv taken: planner at an address that nginx doesn't tell", "refused, wrong password: ana at 192.0.2.7",
            "log-off: planner at 192.0.2.1")])

    def test_too_many_log_ins(self):
        self.gate.rates.clock = lambda: self.now
        with contextlib.redirect_stderr(io.StringIO()) as printed:
            for _ in range(21):
                self.log_in("ana")
        self.assertEqual(printed.getvalue().splitlines()[-1], "acd-gate: refused, too many log-ins: ana at 192.0.2.1")


if __name__ == "__main__":
    unittest.main()
