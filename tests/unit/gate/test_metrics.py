#!/usr/bin/python3
"""Tests of the gate's metrics.   usage: tests/unit/gate/test_metrics.py

Needs python3-aiohttp, python3-passlib and python3-bcrypt (Debian packages)."""
import contextlib
import http.client
import io
import json
import time
import unittest
from pathlib import Path
from unittest import mock

from standing import PAGE, PATIENCE, ROLES, DoorTest
from test_routes import SNAPSHOT

from acd_service.gate import following, health, metrics
from acd_service.gate.desk import Place
from acd_service.gate.exchanges import Answer
from acd_service.gate.metrics import Family, Requests, exposed, of_report
from acd_service.gate.state import State

# as the desk prints it
REPORT = """group           waiting ringing    entered   answered  abandoned      moved    average    longest name
100                   1       0         12          9          2          0         17         40 Billing
110                   0       0          0          0          0          0          -          - Claims and more
"""


class TextTest(unittest.TestCase):
    def test_each_kind(self):
        told = exposed([Family("a", "gauge", "Of a.", [({}, 1.5), ({"x": "1", "y": "2"}, 3)]), Family("b", "counter", "Of b.", [({}, 12)]), Family("c", "info", "Of c.", [({"n": "m"}, 1)]),
                        Family("d", "gauge", "Nothing.", [])])
        self.assertEqual(told, b'# TYPE a gauge\n# HELP a Of a.\na 1.5\na{x="1",y="2"} 3\n# TYPE b counter\n# HELP b Of b.\nb_total 12\n'
                               b'# TYPE c info\n# HELP c Of c.\nc_info{n="m"} 1\n# EOF\n')

    def test_values_are_whole(self):
        told = exposed([Family("a", "gauge", "Of a.", [({}, value) for value in (True, 0, 1795436491, 999999999999999, 0.1)])])
        self.assertEqual(told.splitlines()[2:-1], [b"a 1", b"a 0", b"a 1795436491", b"a 999999999999999", b"a 0.1"])

    def test_what_is_escaped(self):
        told = exposed([Family("a", "info", "Of a.", [({"name": 'B "x" \\ y\nJürgen'}, 1)])])
        self.assertIn('a_info{name="B \\"x\\" \\\\ y\\nJürgen"} 1\n'.encode(), told)

    def test_the_report_of_the_desk(self):
        found = {family.name: [(labels["group"], value) for labels, value in family.samples] for family in of_report(REPORT)}
        self.assertEqual(found, {"acd_calls_entered": [("100", 12), ("110", 0)], "acd_calls_answered": [("100", 9), ("110", 0)], "acd_calls_abandoned": [("100", 2), ("110", 0)],
                                 "acd_calls_moved": [("100", 0), ("110", 0)]})

    def test_a_picture(self):
        calls = [{"call": number, "caller": "0301", "called": "100", "since": 5, "connections": [{"device": "100", "state": "queued", "queued": since, "place": number}]}
                 for number, since in ((1, 20), (2, 10))]
        agents = [{"agent": str(number), "name": "", "state": state, "since": 0} for number, state in enumerate(("null", "null", "ready"))]
        state = State({"last": 0, "moment": 20, "stations": [], "agents": agents, "calls": calls,
                       "groups": [{"device": group, "name": f"G {group}", "ring": 0, "wrap": 0} for group in ("100", "110")]})
        found = {family.name: list(family.samples) for family in metrics.of_state(state, 100.5)}
        self.assertEqual(found, {
            "acd_waiting_calls": [({"group": "100"}, 2), ({"group": "110"}, 0)], "acd_longest_wait_seconds": [({"group": "100"}, 90.5), ({"group": "110"}, 0)],
            "acd_agents": [({"state": "loggedOff"}, 2), ({"state": "ready"}, 1)], "acd_group": [({"group": "100", "name": "G 100"}, 1), ({"group": "110", "name": "G 110"}, 1)],
            "acd_calls": [({}, 2)], "acd_tick_overdue_seconds": [({}, 0)]})


class PagesOfRequests:
    """A stand-in for a desk: requests with stamps from 1 on, of which each seventh is a tick."""

    def __init__(self, count):
        self.count, self.asked = count, []

    async def ask_soon(self, _, path):
        after = int(path.removeprefix("/requests?after="))
        self.asked.append(after)
        stamps = range(after + 1, min(self.count, after + 1000) + 1)
        records = [{"stamp": stamp, "moment": 10 * stamp, "request": {"service": "tick" if stamp % 7 == 0 else "arriveCall"}} for stamp in stamps]
        return Answer(200, "application/json", json.dumps({"last": self.count, "requests": records}).encode())


class RequestsTest(unittest.IsolatedAsyncioTestCase):
    async def looked(self, desk, requests):
        desk.asked = []
        await requests.look()
        return requests.last, requests.tick, desk.asked

    async def test_each_page_is_read_once(self):
        desk = PagesOfRequests(5000)
        requests = Requests(desk)
        self.assertEqual(await self.looked(desk, requests), (5000, 49980, [metrics.BEYOND, 4000]))
        self.assertEqual(await self.looked(desk, requests), (5000, 49980, [5000]))
        desk.count = 7600
        self.assertEqual(await self.looked(desk, requests), (7600, 75950, [5000, 6000, 7000]))

    async def test_small_files(self):
        for count, tick in ((0, None), (1, None), (6, None), (7, 70), (8, 70), (1000, 9940)):
            desk = PagesOfRequests(count)
            self.assertEqual((await self.looked(desk, Requests(desk)))[:2], (count, tick), count)

    async def test_another_file(self):
        """It was carried over, and has fewer."""
        desk = PagesOfRequests(5000)
        requests = Requests(desk)
        await requests.look()
        desk.count = 6
        self.assertEqual((await self.looked(desk, requests))[:2], (6, None))

    async def test_a_desk_without_an_answer(self):
        desk = PagesOfRequests(7)
        requests = Requests(desk)
        await requests.look()
        desk.ask_soon = mock.AsyncMock(return_value=Answer(502))
        await requests.look()
        self.assertEqual((requests.last, requests.tick), (7, 70))


class MetricsTest(DoorTest):
    def setUp(self):
        super().setUp()
        self.desk.known = {**SNAPSHOT, "/reports/queues": None}
        self.gate.metrics.copy = Path(self.roles.parent, "copy")

    def told(self):
        """Each sample's value."""
        self.gate.metrics.made = 0
        status, fields, body = self.exchange("GET", "/metrics", None, {})
        self.assertEqual((status, fields["content-type"]), (200, "application/openmetrics-text; version=1.0.0; charset=utf-8"))
        samples = [line.rpartition(" ") for line in body.decode().splitlines() if not line.startswith("#")]
        self.assertTrue(body.endswith(b"# EOF\n"))
        return {name: float(value) for name, _, value in samples}

    def test_of_the_gate(self):
        with contextlib.redirect_stderr(io.StringIO()):
            self.log_in("ana")
            self.log_in("ana", "guess")
            self.log_in("nobody")
        page = http.client.HTTPConnection("127.0.0.1", self.port, timeout=PATIENCE)
        self.addCleanup(page.close)
        page.request("GET", "/stream", headers={"X-Login": "sup"})
        page.getresponse().readline()
        found = self.told()
        self.assertEqual([found[f"acd_gate_{name}"] for name in ("log_ins_total", "refusals_total", "passwords_waiting", "questions_held", "streams")], [1, 2, 0, 0, 1])

    def test_of_the_desk(self):
        with mock.patch.object(health, "DESK", PATIENCE):
            found = self.told()
        self.assertEqual((found["acd_healthy"], found['acd_agents{state="loggedOff"}'], found["acd_requests_total"]), (1, 1, 0))
        self.assertNotIn("acd_last_tick_timestamp_seconds", found)
        self.gate.desk.where, until = Place(1), time.monotonic() + PATIENCE
        with mock.patch.object(following, "AWAY", 0.1):
            # a question that was out may still be answered
            while (found := self.told())["acd_healthy"] and time.monotonic() < until:
                time.sleep(0.1)
        self.assertEqual((found["acd_healthy"], "acd_requests_total" in found, found["acd_gate_log_ins_total"]), (0, False, 0))

    def test_of_the_last_copy(self):
        self.assertNotIn("acd_copy_timestamp_seconds", self.told())
        self.gate.metrics.copy.write_text("1795436491 unsound 1795350000\n")
        found = self.told()
        self.assertEqual((found["acd_copy_timestamp_seconds"], found["acd_good_copy_timestamp_seconds"]), (1795436491, 1795350000))
        self.assertEqual([name for name, value in found.items() if "verdict" in name and value], ['acd_copy_verdict{verdict="unsound"}'])
        self.gate.metrics.copy.write_text("1795436491 failed -\n")
        self.assertNotIn("acd_good_copy_timestamp_seconds", self.told())

    def test_of_who_follows(self):
        for login, query in (("Copy.2", "after=8"), ("Copy.2", "after=41"), ("Copy.2", "after=x"), ("Copy.2", f"after={metrics.BEYOND}"), ("planner", "after=99")):
            self.assertEqual(self.ask(login, None, "GET", f"/requests?{query}"), (200, PAGE))
        self.assertEqual({name: value for name, value in self.told().items() if "follow" in name}, {'acd_follow_request{login="Copy.2"}': 42})
        self.roles.write_text(ROLES.replace("Copy.2 follow\n", ""))
        self.assertFalse([name for name in self.told() if "follow" in name])

    def test_the_desk_is_asked_once_for_all(self):
        """At most twice a second, however long that takes."""
        began = time.monotonic()
        for _ in range(20):
            self.exchange("GET", "/metrics", None, {})
        self.assertLessEqual(len(self.desk.got), 2 * (1 + int(time.monotonic() - began)))


if __name__ == "__main__":
    unittest.main()
