#!/usr/bin/python3
"""Tests of the gate's word on whether all is well.   usage: tests/unit/gate/test_health.py

Needs python3-aiohttp, python3-passlib and python3-bcrypt (Debian packages)."""
import contextlib
import io
import random
import time
import unittest
from unittest import mock

from standing import PATIENCE, DoorTest
from test_routes import SNAPSHOT

import acd_due
from acd_service.gate import following, health
from acd_service.gate.desk import Place
from acd_service.gate.state import State


def drawn(chance):
    """A snapshot as a desk shows it, of calls that wait, ring, talk, and of agents in each state."""
    groups = [{"device": str(100 + number), "name": "", "ring": chance.choice((0, 5, 20, 300)), "wrap": chance.choice((0, 3, 30))} for number in range(4)]
    stations, agents, calls = [], [], []
    for number in range(chance.randrange(9)):
        state = chance.choice(("null", "notReady", "ready", "busy", "workingAfterCall"))
        agent = {"agent": str(number), "name": "", "state": state, "since": chance.randrange(1000), "stamp": 1}
        if state != "null":
            served = sorted(chance.sample([group["device"] for group in groups], chance.choice((1, 1, 2, 3))))
            agent |= {"device": str(200 + number)} | ({"group": served[0]} if len(served) == 1 else {"groups": served})
        agents.append(agent)
        stations.append({"device": str(200 + number), **({} if state == "null" else {"agent": str(number)})})
    for number in range(chance.randrange(9)):
        kind, group = chance.choice(("queued", "alerting", "rings", "connected")), chance.choice(groups)["device"]
        side = {"queued": {"device": group, "state": "queued", "queued": 5, "place": number}, "rings": {"device": "201", "state": "alerting"},
                "alerting": {"device": f"20{chance.randrange(9)}", "state": "alerting", "group": group, "offered": chance.randrange(1, 1000), "queued": 5, "place": number},
                "connected": {"device": "202", "state": "connected", "group": group}}[kind]
        calls.append({"call": number + 1, "caller": "0301", "called": group, "since": 5, "connections": [{"device": "0301", "state": "connected"}, side]})
    return {"last": 0, "moment": 1000, "groups": groups, "stations": stations, "agents": agents, "calls": calls}


class DueTest(unittest.TestCase):
    def test_as_the_ticks_program_reckons(self):
        """That one has its own reckoning, by the snapshot."""
        chance, due = random.Random(3), 0
        for _ in range(2000):
            snapshot = drawn(chance)
            wanted = acd_due.due_at(snapshot)
            self.assertEqual(min(health.ends(State(snapshot)), default=None), wanted, snapshot)
            due += wanted is not None
        self.assertGreater(due, 500)

    def test_for_how_long(self):
        ringing = {"call": 1, "caller": "0301", "called": "100", "since": 5, "connections": [{"device": "201", "state": "alerting", "group": "100", "offered": 10}]}
        state = State({"last": 0, "moment": 10, "groups": [{"device": "100", "name": "", "ring": 20, "wrap": 0}], "stations": [], "agents": [], "calls": [ringing]})
        for clock, wanted in ((10, 0), (30, 0), (31, 1), (95.5, 65.5)):
            self.assertEqual(health.overdue(state, clock), wanted)
        self.assertEqual(health.overdue(State(), 95), 0)


class HealthTest(DoorTest):
    def asked(self):
        status, fields, body = self.exchange("GET", "/health", None, {})
        return status, fields["content-type"], body

    def test_well(self):
        self.desk.known = SNAPSHOT
        self.assertEqual(self.asked(), (200, "text/plain", b"ok\n"))

    def test_who_asks_often_asks_the_gate_alone(self):
        """And that looks through its picture five times a second."""
        self.desk.known, asked, reckoned = SNAPSHOT, [], []
        self.enterContext(mock.patch.object(health, "overdue", lambda *_: reckoned.append(1) or 0))
        ask = self.gate.following.ask
        self.gate.following.ask = lambda *words: asked.append(words) or ask(*words)
        self.asked()
        begun, before = time.monotonic(), len(asked)
        for _ in range(200):
            self.assertEqual(self.asked()[0], 200)
        passed = time.monotonic() - begun
        self.assertLessEqual(len(asked) - before, 2 + 2 * passed / following.EVERY)
        self.assertLessEqual(len(reckoned), 2 + passed / health.KEPT)

    def test_a_desk_that_does_not_answer(self):
        self.gate.desk.where = Place(1)
        with mock.patch.object(following, "AWAY", 0.1):
            self.assertEqual(self.asked(), (503, "text/plain", b"desk\n"))

    def test_one_that_stopped_answering(self):
        """Within two seconds."""
        self.desk.known = SNAPSHOT
        self.assertEqual(self.asked()[0], 200)
        self.gate.desk.where = Place(1)
        time.sleep(2)
        self.assertEqual(self.asked(), (503, "text/plain", b"desk\n"))

    def test_a_picture_that_is_behind(self):
        """The desk answers, and the gate gets no picture of what it says."""
        self.desk.known = {**SNAPSHOT, "/snapshot": {"last": 0}}
        # however busy the machine is, it did so a moment ago
        self.enterContext(mock.patch.object(health, "DESK", PATIENCE))
        with mock.patch.object(following, "AWAY", 0.1), contextlib.redirect_stderr(io.StringIO()):
            self.assertEqual(self.asked(), (503, "text/plain", b"behind\n"))

    def test_ticks_that_nobody_sends(self):
        """Of a desk whose agent works after a call; a minute is left to whoever sends them."""
        agent = {"agent": "7", "name": "Ana", "state": "workingAfterCall", "since": int(time.time()) - 100, "stamp": 1, "device": "201", "group": "100"}
        for wrap, wanted in ((0, 200), (45, 200), (30, 503)):
            self.desk.known = {**SNAPSHOT, "/snapshot": {**SNAPSHOT["/snapshot"], "groups": [{"device": "100", "name": "G", "ring": 1, "wrap": wrap}],
                                                         "stations": [{"device": "201", "agent": "7"}], "agents": [agent]}}
            self.standing.loop.call_soon_threadsafe(self.gate.following.forget)
            time.sleep(health.KEPT + 0.1)
            self.assertEqual(self.asked()[::2], (wanted, b"ticks\n" if wanted == 503 else b"ok\n"))


if __name__ == "__main__":
    unittest.main()
