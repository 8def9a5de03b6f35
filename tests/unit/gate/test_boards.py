#!/usr/bin/python3
"""Tests of what boards are told: lines of the desk, days that are read and go on, views.   usage: tests/unit/gate/test_boards.py"""
import asyncio
import contextlib
import io
import json
import tempfile
import unittest
from pathlib import Path
from unittest import mock

import standing  # noqa: F401: where the modules are
from acd_service.figures import STEP
from acd_service.gate import boards, lines
from acd_service.gate.boards import Boards, Sight, TooMany, sight_of
from acd_service.gate.desk import Away
from acd_service.gate.ruled import Ruled
from acd_service.gate.state import State
from in_memory import event


def told(text):
    return json.loads(text)


def side(device, state, **more):
    return {"device": device, "state": state, **more}


def desk_state():
    """Agents 7 and 8 in 100, 7 with an offer and 8 on a call of its own; 9 is ready and was so before 10; call 3 waits."""
    def agent(number, station, state="ready", **more):
        return {"agent": number, "name": f"A{number}", "state": state, "since": 30, "stamp": 1000 + int(number), "device": station, "group": "100", **more}
    return State({
        "last": 10, "moment": 50, "groups": [{"device": "100", "name": "Billing", "ring": 20, "wrap": 30, "priority": 5}, {"device": "110", "name": "Orders", "ring": 0, "wrap": 0}],
        "stations": [{"device": f"20{number}", "agent": agent} for number, agent in enumerate(("7", "8", "9", "10"))] + [{"device": "210"}],
        "agents": [agent("7", "200"), agent("8", "201", pending="notReady"), agent("9", "202"), agent("10", "203"), {"agent": "11", "name": "A11", "state": "null", "since": 0, "stamp": 11}],
        "calls": [{"call": 1, "caller": "0301", "called": "100", "since": 20, "connections": [side("0301", "connected"), side("200", "alerting", group="100", place=5, queued=21, offered=25)]},
                  {"call": 2, "caller": "201", "called": "210", "since": 40, "connections": [side("201", "connected"), side("210", "alerting")]},
                  {"call": 3, "caller": "0303", "called": "100", "since": 22, "connections": [side("0303", "connected"), side("100", "queued", place=6, queued=23)]}]})


class LinesTest(unittest.TestCase):
    def test_a_group(self):
        state = desk_state()
        self.assertEqual(told(lines.group_line(state, state.groups["100"])), {"name": "Billing", "ring": 20, "wrap": 30, "priority": 5, "waiting": 1, "ringing": 1, "queued": 21, "next": "9",
                                                                              "counts": {"ringing": 1, "own": 1, "ready": 2}})
        self.assertEqual(told(lines.group_line(state, state.groups["110"])), {"name": "Orders"})

    def test_agents(self):
        state = desk_state()
        self.assertEqual([told(lines.agent_line(state, state.agents[agent])) for agent in ("7", "8", "9", "11")],
                         [{"name": "A7", "doing": "ringing", "since": 25, "group": "100", "groups": ["100"], "station": "200", "calls": [1]},
                          {"name": "A8", "doing": "own", "since": 30, "groups": ["100"], "station": "201", "calls": [2], "pending": "notReady"},
                          {"name": "A9", "doing": "ready", "since": 30, "groups": ["100"], "station": "202"}, {"name": "A11", "doing": "null"}])

    def test_what_an_agent_does(self):
        """With a call of a group it is ringing, busy or hold, also where a call of the agent's own is held beside it."""
        state = desk_state()
        for moment, event_of, wanted in ((60, "established", ("busy", 30, "100")), (61, "held", ("hold", 61, "100")), (62, "retrieved", ("busy", 30, "100"))):
            state.apply({"number": state.last + 1, "moment": moment, "event": event_of, "call": 1, "device": "200", "group": "100"})
            self.assertEqual(state.doing(state.agents["7"]), wanted)
        state.apply({"number": state.last + 1, "moment": 63, "event": "agentBusy", "agent": "7", "device": "200"})
        self.assertEqual(state.doing(state.agents["7"]), ("busy", 63, "100"))

    def test_calls(self):
        """By the connection that says most; a caller from outside has none."""
        state = desk_state()
        self.assertEqual([told(lines.call_line(state, state.calls[call])) for call in (1, 2, 3)],
                         [{"at": "200", "begun": 20, "caller": "0301", "group": "100", "since": 25, "state": "alerting"}, {"at": "210", "caller": "201", "since": 40, "state": "alerting"},
                          {"at": "100", "begun": 22, "caller": "0303", "group": "100", "since": 23, "state": "queued"}])
        state.apply({"number": 11, "moment": 60, "event": "diverted", "call": 3, "device": "100", "to": "200", "group": "100", "cause": "distributed"})
        self.assertEqual(told(lines.call_line(state, state.calls[3])), {"begun": 22, "caller": "0303"})

    def sent(self, *events):
        """The state after call 3, which waits in 100 since 23, was sent to agent 9 at 202 in 60."""
        state = desk_state()
        for kind, members in (("diverted", {"device": "100", "to": "202", "group": "100", "cause": "deflected"}), ("delivered", {"device": "202", "cause": "deflected"}), *events):
            state.apply({"number": state.last + 1, "moment": 60, "event": kind, "call": 3, **members})
        return state

    def test_a_caller_who_was_sent_to_an_agent(self):
        """It rings for the group that the caller came from, and its wait goes on until somebody answers."""
        state = self.sent()
        self.assertEqual(told(lines.call_line(state, state.calls[3])), {"at": "202", "begun": 22, "caller": "0303", "direct": True, "group": "100", "queued": 23, "since": 60, "state": "alerting"})
        group = told(lines.group_line(state, state.groups["100"]))
        self.assertEqual((group.get("waiting", 0), group["ringing"], group["queued"]), (0, 2, 21))
        state.groups["100"].ringing.discard(state.calls[1])
        self.assertEqual(told(lines.group_line(state, state.groups["100"]))["queued"], 23)
        self.assertEqual(state.doing(state.agents["9"]), ("ringing", 60, "100"))
        for kind, does in (("established", "busy"), ("held", "hold"), ("retrieved", "busy")):
            state.apply({"number": state.last + 1, "moment": 70, "event": kind, "call": 3, "device": "202"})
            self.assertEqual(state.doing(state.agents["9"]), (does, 70, "100"))
            self.assertNotIn("ringing", told(lines.group_line(state, state.groups["100"])))
        self.assertEqual(told(lines.call_line(state, state.calls[3])), {"at": "202", "begun": 22, "caller": "0303", "direct": True, "group": "100", "since": 70, "state": "connected"})
        state.apply({"number": state.last + 1, "moment": 80, "event": "transferred", "call": 3, "device": "202", "to": "203"})
        state.apply({"number": state.last + 1, "moment": 80, "event": "delivered", "call": 3, "device": "203", "cause": "transferred"})
        self.assertEqual(told(lines.call_line(state, state.calls[3]))["queued"], 80)

    def test_one_who_was_sent_where_nobody_is(self):
        """An announcement has the caller's group, and the caller doesn't wait there."""
        state = desk_state()
        for kind, members in (("diverted", {"device": "100", "to": "210", "group": "100", "cause": "deflected"}), ("delivered", {"device": "210", "cause": "deflected"})):
            state.apply({"number": state.last + 1, "moment": 60, "event": kind, "call": 3, **members})
        self.assertEqual((told(lines.call_line(state, state.calls[3]))["group"], told(lines.group_line(state, state.groups["100"]))["ringing"]), ("100", 1))

    def test_a_call_between_colleagues(self):
        """It is no group's, wherever it is sent."""
        state = desk_state()
        self.assertEqual((state.calls[2].connections["210"].sent, state.doing(state.agents["8"]).doing), (None, "own"))

    def test_to_whom_a_call_goes_back(self):
        """To the group that it was moved from; to the colleague who passed it on, unless that one has a call or a break, then to the caller's last group; no offer and no talk goes back."""
        state = self.sent()
        self.assertEqual((state.back(state.calls[3], "202"), state.back(state.calls[1], "200"), state.back(state.calls[2], "210")), ("100", None, None))
        answered = ("established", {"device": "202"}), ("transferred", {"device": "202", "to": "203"}), ("delivered", {"device": "203", "cause": "transferred"})
        state = self.sent(*answered[:1])
        self.assertIsNone(state.back(state.calls[3], "202"))
        state = self.sent(*answered)
        self.assertEqual(state.back(state.calls[3], "203"), "202")
        state.agents["9"].state = "notReady"
        self.assertEqual(state.back(state.calls[3], "203"), "100")
        state = self.sent(*answered, ("delivered", {"device": "202", "call": 9, "cause": "newCall"}))
        self.assertEqual(state.back(state.calls[3], "203"), "100")

    def test_who_is_next(self):
        """Of two who leave one call the lesser number; of others who was ready first."""
        state = desk_state()
        reports = [("established", {"call": 1, "device": "200", "group": "100"}), ("connectionCleared", {"call": 1, "device": "0301"}), ("connectionCleared", {"call": 1, "device": "200"}),
                   ("agentReady", {"agent": "7", "device": "200"}), ("agentReady", {"agent": "9", "device": "202"})]
        for kind, members in reports:
            state.apply({"number": state.last + 1, "moment": 60, "event": kind, **members})
        self.assertEqual([state.agents[agent].rank for agent in ("7", "9")], [12, 15])
        self.assertEqual(told(lines.group_line(state, state.groups["100"]))["next"], "10")


class SightTest(unittest.TestCase):
    def test_what_is_asked_for(self):
        self.assertEqual(sight_of({}), Sight(0))
        self.assertEqual(sight_of({"begin": "1795388400", "limit": "20", "limit.100": "7.5", "groups": "110,100", "show": "day,events", "past": "5-9,1-2", "after": "x"}),
                         Sight(1795388400, (("", 20.0), ("100", 7.5)), frozenset({"100", "110"}), frozenset({"day", "events"}), ((5, 9), (1, 2))))
        self.assertEqual(sight_of({"groups": "all", "goal": "90", "goal.100": "75", "lost": "3", "level": "answered"}), Sight(0, goals=(("", 90.0), ("100", 75.0)), losts=(("", 3.0),), alone=True))
        for name, value in (("goal.100", "-1"), ("lost", "x"), ("level", "all"), ("begin", "-1"), ("begin", "x"), ("limit", ""), ("limit.100", "1e3"), ("groups", "100,"), ("show", "all"), ("past", "5"), ("past", "1-2,3-4,5-6")):
            with self.assertRaises(ValueError, msg=(name, value)):
                sight_of({name: value})


class Asked:
    """Pages of three events; the desk is away for the first `away` questions."""

    def __init__(self, events, away=0, first=1):
        self.events, self.away, self.first, self.asked = events, away, first, []

    async def __call__(self, path):
        self.asked.append(path)
        await asyncio.sleep(0)
        if len(self.asked) <= self.away:
            raise Away
        after = int(path.partition("after=")[2])
        return [one for one in self.events if one["number"] > after and one["number"] >= self.first][:3]


def a_day():
    """One waits from 1001 on, is answered by 7 at 1004, and another gives up."""
    return [event(1, event="queued", call=1, device="100", cause="newCall"), event(2, event="queued", call=2, device="100", cause="newCall"),
            event(3, event="diverted", call=1, device="100", to="200", group="100", cause="distributed"), event(4, event="established", call=1, device="200", group="100", waited=3),
            event(5, event="agentBusy", agent="7", device="200"), event(6, event="connectionCleared", call=2, device="100"), event(7, event="callCleared", call=2, group="100")]


def losses(now):
    """Ten callers who enter 100 and give up after 30 s, one a minute, the last one so many seconds before."""
    found = [{"number": 1, "moment": now - 900, "event": "agentLoggedOn", "agent": "7", "device": "200", "group": "100"}]
    for call in range(1, 11):
        came = now - 600 + 60 * (call - 1) - 30
        found += [{"number": 0, "moment": came, "event": "queued", "call": call, "device": "100", "cause": "newCall"}, {"number": 0, "moment": came + 30, "event": "connectionCleared", "call": call, "device": f"03{call}"},
                  {"number": 0, "moment": came + 30, "event": "connectionCleared", "call": call, "device": "100"}, {"number": 0, "moment": came + 30, "event": "callCleared", "call": call, "group": "100"}]
    return [{**event, "number": number} for number, event in enumerate(found, 1)]


class BoardsTest(unittest.IsolatedAsyncioTestCase):
    def setUp(self):
        self.state, self.requests = desk_state(), []
        folder = Path(self.enterContext(tempfile.TemporaryDirectory()))
        self.rules, self.now = folder / "rules.toml", 1010
        self.ruled = Ruled(self.page, lambda requester: requester.startswith("rules-"), self.rules, lambda: self.now)

    async def page(self, after):
        """A page of two executed requests."""
        return {"last": len(self.requests), "requests": [one for one in self.requests if one["stamp"] > after][:2]}

    def asked(self, moment, requester, service, status=200, **members):
        self.requests.append({"stamp": len(self.requests) + 1, "moment": moment, "status": status, "request": {"requester": requester, "service": service, **members}})

    async def begun(self, asked, *sights, last=7):
        self.state.last = last
        found = Boards(asked, self.state, 100, self.ruled)
        views = [found.view(sight, 100) for sight in sights]
        while found.tasks:
            await asyncio.gather(*found.tasks)
        found.turn(101)
        return found, views

    @staticmethod
    def table(view, name):
        return told(view.tables[name].whole())

    async def test_a_day_is_read_and_goes_on(self):
        asked = Asked(a_day())
        found, (view, other, chosen) = await self.begun(asked, Sight(0), Sight(0, (("", 2.0),)), Sight(0, (), frozenset({"110"}), frozenset({"day"})))
        self.assertEqual(self.table(view, "sums"), {"100": [2, 1, 1, 0, 3, 1, 0, 3, 0, 0, 0, 1, 1, 1, 0, 0]})
        self.assertEqual(self.table(other, "sums"), {"100": [2, 1, 1, 0, 3, 0, 1, 3, 0, 0, 0, 1, 1, 0, 1, 0]})
        self.assertEqual((self.table(chosen, "quarters"), self.table(chosen, "peaks")), ({f"100 {1001 // STEP}": [2, 1, 1, 0, 3, 1, 0, 3, 0, 0, 0, 1, 1, 1, 0, 2, 0]}, {}))
        self.assertEqual((self.table(view, "day"), self.table(view, "spent")), ({"share": 1, "moment": 1007}, {"7": [1, 0, 0, 0, 0, 0, 1005, "talk", ["100"]]}))
        # days of the same begin are read once, whatever their limits are
        self.assertEqual(len(found.days), 1)
        for report in (event(8, event="queued", call=3, device="110", cause="newCall"), event(9, event="agentReady", agent="7", device="200")):
            found.take(report)
        found.turn(102)
        self.assertEqual((self.table(view, "spent"), self.table(chosen, "peaks")), ({"7": [1, 0, 4, 0, 0, 0, 1009, "ready", ["100"]]}, {"1": [1, 1]}))
        self.assertEqual(self.table(view, "sums")["100"], [2, 1, 1, 0, 3, 1, 0, 3, 1, 4, 0, 1, 1, 1, 0, 0])

    async def test_a_caller_who_is_moved(self):
        """Waits from the first entrance on, in the group that answers or loses the call; a day that begins meanwhile knows it too."""
        reports = [{**event(1, event="queued", call=1, device="100", cause="newCall"), "moment": 400}, {**event(2, event="queued", call=2, device="100", cause="newCall"), "moment": 410},
                   event(3, event="diverted", call=1, device="100", to="110", group="100", cause="deflected"), event(4, event="queued", call=1, device="110", cause="deflected"),
                   event(5, event="diverted", call=2, device="100", to="110", group="100", cause="deflected"), event(6, event="queued", call=2, device="110", cause="deflected"),
                   event(7, event="diverted", call=1, device="110", to="200", group="110", cause="distributed"), event(8, event="established", call=1, device="200", group="110", waited=4),
                   event(9, event="connectionCleared", call=2, device="0302"), event(10, event="connectionCleared", call=2, device="110"), event(11, event="callCleared", call=2, group="110")]
        _, views = await self.begun(Asked(reports), Sight(0), Sight(1000), last=11)
        # answered at 1008, and lost at 1011: after 608 and 601 seconds, of which four and five in 110
        for view, entered in zip(views, (2, 0)):
            self.assertEqual(self.table(view, "sums"), {"100": [entered, 0, 0, 2, *[0] * 11, entered - 2], "110": [2, 1, 1, 0, 608, 0, 1, 608, 0, 0, 0, 1, 1, 1, 0, 0]})

    async def test_who_waited_at_once(self):
        """In the chosen groups together, which isn't the sum of what waited at most in each."""
        reports = [event(1, event="queued", call=1, device="100", cause="newCall"), event(2, event="diverted", call=1, device="100", to="110", group="100", cause="deflected"),
                   event(3, event="queued", call=1, device="110", cause="deflected"), event(4, event="queued", call=2, device="120", cause="newCall")]
        _, views = await self.begun(Asked(reports), *(Sight(0, (), frozenset(groups), frozenset({"day"})) for groups in ((), ("100", "110"), ("120",))), last=4)
        self.assertEqual([self.table(view, "peaks") for view in views], [{"1": [2, 2]}, {"1": [1, 1]}, {"1": [1, 1]}])

    async def test_a_desk_that_is_away(self):
        with mock.patch.object(boards, "AGAIN", 0.01):
            _, (view,) = await self.begun(Asked(a_day(), away=2), Sight(0))
        self.assertEqual(self.table(view, "sums")["100"][:3], [2, 1, 1])

    async def test_a_day_that_is_being_read(self):
        """It tells how much has been read, and no figures."""
        gate = asyncio.Event()

        async def slow(path):
            if path.startswith("/history?after=3"):
                await gate.wait()
            return await asked(path)

        asked = Asked(a_day())
        self.state.last = 7
        found = Boards(slow, self.state, 100, self.ruled)
        view = found.view(Sight(0), 100)
        for number in range(101, 121):
            await asyncio.sleep(0)
            found.turn(number)
        self.assertEqual((self.table(view, "day")["share"], self.table(view, "sums")), (0.42, {}))
        gate.set()
        while found.tasks:
            await asyncio.gather(*found.tasks)
        found.turn(200)
        self.assertEqual((self.table(view, "day")["share"], self.table(view, "sums")["100"][0]), (1, 2))

    async def test_the_last_half_hour(self):
        """Ten gave up, the tenth in 1,570: it is an alarm since then, also of the half hour before a day begins; half an hour later the first is over."""
        asked = Asked(losses(1600))
        self.ruled.clock = lambda: 1600.0
        found, (view, other, late) = await self.begun(asked, Sight(0), Sight(1550), Sight(0, (("", 40.0),), losts=(("", 60.0),)), last=41)
        self.assertEqual(self.table(view, "recent"), {"100": [0, 10, 0, 10, 1540, 1540]})
        self.assertEqual(self.table(other, "recent"), {"100": [0, 10, 0, 10, 1540, 1540]})
        self.assertEqual(self.table(late, "recent"), {"100": [0, 10, 0, 0, None, None]})
        self.ruled.clock = lambda: 1000.0 + 1800.0
        found.turn(102)
        self.assertEqual(self.table(view, "recent"), {"100": [0, 9, 0, 9, None, None]})

    async def test_another_day(self):
        """It ends, and isn't there where its beginning is in an archive."""
        sight = Sight(2000, parts=frozenset({"day"}), past=((1001, 1004), (900, 1002)))
        _, (view,) = await self.begun(Asked(a_day()), sight)
        self.assertEqual(self.table(view, "past"), {"1001": {"100": {"1": [2, *[0] * 14]}}, "900": {"100": {"1": [1, *[0] * 14]}}})
        for begin, known in ((900, []), (1002, []), (1003, ["1003"])):
            _, (view,) = await self.begun(Asked(a_day(), first=2), Sight(2000, parts=frozenset({"day"}), past=((begin, 1004),)))
            self.assertEqual(list(self.table(view, "past")), known)

    async def test_who_was_logged_on(self):
        """An agent who is there now wasn't yet as the file began: who was sent to the empty station has left, and who comes after the log-on is answered there."""
        reports = [event(1, event="queued", call=1, device="100", cause="newCall"), event(2, event="diverted", call=1, device="100", to="202", group="100", cause="deflected"),
                   event(3, event="delivered", call=1, device="202", cause="deflected"), event(4, event="callCleared", call=1), event(5, event="agentLoggedOn", agent="9", device="202", group="100"),
                   event(6, event="queued", call=2, device="100", cause="newCall"), event(7, event="diverted", call=2, device="100", to="202", group="100", cause="deflected"),
                   event(8, event="delivered", call=2, device="202", cause="deflected"), event(9, event="established", call=2, device="202")]
        _, (view,) = await self.begun(Asked(reports), Sight(0), last=9)
        self.assertEqual(self.table(view, "sums"), {"100": [2, 1, 0, 2, 3, 1, 0, 3, *[0] * 7, 0]})

    async def test_events(self):
        """The last ones, for who wants them; and then each new one."""
        with mock.patch.object(boards, "RECENT", 4):
            found, (view, without) = await self.begun(Asked(a_day()), Sight(0, parts=frozenset({"events"})), Sight(0))
        self.assertEqual((list(self.table(view, "events")), "events" in without.tables), (["4", "5", "6", "7"], False))
        found.take(event(8, event="agentReady", agent="7", device="200"))
        found.turn(102)
        self.assertEqual(told(view.tables["events"].since(101)), {"8": event(8, event="agentReady", agent="7", device="200")})

    async def test_what_changed_of_the_desk(self):
        found, (view,) = await self.begun(Asked([]), Sight(0), last=0)
        self.state.last = 10
        for kind, members in (("connectionCleared", {"call": 2, "device": "201"}), ("callCleared", {"call": 2}), ("agentLoggedOff", {"agent": "9", "device": "202"})):
            self.state.apply({"number": self.state.last + 1, "moment": 60, "event": kind, **members})
        found.mark(self.state)
        found.turn(102)
        changed = {name: told(table.since(101)) for name, table in view.tables.items() if table.since(101)}
        self.assertEqual({name: sorted(lines_of) for name, lines_of in changed.items()}, {"agents": ["8", "9"], "groups": ["100"], "calls": ["2"], "desk": ["last", "moment"]})
        self.assertEqual((changed["calls"], changed["agents"]["8"]["doing"], changed["agents"]["9"]), ({"2": None}, "ready", {"doing": "null", "name": "A9", "since": 60}))

    async def test_who_ended_a_call(self):
        """A call that ended at its group was ended by a rule, or by somebody else: then its caller counts as one who gave up."""
        for number in range(4):
            self.asked(900 + number, "pbx", "tick")
        self.asked(1006, "rules-100-closed-1", "clearConnection", status=409, call=2, device="100")
        self.asked(1006, "rules-100-closed-2", "clearConnection", call=2, device="100")
        found, (view,) = await self.begun(Asked(a_day()), Sight(0))
        await asyncio.gather(*found.tasks)
        found.turn(102)
        self.assertEqual(self.table(view, "sums"), {"100": [2, 1, 0, 0, 3, 1, 0, 3, 0, 0, 1, 1, 0, 1, 0, 0]})
        for report in (event(8, event="queued", call=3, device="100", cause="newCall"), event(9, event="connectionCleared", call=3, device="100"), event(10, event="callCleared", call=3, group="100"),
                       event(11, event="queued", call=4, device="100", cause="newCall"), event(12, event="connectionCleared", call=4, device="0304"), event(13, event="connectionCleared", call=4, device="100"),
                       event(14, event="callCleared", call=4, group="100")):
            found.take(report)
        self.asked(1009, "pbx-1", "clearConnection", call=3, device="100")
        found.turn(103)
        await asyncio.gather(*found.tasks)
        found.turn(104)
        self.assertEqual((self.table(view, "sums")["100"][:4], self.table(view, "sums")["100"][10], view.day.suspects), ([4, 1, 2, 0], 1, {}))

    async def test_where_callers_go(self):
        """For five minutes after a rule moved one; nobody else's moves count."""
        moves = [event(1, event="queued", call=1, device="100", cause="newCall"), event(2, event="diverted", call=1, device="100", to="110", group="100", cause="deflected")]
        self.asked(1001, "pbx", "arriveCall")
        self.asked(1002, "rules-100-long-1", "deflectCall", call=1, device="100", to="110")
        self.asked(1002, "lea-1", "deflectCall", call=1, device="110", to="120")
        found, (view,) = await self.begun(Asked(moves), Sight(0), last=2)
        await asyncio.gather(*found.tasks)
        found.turn(102)
        self.assertEqual(self.table(view, "rules"), {"100": {"to": "110"}})
        found.turn(103)
        self.assertEqual((found.tasks, view.tables["rules"].since(102)), (set(), ""))
        self.now += 300
        found.turn(104)
        self.assertEqual(told(view.tables["rules"].since(102)), {"100": None})

    async def test_groups_that_are_closed(self):
        """By the hours of the rules' file, as it is; a file with a fault closes none, and one that is gone."""
        _, (view,) = await self.begun(Asked([]), Sight(0), last=0)
        found = [self.table(view, "rules")]
        for text in ('zone = "UTC"\n[hours]\nmon-fri = ["08:00-18:00"]\n[groups.100]\n', "zone = 5\n", None):
            if text is None:
                self.rules.unlink()
            else:
                self.rules.write_text(text + ('rules = [{ when = "closed", end = true }]\n' if "groups" in text else ""))
            found += [self.lines_at(day * 86400 + hour * 3600) for day, hour in ((4, 9), (4, 19))]
        self.assertEqual(found, [{}, {}, {"100": '{"closed":true}'}, {}, {}, {}, {}])

    def lines_at(self, moment):
        self.now = moment
        return self.ruled.lines()

    async def test_a_new_snapshot(self):
        found, (view,) = await self.begun(Asked([]), Sight(0), last=0)
        self.state.agents["9"].name = "Cleo"
        self.state.groups["110"].priority = 9
        found.renew(self.state, lines.all_of(self.state), 102)
        self.assertEqual({name: sorted(told(table.since(101))) for name, table in view.tables.items() if table.since(101)}, {"agents": ["9"], "groups": ["110"]})

    async def test_there_is_room_for_so_many(self):
        found, views = await self.begun(Asked([]), Sight(0), Sight(1), last=0)
        with mock.patch.object(boards, "MOST_VIEWS", 2):
            self.assertRaises(TooMany, found.view, Sight(2), 100)
            self.assertIs(found.view(Sight(1), 100), views[1])
        with mock.patch.object(boards, "MOST_DAYS", 2):
            self.assertRaises(TooMany, found.view, Sight(2), 100)
        found.forget(lambda view: view is views[1])
        self.assertEqual((list(found.views), len(found.days)), ([Sight(1)], 1))
        found.close()

    async def test_a_day_that_nobody_wants_any_more(self):
        """It is read no further."""
        found = Boards(Asked(a_day(), away=1000), self.state, 100, self.ruled)
        found.view(Sight(0), 100)
        task, = found.tasks
        found.forget(lambda view: False)
        await asyncio.gather(task, return_exceptions=True)
        self.assertEqual((task.cancelled(), found.days), (True, {}))

    async def test_what_nobody_foresaw(self):
        """The journal is told, and boards go on."""
        with contextlib.redirect_stderr(io.StringIO()) as printed:
            found, (view,) = await self.begun(Asked([{"number": 1, "moment": 1001}]), Sight(0), last=1)
        self.assertRegex(printed.getvalue(), r"what boards are told isn't read: KeyError\('event'\)\n\Z")
        self.assertEqual(self.table(view, "day")["share"], 0.99)

    async def test_a_file_that_is_gone(self):
        """Whoever reads a day then stops."""
        found = Boards(Asked(a_day(), away=1000), self.state, 100, self.ruled)
        found.view(Sight(0), 100)
        tasks = set(found.tasks)
        found.close()
        await asyncio.gather(*tasks, return_exceptions=True)
        self.assertEqual([task.cancelled() for task in tasks], [True])


if __name__ == "__main__":
    unittest.main()
