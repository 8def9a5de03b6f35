#!/usr/bin/python3
"""Tests of what the gate follows: the state by reports, agents' days, and who is held.   usage: tests/unit/gate/test_following.py

Needs python3-aiohttp, python3-passlib and python3-bcrypt (Debian packages)."""
import asyncio
import contextlib
import io
import json
import time
import unittest
from unittest import mock

from standing import PATIENCE, Named

from acd_service.gate import days, following, texts, waiter
from acd_service.gate.exchanges import NO_DESK, Answer, Left, error
from acd_service.gate.state import State
from in_memory import InMemory, event, logged_on


def desk_state():
    """Agent 7 at 201 in 100 with call 1 of 100; 8 at 202 in 110 and 120 with call 2 of 120; 9 logged off; calls 3 and 4 wait in 100 and in 120."""
    def side(device, state, **more):
        return {"device": device, "state": state, **more}
    return State({
        "last": 10, "moment": 50, "monitors": [],
        "groups": [{"device": group, "name": f"G{group}", "ring": 20, "wrap": 30} for group in ("100", "110", "120")],
        "stations": [{"device": "201", "agent": "7"}, {"device": "202", "agent": "8"}, {"device": "203"}],
        "agents": [{"agent": "7", "name": "Ana", "state": "busy", "since": 40, "stamp": 4, "device": "201", "group": "100"},
                   {"agent": "8", "name": "Ben", "state": "ready", "since": 30, "stamp": 3, "device": "202", "groups": ["110", "120"], "pending": "notReady"},
                   {"agent": "9", "name": "Cleo", "state": "null", "since": 0, "stamp": 1}],
        "calls": [{"call": 1, "caller": "0301111", "called": "100", "since": 20, "connections": [side("201", "connected", group="100"), side("0301111", "connected")]},
                  {"call": 2, "caller": "0302222", "called": "120", "since": 21, "connections": [side("202", "alerting", group="120", place=5, queued=21, offered=25), side("0302222", "connected")]},
                  {"call": 3, "caller": "0303333", "called": "100", "since": 22, "connections": [side("100", "queued", place=6, queued=22), side("0303333", "connected")]},
                  {"call": 4, "caller": "0304444", "called": "120", "since": 23, "connections": [side("120", "queued", place=7, queued=23), side("0304444", "connected")]}]})


class FollowTest(unittest.TestCase):
    def changes(self, state, **report):
        state.touched, state.dirty, state.renamed = set(), set(), False
        state.apply({"number": state.last + 1, "moment": 60, **report})
        return state.touched, state.dirty, state.renamed

    def test_agent_text(self):
        state = desk_state()
        text = texts.agent_text(state, "8", frozenset())
        self.assertEqual(text["agent"], {"agent": "8", "device": "202", "groups": ["110", "120"], "logOn": 10, "name": "Ben", "pending": "notReady", "since": 30, "state": "ready"})
        self.assertEqual(text["calls"], [{"call": 2, "called": "120", "caller": "0302222", "queued": 21, "since": 21, "connections": [
            {"device": "202", "group": "120", "since": 25, "state": "alerting"}, {"device": "0302222", "since": 21, "state": "connected"}]}])
        self.assertEqual(text["groups"], [{"calls": [], "device": "110", "loggedOn": 1, "name": "G110", "ready": 0, "ring": 20, "wrap": 30},
                                          {"calls": [{"call": 4, "caller": "...444", "queued": 23}], "device": "120", "loggedOn": 1, "name": "G120", "ready": 0, "ring": 20, "wrap": 30}])
        self.assertEqual([group["device"] for group in texts.agent_text(state, "9", frozenset({"120", "100", "7"}))["groups"]], ["100", "120"])
        self.assertEqual(texts.agent_text(state, "77", frozenset()), {"agent": {"agent": "77"}, "calls": [], "groups": []})

    def test_a_place_for_a_call(self):
        """Who is there as somebody is about to send a caller."""
        state = desk_state()
        self.assertEqual([texts.place_text(state, device) for device in ("110", "202", "201", "203", "999")],
                         [{"device": "110", "loggedOn": 1, "ready": 0}, {"device": "202", "agent": "8", "doing": "ringing"}, {"device": "201", "agent": "7", "doing": "busy"}, {"device": "203"},
                          {"device": "999"}])

    def test_whom_a_report_touches(self):
        state = desk_state()
        self.assertEqual(self.changes(state, event="queued", call=5, device="110", cause="newCall"), (set(), {"110"}, False))
        self.assertEqual(self.changes(state, event="connectionCleared", call=2, device="202"), ({"8"}, {"110", "120"}, False))
        self.assertIsNone(state.agents["8"].pending)
        self.assertEqual(self.changes(state, event="callCleared", call=2, group="120"), (set(), set(), False))
        self.assertEqual(self.changes(state, event="agentLoggedOff", agent="7", device="201"), ({"7"}, {"100"}, True))
        self.assertEqual(self.changes(state, event="agentLoggedOn", agent="7", device="203", group="120"), ({"7"}, {"120"}, True))
        self.assertEqual((state.agent_at("203").id, state.agent_at("201"), state.groups["120"].agents), ("7", None, {"7", "8"}))
        self.assertEqual(self.changes(state, event="diverted", call=3, device="100", to="203", cause="distributed", group="100"), (set(), {"100"}, False))
        self.assertEqual(self.changes(state, event="delivered", call=3, device="203", cause="distributed", group="120"), ({"7"}, {"120"}, False))
        self.assertEqual([state.groups[group].waiting for group in ("100", "120")], [set(), {state.calls[4]}])

    def test_since_when_a_connection_is_as_it_is(self):
        state = desk_state()
        for moment, kind in ((61, "held"), (62, "retrieved")):
            self.changes(state, event=kind, call=1, device="201", moment=moment)
            self.assertEqual(state.calls[1].connections["201"].since, moment)

    def test_a_call_that_comes_back_keeps_its_place(self):
        state = desk_state()
        for report in ({"event": "queued", "call": 6, "device": "120", "cause": "newCall"}, {"event": "diverted", "call": 2, "device": "202", "to": "120", "cause": "noAnswer", "group": "120"},
                       {"event": "queued", "call": 2, "device": "120", "cause": "noAnswer"}):
            self.changes(state, **report)
        self.assertEqual([(one["call"], one["queued"]) for one in texts.queue_text(state, state.groups["120"])["calls"]], [(2, 21), (4, 23), (6, 60)])

    def test_groups_that_no_report_names(self):
        state = desk_state()
        self.changes(state, event="agentLoggedOn", agent="9", device="203")
        self.assertEqual(state.unknown, {"9"})
        state.learn({"agent": "9", "device": "203", "groups": ["100", "120"]})
        self.assertEqual((state.unknown, state.agents["9"].groups), (set(), ["100", "120"]))

    def test_what_a_new_snapshot_alone_shows(self):
        before, state = desk_state(), desk_state()
        state.differs(before)
        self.assertEqual((state.touched, state.dirty, state.renamed), (set(), set(), False))
        state.agents["7"].name, state.groups["110"].ring, state.agents["8"].pending = "Anna", 5, None
        state.differs(before)
        self.assertEqual((state.touched, state.dirty, state.renamed), ({"7", "8"}, {"110"}, True))

    def test_a_side_that_no_report_names(self):
        """That of a caller from outside comes with a new snapshot, and the agent's page is told."""
        before, state = desk_state(), desk_state()
        del before.calls[1].connections["0301111"]
        state.differs(before)
        self.assertEqual((state.touched, state.dirty, state.moved), ({"7"}, {"100"}, {1}))

    def test_which_log_on_it_is(self):
        state = desk_state()
        self.changes(state, event="agentLoggedOn", agent="9", device="203", group="120")
        self.assertEqual([state.agents[agent].log_on for agent in "789"], [10, 10, 11])
        self.changes(state, event="agentReady", agent="9", device="203")
        self.assertEqual(state.agents["9"].log_on, 11)
        agent = {"agent": "9", "name": "Cleo", "state": "ready", "since": 60, "stamp": 1, "device": "203", "group": "120"}
        snapshot = {"last": 20, "moment": 70, "groups": [], "stations": [{"device": "203", "agent": "9"}], "calls": []}
        for what, more, log_on in (("nothing happened", {}, 11), ("another state, by what no report told", {"state": "notReady"}, 20), ("of later", {"since": 61}, 20), ("elsewhere", {"device": "202"}, 20)):
            self.assertEqual(State({**snapshot, "agents": [{**agent, **more}]}, state).agents["9"].log_on, log_on, what)
        self.changes(state, event="agentLoggedOff", agent="9", device="203")
        self.assertIsNone(state.agents["9"].log_on)

    def test_the_first_event_of_a_day(self):
        moments = [5, 5, 7, 7, 7, 9, 20, 20, 31]

        async def page(after):
            begin = max(after + 1, first)
            return [{"number": number, "moment": moments[number - 1]} for number in range(begin, min(begin + 2, len(moments) + 1))]

        # a file that was carried over has those from the fourth on alone, say
        for first in (1, 4):
            for moment in range(40):
                wanted = sum(one < moment for one in moments)
                self.assertEqual(asyncio.run(days.beginning(page, len(moments), moment))[0], max(first - 1, wanted), (first, moment))
                # of moments before its first event it can't be known whether there were some
                self.assertEqual(asyncio.run(days.beginning(page, len(moments), moment))[1], first == 1 or moment > moments[first - 1], (first, moment))
        self.assertEqual(asyncio.run(days.beginning(lambda after: self.fail("nothing is asked"), 0, 5)), (0, True))

    def test_a_question_that_is_out(self):
        asked = following.Following(None)
        asked.live, asked.heard = True, time.monotonic()
        self.assertTrue(asked.is_live())
        asked.heard -= following.AWAY
        self.assertFalse(asked.is_live())


class FollowingTest(Named, unittest.IsolatedAsyncioTestCase):
    def setUp(self):
        super().setUp()
        self.desk = InMemory()
        self.following = following.Following(self.desk.ask, lambda: 5000.0)

    def tearDown(self):
        super().tearDown()
        self.assertNotIn("POST", self.desk.asked)

    async def ends(self):
        """The follower's task, if there is one."""
        if self.following.task:
            self.following.task.cancel()
            await asyncio.gather(self.following.task, return_exceptions=True)

    async def mine(self, agent="7", **more):
        found = await asyncio.wait_for(self.following.mine(agent, None, more.get("after", 0), more.get("names", 0), more.get("hold", 20)), PATIENCE)
        return found and json.loads(found)

    async def test_all_pages_are_read(self):
        self.desk.events += [logged_on(1), *[event(number, event="agentReady" if number % 2 else "agentNotReady", agent="7", device="201") for number in range(2, 12)]]
        state = await self.following.catch_up()
        self.assertEqual((state.last, state.agents["7"].state, state.agents["7"].since), (11, "ready", 1011))
        self.assertEqual(self.desk.asked.count("/snapshot"), 1)

    async def test_those_who_come_meanwhile_share_a_question(self):
        """The next one: the desk may have answered that which is out before they came."""
        await self.following.catch_up()
        real, goes_on = self.desk.ask, asyncio.Event()

        async def slow(method, path):
            answer = await real(method, path)
            await goes_on.wait()
            return answer

        with mock.patch.object(self.following, "ask", slow):
            before = len(self.desk.asked)
            tasks = [asyncio.create_task(self.following.catch_up())]
            while len(self.desk.asked) == before:
                await asyncio.sleep(0)
            self.desk.events.append(logged_on(1))
            tasks += [asyncio.create_task(self.following.catch_up()) for _ in range(3)]
            await asyncio.sleep(0)
            goes_on.set()
            first, *rest = [state.last for state in await asyncio.wait_for(asyncio.gather(*tasks), PATIENCE)]
        self.assertEqual((rest, self.desk.asked[before:]), ([1, 1, 1], ["/history?after=0", "/history?after=0"]))

    async def test_what_no_report_names_is_asked_for(self):
        self.desk.events += [event(1, event="agentLoggedOn", agent="7", device="201"), event(2, event="delivered", call=5, device="201", group="100")]
        self.desk.texts = {"/agents/7": {"agent": "7", "device": "201", "groups": ["100", "110"]}, "/calls/5": {"caller": "0301", "called": "100"}}
        state = await self.following.catch_up()
        self.assertEqual((state.agents["7"].groups, state.calls[5].caller, state.unknown, state.callers_unknown()), (["100", "110"], "0301", set(), []))
        # one that the desk doesn't know any more is asked for no longer
        self.desk.events.append(event(3, event="agentLoggedOn", agent="8", device="202"))
        self.assertEqual((await self.following.catch_up()).unknown, set())

    async def test_a_new_snapshot_shows_what_no_report_does(self):
        state = await self.following.catch_up()
        number, self.following.renewed = self.following.number, -following.RENEW
        self.desk.plan["agents"][0]["name"] = "Anna"
        renewed = await self.following.catch_up()
        self.assertEqual((renewed is state, renewed.agents["7"].name, self.following.names_changed), (False, "Anna", number + 1))

    async def test_what_no_event_tells_is_shown_soon(self):
        """After a request that changes names or priorities the next snapshot comes in two seconds; after one that was refused, or another one, it doesn't."""
        await self.following.catch_up()
        for service, reply, wanted in (("setGroupPriority", b'{"result":{},"status":200}', True), ("setGroupPriority", b'{"error":{"code":3}}', False), ("holdCall", b'{"result":{}}', False)):
            self.following.task, self.following.is_stale = True, False
            self.following.nudge(f'{{"service":"{service}"}}'.encode(), reply)
            self.following.task = None
            self.assertIs(self.following.is_stale, wanted)
        self.following.is_stale, self.following.renewed = True, time.monotonic() - 3
        await self.following.catch_up()
        self.assertEqual((self.following.is_stale, self.desk.asked.count("/snapshot")), (False, 2))

    async def test_another_history(self):
        """One that is shorter, one whose last event is another, one with a hole; and a file that was carried over is none."""
        for others in ([], [logged_on(1), event(2, event="agentBusy", agent="7", device="201")], [None, None, None, event(4, event="agentReady", agent="7", device="201")]):
            self.desk.events = [logged_on(1), event(2, event="agentReady", agent="7", device="201")]
            await self.following.catch_up()
            self.desk.events = others
            with mock.patch.object(self.desk, "said", side_effect=lambda value: Answer(200, "", json.dumps({**value, **({"events": [one for one in value["events"] if one]} if "events" in value else {})}).encode())):
                with self.assertRaises(following.Away):
                    await self.following.catch_up()
            self.assertIsNone(self.following.state)

    async def test_another_desk_is_read_at_once(self):
        self.desk.events = [logged_on(1)]
        await self.following.look()
        self.desk.events = []
        self.assertEqual((await self.following.look(), self.following.state), (following.EVERY, None))
        self.assertEqual((await self.following.look(), self.following.state.last), (following.EVERY, 0))
        self.desk.answers = False
        self.assertEqual(await self.following.look(), following.AGAIN)

    async def test_a_desk_that_is_away(self):
        for broken in (Answer(200, "", b"no json"), NO_DESK, error(404)):
            with mock.patch.object(self.following, "ask", mock.AsyncMock(return_value=broken)), self.assertRaises(following.Away):
                await self.following.catch_up()

    async def test_a_desk_that_comes_back(self):
        """Meanwhile its file may have taken what no report tells."""
        await self.following.catch_up()
        self.desk.plan["groups"][0]["priority"], self.desk.answers = 5, False
        with self.assertRaises(following.Away):
            await self.following.catch_up()
        self.desk.answers = True
        await self.following.catch_up()
        self.assertEqual(self.following.state.groups["100"].priority, 5)

    async def test_a_page_is_held_until_there_is_news(self):
        first = await self.mine()
        self.assertEqual((first["live"], first["names"]["agents"]), (True, [{"agent": "7", "name": "Ana"}, {"agent": "8", "name": "Ben"}]))
        held = [asyncio.create_task(self.mine(agent, after=first["number"], names=first["number"])) for agent in "78"]
        await asyncio.sleep(0.3)
        self.assertEqual([one.done() for one in held], [False, False])
        self.desk.events.append(logged_on(1))
        told = await held[0]
        self.assertEqual((told["agent"]["device"], told["groups"][0]["loggedOn"]), ("201", 1))
        # where another agent is now is told in the page's turn
        told = await held[1]
        self.assertEqual((told["agent"]["state"], told["names"]["agents"][0]), ("null", {"agent": "7", "device": "201", "name": "Ana"}))
        # names are long: who has these isn't told again
        begun = time.monotonic()
        self.assertNotIn("names", await self.mine(after=told["number"], names=told["names"]["number"], hold=0.2))
        self.assertGreaterEqual(time.monotonic() - begun, 0.2)
        # a number that no gate gave yet is one of an earlier gate, whose clock was ahead
        self.assertIn("names", await self.mine(after=told["number"] + 10 ** 6, names=told["number"] + 10 ** 6))
        await self.ends()

    async def test_a_queue_has_news_in_turns(self):
        self.desk.events.append(logged_on(1))
        first = await self.mine()
        self.desk.events.append(event(2, event="queued", call=5, device="100", cause="newCall"))
        self.desk.texts["/calls/5"] = {"caller": "0301", "called": "100"}
        told = await self.mine(after=first["number"], names=first["names"]["number"])
        self.assertEqual(told["groups"][0]["calls"], [{"call": 5, "caller": "...301", "queued": 1002}])
        await self.ends()

    async def test_nobody_is_woken_while_the_desk_is_read_anew(self):
        waits = waiter.Waiter("7", frozenset(), self.following.number, 0)
        self.following.waiters.add(waits)
        self.following.forget()
        for _ in range(waiter.TURNS):
            self.following.turned = 0.0
            self.following.take_turn()
        self.assertFalse(waits.woken.done())
        await self.following.catch_up()
        self.assertTrue(waits.woken.done())

    async def test_names_are_told_once_in_ten_seconds(self):
        await self.following.catch_up()
        for after, told in ((0, True), (1, False), (following.NAMES_EVERY, True)):
            before, self.following.named = self.following.names_changed, time.monotonic() - after if after else 0.0
            self.desk.events.append(logged_on(len(self.desk.events) + 1, agent="78"[len(self.desk.events) % 2], device="20" + "12"[len(self.desk.events) % 2]))
            await self.following.catch_up()
            self.assertEqual(self.following.names_changed > before, told, after)

    async def test_a_page_whose_client_has_left_is_not_made(self):
        with self.assertRaises(Left), mock.patch.object(following, "as_json", side_effect=AssertionError):
            await self.following.mine("7", None, 0, 0, 0.1, lambda: True)
        await self.ends()

    async def test_what_is_pending(self):
        self.following.nudge(b"{}", b"{}")  # while nobody follows
        self.desk.events.append(logged_on(1))
        first = await self.mine()
        self.following.nudge(b'{"service":"setAgentState","agent":"7","requested":"notReady"}', b'{"result":{"pending":"notReady"}}')
        self.assertEqual((await self.mine(after=first["number"], names=first["number"]))["agent"]["pending"], "notReady")
        await self.ends()

    async def test_at_most_thirteen_looks_a_second(self):
        await self.mine()
        before, begun = len(self.desk.asked), time.monotonic()
        while time.monotonic() - begun < 1:
            self.following.nudge(b"", b"")
            await asyncio.sleep(0.002)
        looks = (len(self.desk.asked) - before) / (time.monotonic() - begun)
        self.assertLess(looks, 15)
        await self.ends()

    async def test_it_tells_that_the_desk_is_away_and_goes_on(self):
        with mock.patch.multiple(following, AWAY=0.2, AGAIN=0.05):
            first = await self.mine()
            self.desk.answers = False
            told = await self.mine(after=first["number"], names=first["number"])
            self.assertEqual((told["live"], told["agent"]), (False, first["agent"]))
            self.desk.answers = True
            # on a busy machine it may be away once more meanwhile
            async with asyncio.timeout(PATIENCE):
                while not told["live"]:
                    told = await self.mine(after=told["number"], names=told["number"])
        await self.ends()

    async def test_what_nobody_foresaw(self):
        """It begins anew, and says so."""
        await self.mine()
        with contextlib.redirect_stderr(io.StringIO()) as printed:
            self.desk.events.append(event(1, event="agentLoggedOn"))
            self.assertEqual(await self.following.look(), following.AGAIN)
        self.assertRegex(printed.getvalue(), r"\Aacd-gate: the desk is read anew: KeyError\('call'\)\n")
        self.assertIsNone(self.following.state)
        await self.ends()

    async def test_nobody_asks_any_more(self):
        with mock.patch.object(following, "WANTED", 0.2):
            await self.mine()
            task = self.following.task
            await asyncio.wait_for(task, PATIENCE)
        self.assertEqual((self.following.task, self.following.state, self.following.live), (None, None, False))
        self.assertEqual((await self.mine())["live"], True)  # and it begins again
        await self.ends()

    async def test_without_a_desk_at_the_first_question(self):
        self.desk.answers = False
        with mock.patch.object(following, "AWAY", 0.1):
            self.assertIsNone(await self.mine())
        await self.ends()

    async def test_a_day_is_whole_once_all_of_it_was_read(self):
        self.desk.events += [logged_on(1), event(2, event="delivered", call=5, device="201", group="100"), event(3, event="established", call=5, device="201", group="100"),
                             event(4, event="agentBusy", agent="7", device="201"), event(5, event="connectionCleared", call=5, device="201"), event(6, event="agentNotReady", agent="7", device="201"),
                             event(7, event="callCleared", call=5)]
        self.desk.texts["/calls/5"] = {"caller": "0301", "called": "100"}
        while not self.following.days.whole:
            await self.following.catch_up()
            await self.following.read_day()
        day = self.following.days.text("7")
        self.assertEqual((day["answered"], day["talking"], day["missed"], [(one["call"], one["talked"]) for one in day["calls"]]), (1, 2, 0, [(5, 2)]))
        self.assertEqual(self.following.days.text("8")["answered"], 0)
        # it continues with what comes, and the next day begins with nothing
        self.desk.events += [event(8, event="delivered", call=6, device="201", group="100"), event(9, event="diverted", call=6, device="201", to="100", cause="noAnswer", group="100")]
        await self.following.catch_up()
        self.assertEqual((self.following.days.text("7")["missed"], self.following.days.missed_offer("7")["call"]), (1, 6))
        self.following.clock = lambda: 5000.0 + 86400
        await self.following.read_day()
        self.assertEqual(self.following.days.text("7")["answered"], 0)


if __name__ == "__main__":
    unittest.main()
