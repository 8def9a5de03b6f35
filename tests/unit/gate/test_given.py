#!/usr/bin/python3
"""Tests of what the gate takes of reasons and codes, and tells of them.   usage: tests/unit/gate/test_given.py"""
import asyncio
import contextlib
import io
import json
import tempfile
import types
import unittest
from pathlib import Path
from unittest import mock

from standing import FORBIDDEN, DoorTest, Named, roles

from acd_service import reasons as files
from acd_service.gate import following, reasons
from acd_service.gate.boards import Sight
from acd_service.gate.exchanges import Question, Refused
from acd_service.gate.limits import Rates
from acd_service.gate.streams import Stream
from in_memory import InMemory, event, logged_on

BOARD = {"reasons": {"lunch": "Mittag", "training": "Schulung"}, "codes": {"sale": "Verkauf", "fault": "Störung"}}
ROLES = "ana agent 7\nben agent 8\npbx exchange\nsup supervisor\nlea lead groups=100\nplanner office\nana.b agent 7\n"
CALLER = "030123456789"


def call_of(number, agent, device, call, begun=0):
    """The events of a call of the group that an agent answers and ends, after which the agent is in after-call work; from a number on."""
    kinds = [{"event": "queued", "device": "100", "cause": "newCall"}, {"event": "diverted", "device": "100", "to": device, "group": "100", "cause": "distributed"},
             {"event": "delivered", "device": device, "group": "100", "cause": "distributed"}, {"event": "established", "device": device, "group": "100", "waited": 2}]
    found = [event(number + place, call=call, **kind) for place, kind in enumerate(kinds)]
    found += [event(number + 4, event="agentBusy", agent=agent, device=device), event(number + 5, event="connectionCleared", call=call, device=device),
              event(number + 6, event="callCleared", call=call), event(number + 7, event="agentWorkingAfterCall", agent=agent, device=device)]
    return found


class Given(Named, unittest.IsolatedAsyncioTestCase):
    async def asyncSetUp(self):
        home = Path(self.enterContext(tempfile.TemporaryDirectory()))
        self.folder, self.board, self.now = home / "reasons", home / "board.json", 5000.0
        self.board.write_text(json.dumps(BOARD))
        self.desk = InMemory()
        self.desk.texts["/calls/5"] = {"caller": CALLER, "called": "100"}
        # 7 isn't ready since 1001, 8 is in after-call work since 1012
        self.desk.events += [logged_on(1), logged_on(2, agent="8", device="202"), event(3, event="agentReady", agent="8", device="202"), *call_of(5, "8", "202", 5)]
        self.desk.events.insert(3, event(4, event="agentReady", agent="8", device="202"))
        self.roles, _ = roles(ROLES)
        self.begin()
        await self.following.catch_up()

    def begin(self):
        """A gate that starts over what is kept."""
        self.following = following.Following(self.desk.ask, lambda: self.now)
        self.following.want = lambda: None
        self.gate = types.SimpleNamespace(following=self.following, role_of=lambda login: self.roles[login], rates=Rates(lambda: self.now), posts={})
        self.giving = reasons.Giving(self.gate, self.folder, self.board, lambda: self.now)
        self.assertEqual(self.gate.posts, {"/reasons": self.giving.take})

    async def give(self, login, body):
        """Status, and the error's name and member."""
        data = body if isinstance(body, bytes) else json.dumps(body).encode()
        question = Question("POST", "/reasons", "", {}, mock.AsyncMock(), lambda: False, login)
        try:
            answer = await self.giving.take(question, data)
        except Refused as refused:
            answer = refused.answer
        error = json.loads(answer.body).get("error", {})
        return answer.status, error.get("name"), *([error["member"]] if "member" in error else [])

    def kept(self):
        return b"".join(part.read_bytes() for part in files.parts(self.folder))

    async def test_a_reason(self):
        """It is on the disk, byte for byte, once for the same word sent again; another one and none come after it."""
        for reason in ("lunch", "lunch", "training", ""):
            self.assertEqual(await self.give("ana", {"agent": "7", "reason": reason}), (200, None))
        self.assertEqual(self.kept(), b"".join(b'{"agent":"7","at":5000,"by":"ana","reason":"%s","since":1001}\n' % reason for reason in (b"lunch", b"training", b"")))
        part, = files.parts(self.folder)
        self.assertEqual((part.name, part.stat().st_mode & 0o777, self.folder.stat().st_mode & 0o777), ("1970-01-01", 0o600, 0o700))

    async def test_a_code(self):
        """By the call's number, the first day of its file and the moment of the talk."""
        self.assertEqual(await self.give("ben", {"agent": "8", "call": 5, "talk": 1008, "code": "sale"}), (200, None))
        self.assertEqual(self.kept(), b'{"agent":"8","at":5000,"by":"ben","call":5,"code":"sale","file":"1970-01-01","talk":1008}\n')
        self.assertEqual(await self.give("pbx", {"agent": "8", "call": 5, "talk": 1008, "code": "fault"}), (200, None))
        self.assertIn(b'"by":"pbx"', self.kept())

    async def test_what_is_not_ones_own(self):
        """Another agent's reason, a code of a call in which the agent didn't talk, and logins that give none: nothing is kept."""
        own = {"agent": "7", "reason": "lunch"}
        for login, body, wanted in (("ben", own, (403, "forbidden")), ("sup", own, (403, "forbidden")), ("lea", own, (403, "forbidden")), ("planner", own, (403, "forbidden")), ("ana.b", own, (403, "forbidden")),
                                    ("ana", {"agent": "7", "call": 5, "talk": 1008, "code": "sale"}, (409, "unknownCall")), ("ana", {"agent": "8", "call": 5, "talk": 1008, "code": "sale"}, (403, "forbidden")),
                                    ("ben", {"agent": "8", "call": 5, "talk": 1007, "code": "sale"}, (409, "unknownCall")), ("ben", {"agent": "8", "call": 6, "talk": 1008, "code": "sale"}, (409, "unknownCall")),
                                    ("ben", {"agent": "8", "reason": "lunch"}, (409, "wrongAgentState")), ("pbx", {"agent": "9", "reason": "lunch"}, (409, "wrongAgentState"))):
            self.assertEqual(await self.give(login, body), wanted, (login, body))
        self.assertFalse(self.folder.exists() and files.parts(self.folder))

    async def test_forms(self):
        """Only a key of the office's list: no caller's number gets into a line."""
        for body, wanted in ((b"{", "json"), (b"[]", "json"), (b'{"agent":"7","agent":"7","reason":"lunch"}', "json"), (b"\xff", "json"), ({"agent": "7"}, "reason"), ({"reason": "lunch"}, "agent"),
                             ({"agent": 7, "reason": "lunch"}, "agent"), ({"agent": "7", "reason": CALLER}, "reason"), ({"agent": "7", "reason": "sale"}, "reason"), ({"agent": "7", "reason": None}, "reason"),
                             ({"agent": "7", "reason": "lunch", "text": CALLER}, "json"), ({"agent": "7", "call": True, "talk": 1, "code": "sale"}, "call"), ({"agent": "7", "call": 5, "talk": -1, "code": "sale"}, "talk"),
                             ({"agent": "7", "call": 5, "code": "sale"}, "talk"), ({"agent": "7", "call": 5, "talk": 1008, "code": CALLER}, "code"), ({"agent": "7" * 10, "reason": "lunch"}, "agent")):
            self.assertEqual(await self.give("ana", body), (400, "malformed", wanted), body)
        self.board.write_text(json.dumps({"reasons": {CALLER: "x", "a123456": "x", "k": "x"}}))
        for reason, status in ((CALLER, 400), ("a123456", 400), ("k", 200)):
            self.assertEqual((await self.give("ana", {"agent": "7", "reason": reason}))[0], status, reason)
        self.assertNotIn(CALLER.encode(), self.kept())

    async def test_no_callers_number_is_kept(self):
        """The gate knows it, and tells it to the agent's page alone."""
        await self.give("ben", {"agent": "8", "call": 5, "talk": 1008, "code": "sale"})
        for number in (CALLER, CALLER[-6:]):
            self.assertNotIn(number.encode(), self.kept())
        self.assertEqual(sorted(json.loads(self.kept())), ["agent", "at", "by", "call", "code", "file", "talk"])

    async def test_a_right_that_is_lost_meanwhile(self):
        """It is judged by the roles as they are when the desk has answered."""
        ask = self.following.ask

        async def late(method, path):
            self.roles = {**self.roles, "ana": self.roles["ben"]}
            return await ask(method, path)

        self.following.ask = late
        self.assertEqual(await self.give("ana", {"agent": "7", "reason": "lunch"}), (403, "forbidden"))

    async def test_judged_by_the_desk_as_it_is(self):
        self.desk.events.append(event(13, event="agentReady", agent="7", device="201"))
        self.assertEqual(await self.give("ana", {"agent": "7", "reason": "lunch"}), (409, "wrongAgentState"))
        self.desk.answers = False
        self.assertEqual(await self.give("ana", {"agent": "7", "reason": "lunch"}), (502, "badGateway"))
        self.assertEqual(await self.give("ben", {"agent": "8", "call": 5, "talk": 1008, "code": "sale"}), (502, "badGateway"))

    async def test_a_reason_for_after_the_call(self):
        """It counts as the agent isn't ready any more, and is dropped where the agent is ready after all."""
        agent = self.following.state.agents["8"]
        for kind, wanted in (("agentNotReady", "lunch"), ("agentReady", "")):
            agent.state, agent.pending = "busy", "notReady"
            self.assertEqual(await self.give("pbx", {"agent": "8", "reason": "lunch"}), (200, None))
            self.assertIsNone(json.loads(self.kept().splitlines()[-1]).get("since"))
            self.assertEqual(self.told("8"), "lunch")
            self.following.given.take({"event": "agentBusy", "agent": "8", "moment": 5001})
            self.following.given.take({"event": kind, "agent": "8", "moment": 5001})
            agent.state, agent.pending, agent.since = "notReady", None, 5001
            self.assertEqual((self.told("8"), self.following.given.lines(self.following.state)), (wanted, {"8": '{"reason":"lunch"}'} if wanted else {}))
            self.now += 10
        self.following.given.take({"event": "queued", "call": 5, "moment": 5001})

    def told(self, agent):
        return self.following.given.text(self.following.state, agent, [])["given"]["reason"]

    async def test_what_is_told(self):
        """The page of the agent at once, boards in their next turn; after a start of the gate the same."""
        await self.give("ana", {"agent": "7", "reason": "lunch"})
        await self.give("ben", {"agent": "8", "call": 5, "talk": 1008, "code": "sale"})
        for _ in range(2):
            state = self.following.state
            self.assertEqual(self.following.given.lines(state), {"7": '{"reason":"lunch"}'})
            self.assertEqual(self.following.given.text(state, "8", self.following.days.done("8")),
                             {"given": {"reason": "", "calls": [{"call": 5, "code": "sale", "group": "100", "moment": 1008, "talked": 2}]}})
            self.assertEqual((self.following.given.text(state, "9", []), self.told("7")), ({}, "lunch"))
            self.begin()
            await self.following.catch_up()
            while not self.following.days.whole:
                await self.following.read_day()
        self.assertEqual(reasons.Given().text(self.following.state, "7", []), {})

    async def test_a_call_of_before_midnight(self):
        """It is none of the new day's, and still one of the last calls."""
        await self.giving.read_day()
        days = self.following.days
        self.assertEqual((len(days.text("8")["calls"]), len(days.done("8"))), (1, 1))
        self.assertTrue(days.roll(days.ends))
        self.assertEqual((days.text("8")["calls"], len(days.done("8"))), ([], 1))
        self.assertEqual(await self.give("ben", {"agent": "8", "call": 5, "talk": 1008, "code": "sale"}), (200, None))

    async def test_streams(self):
        told = []
        pipe = types.SimpleNamespace(write=lambda *parts: told.append(b"".join(parts).decode()), is_gone=lambda: False)
        with mock.patch.object(self.following.streams, "run", lambda: asyncio.sleep(0)):
            for stream in (Stream("ana", lambda: True, agent="7"), Stream("sup", lambda: True, sight=Sight(0))):
                task = asyncio.create_task(self.following.streams.hold(stream, pipe, ""))
                await asyncio.sleep(0)
                self.addCleanup(task.cancel)
            self.assertTrue(any('"given":{"calls":[],"reason":""}' in text for text in told))
            told.clear()
            await self.give("ana", {"agent": "7", "reason": "lunch"})
            self.assertTrue(any('"given":{"calls":[],"reason":"lunch"}' in text for text in told), told)
            list(self.following.streams.take_turn(10.0))
            list(self.following.streams.take_turn(20.0))
        self.assertTrue(any('"reasons":{"7":{"reason":"lunch"}}' in text for text in told), told)
        self.following.streams.boards.close()

    async def test_bounds(self):
        """Of a login in a minute, of an agent in a day, and of a part."""
        body = {"agent": "7", "reason": "lunch"}
        found = [(await self.give("ana", {**body, "reason": ("lunch", "training")[turn % 2]}))[0] for turn in range(32)]
        self.assertEqual(found, [200] * 30 + [429] * 2)
        self.now += 2
        self.assertEqual([(await self.give("ana", {**body, "reason": reason}))[0] for reason in ("lunch", "training")], [200, 429])
        with mock.patch.object(reasons, "MOST_OF_DAY", 31), contextlib.redirect_stderr(io.StringIO()) as said:
            for _ in range(2):
                self.now += 10
                self.assertEqual(await self.give("ana", {**body, "reason": "training"}), (429, "tooManyRequests"))
        self.assertEqual(said.getvalue(), "acd-gate: agent 7 gave 31 reasons and codes today: no more are taken\n")
        with mock.patch.object(files, "MOST", len(self.kept())), contextlib.redirect_stderr(io.StringIO()) as said:
            self.assertEqual(await self.give("pbx", {**body, "reason": "training"}), (507, "notKept"))
        self.assertRegex(said.getvalue(), "1970-01-01 is full")

    async def test_a_disk_that_fails(self):
        with mock.patch.object(reasons, "append", side_effect=OSError(28, "No space left on device")), contextlib.redirect_stderr(io.StringIO()) as said:
            self.assertEqual(await self.give("ana", {"agent": "7", "reason": "lunch"}), (507, "notKept"))
        self.assertIn("No space left on device", said.getvalue())
        self.assertEqual(self.told("7"), "")

    async def test_the_first_day_of_a_file(self):
        """Of a file that was pruned it is what was written before; of another file it isn't."""
        day = self.giving.first
        self.assertEqual(await day.of(1, 12, "1970-01-01"), "1970-01-01")
        events = [event(2000, event="agentReady", agent="7", device="201") | {"moment": 86400 * 40}]

        async def pruned(_):
            return events

        for last, wanted in ((2100, "1970-01-01"), (2100, "1970-01-01"), (2050, "1970-02-10")):
            later = reasons.FirstDay(self.following.given, pruned)
            self.assertEqual(await later.of(1, last, "1970-02-10"), wanted)
        self.assertEqual(json.loads((self.folder / "file").read_text()), {"day": "1970-02-10", "first": 2000, "last": 2050})
        for text in ("{", '{"day":"x","first":1,"last":1}', "[]"):
            (self.folder / "file").write_text(text)
            self.assertEqual(await reasons.FirstDay(self.following.given, pruned).of(1, 2100, "1970-02-10"), "1970-02-10")
        events.clear()
        self.assertEqual(await reasons.FirstDay(self.following.given, pruned).of(1, 0, "1970-02-11"), "1970-02-11")
        self.assertEqual(reasons.FirstDay(reasons.Given(), pruned).known({"number": 2, "moment": 0}, 2), "1970-01-01")
        with mock.patch.object(reasons.put, "put", side_effect=OSError(28, "full")), contextlib.redirect_stderr(io.StringIO()):
            self.assertEqual(day.known({"number": 1, "moment": 0}, 2), "1970-01-01")

    async def test_lists(self):
        """Read again where the file changes; none where it is none, or isn't there."""
        lists = reasons.Lists(self.board)
        self.assertEqual(list(lists.now().reasons), ["lunch", "training"])
        self.board.write_text(json.dumps({"reasons": {"lunch": "Mittag", "": "x", "A": "x", "a b": "x", "ok": " ", "n": 3}}))
        self.assertEqual(lists.now().reasons, {"lunch": "Mittag", "n": "3"})
        self.board.unlink()
        self.assertEqual((lists.now().reasons, lists.now().codes), ({}, {}))

    async def test_a_folder_that_cannot_be_read(self):
        self.folder.write_text("")
        with contextlib.redirect_stderr(io.StringIO()):
            self.assertEqual(await self.give("ana", {"agent": "7", "reason": "lunch"}), (507, "notKept"))
        with mock.patch.object(reasons, "given", side_effect=OSError(13, "Permission denied")), contextlib.redirect_stderr(io.StringIO()) as said:
            reasons.Given(self.folder, lambda: self.now)
        self.assertIn("Permission denied", said.getvalue())


class Routes(DoorTest):
    def test_a_gate_that_keeps_none(self):
        self.assertEqual(self.ask("ana", {"agent": "7", "reason": "lunch"}, path="/reasons")[0], 404)
        self.assertEqual(self.ask("ana", {"agent": "7", "reason": "lunch"}, path="/session?reasons")[0], 404)

    def test_another_site(self):
        reasons.Giving(self.gate, self.enterContext(tempfile.TemporaryDirectory()), "board.json")
        self.assertEqual(self.ask("ana", {"agent": "7", "reason": "lunch"}, path="/reasons", Origin="https://elsewhere"), FORBIDDEN)
        self.assertEqual(self.ask("ana", b"x" * 5000, path="/reasons")[0], 413)

    def test_by_both_routes(self):
        """The second one is for a page behind an older nginx.conf; it isn't a click."""
        with tempfile.TemporaryDirectory() as folder:
            reasons.Giving(self.gate, Path(folder), Path(folder) / "board.json")
            for path in ("/reasons", "/session?reasons"):
                self.assertEqual(self.ask("ana", {"agent": "8", "reason": ""}, path=path), FORBIDDEN)
                self.assertEqual(self.ask("ana", {"agent": "7", "reason": "lunch"}, path=path)[0], 400)


if __name__ == "__main__":
    unittest.main()
