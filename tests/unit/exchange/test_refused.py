"""A phone that can't be rung: what is asked of the desk, and what the independent switch in Python makes of it."""
from __future__ import annotations

import json
import unittest
from collections.abc import Callable
from importlib import import_module
from typing import Any

from acd_client import Answer
from exchange_bench import CALLER, OTHER, PHONE, PHONES, Bench, body
from bridge.message import Message

switch: Any = import_module("switch")

# 0: no answer at all
UNAVAILABLE, OF_THE_CALL = (404, 480, 486, 603, 0), (415, 488, 500, 606)
REJECTED = ("rejectCall", {"call": 1, "device": "201"})
THIRD = "127.0.0.1:5203"


def rung(bench: Bench) -> Message:
    """The INVITE that the phone 201 gets, for an offer of a group."""
    bench.waiting()
    bench.report("diverted@100/100", "delivered@201/100")
    return next(message for address, message in bench.take() if address == PHONE)


def refuse(bench: Bench, invite: Message, status: int) -> None:
    if status:
        bench.reply(invite, status)
    else:
        bench.pass_time(33)


class ByHand(unittest.TestCase):
    def bench(self, **settings: Any) -> tuple[Bench, list[str]]:
        """A bench, and what it says."""
        bench, said = Bench(**settings), list[str]()
        self.addCleanup(bench.close)
        setattr(bench.x.steps, "say", said.append)
        return bench, said

    def test_a_group_s_offer_is_rejected(self) -> None:
        """By each answer that concerns the phone, by the edge's answers for a silent phone or one without a connection, and by a 302 to an unknown place."""
        for status in (*UNAVAILABLE, 408, 477, 302):
            b, _ = self.bench()
            refuse(b, rung(b), status)
            self.assertEqual((b.asked(), [leg.device for leg in b.x.rows.legs.values()]), ([REJECTED], ["0301"]), status)

    def test_a_phone_that_rings_and_then_says_no(self) -> None:
        for status in (486, 603):
            b, _ = self.bench()
            refuse(b, b.ringing(), status)
            self.assertEqual(b.asked(), [REJECTED], status)

    def test_a_phone_that_rings_and_is_not_answered(self) -> None:
        b, _ = self.bench()
        b.ringing()
        b.pass_time(100)
        self.assertEqual(b.asked(), [])

    def test_a_phone_that_nobody_knows(self) -> None:
        b, _ = self.bench(phones={"202": PHONES["202"]})
        b.waiting()
        b.report("diverted@100/100", "delivered@201/100")
        self.assertEqual(b.asked(), [REJECTED])

    def test_what_concerns_the_call_waits(self) -> None:
        """A caller whose media every phone refuses makes no agent not ready."""
        for status in OF_THE_CALL:
            b, _ = self.bench()
            refuse(b, rung(b), status)
            self.assertEqual(b.asked(), [], status)

    def test_with_wait_nothing_is_asked(self) -> None:
        for status in UNAVAILABLE:
            b, _ = self.bench(refused="wait")
            refuse(b, rung(b), status)
            self.assertEqual(b.asked(), [], status)

    def test_a_private_call_ends(self) -> None:
        for refused in ("reject", "wait"):
            for status, answered in ((404, 404), (480, 480), (486, 486), (603, 603), (0, 480), (408, 480), (477, 480), (500, 480)):
                b, _ = self.bench(refused=refused)
                b.invite("201", "0301")
                b.answer(call=1)
                b.report("delivered@201")
                refuse(b, next(message for address, message in b.take() if address == PHONE), status)
                self.assertEqual(b.asked(), [("clearConnection", {"call": 1, "device": "201"})], status)
                b.answer()
                b.take()
                b.report("connectionCleared@201", "connectionCleared@0301", "callCleared")
                self.assertEqual(b.firsts(), [f"SIP/2.0 {answered}"], status)

    def test_a_phone_that_moved(self) -> None:
        b, _ = self.bench()
        invite = rung(b)
        head = "".join(f"{name}: {value}\r\n" for name, value in invite.some("via", "from", "call-id", "cseq"))
        b.receive(f"SIP/2.0 302 Moved\r\n{head}To: {invite.get('to')};tag=p\r\nContact: <sip:202@elsewhere>\r\n\r\n", PHONE)
        self.assertEqual(b.asked(), [("deflectCall", {"call": 1, "device": "201", "to": "202"})])
        b.answer("destinationBusy")
        self.assertEqual(b.asked(), [REJECTED])

    def test_somebody_else_was_first(self) -> None:
        for error in ("unknownCall", "unknownConnection", "wrongConnectionState"):
            b, said = self.bench()
            refuse(b, rung(b), 486)
            b.take()
            b.answer(error)
            b.pass_time(10)
            self.assertEqual((b.asked(), b.take(), said, sorted(b.x.rows.calls)), ([], [], [], ["1"]), error)

    def test_an_older_desk(self) -> None:
        """It knows no such service. The exchange says so once an hour at most, and the offer waits for the tick."""
        b, said = self.bench()
        refuse(b, rung(b), 486)
        answer = Answer(400, {"error": {"code": 30, "member": "service", "name": "malformed"}})
        line = "a rejectCall is answered 400 malformed: the offer waits for the end of its ring"
        for seconds, wanted in ((0, 1), (3000, 1), (700, 2)):
            b.now += seconds
            if not b.asked():
                b.x.steps.step(b.x.dialogs.decline, b.x.rows.calls["1"], "201", 486)
            b.take()
            self.assertTrue(b.x.steps.step(b.x.calls.take_reply, b.first_request(), answer))
            self.assertEqual((b.asked(), b.take(), said), ([], [], [line] * wanted))
        b.report("diverted@201/100", "queued@100", "diverted@100/100", "delivered@202/100")
        self.assertEqual([(address, message.method) for address, message in b.take() if message.is_request], [(OTHER, "INVITE")])

    def test_another_answer_is_reported(self) -> None:
        b, said = self.bench()
        refuse(b, rung(b), 486)
        self.assertTrue(b.x.steps.step(b.x.calls.take_reply, b.first_request(), Answer(403, {"error": {"code": 1, "name": "forbidden"}})))
        self.assertEqual((b.asked(), len(said)), ([], 1))

    def test_a_restart_before_the_reply(self) -> None:
        """The exchange sends the request again, with the same key."""
        b, _ = self.bench()
        refuse(b, rung(b), 486)
        body_of_it = dict(b.first_request().body)
        b.restart()
        self.assertEqual((b.first_request().body, b.asked()), (body_of_it, [REJECTED]))
        self.assertNotEqual(b.x.steps.requester, body_of_it["requester"])
        b.take()
        b.answer()
        b.report("diverted@201/100", "queued@100", "diverted@100/100", "delivered@202/100")
        self.assertEqual([(address, message.method) for address, message in b.take() if message.is_request], [(OTHER, "INVITE")])

    def test_a_restart_while_the_offer_waits(self) -> None:
        """The phone is rung once more, and where it refuses again the call waits on: it is the group's, as the desk shows it."""
        for refused, wanted in (("wait", []), ("reject", [REJECTED])):
            b, _ = self.bench(refused=refused)
            refuse(b, rung(b), 488)
            b.restart()
            shown = [{"device": "0301", "state": "connected"}, {"device": "201", "group": "100", "state": "alerting"}]
            b.x.steps.step(b.x.compare, "1", Answer(200, {"connections": shown}))
            refuse(b, next(message for address, message in b.take() if address == PHONE and message.method == "INVITE"), 486)
            self.assertEqual(b.asked(), wanted)


class Played(Bench):
    """A bench whose desk is the switch in Python: three agents at three phones, in one group."""

    def __init__(self, ring: int = 20, **settings: Any):
        self.desk, self.invokes, self.replies = switch.Desk(), 0, list[str]()
        super().__init__(phones={**PHONES, "203": f"sip:203@{THIRD}"}, **settings)
        self.ask("addGroup", device="100", name="Billing", ring=ring, wrap=0)
        for place in "123":
            self.ask("addStation", device=f"20{place}")
            self.ask("addAgent", agent=place, name=place)
            self.ask("setAgentState", agent=place, requested="loggedOn", device=f"20{place}", group="100")

    def ask(self, service: str, **members: Any) -> None:
        """Of somebody else, who has to be granted it."""
        self.invokes += 1
        reply = self.desk.take(int(self.now), "supervisor", self.invokes, service, **members)
        assert reply.startswith("200 "), (service, reply)

    def ready(self, *agents: str) -> None:
        for agent in agents:
            self.ask("setAgentState", agent=agent, requested="ready")

    def run(self) -> None:
        """Requests in their order, then the events that they made."""
        while self.x.rows.requests or len(self.desk.switch.events) > self.x.steps.place.known.get("number", 0):
            while self.x.rows.requests:
                row = self.first_request()
                status, _, text = self.desk.take(int(self.now), **row.body).partition(" ")
                self.replies.append(f"{row.body['service']} {json.loads(text).get('error', {}).get('name', status)}")
                assert self.x.steps.step(self.x.calls.take_reply, row, Answer(int(status), json.loads(text)))
            events = self.desk.switch.events[self.x.steps.place.known.get("number", 0):]
            assert self.x.steps.step(self.x.calls.take_events, events)
        self.check()

    def rings(self) -> list[tuple[str, str]]:
        """Which phones were rung since it was last asked, and for which call."""
        return [(address, message.get("x-acd-call")) for address, message in self.take() if message.method == "INVITE" and message.is_request]

    def ring(self, *callers: str) -> Message:
        """Callers come, and the phone 201 rings for the first one: its INVITE."""
        for caller in callers or ("0301",):
            self.invite(number=caller, call_id="c" + caller)
            self.run()
        return next(message for address, message in self.take() if address == PHONE and message.method == "INVITE")

    def states(self) -> list[str]:
        return [self.desk.switch.agents[agent].state for agent in "123"]

    def story(self) -> str:
        return " ".join(f"{event['event']}@{event['device']}" for event in self.desk.switch.events if "call" in event and "device" in event)


OFFERED, TAKEN_BACK = "queued@100 diverted@100 delivered@201", "diverted@201 queued@100"


class OverTheSwitch(unittest.TestCase):
    def played(self, ready: str, **how: Any) -> Played:
        bench = Played(**how)
        self.addCleanup(bench.close)
        bench.ready(*ready)
        bench.run()
        return bench

    def test_while_three_are_ready(self) -> None:
        """The second one rings at once, also in a group whose ring is 0, and the first one's agent is not ready."""
        for status in UNAVAILABLE:
            for ring in (20, 0):
                b = self.played("123", ring=ring)
                refuse(b, b.ring(), status)
                b.take()
                b.run()
                self.assertEqual((b.rings(), b.states(), b.replies[-1]), ([(OTHER, "1")], ["notReady", "ready", "ready"], "rejectCall 200"), status)
                self.assertEqual(b.story(), f"{OFFERED} {TAKEN_BACK} diverted@100 delivered@202")

    def test_two_phones_are_gone(self) -> None:
        b = self.played("123")
        refuse(b, b.ring(), 480)
        b.run()
        refuse(b, next(message for address, message in b.take() if address == OTHER), 404)
        b.run()
        self.assertEqual((b.rings(), b.states()), ([(THIRD, "1")], ["notReady", "notReady", "ready"]))

    def test_alone(self) -> None:
        """The call waits before one that came later, and rings at whoever gets ready: another one, or the same agent again."""
        for agent, phone in (("2", OTHER), ("1", PHONE)):
            b = self.played("1")
            refuse(b, b.ring("0301", "0302"), 480)
            b.run()
            self.assertEqual((b.rings(), b.states()[0], [call for _, call in b.desk.switch.waiting("100")]), ([], "notReady", [1, 2]))
            b.ready(agent)
            b.run()
            self.assertEqual(b.rings(), [(phone, "1")])

    def test_a_tick_was_first(self) -> None:
        b = self.played("12")
        invite = b.ring()
        b.now += 20
        b.ask("tick")
        refuse(b, invite, 486)
        b.run()
        self.assertEqual((b.replies[-1], b.rings(), b.states()[:2]), ("rejectCall unknownConnection", [(OTHER, "1")], ["notReady", "ready"]))

    def test_a_screen_was_first(self) -> None:
        b = self.played("12")
        invite = b.ring()
        b.ask("answerCall", call=1, device="201")
        refuse(b, invite, 486)
        b.run()
        self.assertEqual((b.replies[-1], b.rings(), b.states()[:2]), ("rejectCall wrongConnectionState", [], ["busy", "ready"]))

    def test_the_caller_gives_up_meanwhile(self) -> None:
        """Whichever request the desk gets first, the caller gets one answer, the call is cleared once, and no request follows."""
        replies = {"phone": ["rejectCall 200", "clearConnection 200"], "caller": ["clearConnection 200", "rejectCall unknownCall"]}
        for first, wanted in replies.items():
            b = self.played("123")
            invite = b.ring()
            works: list[Callable[[], None]] = [lambda: refuse(b, invite, 486), lambda: b.request("CANCEL", "sip:100@x", branch="z9hG4bKc0301")]
            for work in works if first == "phone" else works[::-1]:
                work()
            before = [message.first.split(" ")[1] for address, message in b.take() if address == CALLER]
            b.run()
            self.assertEqual((before, b.replies[-2:], b.states()[1:]), (["200", "487"], wanted, ["ready", "ready"]))
            self.assertEqual((b.desk.switch.calls, b.states()[0]), ({}, "notReady" if first == "phone" else "ready"))
            # the next phone was called for a moment only: it gets the CANCEL as soon as it rings
            rung_next = [message for address, message in b.take() if address == OTHER]
            self.assertEqual([message.method for message in rung_next], ["INVITE"] if first == "phone" else [])
            for each in rung_next:
                b.reply(each, 180, source=OTHER)
                self.assertIn((OTHER, "CANCEL"), [(address, message.method) for address, message in b.take()])
                b.reply(each, 487, source=OTHER)
            b.pass_time(70)
            self.assertEqual((len(b.x.rows.legs), len(b.x.rows.calls), b.asked()), (0, 0, []))

    def test_a_restart_before_the_reply(self) -> None:
        """The desk has executed it, and its reply was lost: it is executed once."""
        b = self.played("123")
        refuse(b, b.ring(), 486)
        self.assertTrue(b.desk.take(int(b.now), **b.first_request().body).startswith("200 "))
        b.restart()
        b.take()
        b.run()
        self.assertEqual((b.replies[-1], b.rings(), b.states()), ("rejectCall 200", [(OTHER, "1")], ["notReady", "ready", "ready"]))

    def test_another_phone_answers(self) -> None:
        b = self.played("123")
        refuse(b, b.ring(), 480)
        b.run()
        b.reply(next(message for address, message in b.take() if address == OTHER), 200, body(7202), source=OTHER)
        b.run()
        self.assertEqual([(message.first.split(" ")[1], "m=audio 7202" in message.body) for address, message in b.take() if address == CALLER], [("200", True)])
        self.assertEqual(b.states(), ["notReady", "busy", "ready"])


if __name__ == "__main__":
    unittest.main()
