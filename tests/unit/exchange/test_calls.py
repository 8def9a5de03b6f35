"""Calls over a bench: what the exchange sends and asks, input by input."""
from __future__ import annotations

import itertools
import unittest
from typing import Any

from exchange_bench import CALLER, OTHER, PHONE, Bench, body


class OnABench(unittest.TestCase):
    settings: dict[str, Any] = {}

    def setUp(self) -> None:
        self.bench = Bench(**self.settings)
        self.addCleanup(self.bench.close)


class Queued(OnABench):
    def test_a_call_is_answered_and_ends(self) -> None:
        b = self.bench
        b.invite()
        self.assertEqual((b.firsts(), b.asked()), (["SIP/2.0 100"], [("arriveCall", {"caller": "0301", "called": "100"})]))
        b.answer(call=1)
        b.report("queued@100")
        self.assertEqual(b.firsts(), ["SIP/2.0 182"])
        b.report("diverted@100/100", "delivered@201/100")
        [(address, invite)] = b.take()
        self.assertEqual((address, invite.method, invite.get("x-acd-call"), "m=audio 7000" in invite.body), (PHONE, "INVITE", "1", True))
        b.reply(invite, 180)
        self.assertEqual(b.firsts(), ["SIP/2.0 180"])
        b.reply(invite, 200, body(7201))
        self.assertEqual((b.firsts(), b.asked()), (["ACK"], [("answerCall", {"call": 1, "device": "201"})]))
        b.answer()
        [(address, answer)] = b.take()
        self.assertEqual((address, answer.status, "m=audio 7201" in answer.body), (CALLER, 200, True))
        tag = answer.get("to")
        b.request("ACK", "sip:acd@x", to=tag)
        b.pass_time(5)
        self.assertEqual(b.firsts(), [])
        b.request("BYE", "sip:acd@x", to=tag, cseq=2)
        self.assertEqual((b.firsts(), b.asked()), (["SIP/2.0 200"], [("clearConnection", {"call": 1, "device": "0301"})]))
        b.answer()
        b.report("connectionCleared@0301", "connectionCleared@201", "callCleared")
        [(address, bye)] = b.take()
        self.assertEqual((address, bye.method, bye.tag("to")), (PHONE, "BYE", "p"))
        b.reply(bye, 200)
        b.pass_time(70)
        self.assertEqual((len(b.x.rows.legs), len(b.x.rows.calls), len(b.x.rows.asked), len(b.x.rows.served), b.firsts()), (0, 0, 0, 0, []))

    def test_a_caller_gives_up(self) -> None:
        b = self.bench
        invite = b.ringing()
        b.take()
        b.request("CANCEL", "sip:100@x", branch="z9hG4bKc1")
        self.assertEqual((b.firsts(), b.asked()), (["SIP/2.0 200", "SIP/2.0 487"], [("clearConnection", {"call": 1, "device": "0301"})]))
        b.answer()
        b.report("connectionCleared@0301", "connectionCleared@201", "callCleared")
        [(address, cancel)] = b.take()
        self.assertEqual((address, cancel.method, cancel.get("via")), (PHONE, "CANCEL", invite.get("via")))
        b.reply(cancel, 200)
        b.reply(invite, 487)
        # the 487 that the caller hasn't acknowledged yet is sent again
        b.pass_time(1)
        self.assertEqual(b.firsts(), ["ACK", "SIP/2.0 487"])
        b.pass_time(70)
        self.assertEqual((len(b.x.rows.legs), len(b.x.rows.calls)), (0, 0))

    def test_given_up_while_the_desk_was_asked(self) -> None:
        b = self.bench
        b.invite()
        b.request("CANCEL", "sip:100@x", branch="z9hG4bKc1")
        b.answer(call=1)
        self.assertEqual(b.asked(), [("clearConnection", {"call": 1, "device": "0301"})])

    def test_given_up_before_the_desk_was_asked_to_answer(self) -> None:
        """While the desk is away, a phone answers and the caller gives up: it isn't answered, unless that is under way already."""
        for first, wanted in ((True, ["arriveCall", "clearConnection"]), (False, ["answerCall", "clearConnection"])):
            b = Bench()
            invite = b.ringing()
            if first:
                b.invite(number="0302", call_id="c2")
            b.reply(invite, 200, body(7201))
            b.request("CANCEL", "sip:100@x", branch="z9hG4bKc1")
            self.assertEqual([service for service, _ in b.asked()], wanted)
            b.close()

    def test_an_answer_that_crosses_the_cancel(self) -> None:
        b = self.bench
        invite = b.ringing()
        b.report("diverted@201/100", "queued@100")
        b.take()
        b.reply(invite, 200, body(7201))
        self.assertEqual((b.firsts(), b.asked()), (["ACK", "BYE"], []))

    def test_an_answer_that_is_too_late_at_the_desk(self) -> None:
        b = self.bench
        b.reply(b.ringing(), 200, body(7201))
        b.take()
        b.answer("wrongConnectionState")
        b.report("diverted@201/100", "queued@100")
        self.assertEqual(b.firsts(), ["BYE", "SIP/2.0 182"])

    def test_an_answer_to_nobody(self) -> None:
        """A phone answers long after its leg was given up, and a second phone answers a fork: the exchange ends both dialogs."""
        b = self.bench
        invite = b.ringing()
        b.reply(invite, 200, body(7201))
        b.take()
        b.reply(invite, 200, body(7201), tag="q")
        self.assertEqual(b.firsts(), ["ACK", "BYE"])
        b.reply(invite, 200, body(7201))
        self.assertEqual(b.firsts(), ["ACK"])

    def test_repeats_are_answered_alike(self) -> None:
        b = self.bench
        b.invite()
        b.invite()
        self.assertEqual((b.firsts(), len(b.asked())), (["SIP/2.0 100"] * 2, 1))
        b.answer(call=1)
        b.report("queued@100")
        b.restart()
        b.take()
        b.invite()
        self.assertEqual((b.firsts(), len(b.asked())), (["SIP/2.0 182"], 0))

    def test_again_and_again(self) -> None:
        b = self.bench
        b.waiting()
        b.take()
        b.pass_time(100)
        self.assertEqual(b.firsts(), ["SIP/2.0 182"] * 2)

    def test_no_ack(self) -> None:
        b = self.bench
        b.talking()
        b.take()
        b.pass_time(2.6)
        self.assertEqual((b.firsts(), b.asked()), (["SIP/2.0 200", "SIP/2.0 200", "BYE"], [("clearConnection", {"call": 1, "device": "0301"})]))

    def test_refused_by_the_desk(self) -> None:
        for error, status in (("unknownDevice", 404), ("tooManyCalls", 503), ("noSuchThing", 503)):
            b = Bench()
            b.invite()
            b.take()
            b.answer(error)
            self.assertEqual(b.firsts(), [f"SIP/2.0 {status}"])
            b.close()
        b = self.bench
        b.invite(number="999")
        b.answer("callerPlanned")
        self.assertEqual(b.asked(), [("arriveCall", {"caller": "0999", "called": "100"})])

    def test_a_desk_that_is_silent(self) -> None:
        b = self.bench
        b.invite()
        b.take()
        b.pass_time(5.1)
        self.assertEqual(b.firsts(), ["SIP/2.0 503"])
        b.x.phones.desk_is_silent = True
        b.invite(call_id="c2")
        self.assertEqual(b.firsts(), ["SIP/2.0 503"])
        b.answer(call=1)
        self.assertEqual(b.asked(), [("clearConnection", {"call": 1, "device": "0301"})])

    def test_hold_is_asked_and_passed_on(self) -> None:
        b = self.bench
        invite = b.talking()
        answer = next(message for address, message in b.take() if address == CALLER)
        b.request("ACK", "sip:acd@x", to=answer.get("to"))
        ours = invite.get("from")
        b.request("INVITE", "sip:acd@x", PHONE, "201", invite.get("call-id"), ours, 2, text=body(7201, "a=sendonly\r\n"))
        self.assertEqual((b.firsts(), b.asked()), (["SIP/2.0 100"], [("holdCall", {"call": 1, "device": "201"})]))
        b.answer()
        [(address, offer)] = b.take()
        self.assertEqual((address, offer.method, "a=sendonly" in offer.body), (CALLER, "INVITE", True))
        # the leg's origin, the second one that the caller gets
        self.assertRegex(offer.body, r"(?m)^o=acd [0-9]+ 2 IN IP4 127\.0\.0\.1\r$")
        b.reply(offer, 200, body(7000, "a=recvonly\r\n"), source=CALLER)
        self.assertEqual([(address, message.first.split(" ")[1], "a=recvonly" in message.body) for address, message in b.take()],
                         [(CALLER, "sip:p@127.0.0.1:6001", False), (PHONE, "200", True)])

    def test_private_busy_and_clicks(self) -> None:
        b = self.bench
        b.invite("202", "201")
        self.assertEqual(b.asked(), [("makeCall", {"device": "201", "called": "202"})])
        b.answer(call=1)
        self.assertEqual(b.asked(), [("phoneOffHook", {"call": 1, "device": "201"})])
        b.answer()
        b.take()
        b.report("originated@201", "failed@202")
        self.assertEqual(b.asked(), [("clearConnection", {"call": 1, "device": "201"})])
        b.answer()
        b.report("connectionCleared@201", "connectionCleared@202", "callCleared")
        self.assertEqual(b.firsts(), ["SIP/2.0 486"])
        b.report("serviceInitiated@201", call=2)
        [(address, invite)] = b.take()
        self.assertEqual((address, invite.method, f":{b.settings.music_port}" in invite.body or str(b.settings.music_port) in invite.body), (PHONE, "INVITE", True))

    def test_a_private_call_to_a_busy_phone(self) -> None:
        b = self.bench
        b.invite("202", "201")
        b.answer(call=1)
        b.answer()
        b.report("originated@201", "delivered@202")
        address, invite = b.take()[-1]
        self.assertEqual((address, invite.method), (OTHER, "INVITE"))
        b.reply(invite, 486)
        self.assertEqual(b.asked(), [("clearConnection", {"call": 1, "device": "202"})])
        b.answer()
        b.report("connectionCleared@202", "connectionCleared@201", "callCleared")
        self.assertEqual(b.firsts(), ["ACK", "SIP/2.0 486"])

    def test_a_click_rings_the_agents_phone_first(self) -> None:
        b = self.bench
        b.report("serviceInitiated@201")
        [(_, invite)] = b.take()
        b.reply(invite, 200, body(7201))
        self.assertEqual(b.asked(), [("phoneOffHook", {"call": 1, "device": "201"})])
        b.answer("unknownCall")
        self.assertEqual((b.firsts(), b.asked()), (["ACK", "BYE"], [("clearConnection", {"call": 1, "device": "201"})]))

    def test_a_click_picks_up_before_the_phone(self) -> None:
        b = self.bench
        b.report("serviceInitiated@201")
        [(_, invite)] = b.take()
        b.report("originated@201", "delivered@202")
        [(address, ring)] = b.take()
        self.assertEqual((address, ring.method), (OTHER, "INVITE"))
        b.reply(invite, 200, body(7201))
        self.assertEqual(b.asked(), [("phoneOffHook", {"call": 1, "device": "201"})])
        b.answer("wrongConnectionState")
        self.assertEqual((b.firsts(), b.asked()), (["ACK"], []))
        b.reply(ring, 200, body(7202))
        self.assertEqual(b.asked(), [("answerCall", {"call": 1, "device": "202"})])
        b.answer()
        self.assertEqual([(place, message.method) for place, message in b.take() if "m=audio 7202" in message.body], [(PHONE, "INVITE")])

    def test_offers_that_cross(self) -> None:
        """A phone offers while it is offered something: 491, and so does an offer for a side that has one under way."""
        b = self.bench
        invite = b.talking()
        answer = next(message for address, message in b.take() if address == CALLER)
        b.request("ACK", "sip:acd@x", to=answer.get("to"))
        b.request("INVITE", "sip:acd@x", PHONE, "201", invite.get("call-id"), invite.get("from"), 2, text=body(7202))
        self.assertEqual(b.firsts(), ["SIP/2.0 100", "INVITE"])
        b.request("INVITE", "sip:acd@x", to=answer.get("to"), cseq=2, text=body(7003))
        b.request("INVITE", "sip:acd@x", PHONE, "201", invite.get("call-id"), invite.get("from"), 3, text=body(7203))
        self.assertEqual(b.firsts(), ["SIP/2.0 491"] * 2)


class Music(OnABench):
    settings = {"waiting": "music"}

    def test_music_that_is_refused_is_offered_again(self) -> None:
        """The caller is put back into a queue, and says 491 to the music at first."""
        b = self.bench
        b.waiting()
        [leg] = b.x.rows.legs.values()
        b.request("ACK", "sip:acd@x", to=f"<sip:100@x>;tag={leg.key}")
        b.report("diverted@100/100", "delivered@201/100")
        b.reply(next(message for address, message in b.take() if address == PHONE), 200, body(7201))
        b.answer()
        b.reply(b.take()[-1][1], 200, body(7500), source=CALLER)
        self.assertEqual((leg.music, b.x.rows.calls["1"].joined), (False, True))
        b.take()
        b.report("transferred@201", "queued@101")
        [(_, offer)] = [(address, message) for address, message in b.take() if address == CALLER]
        self.assertIn(f"m=audio {b.settings.music_port} ", offer.body)
        b.reply(offer, 491, source=CALLER)
        self.assertEqual((leg.music, b.firsts()), (False, ["ACK"]))
        b.pass_time(1.1)
        [again] = [message for address, message in b.take() if address == CALLER and message.is_request]
        b.reply(again, 200, body(7500), source=CALLER)
        self.assertEqual((leg.music, b.x.rows.calls["1"].joined), (True, False))

    def test_a_waiting_caller_hears_music_and_is_moved(self) -> None:
        b = self.bench
        b.waiting()
        b.firsts()
        [leg] = b.x.rows.legs.values()
        self.assertEqual((leg.state, leg.music), ("up", True))
        # before the ACK of the first 200 no other offer can be made
        b.report("diverted@100/100", "delivered@201/100")
        invite = next(message for address, message in b.take() if address == PHONE)
        b.reply(invite, 200, body(7201))
        b.answer()
        self.assertEqual(b.firsts(), ["ACK"])
        b.request("ACK", "sip:acd@x", to=f"<sip:100@x>;tag={leg.key}")
        b.pass_time(0.3)
        [(address, offer)] = b.take()
        self.assertEqual((address, offer.method, "m=audio 7201" in offer.body), (CALLER, "INVITE", True))
        b.reply(offer, 200, body(7500), source=CALLER)
        sent = b.take()
        self.assertEqual([(address, message.method, "m=audio 7500" in message.body) for address, message in sent], [(CALLER, "ACK", False), (PHONE, "INVITE", True)])
        self.assertEqual((leg.music, b.x.rows.calls["1"].joined), (False, True))


EDGE = "127.0.0.1:5060"
TRUNK, PHONE_201 = "X-ACD-Sender: trunk-password 192.0.2.7\r\n", "X-ACD-Sender: phone 192.0.2.8\r\nX-ACD-Phone: 201\r\n"


class Edge(OnABench):
    settings = {"phones": {}, "edge": EDGE}

    def test_only_the_edge_is_heard(self) -> None:
        b = self.bench
        b.invite(fields=TRUNK)
        self.assertEqual((b.firsts(), b.asked()), ([], []))

    def test_who_is_a_phone(self) -> None:
        """Only what the edge says makes a phone; a trunk that shows a station's number stays a trunk."""
        b = self.bench
        for field, wanted in ((TRUNK, ("arriveCall", {"caller": "201", "called": "100"})), (PHONE_201, ("makeCall", {"device": "201", "called": "100"}))):
            b.request("INVITE", "sip:100@x", EDGE, "201", f"c{len(field)}", fields=field, text=body(7000))
            self.assertEqual(b.asked()[-1], wanted)

    def test_for_whom_the_edge_vouches(self) -> None:
        """Outside of a dialog the exchange takes requests from nobody else; the edge makes a CANCEL and an ACK, and these have no field."""
        b = self.bench
        said = list[str]()
        setattr(b.x.steps, "say", said.append)
        wrong = ("", "X-ACD-Sender:\r\n", "X-ACD-Sender: trunk 192.0.2.7\r\n", "X-ACD-Sender: trunk-password\r\n", "X-ACD-Sender: trunk-password 192.0.2.256\r\n",
                 "X-ACD-Sender: trunk-password 192.0.2.7 x\r\n", "X-ACD-Sender: trunk-password, 192.0.2.7\r\n", TRUNK + TRUNK, TRUNK + PHONE_201,
                 "X-ACD-Sender: phone 192.0.2.8\r\n", "X-ACD-Phone: 201\r\n", TRUNK + "X-ACD-Phone: 201\r\n", PHONE_201 + "X-ACD-Phone: 202\r\n",
                 "X-ACD-Sender: phone 192.0.2.8\r\nX-ACD-Phone:\r\n")
        for place, field in enumerate(wrong):
            for method in ("INVITE", "OPTIONS", "MESSAGE", "BYE", "REFER", "REGISTER", "NOTHING"):
                b.request(method, "sip:100@x", EDGE, "201", f"c{place}", fields=field, text=body(7000))
                self.assertEqual((b.firsts(), b.asked(), len(b.x.rows.legs)), (["SIP/2.0 403"], [], 0), field + method)
            b.request("ACK", "sip:100@x", EDGE, fields=field)
            b.request("CANCEL", "sip:100@x", EDGE, fields=field, branch=f"z9hG4bKnobody{place}")
            self.assertEqual(b.firsts(), ["SIP/2.0 481"])
        # an older file of the edge makes a line once an hour
        self.assertEqual(["kamailio.cfg" in line for line in said], [True])
        b.request("INVITE", "sip:100@x", EDGE, branch="z9hG4bKc1", fields=TRUNK, text=body(7000))
        b.request("CANCEL", "sip:100@x", EDGE, branch="z9hG4bKc1")
        self.assertEqual(b.firsts(), ["SIP/2.0 100", "SIP/2.0 200", "SIP/2.0 487"])

    def test_in_a_dialog_nobody_vouches(self) -> None:
        b = self.bench
        b.request("INVITE", "sip:100@x", EDGE, fields=TRUNK, text=body(7000))
        b.answer(call=1)
        b.report("queued@100", "diverted@100/100", "delivered@201/100")
        b.reply(b.take()[-1][1], 200, body(7201), source=EDGE)
        b.answer()
        to = b.take()[-1][1].get("to")
        b.request("ACK", "sip:acd@x", EDGE, to=to)
        b.request("BYE", "sip:acd@x", EDGE, to=to, cseq=2)
        self.assertEqual(b.firsts(), ["SIP/2.0 200"])

    def test_a_tag_after_what_looks_like_an_address(self) -> None:
        """For the edge each of these is a request in a dialog, so no password was asked for: here it is none that is known, or none at all."""
        b = self.bench
        for to, status in (('<sip:100@EDGE>;tag=abc;x=">"', 481), ("<sip:100@EDGE>;tag=a>", 400), ("<sip:100@EDGE>;tag=abc;z=<x>", 400),
                           ('<sip:100@EDGE>;tag=abc;x="<sip:y>"', 481)):
            for field in ("", TRUNK):
                b.request("INVITE", "sip:100@192.0.2.1", EDGE, to=to, fields=f"Route: <sip:{EDGE};lr>\r\n" + field, text=body(7000))
                self.assertEqual((b.firsts(), b.asked(), len(b.x.rows.legs)), ([f"SIP/2.0 {status}"], [], 0), to)

    def test_phones_are_rung_by_way_of_the_edge(self) -> None:
        b = self.bench
        b.request("INVITE", "sip:100@x", EDGE, fields=TRUNK, text=body(7000))
        b.answer(call=1)
        b.report("queued@100", "diverted@100/100", "delivered@201/100")
        address, invite = b.take()[-1]
        self.assertEqual((address, invite.target), (EDGE, f"sip:201@{EDGE}"))
        b.reply(invite, 200, body(7201), source=EDGE, fields=f"Record-Route: <sip:{EDGE};lr>\r\n")
        address, ack = b.take()[-1]
        self.assertEqual((address, ack.method, ack.all("route")), (EDGE, "ACK", [f"<sip:{EDGE};lr>"]))


class Acknowledged(OnABench):
    def test_an_ack_without_the_tag_of_the_answer(self) -> None:
        """Who shows a foreign address doesn't hear the answer, and so doesn't know its tag."""
        b = self.bench
        b.talking()
        b.take()
        for to in ("", "<sip:100@x>;tag=guessed"):
            b.request("ACK", "sip:acd@x", to=to, branch="z9hG4bKc1")
        b.pass_time(2.6)
        self.assertEqual(b.firsts(), ["SIP/2.0 200", "SIP/2.0 200", "BYE"])


class Sessions(OnABench):
    settings = {"session": 100}

    def test_too_short(self) -> None:
        b = self.bench
        b.invite(fields="Session-Expires: 60\r\nSupported: timer\r\n")
        [(_, answer)] = b.take()
        self.assertEqual((answer.status, answer.get("min-se")), (422, "90"))

    def test_the_exchange_refreshes(self) -> None:
        b = self.bench
        b.talking()
        answer = next(message for address, message in b.take() if address == CALLER)
        b.request("ACK", "sip:acd@x", to=answer.get("to"))
        b.pass_time(51)
        offers = [(address, message) for address, message in b.take() if message.method == "INVITE"]
        self.assertEqual(sorted({address for address, _ in offers}), [PHONE, CALLER])
        self.assertEqual({message.get("session-expires") for _, message in offers}, {"100;refresher=uac"})
        for address, message in offers:
            b.reply(message, 200, body(7000 if address == CALLER else 7201), source=address, fields="Session-Expires: 100;refresher=uac\r\n")
        b.pass_time(40)
        self.assertEqual(b.asked(), [])
        b.pass_time(51)
        self.assertEqual([service for service, _ in b.asked()], ["clearConnection"] * 2)

    def test_the_caller_refreshes_or_is_gone(self) -> None:
        b = self.bench
        b.invite(fields="Session-Expires: 95;refresher=uac\r\nSupported: timer\r\n")
        b.answer(call=1)
        b.report("queued@100", "diverted@100/100", "delivered@201/100")
        invite = b.take()[-1][1]
        b.reply(invite, 200, body(7201))
        b.answer()
        answer = b.take()[-1][1]
        self.assertEqual((answer.status, answer.get("session-expires"), answer.get("require")), (200, "95;refresher=uac", "timer"))
        b.request("ACK", "sip:acd@x", to=answer.get("to"))
        b.pass_time(40)
        b.request("INVITE", "sip:acd@x", to=answer.get("to"), cseq=2, fields="Session-Expires: 95;refresher=uac\r\nSupported: timer\r\n", text=body(7000))
        self.assertIn((CALLER, "200"), [(address, message.first.split(" ")[1]) for address, message in b.take()])
        b.request("ACK", "sip:acd@x", to=answer.get("to"), cseq=2)
        b.pass_time(60)
        self.assertFalse([asked for asked in b.asked() if asked[1]["device"] == "0301"])
        b.pass_time(10)
        self.assertIn(("clearConnection", {"call": 1, "device": "0301"}), b.asked())


class Codes(OnABench):
    def test_codes(self) -> None:
        b = self.bench
        for code, wanted in (("*221*100*101", {"agent": "1", "requested": "loggedOn", "device": "201", "groups": ["100", "101"]}),
                             ("*24", {"agent": "1", "requested": "ready"})):
            b.request("MESSAGE", f"sip:{code}@x", number="201", call_id=code)
            self.assertEqual(b.asked(), [("setAgentState", wanted)])
            b.answer(state="notReady")
            self.assertEqual(b.firsts(), ["SIP/2.0 200"])
        for code, number in (("*24", "0301"), ("*24", "202"), ("*99", "201"), ("*22", "201"), ("*24*100", "201")):
            b.request("MESSAGE", f"sip:{code}@x", number=number, call_id=code + number)
            self.assertEqual((b.firsts(), b.asked()), (["SIP/2.0 404"], []))

    def test_a_phone_rules_the_agent_who_sits_at_it(self) -> None:
        """An agent's number is for logging on alone: no code of another phone, or of its own, names one."""
        b = self.bench
        b.report("agentLoggedOn@201")
        for number, code in itertools.product(("201", "202"), ("*231", "*241", "*251", "*261", "*232", "*2", "*22*100", "*221", "*231*100")):
            b.request("MESSAGE", f"sip:{code}@x", number=number, call_id=code[1:] + number)
            self.assertEqual((b.firsts(), b.asked()), (["SIP/2.0 404"], []), (number, code))

    def test_which_agents_a_phone_may_log_on(self) -> None:
        b = Bench(agents={"201": {"1", "7"}, "202": {"any"}})
        self.addCleanup(b.close)
        for number, agent, is_asked in (("201", "1", True), ("201", "7", True), ("201", "8", False), ("201", "17", False), ("202", "8", True)):
            b.request("MESSAGE", f"sip:*22{agent}*100@x", number=number, call_id=agent + number)
            self.assertEqual(([members["agent"] for _, members in b.asked()], b.firsts()), ([agent], []) if is_asked else ([], ["SIP/2.0 403"]), (number, agent))
            if is_asked:
                b.answer("wrongAgentState")
                b.take()
        self.assertFalse(b.settings.may_log_on("203", "1"))

    def test_a_code_that_is_dialled(self) -> None:
        """It is answered, and hung up by the exchange once the phone has heard so; a refusal is a refusal of the call."""
        b = self.bench
        b.invite("*221*100", "201")
        b.answer(state="notReady")
        answer = b.take()[-1][1]
        self.assertEqual((answer.status, answer.tag("to") in b.x.rows.legs), (200, True))
        b.request("ACK", "sip:acd@x", number="201", to=answer.get("to"))
        [(address, bye)] = b.take()
        self.assertEqual((address, bye.method), (CALLER, "BYE"))
        b.reply(bye, 200, source=CALLER)
        self.assertEqual((b.asked(), len(b.x.rows.legs)), ([], 0))
        b.invite("*24", "201", "c2")
        b.answer("wrongAgentState")
        self.assertEqual(b.firsts(), ["SIP/2.0 100", "SIP/2.0 403"])


class Other(OnABench):
    def test_other_requests(self) -> None:
        b = self.bench
        b.request("OPTIONS", "sip:acd@x")
        b.request("REGISTER", "sip:x")
        b.request("BYE", "sip:acd@x", to="<sip:100@x>;tag=nobody")
        b.request("CANCEL", "sip:100@x")
        self.assertEqual(b.firsts(), ["SIP/2.0 200", "SIP/2.0 501", "SIP/2.0 481", "SIP/2.0 481"])

    def test_transfer(self) -> None:
        b = self.bench
        invite = b.talking()
        b.take()
        b.request("REFER", "sip:acd@x", PHONE, "201", invite.get("call-id"), invite.get("from"), 2, fields="Refer-To: <sip:202@x>\r\n")
        self.assertEqual(b.asked(), [("singleStepTransfer", {"call": 1, "device": "201", "to": "202"})])
        self.assertEqual(b.firsts(), ["SIP/2.0 202", "NOTIFY"])
        b.answer()
        b.report("transferred@201", "delivered@202")
        self.assertEqual([(address, message.method) for address, message in b.take()][:2], [(PHONE, "NOTIFY"), (PHONE, "BYE")])
        self.assertIn("202", b.x.rows.calls["1"].legs)
        self.assertEqual(b.x.rows.legs[b.x.rows.calls["1"].legs["202"]].hop, OTHER)
        b.request("REFER", "sip:acd@x", PHONE, "201", invite.get("call-id"), invite.get("from"), 3, fields="Refer-To: <sip:202@x?Replaces=1>\r\n")
        self.assertEqual(b.firsts(), ["SIP/2.0 603"])


if __name__ == "__main__":
    unittest.main()
