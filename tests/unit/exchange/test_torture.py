"""The torture messages of the trial, over a bench."""
from __future__ import annotations

import unittest
from typing import Any

from bridge.message import Message, Refused
from exchange_bench import CALLER, Bench
from torture import TORTURES, Torture

# of RFC 4475, those that concern a user agent server over UDP
SECTIONS = [*(f"3.1.1.{each}" for each in range(1, 14)), *(f"3.1.2.{each}" for each in range(1, 20)), "3.2.1", *(f"3.3.{each}" for each in range(1, 16)), "3.4.1"]


def say(bench: Bench, each: Torture, source: str) -> tuple[int, ...]:
    bench.x.receive(each.data, source)
    bench.check()
    return tuple(message.status for _, message in bench.take())


class Tortures(unittest.TestCase):
    def bench(self, **settings: Any) -> Bench:
        bench = Bench(**settings)
        self.addCleanup(bench.close)
        return bench

    def test_each_section_has_one(self) -> None:
        self.assertEqual([each.section for each in TORTURES], SECTIONS)

    def test_what_is_answered(self) -> None:
        for each in TORTURES:
            bench = self.bench()
            self.assertEqual(say(bench, each, CALLER), each.answers, each)
            # a call comes of those alone that are answered 100
            self.assertEqual((len(bench.x.rows.legs), len(bench.asked()), bench.x.steps.faults), (each.answers == (100,), each.answers == (100,), 0), each)
            if each.answers in ((), (400,), (505,)):
                self.assertEqual(bench.x.rows.served, {}, each)

    def test_whom_nobody_vouches_for(self) -> None:
        """Behind an edge none of them comes to a call, whatever it is read as."""
        for each in TORTURES:
            bench = self.bench(phones={}, edge="127.0.0.1:5060")
            wanted = each.answers if each.answers in ((), (400,), (505,)) else (403,)
            self.assertEqual((say(bench, each, "127.0.0.1:5060"), len(bench.x.rows.legs), bench.asked()), (wanted, 0, []), each)

    def test_which_responses_are_messages(self) -> None:
        for each in TORTURES:
            if not each.answers:
                valid = each.section in ("3.1.1.12", "3.1.1.13", "3.3.10")
                try:
                    Message.read(each.data.decode("latin-1"))
                    self.assertTrue(valid, each)
                except Refused as fault:
                    self.assertEqual((valid, fault.request), (False, None), each)

    def test_what_else_an_answer_says(self) -> None:
        bench = self.bench()
        for section, field, value in (("3.3.5", "unsupported", "nothingSupportsThis, norThis"), ("3.3.6", "accept", "application/sdp"),
                                      ("3.1.1.2", "allow", "INVITE, ACK, BYE, CANCEL, REFER, OPTIONS, MESSAGE")):
            [each] = [each for each in TORTURES if each.section == section]
            bench.x.receive(each.data, CALLER)
            self.assertEqual(bench.take()[0][1].get(field), value)

    def test_a_refusal_is_the_same_each_time(self) -> None:
        """It keeps nothing, and its tag comes of the request; an ACK has no answer."""
        [each] = [each for each in TORTURES if each.section == "3.1.2.8"]
        bench, sent = self.bench(), list[bytes]()
        setattr(bench.x.steps, "send", lambda data, address: sent.append(data))
        for data in (each.data, each.data, each.data.replace(b"z9hG4bK", b"z9hG4bKother"), each.data.replace(b"INVITE sip", b"ACK sip")):
            bench.x.receive(data, CALLER)
        self.assertEqual((len(sent), sent[0] == sent[1], sent[0] == sent[2]), (3, True, False))
        self.assertRegex(sent[0].decode(), r"\ASIP/2\.0 400 Bad Request\r\nVia: SIP/2\.0/UDP 127\.0\.0\.1:6001;branch=z9hG4bK-inner-blank\r\n"
                                           r"From: <sip:0301@127\.0\.0\.1>;tag=f-inner-blank\r\nTo: <sip:100@127\.0\.0\.1>;tag=[0-9a-f]{16}\r\n"
                                           r"Call-ID: inner-blank@torture\r\nCSeq: 7 INVITE\r\nContent-Length: 0\r\n\r\n\Z")


if __name__ == "__main__":
    unittest.main()
