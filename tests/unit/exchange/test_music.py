"""Music: after the ACK, and to addresses that its sender may name."""
from __future__ import annotations

import unittest
from typing import Any

from exchange_bench import CALLER, PHONE, Bench, body
from bridge import music
from bridge.records import Leg

EDGE = "192.0.2.1:5060"
ADDRESSES = {"192.0.2.1", "192.0.2.2", "192.0.2.255"}


def asking(host: str, port: int = 7000) -> str:
    return body(port).replace("IN IP4 127.0.0.1\r\nt", f"IN IP4 {host}\r\nt")


class Heard(unittest.TestCase):
    """This machine has ADDRESSES, one of them the broadcast of its network."""

    def bench(self, **settings: Any) -> Bench:
        bench = Bench(**{"phones": {}, "edge": EDGE, "waiting": "music", "media": "198.51.100.0/24, 203.0.113.9", **settings})
        self.addCleanup(bench.close)
        is_here = music.is_here
        setattr(music, "is_here", ADDRESSES.__contains__)
        self.addCleanup(setattr, music, "is_here", is_here)
        self.said = list[str]()
        setattr(bench.x.steps, "say", self.said.append)
        return bench

    def call(self, bench: Bench, sender: str, asked: str) -> Leg | None:
        """A caller who waits; his leg where he was answered."""
        number = str(bench.event + 1)
        phone = "X-ACD-Phone: 201\r\n" if sender.startswith("phone") else ""
        bench.request("INVITE", "sip:100@x", EDGE, "0301", f"c{number}", branch=f"z9hG4bKc{number}", fields=f"X-ACD-Sender: {sender}\r\n{phone}", text=asked)
        while bench.asked():
            bench.answer(call=int(number))
        bench.report("queued@100", call=int(number))
        answer = bench.take()[-1][1]
        self.assertIn(answer.status, (182, 200))
        if answer.status == 182:
            return None
        self.assertEqual(list(bench.x.music.listeners()), [])
        bench.request("ACK", "sip:acd@x", EDGE, "0301", f"c{number}", to=answer.get("to"))
        return bench.x.rows.legs[answer.tag("to")]

    def heard(self, bench: Bench) -> list[tuple[str, int]]:
        return [address for _, address, _ in bench.x.music.listeners()]

    def test_where_it_goes(self) -> None:
        anywhere = {"192.0.2.50", "198.51.100.7", "203.0.113.9", "203.0.113.10", "10.9.9.8"}
        nowhere = {"0.0.0.0", "0.1.2.3", "224.0.0.1", "239.255.255.255", "240.0.0.1", "255.255.255.255"}
        here = {"127.0.0.1", "127.8.9.1", *ADDRESSES}
        cases = {
            # a sender known by his address: that address, and the networks of the settings
            "trunk-address 192.0.2.50": {"192.0.2.50", "198.51.100.7", "203.0.113.9"},
            "trunk-address 127.0.0.1": {"127.0.0.1", "198.51.100.7", "203.0.113.9"},
            "trunk-address 192.0.2.1": {"192.0.2.1", "198.51.100.7", "203.0.113.9"},
            # a sender with a password: any address, and of this machine's only the sender's
            "trunk-password 192.0.2.50": anywhere,
            "trunk-password 127.0.0.1": anywhere | {"127.0.0.1"},
            "trunk-password 192.0.2.2": anywhere | {"192.0.2.2"},
            "phone 10.9.9.8": anywhere, "phone 127.0.0.1": anywhere | {"127.0.0.1"}}
        for sender, wanted in cases.items():
            for host in sorted(anywhere | nowhere | here):
                bench = self.bench()
                leg = self.call(bench, sender, asking(host))
                self.assertEqual((leg is not None, self.heard(bench)), (host in wanted, [(host, 7000)] * (host in wanted)), (sender, host))
                # and one line that names the address
                self.assertEqual([host in line for line in self.said], [True] * (host not in wanted), self.said)

    def test_ports(self) -> None:
        for port, wanted in ((0, False), (53, False), (1023, False), (1024, True), (65535, True)):
            bench = self.bench()
            self.assertEqual(self.call(bench, "phone 10.9.9.8", asking("10.9.9.8", port)) is not None, wanted, port)

    def test_it_is_said_once(self) -> None:
        """Again after an hour; another address by itself."""
        bench = self.bench()
        for host in ("10.9.9.8", "10.9.9.8", "10.9.9.9", "10.9.9.8"):
            self.assertIsNone(self.call(bench, "trunk-address 192.0.2.50", asking(host)))
        self.assertEqual(["10.9.9.8" in line for line in self.said], [True, False])
        bench.pass_time(50)
        self.assertEqual(len(self.said), 2)
        bench.now += 3600
        self.assertIsNone(self.call(bench, "trunk-address 192.0.2.50", asking("10.9.9.8")))
        self.assertEqual(len(self.said), 3)

    def test_who_is_refused_is_said_again_and_again(self) -> None:
        """As with --waiting queued."""
        bench = self.bench()
        self.assertIsNone(self.call(bench, "trunk-address 192.0.2.50", asking("10.9.9.8")))
        bench.pass_time(46)
        self.assertEqual(bench.firsts(), ["SIP/2.0 182"])

    def test_not_before_the_ack(self) -> None:
        bench = self.bench()
        bench.request("INVITE", "sip:100@x", EDGE, fields="X-ACD-Sender: phone 10.9.9.8\r\nX-ACD-Phone: 201\r\n", text=asking("10.9.9.8"))
        bench.answer(call=1)
        bench.answer()
        bench.report("queued@100")
        answer = bench.take()[-1][1]
        self.assertEqual((answer.status, self.heard(bench)), (200, []))
        bench.request("ACK", "sip:acd@x", EDGE, to="<sip:100@x>;tag=forged")
        bench.pass_time(1)
        self.assertEqual(self.heard(bench), [])
        bench.request("ACK", "sip:acd@x", EDGE, to=answer.get("to"))
        self.assertEqual(self.heard(bench), [("10.9.9.8", 7000)])

    def test_moved_while_it_plays(self) -> None:
        """An offer that names another address: no music there before its ACK, and none at all if the address isn't allowed."""
        bench = self.bench()
        leg = self.call(bench, "trunk-address 192.0.2.50", asking("192.0.2.50"))
        assert leg is not None
        for turn, (host, wanted) in enumerate((("198.51.100.7", True), ("10.9.9.8", False), ("127.0.0.1", False), ("192.0.2.1", False), ("192.0.2.50", True)), 2):
            to = f"<sip:100@x>;tag={leg.key}"
            bench.request("INVITE", "sip:acd@x", EDGE, "0301", leg.call_id, to=to, cseq=turn, text=asking(host))
            self.assertEqual((bench.firsts()[-1], self.heard(bench)), ("SIP/2.0 200", []))
            bench.request("ACK", "sip:acd@x", EDGE, "0301", leg.call_id, to=to, cseq=turn)
            self.assertEqual(self.heard(bench), [(host, 7000)] * wanted)

    def test_without_an_edge(self) -> None:
        """Each sender is known by the address of his datagrams; a phone that is rung by where it is."""
        bench = self.bench(phones={"201": f"sip:201@{PHONE}"}, edge="", media="")
        for place, (host, status) in enumerate((("127.0.0.1", 200), ("127.0.0.2", 182), ("10.9.9.8", 182)), 1):
            bench.request("INVITE", "sip:100@x", CALLER, call_id=f"c{place}", text=asking(host))
            bench.answer(call=place)
            bench.report("queued@100", call=place)
            self.assertEqual(bench.take()[-1][1].status, status, host)
        bench.report("serviceInitiated@201", call=9)
        bench.reply(bench.take()[-1][1], 200, asking("127.0.0.1", 7201))
        self.assertEqual(self.heard(bench), [("127.0.0.1", 7201)])

    def test_a_phone_that_the_edge_rings(self) -> None:
        """It gave a password when it registered; its address isn't known, so this machine gets no music."""
        for host, wanted in (("10.9.9.8", True), ("127.0.0.1", False), ("192.0.2.1", False)):
            bench = self.bench()
            bench.report("serviceInitiated@201")
            bench.reply(bench.take()[-1][1], 200, asking(host, 7201), source=EDGE)
            self.assertEqual(self.heard(bench), [(host, 7201)] * wanted, host)

    def test_whose_address_counts(self) -> None:
        """In a description of several media that of the audio, else that of all."""
        bench = self.bench()
        inner = asking("192.0.2.50") + "c=IN IP4 10.9.9.8\r\nm=video 7002 RTP/AVP 31\r\nc=IN IP4 192.0.2.50\r\n"
        other = asking("192.0.2.50").replace("m=audio", "m=video 7002 RTP/AVP 31\r\nc=IN IP4 10.9.9.8\r\nm=audio")
        self.assertIsNone(self.call(bench, "trunk-address 192.0.2.50", inner))
        self.assertIsNotNone(self.call(bench, "trunk-address 192.0.2.50", other))


class Here(unittest.TestCase):
    def test_addresses_of_this_machine(self) -> None:
        self.assertEqual([music.is_here(host) for host in ("127.0.0.1", "127.1.2.3", "198.51.100.77")], [True, True, False])


if __name__ == "__main__":
    unittest.main()
