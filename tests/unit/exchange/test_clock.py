"""Somebody sets the machine's clock, an hour ahead or back: no timer goes by it, in one run and over starts."""
from __future__ import annotations

import time
import unittest

from exchange_bench import CALLER, Bench
from bridge.store import Store

HOUR = 3600.0
UAC = "Session-Expires: 1800;refresher=uac\r\nSupported: timer\r\n"


class Clock(unittest.TestCase):
    def bench(self) -> Bench:
        bench = Bench(session=1800)
        self.addCleanup(bench.close)
        bench.ahead = 1.7e9
        bench.restart()
        return bench

    def refreshed_by_the_caller(self) -> Bench:
        """A conversation whose caller has to refresh it."""
        b = self.bench()
        b.invite(fields=UAC)
        b.answer(call=1)
        b.report("queued@100", "diverted@100/100", "delivered@201/100")
        b.reply(b.take()[-1][1], 200, fields="Session-Expires: 1800;refresher=uas\r\n")
        b.answer()
        b.report("established@201/100")
        answer = next(message for address, message in b.take() if address == CALLER and message.status == 200)
        b.request("ACK", "sip:acd@x", to=answer.get("to"))
        b.pass_time(40)
        b.take()
        return b

    def sent_in(self, b: Bench, seconds: int) -> list[tuple[int, str]]:
        """What is sent, by the second in which it is."""
        began, sent = b.now, list[tuple[int, str]]()
        for second in range(seconds):
            b.pass_time(began + second + 1 - b.now)
            sent += [(second, word) for word in b.firsts()]
        return sent

    def test_the_clock_is_the_monotonic_one(self) -> None:
        store = Store(":memory:")
        self.addCleanup(store.base.close)
        self.assertLess(abs(store.now() - time.monotonic()), 60)
        self.assertLess(abs(store.wall() - time.time()), 60)

    def test_repeats_go_on(self) -> None:
        """An INVITE that is lost comes again after 0.5, 1.5, 3.5, 7.5 and 15.5 s (RFC 3261, 17.1.1.2)."""
        for jump in (0.0, HOUR, -HOUR):
            b = self.bench()
            b.waiting()
            b.report("diverted@100/100", "delivered@201/100")
            b.take()
            b.ahead += jump
            wanted = [(second, "INVITE") for second in (0, 1, 3, 7, 15)]
            self.assertEqual(self.sent_in(b, 20), wanted, jump)

    def test_reminders_go_on(self) -> None:
        for jump in (HOUR, -HOUR):
            b = self.bench()
            b.waiting()
            b.take()
            b.ahead += jump
            self.assertEqual(self.sent_in(b, 100), [(44, "SIP/2.0 182"), (89, "SIP/2.0 182")], jump)

    def test_a_conversation_goes_on(self) -> None:
        """Nothing is sent at once, and no call ends, whoever refreshes."""
        for jump in (HOUR, -HOUR):
            b = self.refreshed_by_the_caller()
            b.ahead += jump
            self.assertEqual((self.sent_in(b, 60), b.asked()), ([], []), jump)

    def test_behind_a_start(self) -> None:
        """The clock was set while the exchange ran, or while it was down; or the machine has started, and its monotonic clock begins anew."""
        for before, while_down, boot in ((HOUR, 0.0, False), (-HOUR, 0.0, False), (0.0, HOUR, False), (0.0, -HOUR, False), (0.0, 0.0, True), (HOUR, 0.0, True)):
            b = self.refreshed_by_the_caller()
            b.ahead += before
            b.pass_time(1)
            b.ahead += while_down
            if boot:
                b.ahead, b.now = b.ahead + b.now - 7.0, 7.0
            b.restart()
            for address, message in b.take():
                self.assertEqual(message.method, "OPTIONS", (before, while_down, boot))
                b.reply(message, 200, source=address)
            self.assertEqual((self.sent_in(b, 60), b.asked()), ([], []), (before, while_down, boot))

    def test_a_silent_peer_is_still_hung_up(self) -> None:
        """Whoever has to refresh and doesn't has 1,768 s, by whatever the clock says; a start doesn't add to them."""
        for start in (False, True):
            b = self.refreshed_by_the_caller()
            b.ahead -= HOUR
            b.pass_time(20)
            if start:
                b.restart()
                for address, message in b.take():
                    b.reply(message, 200, source=address)
            b.pass_time(1700)
            self.assertNotIn("BYE", b.firsts(), start)
            b.pass_time(20)
            self.assertIn(("BYE", CALLER), [(message.method, address) for address, message in b.take() if message.is_request], start)

    def test_repeats_behind_a_start(self) -> None:
        """A phone that was rung is asked again within seconds, and given up after some more, though the clock went back meanwhile."""
        b = self.bench()
        b.waiting()
        b.report("diverted@100/100", "delivered@201/100")
        b.take()
        b.ahead -= HOUR
        b.restart()
        sent = self.sent_in(b, 40)
        self.assertEqual((sent[0], {word for _, word in sent}), ((1, "INVITE"), {"INVITE"}))
        self.assertEqual([service for service, _ in b.asked()], ["rejectCall"])


if __name__ == "__main__":
    unittest.main()
