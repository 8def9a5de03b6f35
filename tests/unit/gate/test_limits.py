#!/usr/bin/python3
"""Tests of what the gate counts by login and address, and of the replies that it keeps.   usage: tests/unit/gate/test_limits.py

Needs python3-aiohttp, python3-passlib and python3-bcrypt (Debian packages)."""
import unittest
from unittest import mock

import standing  # noqa: F401  where it isn't pytest that runs this, it finds the service

from acd_service.gate import limits
from acd_service.gate.exchanges import Answer
from acd_service.gate.roles import Role


class LimitTest(unittest.TestCase):
    def test_a_reply_of_before(self):
        now, replies = [0.0], limits.Replies(lambda: now[0])
        replies.keep("lea", b"x", Answer(200, "json", b"done"))
        self.assertEqual((replies.of("lea", b"x"), replies.of("leo", b"x"), replies.of("lea", b"y")), (Answer(200, "json", b"done"), None, None))
        now[0] = limits.AGAIN
        self.assertIsNone(replies.of("lea", b"x"))
        for number in range(2 * limits.MOST_REPLIES):
            replies.keep("lea", b"%d" % number, Answer(200, "json", b""))
        self.assertEqual(len(replies.found), limits.MOST_REPLIES)

    def test_rates(self):
        now = [0.0]
        rates, role = limits.Rates(lambda: now[0]), Role("supervisor")

        def taken(login, tries, path="/events?after=1"):
            return sum(rates.takes_request(login, role, path) for _ in range(tries))

        self.assertEqual(taken("ana", 20_000), 10_000)
        self.assertEqual(taken("ben", 1), 1)
        now[0] += 1
        self.assertEqual(taken("ana", 2000), 500)
        for path in ("/snapshot", "/snapshot?x", "/history?after=1", "/calls/7", "/calls", "/stream?begin=0", "/mine?stream", "/mine?stream&begin=0"):
            now[0] += 1
            self.assertEqual((path, taken("ana", 100, path), taken("ana", 1)), (path, 25, 0))
        for path in ("/callsx", "/agents/7", "/events", "/board/snapshot", "/mine", "/mine?streams"):
            now[0] += 1
            self.assertEqual((path, taken("ana", 600, path)), (path, 500))
        self.assertEqual(sum(rates.takes_request("pbx", Role("exchange"), "/snapshot") for _ in range(600)), 500)
        now[0] += 1
        self.assertEqual(sum(rates.takes_request("pbx", Role("exchange"), "/snapshot") for _ in range(600)), 50)

    def test_rates_of_log_ins(self):
        now = [0.0]
        rates = limits.Rates(lambda: now[0])
        self.assertEqual(sum(rates.takes_log_in("ana", b"192.0.2.1") for _ in range(100)), 20)
        now[0] += 30
        self.assertEqual(sum(rates.takes_log_in("ana", b"192.0.2.2") for _ in range(100)), 10)
        self.assertEqual(sum(rates.takes_log_in(f"a{number}", b"192.0.2.3") for number in range(2000)), 1000)
        now[0] += 1
        self.assertEqual(sum(rates.takes_log_in(f"b{number}", b"192.0.2.3") for number in range(2000)), 20)
        with mock.patch.object(limits, "MOST_RATES", 50):
            for number in range(200):
                rates.takes(number, 1, 1)
            self.assertEqual(len(rates.left), 50)


if __name__ == "__main__":
    unittest.main()
