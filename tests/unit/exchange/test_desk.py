"""The line to the desk, over a desk that is played by hand."""
from __future__ import annotations

import asyncio
import re
import socket
import ssl
import time
import unittest
from collections.abc import Callable
from contextlib import redirect_stdout, suppress
from io import StringIO
from typing import Any
from unittest import mock

from acd_client import Answer, Event, Missed, Page, Unanswered
from exchange_bench import TOP, Bench
from bridge import desk
from bridge.desk import DeskLine


class Desk:
    """Answers reads from a table of paths, has pages of events to give, and writes down what it was asked."""

    def __init__(self, shown: dict[str, dict[str, Any]], *pages: list[Event]):
        self.shown, self.pages, self.asked, self.known = shown, list(pages), list[Any](), list[Any]()

    def attempt(self, method: str, path: str) -> Answer:
        self.asked.append(path)
        return Answer(200, self.shown[path]) if path in self.shown else Answer(404, {})

    def page(self, after: int, known: Event | None) -> Page:
        self.known.append(known)
        return {"events": self.pages.pop(0) if self.pages else [], "last": 0}

    def send(self, body: dict[str, Any]) -> Answer:
        self.asked.append(body["service"])
        if body["service"] == "silence":
            raise Unanswered("planted")
        return Answer(200, {"result": {}})


def event(number: int, name: str, call: int) -> Event:
    return {"number": number, "moment": 1, "event": name, "call": call, "device": "100"}


class Line(unittest.TestCase):
    def line(self, desk: Desk, **settings: Any) -> tuple[Bench, DeskLine]:
        bench = Bench(**settings)
        self.addCleanup(bench.close)
        line = DeskLine(bench.x)
        setattr(line, "client", desk)
        return bench, line

    def start(self, line: DeskLine) -> None:
        with redirect_stdout(StringIO()):
            asyncio.run(line.start())

    def test_a_start_finds_calls_of_nobody(self) -> None:
        """The events show one, the snapshot alone the other; a desk without snapshots shows the first one."""
        live = {"connections": [{"device": "0301", "state": "connected"}, {"device": "100", "state": "queued"}]}
        cases: list[tuple[dict[str, Any], list[int]]] = [({"/snapshot": {"calls": [{"call": 8}]}}, [7, 8]), ({}, [7])]
        for snapshot, cleared in cases:
            desk = Desk({"/calls/7": live, "/calls/8": live, **snapshot}, [event(1, "queued", 7)])
            bench, line = self.line(desk)
            self.start(line)
            asked = sorted(members["call"] for service, members in bench.asked() if service == "clearConnection")
            self.assertEqual((asked, len(bench.x.rows.strangers)), (cleared, 0))

    def test_nothing_of_an_old_history_is_done_again(self) -> None:
        bench, line = self.line(Desk({}, [event(1, "serviceInitiated", 7), event(2, "callCleared", 7)]))
        self.start(line)
        self.assertEqual((bench.take(), bench.asked(), bench.x.calls.learning), ([], [], False))

    def test_a_file_that_was_carried_over(self) -> None:
        """The first events are in an archive alone: a new bridge begins with the snapshot, and one that had an event there has another history."""
        class Carried(Desk):
            def page(self, after: int, known: Event | None = None) -> Page:
                page = super().page(after, known)
                if after < 40:
                    raise Missed("planted")
                return page

        agents = [{"agent": "7", "device": "201", "state": "ready"}, {"agent": "8", "state": "null"}]
        shown = {"/snapshot": {"agents": agents, "calls": [{"call": 8}], "last": 41}, "/calls/8": {"connections": []}}
        desk = Carried(shown, [], [event(41, "queued", 8)], [event(42, "callCleared", 8)])
        bench, line = self.line(desk)
        self.start(line)
        self.assertEqual(({row.key: row.agent for row in bench.x.rows.agents.values()}, bench.x.steps.place.known["number"], [known and known["number"] for known in desk.known]),
                         ({"201": "7"}, 42, [None, None, 41, 42]))
        bench, line = self.line(Carried(shown))
        bench.x.steps.place.known = dict(event(7, "queued", 3))
        with self.assertRaises(Missed):
            self.start(line)

    def test_requests_go_in_their_order_and_stay_until_they_are_answered(self) -> None:
        desk = Desk({})
        bench, line = self.line(desk)
        for service in ("first", "second", "silence", "third"):
            bench.x.steps.step(bench.x.steps.ask, service)
        with self.assertRaises(Unanswered):
            asyncio.run(line.once())
        self.assertEqual((desk.asked, [service for service, _ in bench.asked()]), (["first", "second", "silence"], ["silence", "third"]))

    def test_no_request_is_sent_again_after_a_day(self) -> None:
        """Also if the bridge was stopped meanwhile. What came later is sent, and a leg that waited for the reply ends."""
        desk = Desk({})
        bench, line = self.line(desk)
        bench.x.steps.step(bench.x.steps.ask, "silence")
        for later in (0, 43200, 43200):
            bench.now += later
            with self.assertRaises(Unanswered):
                asyncio.run(line.once())
        bench.x.steps.step(bench.x.steps.ask, "second")
        bench.restart()
        line = DeskLine(bench.x)
        setattr(line, "client", desk)
        bench.now += 1
        said = mock.Mock()
        setattr(bench.x.steps, "say", said)
        asyncio.run(line.once())
        self.assertEqual((desk.asked, bench.asked()), (["silence"] * 3 + ["second"], []))
        said.assert_called_once_with("the desk answered nothing for a day: requests of before aren't sent again")

    def test_a_request_in_a_file_of_before_has_no_moment(self) -> None:
        desk = Desk({})
        bench, line = self.line(desk)
        bench.x.steps.step(bench.x.steps.ask, "first")
        bench.x.steps.store.base.execute("UPDATE rows SET row = json_remove(row, '$.since') WHERE kind = 'Request'")
        bench.x.steps.store.base.commit()
        bench.restart()
        self.assertEqual([row.since for row in bench.x.rows.requests.values()], [0.0])
        line = DeskLine(bench.x)
        setattr(line, "client", desk)
        asyncio.run(line.once())
        self.assertEqual(desk.asked, ["first"])

    def test_the_edge_asks_no_desk(self) -> None:
        """It speaks SIP alone, so it sends no key at all."""
        modules = set(re.findall(r'loadmodule "(\w+)\.so"', (TOP / "exchange/kamailio.cfg").read_text()))
        self.assertGreaterEqual(modules, {"tm", "sl", "registrar"})
        self.assertFalse([module for module in modules if re.search("http|curl|json|exec|app_|evapi|rest", module)])

    def test_events_are_followed_from_the_last_one(self) -> None:
        """If the step of a page fails, the exchange takes the page event by event, and passes over the one that fails."""
        desk = Desk({}, [event(1, "queued", 7), event(2, "queued", 8), event(3, "queued", 9)])
        bench, line = self.line(desk)
        take = bench.x.calls.take_event

        def fail(each: Event) -> None:
            if each["number"] == 2:
                raise RuntimeError("planted")
            take(each)

        setattr(bench.x.calls, "take_event", fail)
        asyncio.run(line.follow())
        self.assertEqual((sorted(bench.x.rows.strangers), [known and known["number"] for known in desk.known]), (["7", "9"], [None, 3]))

    def test_ticks(self) -> None:
        """None without the option; with it one a while, and no second one while one waits. A desk without snapshots is sent one each time."""
        cases: list[tuple[int, list[str]]] = [(0, []), (60, ["/snapshot", "tick"])]
        for tick, wanted in cases:
            desk = Desk({})
            bench, line = self.line(desk, tick=tick)
            for _ in range(2):
                asyncio.run(line.once())
            self.assertEqual(desk.asked, wanted)
            line.ticked = 0.0
            bench.x.steps.step(bench.x.steps.ask, "silence")
            for _ in range(2):
                with self.assertRaises(Unanswered):
                    asyncio.run(line.once())
                line.ticked = 0.0
            self.assertEqual([service for service, _ in bench.asked()], ["silence", *wanted[1:]])

    def test_ticks_that_are_due(self) -> None:
        """By the bridge's clock, or by the moment of the desk's last request where that is greater; a reply that is no snapshot brings none."""
        def shown(offered: int, ring: int, moment: int) -> dict[str, Any]:
            connections = [{"device": "100", "group": "100", "state": "queued"}, {"device": "201", "group": "100", "offered": offered, "state": "alerting"}]
            return {"agents": [], "calls": [{"connections": connections}], "groups": [{"device": "100", "ring": ring, "wrap": 0}], "moment": moment}

        cases = [(shown(980, 20, 0), ["tick"]), (shown(981, 20, 999), []), (shown(981, 20, 1001), ["tick"]), (shown(0, 0, 2000), []), (shown(1200, 0, 0), [])]
        for snapshot, wanted in cases:
            desk = Desk({"/snapshot": snapshot})
            asyncio.run(self.line(desk, tick=1)[1].once())
            self.assertEqual((snapshot, desk.asked), (snapshot, ["/snapshot", *wanted]))
        desk = Desk({"/snapshot": {"calls": []}})
        bench, line = self.line(desk, tick=1)
        with self.assertRaises(Unanswered):
            asyncio.run(line.once())
        bench.x.steps.step(bench.x.steps.ask, "first")
        asyncio.run(line.once())
        self.assertEqual(desk.asked, ["/snapshot", "first"])

    def test_a_tick_that_is_refused_is_reported(self) -> None:
        """The same answer once an hour at most, and each other one at once; also answers after which the exchange asks again."""
        answers: list[Answer | Unanswered] = [
            Answer(403, {"error": {"code": 1, "name": "forbidden"}}), Answer(422, {"error": {"code": 2, "name": "keyReused"}}),
            Answer(200, {"result": {}}), Unanswered("status 503"), Unanswered("OSError()")]

        class Refusing(Desk):
            def send(self, body: dict[str, Any]) -> Answer:
                self.asked.append(body["service"])
                answer = answers[(self.asked.count("tick") - 1) % len(answers)]
                if isinstance(answer, Unanswered):
                    raise answer
                return answer

        bench, line = self.line(Refusing({}), tick=1)
        said = list[str]()
        setattr(bench.x.steps, "say", said.append)
        lines = [f"a tick of the desk is answered {text}" for text in ("403 forbidden", "422 keyReused", "503")]
        for seconds, wanted in ((0, lines), (3000, lines), (700, 2 * lines)):
            bench.now += seconds
            for _ in range(10):
                line.ticked = 0.0
                with suppress(Unanswered):
                    asyncio.run(line.once())
            self.assertEqual(said, wanted)

    def test_what_no_attempt_mends_is_told(self) -> None:
        """By the client's own faults: a certificate that isn't trusted, a name that isn't there, a login that is refused. Other faults are told by silence alone."""
        def fails(fault: Exception) -> Callable[..., Any]:
            def exchange(*_: Any) -> tuple[int, bytes]:
                raise Unanswered("planted") from fault
            return exchange

        untrusted = ssl.SSLCertVerificationError(1, "planted")
        untrusted.verify_message = "unable to get local issuer certificate"
        cases: list[tuple[Callable[..., Any], str, str]] = [
            (fails(untrusted), "/events", "isn't trusted: unable to get local issuer certificate; EXCHANGE_CA"), (fails(socket.gaierror(-2, "Name not known")), "/events", "Name not known"),
            (fails(ssl.SSLError(1, "WRONG_VERSION_NUMBER")), "/events", "WRONG_VERSION_NUMBER"), (fails(ConnectionRefusedError()), "/events", ""),
            (lambda *_: (401, b"{}"), "/events", "EXCHANGE_PASSWORD"), (lambda *_: (401, b"<html>"), "/csta", "EXCHANGE_PASSWORD"),
            (lambda *_: (403, b"{}"), "/events?after=0", "its role is exchange"), (lambda *_: (403, b"{}"), "/snapshot", "")]
        for answers, path, wanted in cases:
            bench, line = self.line(Desk({}))
            client = desk.Desk("https://pbx:x@desk:8443")
            said = list[str]()
            setattr(bench.x.steps, "say", said.append)

            async def once() -> None:
                await line.call(client.attempt, "GET", path)
                raise Unanswered("planted")

            setattr(line, "start", once)

            async def run() -> None:
                """Until it is said, and for as long as it might be said again."""
                running, end = asyncio.create_task(line.run()), time.monotonic() + 120
                while wanted and not said and time.monotonic() < end:
                    await asyncio.sleep(0.01)
                await asyncio.sleep(0.3)
                running.cancel()

            with mock.patch("acd_client.Client.exchange", answers), suppress(asyncio.CancelledError):
                asyncio.run(run())
            self.assertEqual((len(said), [wanted in text for text in said]), (1, [True]) if wanted else (0, []), said)

    def test_a_desk_that_is_silent(self) -> None:
        """For 3 s it is slow, for 6 s the exchange is closed for new callers; it opens with the next answer."""
        bench, line = self.line(Desk({}))
        closed, looks = list[bool](), list[float]()

        def now() -> float:
            looks.append(1000.0)
            return looks[-1]

        async def run() -> None:
            task = asyncio.create_task(line.watch())
            for silent in (3, 6, 0):
                line.heard, before = 1000.0 - silent, len(looks)
                while len(looks) < before + 2:
                    await asyncio.sleep(0.05)
                closed.append(bench.x.phones.desk_is_silent)
            task.cancel()

        with mock.patch.object(desk, "time", mock.Mock(monotonic=now)):
            asyncio.run(run())
        self.assertEqual(closed, [False, True, False])


if __name__ == "__main__":
    unittest.main()
