"""The line to the desk: requests in their order, each until it has its reply, then the events that they made."""
import asyncio
import socket
import ssl
import time
from collections.abc import Callable
from contextlib import suppress
from typing import Any

import acd_due
from acd_client import LONGEST, Client, Missed, Request, Unanswered

from .exchange import Exchange

# seconds: from when on a desk is slow, and silent; between two attempts, and where the last one was refused, since a
# gate counts wrong passwords
SLOW, SILENT, AGAIN, REFUSED_AGAIN = 2.0, 5.0, 0.2, 10.0


class Unable(Unanswered):
    """No answer came, and none will until somebody has changed a setting."""


class Desk(Client):
    def exchange(self, method: str, path: str, body: Request | None = None) -> tuple[int, bytes]:
        try:
            status, data = super().exchange(method, path, body)
        except Unanswered as fault:
            if isinstance(fault.__cause__, ssl.SSLCertVerificationError):
                raise Unable(f"the desk's certificate isn't trusted: {fault.__cause__.verify_message}; "
                             "EXCHANGE_CA says whose are") from fault
            if isinstance(fault.__cause__, (ssl.SSLError, socket.gaierror)):
                raise Unable(f"the desk can't be asked at the address of EXCHANGE_DESK: {fault.__cause__}") from fault
            raise
        if status == 401:
            raise Unable("the desk's gate refuses the login of EXCHANGE_DESK with the password of EXCHANGE_PASSWORD "
                         "(401)")
        if status == 403 and path.startswith("/events"):
            raise Unable("the desk's gate lets the login of EXCHANGE_DESK read no events (403): its role is exchange")
        return status, data


class DeskLine:
    def __init__(self, exchange: Exchange):
        self.x, self.client = exchange, Desk(exchange.settings.desk, context=exchange.settings.context())
        self.wake, self.heard, self.ticked = asyncio.Event(), time.monotonic(), 0.0
        exchange.steps.wake = self.wake.set

    async def call(self, work: Callable[..., Any], *rest: Any) -> Any:
        result = await asyncio.to_thread(work, *rest)
        self.heard = time.monotonic()
        return result

    async def watch(self) -> None:
        """Says that the desk is slow, and closes the exchange for new callers while it is silent."""
        known = 0
        while True:
            await asyncio.sleep(0.25)
            since = time.monotonic() - self.heard - self.x.settings.poll
            late = (since > SLOW) + (since > SILENT)
            if late != known:
                known, self.x.phones.desk_is_silent = late, late == 2
                self.x.steps.say(f"the desk {('answers again', 'is slow', 'is silent: new callers get 503')[late]}")

    async def run(self) -> None:
        """Until its task is cancelled, or the desk has another history."""
        work = self.start
        while True:
            try:
                await work()
                work = self.once
                if not self.x.rows.requests:
                    self.wake.clear()
                    with suppress(asyncio.TimeoutError):
                        await asyncio.wait_for(self.wake.wait(), self.x.settings.poll)
            except Unable as fault:
                self.x.steps.say_hourly(str(fault))
                await asyncio.sleep(REFUSED_AGAIN)
            except Unanswered as fault:
                self.x.steps.trace("!", "desk", str(fault))
                await asyncio.sleep(AGAIN)

    async def start(self) -> None:
        """Takes all missing replies and events first. Then it finds the calls in which no phone has a part, and clears
        them."""
        self.x.calls.learning = not self.x.steps.place.known and not self.x.steps.place.invoke
        while self.x.rows.requests:
            await self.send()
        try:
            await self.follow()
        except Missed:
            if not self.x.calls.learning:
                raise
            await self.begin()
        self.x.calls.learning = False
        shown = await self.call(self.client.attempt, "GET", "/snapshot")
        live = [str(call["call"]) for call in shown.body["calls"]] if shown.status == 200 else []
        for key in {*self.x.rows.strangers, *self.x.rows.calls, *live}:
            answer = await self.call(self.client.attempt, "GET", f"/calls/{key}")
            if answer.status not in (200, 404):
                raise Unanswered(f"the call is answered {answer.status}")
            self.x.steps.step(self.x.compare, key, answer)
        print(f"following the desk from event {self.x.steps.place.known.get('number', 0)}", flush=True)

    async def begin(self) -> None:
        """If the desk's file was pruned, the snapshot shows who is logged on, and the exchange follows the events
        after its last one."""
        shown = await self.call(self.client.attempt, "GET", "/snapshot")
        if shown.status != 200:
            raise Unanswered("no snapshot is shown")
        page = await self.call(self.client.page, shown.body["last"] - 1)
        self.x.steps.step(self.x.calls.learn, shown.body["agents"], page["events"][0])
        await self.follow()

    async def once(self) -> None:
        waits = any(row.body["service"] == "tick" for row in self.x.rows.requests.values())
        if 0 < self.x.settings.tick <= time.monotonic() - self.ticked and not waits:
            self.ticked = time.monotonic()
            if await self.tick_is_due():
                self.x.steps.step(self.x.steps.ask, "tick", "ticked")
        for _ in range(16):
            if self.x.rows.requests:
                await self.send()
        await self.follow()

    async def tick_is_due(self) -> bool:
        """Whether a tick ends something. A desk that refuses to say (an older one has no snapshot) is sent a tick each
        step."""
        shown = await self.call(self.client.attempt, "GET", "/snapshot")
        if shown.status != 200:
            return True
        try:
            return acd_due.is_due(shown.body, self.x.steps.wall())
        except (LookupError, TypeError) as fault:
            raise Unanswered("the reply is no snapshot") from fault

    async def send(self) -> None:
        row = self.x.rows.requests[min(self.x.rows.requests, key=int)]
        if row.since and self.x.steps.now() - row.since > LONGEST:
            self.x.steps.say_hourly("the desk answered nothing for a day: requests of before aren't sent again")
            self.x.steps.step(self.x.calls.pass_over, row)
            return
        try:
            answer = await self.call(self.client.send, row.body)
        except Unanswered as fault:
            if row.then == "ticked" and str(fault).startswith("status "):
                self.x.steps.say_hourly(f"a tick of the desk is answered {str(fault)[7:]}")
            raise
        self.x.steps.trace("=", "desk", f"{row.body} {answer.status} {answer.body}")
        self.x.steps.step(self.x.calls.take_reply, row, answer) or self.x.steps.step(self.x.calls.pass_over, row)

    async def follow(self) -> None:
        while True:
            known = self.x.steps.place.known
            page = await self.call(self.client.page, known.get("number", 0), known or None)
            if not page["events"]:
                return
            self.x.steps.trace("*", "desk", str(page["events"]))
            if not self.x.steps.step(self.x.calls.take_events, page["events"]):
                # each event is a step then, and the one that fails is passed over
                for event in page["events"]:
                    if not self.x.steps.step(self.x.calls.take_events, [event]):
                        self.x.steps.step(setattr, self.x.steps.place, "known", event)
