"""Steps: an input changes rows and puts datagrams aside. The exchange keeps the rows and then sends the datagrams, or
undoes all of it."""
import heapq
import secrets
import sqlite3
import sys
import traceback
from collections.abc import Callable
from typing import Any

from .records import Leg, Place, Request, Rows
from .settings import Settings
from .store import Store

# seconds until the same text is said again, and how many texts are remembered
SAID_AGAIN, MOST_SAID = 3600.0, 1000


class Steps:
    def __init__(self, settings: Settings, store: Store, send: Callable[[bytes, str], None]):
        self.settings, self.store, self.send, self.now, self.wall = settings, store, send, store.now, store.wall
        self.rows = Rows(store)
        # each start has another requester, so that no key is used twice, whatever a power cut has undone
        self.requester = f"{settings.login or 'exchange'}-{secrets.token_hex(4)}"
        self.out: list[tuple[bytes, str]] = []
        self.alarms: list[tuple[float, str, str]] = []
        # the function for the alarms of a kind of row
        self.rings: dict[str, Callable[[Any], None]] = {}
        self.steps = self.faults = 0
        self.said_at: dict[str, float] = {}
        # is called if there are requests for the desk
        self.wake: Callable[[], None] = lambda: None

    @property
    def place(self) -> Place:
        return self.rows.places.get("1") or self.rows.places.add(Place("1"))

    def step(self, work: Callable[..., None], *rest: Any) -> bool:
        """One input: keeps the rows and then sends, or undoes all of it."""
        self.steps += 1
        try:
            work(*rest)
        except Exception:
            self.store.undo()
            self.out.clear()
            self.faults += 1
            self.say("a step was undone:\n" + traceback.format_exc())
            return False
        try:
            kept = self.store.commit()
        except sqlite3.Error as fault:
            self.say(f"acd-exchange: the file can't be written: {fault}")
            raise SystemExit(1) from fault
        out, self.out = self.out, []
        for data, address in out:
            self.trace(">", address, data.decode("latin-1"))
            self.send(data, address)
        for row in kept:
            if row.due:
                heapq.heappush(self.alarms, (row.due, type(row).__name__, row.key))
        if self.rows.requests:
            self.wake()
        return True

    def put(self, text: str, address: str) -> None:
        """Puts a datagram aside."""
        if text:
            self.out.append((text.encode("latin-1"), address))

    def ask(self, service: str, then: str = "", leg: Leg | None = None, served: str = "", **members: Any) -> None:
        """Puts a request to the desk aside."""
        self.place.invoke += 1
        body = {"requester": self.requester, "invoke": self.place.invoke, "service": service, **members}
        self.rows.requests.add(Request(str(self.place.invoke), body, then, leg.key if leg else "", served, self.now()))

    def ring_alarms(self) -> float:
        """Rings some of the alarms that are due, and returns the seconds until the next one."""
        if self.store.clock_was_set():
            self.step(self.store.follow_clock)
        for _ in range(20):
            if not self.alarms or self.alarms[0][0] > self.now():
                break
            due, kind, key = heapq.heappop(self.alarms)
            row = self.store.tables[kind].get(key)
            # an alarm that was put off has another entry; one whose step fails doesn't ring again
            if row is not None and row.due == due:
                row.due = 0.0
                if not self.step(self.rings[kind], row):
                    self.step(setattr, self.store.tables[kind][key], "due", 0.0)
        return self.alarms[0][0] - self.now() if self.alarms else 60.0

    def say(self, text: str) -> None:
        print(text, file=sys.stderr, flush=True)

    def say_hourly(self, text: str) -> None:
        """Says the same text once an hour at most."""
        now = self.now()
        if now - self.said_at.get(text, -SAID_AGAIN) >= SAID_AGAIN:
            self.said_at.pop(text, None)
            self.said_at[text] = now
            if len(self.said_at) > MOST_SAID:
                del self.said_at[next(iter(self.said_at))]
            self.say(text)

    def trace(self, mark: str, where: str, text: str) -> None:
        if self.settings.trace:
            self.say(f"{self.wall():.3f} {self.steps} {mark} {where} {text.partition(chr(13))[0]}")
