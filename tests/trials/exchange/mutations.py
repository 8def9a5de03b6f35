"""Bytes that nobody sends: mutated datagrams to an exchange with calls in every state, and mutated replies of a false desk. It has to stay alive. Behind
each datagram its tables are those before, or those of one whole step, in memory and in the file; and none takes long. All in one process, so that it can
be looked into."""
from __future__ import annotations

import gc
import json
import random
import socket
import sys
import threading
import time
from collections.abc import Callable
from pathlib import Path
from typing import Any

sys.path.insert(0, str(Path(__file__).resolve().parents[2] / "unit/exchange"))

from exchange_bench import CALLER, OTHER, PHONE, Bench, body  # noqa: E402
from acd_client import AnotherHistory, Answer, Client, Unanswered  # noqa: E402
from bridge.store import Row  # noqa: E402
from torture import TORTURES  # noqa: E402

# behind how many replies all of the file is looked at, and datagrams, when its calls are made anew
LOOKED_AT, RENEWED_AT = 250, 500
EDGE = "127.0.0.1:5060"
# bytes of a datagram, seconds of the thread's own time for one, and one in how many may take longer once: a busy machine counts what it takes from a thread
LONGEST, ALLOWED, SELDOM = 4096, 0.005, 100
# what a reader may have to go through again and again
GROWN = [b"<", b">", b'"', b"\\", b'"\\', b" ", b"\t", b";", b",", b"=", b";a=", b"\r\n ", b"(", b"%", b"@", b":", b"<sip:a>,", b"a ", b"\xff",
         b"\r\nVia: SIP/2.0/UDP a"]


def mutate(data: bytes, chance: random.Random) -> bytes:
    """Some bytes changed, left out, doubled or swapped; at times a line, or a word of another place."""
    text = bytearray(data)
    for _ in range(chance.randrange(1, 4)):
        at, length = chance.randrange(len(text) + 1), chance.randrange(5)
        match chance.randrange(6):
            case 0:
                text[at:at + length] = bytes(chance.randrange(256) for _ in range(chance.randrange(5)))
            case 1:
                text[at:at + length] = b""
            case 2:
                text[at:at] = text[at:at + 10 * length]
            case 3:
                lines = bytes(text).split(b"\r\n")
                lines.insert(chance.randrange(len(lines)), chance.choice(lines))
                text = bytearray(b"\r\n".join(lines))
            case 4:
                lines = bytes(text).split(b"\r\n")
                del lines[chance.randrange(len(lines))]
                text = bytearray(b"\r\n".join(lines))
            case _:
                text[at:at + length] = chance.choice([b"0", b"-1", b"99999999999", b"\r\n", b"\0", b"\xff", b";tag=", b"<", b">", b"sip:", b"\"", b" "])
    if not chance.randrange(8):
        at, piece = chance.randrange(len(text) + 1), chance.choice([*GROWN, bytes(text[chance.randrange(len(text) + 1):][:chance.randrange(1, 40)]) or b"0"])
        text[at:at] = piece * (chance.randrange(LONGEST) // len(piece))
    return bytes(text[:LONGEST])


class Watch:
    """Knows the tables as they were, and what is committed meanwhile."""

    def __init__(self, bench: Bench):
        self.store = bench.x.steps.store
        self.commits: list[set[tuple[str, str]]] = []
        self.known: dict[tuple[str, str], dict[str, Any]] = {}
        commit = self.store.commit

        def counted() -> list[Any]:
            changed = set(self.store.changed)
            rows = commit()
            self.commits.append(changed)
            return rows

        setattr(self.store, "commit", counted)
        self.changes()

    def changes(self) -> set[tuple[str, str]]:
        """The rows that aren't what they were; from here on they are."""
        rows: dict[tuple[str, str], Row] = {(kind, key): row for kind, table in self.store.tables.items() for key, row in table.items()}
        changed = self.known.keys() - rows.keys() | {place for place, row in rows.items() if self.known.get(place) != row.__dict__}
        for place in changed:
            self.known.pop(place, None)
            if place in rows:
                self.known[place] = {name: value.copy() if isinstance(value, (dict, list)) else value for name, value in rows[place].__dict__.items()}
        return changed

    def is_whole(self, most: int) -> bool:
        """Whether what has changed is what so many commits at most have kept, and stands in the file so."""
        commits, self.commits = self.commits, []
        kept, changed = set[tuple[str, str]]().union(*commits), self.changes()
        return not self.store.changed and len(commits) <= most and changed <= kept and all(map(self.is_kept, kept))

    def is_kept(self, place: tuple[str, str]) -> bool:
        row = self.store.tables[place[0]].get(place[1])
        found = self.store.base.execute("SELECT row FROM rows WHERE kind = ? AND key = ?", place).fetchall()
        return found == ([(row.as_json(),)] if row is not None else [])


def dialogs(bench: Bench, chance: random.Random) -> list[tuple[bytes, str]]:
    """Datagrams of a few calls in the states that a call can have, to be mutated: what came of whom."""
    seen: list[tuple[bytes, str]] = []
    receive = bench.x.receive

    def record(data: bytes, source: str) -> None:
        seen.append((data, bench.settings.edge or source))
        receive(*seen[-1])

    setattr(bench.x, "receive", record)
    number = chance.randrange(10**6)
    trunk, phone = (f"X-ACD-Sender: {who}\r\n" if bench.settings.edge else "" for who in ("trunk-password 127.0.0.1", "phone 127.0.0.1\r\nX-ACD-Phone: 201"))
    for course in range(6):
        key, call = f"call{number}-{course}", number * 10 + course + 1
        bench.invite(number=f"03{number}{course}", call_id=key, fields=trunk)
        bench.x.steps.step(bench.x.calls.take_reply, bench.last_request(), answered({"call": call}))
        bench.report("queued@100", call=call)
        if course > 1:
            bench.report("diverted@100/100", "delivered@201/100", call=call)
            invite = bench.take()[-1][1]
            bench.reply(invite, 180)
            if course > 3:
                bench.reply(invite, 200, body(7201))
                bench.x.steps.step(bench.x.calls.take_reply, bench.last_request(), answered({}))
                bench.report("established@201/100", call=call)
                bench.request("REFER" if course > 4 else "INVITE", "sip:acd@x", PHONE, "201", invite.get("call-id"), invite.get("from"), 2,
                              fields="Refer-To: <sip:202@x>\r\n", text="" if course > 4 else body(7201, "a=sendonly\r\n"))
        if course in (1, 3):
            bench.request("CANCEL", "sip:100@x", number=f"03{number}{course}", call_id=key, branch=f"z9hG4bK{key}")
    bench.request("MESSAGE", "sip:*221*100@x", PHONE, "201", f"m{number}", fields=phone)
    delattr(bench.x, "receive")
    return seen


def answered(result: dict[str, Any]) -> Answer:
    return Answer(200, {"result": result})


class Mutations:
    """`half` counts steps that were half done, and `slow` datagrams that took too long."""

    def __init__(self, seed: int):
        self.chance = random.Random(seed)
        self.settings: dict[str, Any] = {}
        self.bench = Bench()
        self.count = self.heard = self.half = self.slow = self.late = 0
        self.longest = 0.0

    def look(self) -> None:
        if self.bench.differences():
            self.half += 1

    def datagrams(self, count: int) -> str:
        """The calls are made anew again and again, without an edge and behind one in turn."""
        faults: list[str] = []
        gc.freeze()
        for at in range(count):
            if at % RENEWED_AT == 0:
                self.settings = {} if at // RENEWED_AT % 2 else {"phones": {}, "edge": EDGE}
                self.renew(faults)
                shapes = dialogs(self.bench, self.chance) + [(each.data, CALLER) for each in TORTURES]
                setattr(self.bench.x.steps, "send", lambda data, to: None)
                watch = Watch(self.bench)
            data, source = self.chance.choice(shapes)
            self.hear(mutate(data, self.chance), self.bench.settings.edge or self.chance.choice([source, source, CALLER, OTHER]))
            self.half += not watch.is_whole(1)
            self.bench.now += 0.01
            self.bench.x.steps.ring_alarms()
            self.half += not watch.is_whole(20)
        self.look()
        self.slow += self.late > 10 + count // SELDOM
        undone = self.bench.x.steps.faults + len(faults)
        return (f"{count} mutated datagrams: {self.heard} came to a step, {undone} undone, {self.half} half done; {self.slow} slow, {self.late} late once, "
                f"the longest took {1000 * self.longest:.1f} ms of processor time")

    def hear(self, data: bytes, source: str) -> None:
        """One datagram. Where it took long it is slow if it does so again and again: else something else took the time."""
        steps, began = self.bench.x.steps.steps, time.thread_time()
        self.bench.x.receive(data, source)
        took = time.thread_time() - began
        self.heard += self.bench.x.steps.steps > steps
        self.longest = max(self.longest, took)
        if took >= ALLOWED:
            self.late += 1
            self.slow += min(self.time_again(data, source) for _ in range(3)) >= ALLOWED

    def time_again(self, data: bytes, source: str) -> float:
        """What it takes in an exchange of its own."""
        bench = Bench(**self.settings)
        began = time.thread_time()
        bench.x.receive(data, source)
        took = time.thread_time() - began
        bench.close()
        return took

    def renew(self, faults: list[str]) -> None:
        faults += ["undone"] * self.bench.x.steps.faults
        self.look()
        self.bench.close()
        self.bench = Bench(**self.settings)
        self.bench.looks = False
        setattr(self.bench.x.steps, "say", self.say)

    def say(self, text: str) -> None:
        if "undone" in text and self.count < 5:
            self.count += 1
            print(text, flush=True)

    def replies(self, count: int) -> str:
        """A false desk answers each connection with a mutated reply; what the client takes goes through a step."""
        taken, refused, faults = 0, 0, list[str]()
        server = socket.create_server(("127.0.0.1", 0))
        waiting: list[bytes] = []

        def serve() -> None:
            while True:
                try:
                    connection, _ = server.accept()
                except OSError:
                    return
                with connection:
                    try:
                        connection.recv(65536)
                        connection.sendall(waiting[-1])
                    except OSError:
                        pass

        threading.Thread(target=serve, daemon=True).start()
        client = Client(f"http://127.0.0.1:{server.getsockname()[1]}", wait=2)
        for at in range(count):
            if at % 1000 == 0:
                self.renew(faults)
            work, text = self.shape(client, at)
            head = f"HTTP/1.1 200 OK\r\nContent-Type: application/json\r\nContent-Length: {len(text)}\r\nConnection: close\r\n\r\n"
            waiting.append(mutate((head + text).encode(), self.chance))
            try:
                work()
                taken += 1
            except (Unanswered, AnotherHistory):
                refused += 1
            waiting.clear()
            if at % LOOKED_AT == 0:
                self.look()
        client.disconnect()
        server.close()
        self.look()
        undone = self.bench.x.steps.faults + len(faults)
        return f"{count} mutated replies: {taken} were replies, {refused} were none, {undone} steps undone, {self.half} half done"

    def shape(self, client: Client, at: int) -> tuple[Callable[[], object], str]:
        x = self.bench.x
        last = x.steps.place.known.get("number", 0)
        self.bench.take()
        if at % 2:
            event = {"number": last + 1, "moment": 5, "event": self.chance.choice(["queued", "delivered", "callCleared", "agentLoggedOn"]),
                     "call": self.chance.randrange(1, 50), "device": "201", "agent": "1", "group": "100"}
            return lambda: x.steps.step(x.calls.take_events, client.page(last)["events"]), json.dumps({"events": [event], "last": event["number"]})
        self.bench.invite(call_id=f"c{at}", number=f"03{at}")
        row = self.bench.last_request()
        reply = {"requester": row.body["requester"], "invoke": row.body["invoke"], "result": {"call": at + 1}}

        def work() -> None:
            if not x.steps.step(x.calls.take_reply, row, client.send(row.body)):
                x.steps.step(x.calls.pass_over, row)
        return work, json.dumps(reply)
