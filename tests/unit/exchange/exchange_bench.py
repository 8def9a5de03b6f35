"""An exchange without a network: its clock is set by the test, its datagrams are a list, and the desk's part is played by hand."""
from __future__ import annotations

import json
import tempfile
from pathlib import Path
from typing import Any

from acd_client import Answer, Event
from bridge.exchange import Exchange
from bridge.message import Message
from bridge.records import Request
from bridge.settings import Settings
from bridge.store import Store

TOP = Path(__file__).resolve().parents[3]
CALLER, PHONE, OTHER = "127.0.0.1:6001", "127.0.0.1:5201", "127.0.0.1:5202"
PHONES = {"201": f"sip:201@{PHONE}", "202": f"sip:202@{OTHER}"}


def body(port: int, more: str = "") -> str:
    return f"v=0\r\no=- 1 1 IN IP4 127.0.0.1\r\ns=-\r\nc=IN IP4 127.0.0.1\r\nt=0 0\r\nm=audio {port} RTP/AVP 8 0\r\n{more}"


class Bench:
    """It asserts after each input that memory is as the file."""

    def __init__(self, **settings: Any):
        self.folder = tempfile.TemporaryDirectory()
        settings.setdefault("phones", PHONES)
        self.settings = Settings(**settings)
        # how far the wall clock is ahead of the monotonic one
        self.ahead = 0.0
        self.now, self.branch, self.event = 1000.0, 0, 0
        self.sent: list[tuple[str, Message]] = []
        self.looks = True
        self.open()

    def open(self) -> None:
        store = Store(str(Path(self.folder.name) / "exchange.db"), now=lambda: self.now, wall=lambda: self.now + self.ahead)
        self.x = Exchange(self.settings, store, self.keep)
        setattr(self.x.steps, "say", lambda text: None)
        assert self.x.steps.step(self.x.resume)

    def restart(self) -> None:
        self.x.steps.store.base.close()
        self.open()

    def lose(self, kept: list[str]) -> None:
        """The file is as it was before, as after a power cut."""
        self.x.steps.store.base.execute("DROP TABLE rows")
        self.x.steps.store.base.executescript("\n".join(kept))

    def close(self) -> None:
        self.x.steps.store.base.close()
        self.folder.cleanup()

    def keep(self, data: bytes, address: str) -> None:
        text = data.decode("latin-1")
        # the exchange sends an unreadable message's fields back as they came, so such an answer can't be read either
        refusals = ("SIP/2.0 400 ", "SIP/2.0 505 ")
        self.sent.append((address, Message(text.partition("\r\n")[0], []) if text.startswith(refusals) else Message.read(text)))

    def differences(self) -> list[tuple[str, str]]:
        """The rows that aren't in memory as they are in the file: none between two steps."""
        store = self.x.steps.store
        kept = {(kind, key): json.loads(text) for kind, key, text in store.base.execute("SELECT * FROM rows")}
        held = {(type(row).__name__, row.key): json.loads(row.as_json()) for table in store.tables.values() for row in table.values()}
        return sorted(place for place in kept.keys() | held.keys() if kept.get(place) != held.get(place))

    def check(self) -> None:
        assert not self.looks or not self.differences(), self.differences()

    def pass_time(self, seconds: float) -> None:
        """In steps of 50 ms."""
        ends = self.now + seconds
        while self.now < ends:
            self.now = min(self.now + 0.05, ends)
            self.x.steps.ring_alarms()
        self.check()

    # SIP

    def take(self) -> list[tuple[str, Message]]:
        """The messages that were sent since the last call."""
        sent, self.sent = self.sent, []
        return sent

    def firsts(self) -> list[str]:
        return [" ".join(message.first.split(" ")[:2 - message.is_request]) for _, message in self.take()]

    def receive(self, message: str | Message, source: str = CALLER) -> None:
        text = message if isinstance(message, str) else message.text()
        self.x.receive(text.encode("latin-1"), source)
        self.check()

    def request(self, method: str, uri: str, source: str = CALLER, number: str = "0301", call_id: str = "c1", to: str = "", cseq: int = 1, branch: str = "",
                fields: str = "", text: str = "") -> None:
        self.branch += 1
        branch = branch or f"z9hG4bKt{self.branch}"
        self.receive(f"{method} {uri} SIP/2.0\r\nVia: SIP/2.0/UDP {source};branch={branch}\r\nFrom: <sip:{number}@h>;tag=t-{call_id.replace('@', '.')}\r\n"
                     f"To: {to or f'<{uri}>'}\r\nCall-ID: {call_id}\r\nCSeq: {cseq} {method}\r\n"
                     f"Contact: <sip:{number}@{source}>\r\nMax-Forwards: 70\r\n{fields}"
                     f"Content-Length: {len(text)}\r\n\r\n{text}", source)

    def invite(self, called: str = "100", number: str = "0301", call_id: str = "c1", fields: str = "", port: int = 7000) -> None:
        self.request("INVITE", f"sip:{called}@x", number=number, call_id=call_id, branch=f"z9hG4bK{call_id}", fields=fields, text=body(port))

    def reply(self, request: Message, status: int, text: str = "", tag: str = "p", source: str = PHONE, fields: str = "") -> None:
        """A phone's answer to a request of the exchange."""
        to = request.get("to")
        to += "" if request.tag("to") else f";tag={tag}"
        head = "".join(f"{name}: {value}\r\n" for name, value in request.some("via", "from", "call-id", "cseq"))
        self.receive(f"SIP/2.0 {status} Phrase\r\n{head}To: {to}\r\nContact: <sip:p@{source}>\r\n{fields}Content-Length: {len(text)}\r\n\r\n{text}", source)

    # the desk

    def asked(self) -> list[tuple[str, dict[str, Any]]]:
        """Services and members that wait for the desk, in order."""
        rows = [self.x.rows.requests[key] for key in sorted(self.x.rows.requests, key=int)]
        return [(row.body["service"], {name: value for name, value in row.body.items() if name not in ("requester", "invoke", "service")}) for row in rows]

    def first_request(self) -> Request:
        return self.x.rows.requests[min(self.x.rows.requests, key=int)]

    def last_request(self) -> Request:
        return self.x.rows.requests[max(self.x.rows.requests, key=int)]

    def answer(self, error: str = "", **result: Any) -> None:
        """The desk's reply to the request that waits longest."""
        answer = Answer(409, {"error": {"code": 1, "name": error}}) if error else Answer(200, {"result": result})
        assert self.x.steps.step(self.x.calls.take_reply, self.first_request(), answer)
        self.check()

    def report(self, *events: str, call: int = 1) -> None:
        """Events as NAME@DEVICE; a delivery with /GROUP is by distribution."""
        page: list[Event] = []
        for word in events:
            self.event += 1
            name, _, rest = word.partition("@")
            device, _, group = rest.partition("/")
            event: Event = {"number": self.event, "moment": 1, "event": name}
            if not name.startswith("agent"):
                event["call"] = call
            if device:
                event["device"] = device
            if group:
                event["group"] = group
            if name.startswith("agent"):
                event["agent"] = "1"
            page.append(event)
        assert self.x.steps.step(self.x.calls.take_events, page)
        self.check()

    # courses that many tests begin with

    def waiting(self) -> None:
        self.invite()
        self.answer(call=1)
        self.report("queued@100")

    def ringing(self) -> Message:
        """A caller waits, and the phone 201 is rung: the INVITE that it got."""
        self.waiting()
        self.report("diverted@100/100", "delivered@201/100")
        invite = next(message for address, message in self.take() if message.is_request and message.method == "INVITE" and address == PHONE)
        self.reply(invite, 180)
        return invite

    def talking(self) -> Message:
        invite = self.ringing()
        self.reply(invite, 200, body(7201))
        self.answer()
        self.report("established@201/100")
        return invite
