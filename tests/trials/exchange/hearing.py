"""Who hears music, by real packets: nobody before the ACK, and nobody at an address of this machine that isn't the sender's own."""
from __future__ import annotations

import secrets
import socket
import time
from pathlib import Path

from ground import PASSWORD, Ground, credentials, offer
from lone import field, routes_of
from trial import Trial

expect = Trial.expect


class Caller:
    """Calls 100 from an address, and asks for the sound at another one, where it listens."""

    def __init__(self, to: int, host: str, asks: str):
        self.to, self.key = to, secrets.token_hex(8)
        self.signal, self.sound = (socket.socket(socket.AF_INET, socket.SOCK_DGRAM) for _ in range(2))
        self.signal.bind((host, 0))
        self.sound.bind((asks, 0))
        self.place = f"{host}:{self.signal.getsockname()[1]}"
        self.body = offer(self.sound.getsockname()[1], asks)
        self.uri = f"sip:100@127.0.0.1:{to}"

    def __enter__(self) -> Caller:
        return self

    def __exit__(self, *_: object) -> None:
        self.signal.close()
        self.sound.close()

    def say(self, method: str, cseq: int, to: str, more: str = "", body: str = "", branch: str = "") -> None:
        kind = "Content-Type: application/sdp\r\n" if body else ""
        self.signal.sendto((f"{method} {self.uri} SIP/2.0\r\nVia: SIP/2.0/UDP {self.place};rport;branch=z9hG4bK{branch or secrets.token_hex(8)}\r\n"
                            f"From: <sip:0301@{self.place}>;tag={self.key}\r\nTo: {to}\r\nCall-ID: {self.key}\r\nCSeq: {cseq} {method}\r\nMax-Forwards: 70\r\n"
                            f"Contact: <sip:0301@{self.place}>\r\n{more}{kind}Content-Length: {len(body)}\r\n\r\n{body}").encode(), ("127.0.0.1", self.to))

    def hear(self, *statuses: int) -> tuple[int, str]:
        """The first answer with one of these."""
        self.signal.settimeout(10)
        while True:
            text = self.signal.recv(8192).decode()
            if text.startswith("SIP/2.0 ") and int(text.split(" ")[1]) in statuses:
                return int(text.split(" ")[1]), text

    def packets(self, seconds: float) -> int:
        """How many come meanwhile."""
        ends, count = time.monotonic() + seconds, 0
        while time.monotonic() < ends:
            self.sound.settimeout(max(0.01, ends - time.monotonic()))
            try:
                count += len(self.sound.recv(2048)) > 12
            except TimeoutError:
                pass
        return count

    def call(self, account: str = "") -> tuple[int, bool, bool]:
        """The answer to who waits, and whether sound came before the ACK and behind it."""
        to = f"<{self.uri}>"
        self.say("INVITE", 1, to, body=self.body, branch=self.key)
        if account:
            status, text = self.hear(407)
            self.say("ACK", 1, field(text, "To"), branch=self.key)
            self.say("INVITE", 2, to, credentials(text, status, "INVITE", self.uri, account, PASSWORD), self.body)
        status, text = self.hear(182, 200)
        before = self.packets(0.4)
        if status == 200:
            more = "".join(f"Route: {route}\r\n" for route in routes_of(text))
            self.uri = field(text, "Contact").strip("<>")
            self.say("ACK", 2 if account else 1, field(text, "To"), more)
        return status, before > 0, self.packets(1) > 0


def run(folder: Path, program: Path, base: int) -> None:
    heard, refused = (200, False, True), (182, False, False)
    cases = [("127.0.0.1", "127.0.0.1", heard), ("127.0.0.2", "127.0.0.2", heard), ("127.0.0.2", "127.0.0.1", refused), ("127.0.0.1", "127.0.0.2", refused),
             ("127.0.0.3", "127.0.0.1", refused)]
    for account in ("", "trunk"):
        with Ground(folder, program, base, edge=bool(account), options=("--waiting", "music", "--trace")) as ground:
            for host, asks, wanted in cases:
                with Caller(ground.edge_port if account else ground.port, host, asks) as caller:
                    expect(f"music: a sender at {host} {'with a password ' * bool(account)}asks for it at {asks}", caller.call(account), wanted)
            lines = ground.said("exchange").count("no music goes to 127.0.0.1: a sender at 127.0.0.2 ")
            expect("music: that is told once", lines, 1)
            ground.end(ground.exchange)
