"""An edge by itself, with a socket in the place of the exchange, that keeps what comes through and says 200 to it; and senders of any address."""
from __future__ import annotations

import re
import secrets
import socket
import struct
import threading
import time
from pathlib import Path
from types import TracebackType

from ground import PASSWORD, TRUNK, Ground, Phone, Programs, credentials
from trial import ANY, until

OTHER = "127.0.0.3"
# how long is waited for what comes, with a repeat behind each, and for what shouldn't
LONG, SHORT = (1.0, 2.0, 4.0), (0.3,)


def field(text: str, name: str) -> str:
    found = re.search(rf"(?im)^{name}[ \t]*:[ \t]*([^\r\n]*)", text)
    return found[1] if found else ""


def message(method: str, uri: str, transport: str, place: str, to: str = "<sip:100@x>", number: str = "1", more: str = "") -> str:
    """A request by itself, of somebody at a place."""
    return (f"{method} {uri} SIP/2.0\r\nVia: SIP/2.0/{transport} {place};rport;branch=z9hG4bK{secrets.token_hex(8)}\r\nTo: {to}\r\n"
            f"From: <sip:{number}@x>;tag=1\r\nCall-ID: {secrets.token_hex(8)}\r\nCSeq: 1 {method}\r\nContact: <sip:x@{place}>\r\nMax-Forwards: 70\r\n"
            f"{more}Content-Length: 0\r\n\r\n")


def lines_of(text: str, *names: str) -> list[str]:
    """The lines of these fields, as they came."""
    return [line for line in text.partition("\r\n\r\n")[0].split("\r\n") if line.partition(":")[0].strip().lower() in names]


class Sink(threading.Thread):
    """In the place of the exchange."""

    def __init__(self, port: int):
        super().__init__(daemon=True)
        self.socket = socket.socket(socket.AF_INET, socket.SOCK_DGRAM)
        self.socket.setsockopt(socket.SOL_SOCKET, socket.SO_RCVBUF, 4 << 20)
        self.socket.bind(("127.0.0.1", port))
        self.heard: list[str] = []
        self.quiet = False
        self.start()

    def run(self) -> None:
        while True:
            data, source = self.socket.recvfrom(65535)
            if not data:
                return
            text = data.decode("latin-1")
            self.heard.append(text)
            if not self.quiet and not text.startswith(("ACK ", "SIP/2.0 ")):
                self.socket.sendto(self.answer(text).encode("latin-1"), source)

    def answer(self, text: str) -> str:
        to, *_ = lines_of(text, "to", "t") or [""]
        rows = lines_of(text, "via", "v", "from", "f", "call-id", "i", "cseq", "record-route")
        return "\r\n".join(["SIP/2.0 200 OK", *rows, to if "tag=" in to else f"{to};tag=sink", "Contact: <sip:sink@127.0.0.1>", "Content-Length: 0", "", ""])

    def ask(self, to: int, method: str, number: str) -> str:
        """A request of the exchange's to a phone: its Call-ID."""
        text = message(method, f"sip:{number}@127.0.0.1:{to}", "UDP", f"127.0.0.1:{self.socket.getsockname()[1]}", f"<sip:{number}@x>")
        self.socket.sendto(text.encode(), ("127.0.0.1", to))
        return field(text, "Call-ID")

    def take(self, awaited: int = 0) -> list[str]:
        """What came through since it was asked last; so many are waited for."""
        until(lambda: len(self.heard) >= awaited, 5, 0.01)
        time.sleep(0.2)
        heard, self.heard = self.heard, []
        return heard

    def stop(self) -> None:
        with socket.socket(socket.AF_INET, socket.SOCK_DGRAM) as last:
            last.sendto(b"", self.socket.getsockname())
        self.join()
        self.socket.close()


class LoneEdge(Programs):
    """Ports as of a ground."""

    def __init__(self, folder: Path, base: int, values: dict[str, object] | None = None, changes: dict[str, str] | None = None,
                 names: tuple[str, ...] = ("201", "202", "203")):
        super().__init__(folder)
        self.port, self.edge_port, self.tls_port = base + 1, base + 3, base + 4
        self.sink = Sink(self.port)
        ports = {"EDGE_PORT": self.edge_port, "TLS_PORT": self.tls_port, "EXCHANGE_PORT": self.port}
        self.edge = self.make_edge({**ports, "TRUNK_ADDRESSES": TRUNK, **(values or {})}, list(names), changes)

    def __enter__(self) -> LoneEdge:
        return self

    def __exit__(self, kind: type[BaseException] | None, value: BaseException | None, where: TracebackType | None) -> None:
        super().__exit__(kind, value, where)
        self.sink.stop()

    def restart(self) -> None:
        self.kill(self.edge)
        self.edge = self.start_kamailio(self.edge_port)


class Sender(Phone):
    """Sends over UDP from any address of the loopback net, with nonces that it has from elsewhere, or none."""

    def __init__(self, edge: LoneEdge, host: str = "127.0.0.1", port: int = 0):
        super().__init__(edge.edge_port, port, host)
        self.edge = edge

    def __enter__(self) -> Sender:
        return self

    def rest(self, method: str, number: str, more: str = "", call_id: str = "", cseq: int = 1) -> str:
        return (f"From: <sip:{number}@127.0.0.1>;tag=me\r\nCall-ID: {call_id or secrets.token_hex(8)}\r\nCSeq: {cseq} {method}\r\n"
                f"Contact: <sip:{number}@{self.host}:{self.port}>\r\n{more}")

    def ask(self, method: str = "OPTIONS", number: str = "0301", more: str = "", waits: tuple[float, ...] = LONG) -> tuple[int, str]:
        """One request, without a password."""
        return self.exchange(method, "sip:100@127.0.0.1", "<sip:100@127.0.0.1>", self.rest(method, number, more), waits)

    def challenge(self) -> str:
        return self.ask()[1]

    def answer(self, challenge: str, name: str, password: str = PASSWORD, more: str = "", number: str = "", waits: tuple[float, ...] = LONG) -> int:
        """One request with a password, by a challenge that it has: its status."""
        head = credentials(challenge, 407, "OPTIONS", "sip:100@127.0.0.1", name, password)
        return self.ask(number=number or name, more=more + head, waits=waits)[0]

    def send_answer(self, challenge: str, name: str, password: str) -> None:
        """The same, without waiting for what is said to it."""
        head = credentials(challenge, 407, "OPTIONS", "sip:100@127.0.0.1", name, password)
        self.put(message("OPTIONS", "sip:100@127.0.0.1", "UDP", f"{self.host}:{self.port}", number=name, more=head))

    def put(self, text: str) -> None:
        self.socket.sendto(text.encode("latin-1"), ("127.0.0.1", self.to))

    def drain(self) -> int:
        """How many have come."""
        return len(self.hears(0.01))

    def hears(self, seconds: float = 0.5) -> list[str]:
        """What comes until nothing has come for so long."""
        heard = []
        self.socket.settimeout(seconds)
        try:
            while True:
                heard.append(self.socket.recv(8192).decode("latin-1"))
        except TimeoutError:
            return heard

    def call(self, call_id: str = "") -> Dialog:
        """A call of the trunk's, which the sink takes."""
        call_id = call_id or secrets.token_hex(8)
        for more in ("", credentials(self.challenge(), 407, "INVITE", "sip:100@127.0.0.1", "trunk", PASSWORD)):
            status, text = self.exchange("INVITE", "sip:100@127.0.0.1", "<sip:100@127.0.0.1>", self.rest("INVITE", "0301", more, call_id), LONG)
        assert status == 200, text
        return Dialog(call_id, field(text, "To"), "".join(f"Route: {field}\r\n" for field in reversed(routes_of(text))))


class Dialog:
    def __init__(self, call_id: str, to: str, routes: str):
        self.call_id, self.to, self.routes = call_id, to, routes

    def ask(self, sender: Sender, method: str = "BYE", more: str = "", routes: str = "") -> tuple[int, str]:
        rest = sender.rest(method, "0301", (routes or self.routes) + more, self.call_id, 3)
        return sender.exchange(method, f"sip:sink@127.0.0.1:{sender.edge.port}", self.to, rest, SHORT if method == "ACK" else LONG)


def routes_of(text: str) -> list[str]:
    return [line.partition(":")[2].strip() for line in lines_of(text, "record-route")]


class Line:
    """All callers of a trunk over one socket or connection."""

    def __init__(self, edge: Ground | LoneEdge, transport: str):
        self.transport = transport
        if transport == "UDP":
            self.line = socket.socket(socket.AF_INET, socket.SOCK_DGRAM)
            self.line.connect(("127.0.0.1", edge.edge_port))
        else:
            self.line = socket.create_connection(("127.0.0.1", edge.tls_port if transport == "TLS" else edge.edge_port))
        if transport == "TLS":
            self.line = ANY.wrap_socket(self.line)
        self.port, self.rest, self.lock = self.line.getsockname()[1], b"", threading.Lock()
        self.heard: dict[str, list[str]] = {}
        self.over = False
        # a TLS connection is read and written by turns
        self.line.settimeout(0.02)
        self.reader = threading.Thread(target=self.read, daemon=True)
        self.reader.start()

    def send(self, text: str) -> None:
        with self.lock:
            self.line.sendall(text.encode())

    def read(self) -> None:
        while not self.over:
            try:
                with self.lock:
                    data = self.line.recv(65535)
            except TimeoutError:
                time.sleep(0.005)
                continue
            self.rest += data
            while b"\r\n\r\n" in self.rest:
                head, _, rest = self.rest.partition(b"\r\n\r\n")
                text = head.decode("latin-1") + "\r\n\r\n"
                self.rest = rest[int(field(text, "Content-Length") or 0):]
                self.take(text)

    def take(self, text: str) -> None:
        self.heard.setdefault(field(text, "Call-ID"), []).append(text)
        if text.startswith("SIP/2.0 487"):
            self.send(self.request("ACK", field(text, "Call-ID"), field(text, "To")))

    def request(self, method: str, call_id: str, to: str = "<sip:100@127.0.0.1>", more: str = "", body: str = "", cseq: int = 1) -> str:
        """Those of one number are of one branch: an INVITE, its CANCEL, the ACK of its refusal."""
        return (f"{method} sip:100@127.0.0.1 SIP/2.0\r\nVia: SIP/2.0/{self.transport} 127.0.0.1:{self.port};rport;branch=z9hG4bK{call_id}{cseq}\r\nTo: {to}\r\n"
                f"From: <sip:{call_id[-7:]}@127.0.0.1>;tag=t{call_id}\r\nCall-ID: {call_id}\r\nCSeq: {cseq} {method}\r\nMax-Forwards: 70\r\n"
                f"Contact: <sip:x@127.0.0.1:{self.port};transport={self.transport.lower()}>\r\n{more}Content-Length: {len(body)}\r\n\r\n{body}")

    def wait_for(self, call_id: str, begin: str) -> str:
        """What has come of a call and begins so."""
        self.wait_for_all([call_id], begin)
        return next((text for text in self.heard.get(call_id, ()) if text.startswith(begin)), "")

    def wait_for_all(self, names: list[str], begin: str, seconds: float = 10) -> list[str]:
        """The calls of which something has come that begins so, when all have it or the time is over."""
        def found() -> list[str]:
            return [name for name in names if any(text.startswith(begin) for text in self.heard.get(name, ()))]

        until(lambda: len(found()) == len(names), seconds, 0.02)
        return found()

    def close(self) -> None:
        self.over = True
        self.reader.join()
        self.line.close()


def over_connection(edge: LoneEdge, text: str, encrypted: bool = False, host: str = "127.0.0.1", source: int = 0) -> str:
    """What comes back over a connection from this address and port."""
    with socket.socket(socket.AF_INET, socket.SOCK_STREAM) as plain:
        plain.setsockopt(socket.SOL_SOCKET, socket.SO_REUSEADDR, 1)
        # closed at once, so that the next one may come from the same port
        plain.setsockopt(socket.SOL_SOCKET, socket.SO_LINGER, struct.pack("ii", 1, 0))
        plain.bind((host, source))
        plain.settimeout(5)
        plain.connect(("127.0.0.1", edge.tls_port if encrypted else edge.edge_port))
        with ANY.wrap_socket(plain) if encrypted else plain as line:
            line.sendall(text.encode("latin-1"))
            try:
                return line.recv(8192).decode("latin-1")
            except TimeoutError:
                return ""
