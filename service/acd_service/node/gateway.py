"""A kept connection to the HTTP gateway of a member of etcd. Python's own client spends most of its time on fields of
answers that nobody reads here, and while it does no other thread of the node goes on."""
from __future__ import annotations

import io
import re
import socket
import ssl
from typing import NamedTuple

STATUS = re.compile(rb"HTTP/1\.[01] ([0-9]{3})\b")
LENGTH = re.compile(rb"[0-9]{1,18}")
CHUNK = re.compile(rb"([0-9A-Fa-f]{1,15})[ \t]*(?:;|\r?\n)")
LONGEST_LINE = 65536


class NoAnswer(OSError):
    """What came is no answer of HTTP, or isn't whole."""


class Answer(NamedTuple):
    status: int
    body: io.BufferedReader


class Body(io.RawIOBase):
    """The bytes of a body, and none after it: so many, or, where it has no length, those of its chunks."""

    def __init__(self, stream: io.BufferedReader, length: int | None) -> None:
        self.stream, self.in_chunks, self.left = stream, length is None, length or 0

    def readable(self) -> bool:
        return True

    def readinto(self, buffer: memoryview) -> int:          # type: ignore[override]
        if self.in_chunks and not self.left:
            self.begin_chunk()
        if not self.left:
            return 0
        found = self.stream.read1(min(self.left, len(buffer)))
        if not found:
            raise NoAnswer("a member broke off within an answer")
        buffer[:len(found)] = found
        self.left -= len(found)
        return len(found)

    def begin_chunk(self) -> None:
        line = self.stream.readline(LONGEST_LINE)
        if line == b"\r\n":                                # the end of the chunk before
            line = self.stream.readline(LONGEST_LINE)
        found = CHUNK.match(line)
        if not found:
            raise NoAnswer("a member broke off between two pieces of an answer")
        self.left = int(found[1], 16)
        if not self.left:
            self.in_chunks = False
            fields_of(self.stream)


def fields_of(stream: io.BufferedReader) -> dict[bytes, bytes]:
    """The fields up to an empty line, by their names in small letters."""
    found = {}
    while (line := stream.readline(LONGEST_LINE)) not in (b"\r\n", b"\n"):
        if not line.endswith(b"\n"):
            raise NoAnswer("a member broke off within a head")
        name, _, value = line.partition(b":")
        found[name.lower()] = value.strip()
    return found


class Connection:
    """It is made with its first request, and closed after what isn't answered whole."""

    def __init__(self, host: str, port: int, wait: float, context: ssl.SSLContext | None = None) -> None:
        self.host, self.port, self.wait, self.context = host, port, wait, context
        self.socket: socket.socket | None = None
        self.stream: io.BufferedReader | None = None

    def close(self) -> None:
        for one in (self.stream, self.socket):
            if one:
                one.close()
        self.stream = self.socket = None

    def begin(self) -> None:
        self.socket = socket.create_connection((self.host, self.port), self.wait)
        self.socket.setsockopt(socket.IPPROTO_TCP, socket.TCP_NODELAY, 1)
        if self.context:
            self.socket = self.context.wrap_socket(self.socket, server_hostname=self.host)
        self.stream = self.socket.makefile("rb")

    def ask(self, method: str, path: str, body: bytes = b"", token: str | None = None) -> Answer:
        """The answer, of which all has to be read before the next request."""
        if not self.socket:
            self.begin()
        assert self.socket and self.stream                 # they were made just now
        user = f"Authorization: {token}\r\n" if token else ""
        head = (f"{method} {path} HTTP/1.1\r\nHost: {self.host}:{self.port}\r\n{user}"
                f"Content-Length: {len(body)}\r\n\r\n")
        self.socket.sendall(head.encode() + body)
        found = STATUS.match(self.stream.readline(LONGEST_LINE))
        if not found:
            raise NoAnswer("a member closed the connection, or speaks no HTTP")
        fields = fields_of(self.stream)
        length = fields.get(b"content-length")
        if b"chunked" == fields.get(b"transfer-encoding", b"").lower():
            return Answer(int(found[1]), io.BufferedReader(Body(self.stream, None)))
        if length is None or not LENGTH.fullmatch(length):
            raise NoAnswer("a member doesn't say how long its answer is")
        return Answer(int(found[1]), io.BufferedReader(Body(self.stream, int(length))))
