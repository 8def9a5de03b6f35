"""Takes requests and reads over HTTP, as the desk does: one a connection. One loop has all connections."""
from __future__ import annotations

import asyncio
import contextlib
import json
import re
import socket
import ssl
from collections.abc import Coroutine
from concurrent.futures import ThreadPoolExecutor
from http import HTTPStatus
from typing import Any, cast

from aiohttp.http import HttpRequestParser, RawRequestMessage
from aiohttp.http_exceptions import LineTooLong

from acd_service.node.bridge import Bridge
from acd_service.node.entries import LONGEST, request_of
from acd_service.node.handshakes import Handshakes
from acd_service.node.journal import Journal

Refusal = tuple[int, bytes]


def malformed(member: bytes) -> bytes:
    return b'{"error":{"code":30,"member":"%s","name":"malformed"}}' % member


AGAIN = b'{"error":{"code":33,"name":"noMemory"}}'
NOT_FOUND = 404, b'{"error":{"code":35,"name":"notFound"}}'
NO_LENGTH = 411, b'{"error":{"code":37,"name":"lengthRequired"}}'
TOO_LARGE = 413, b'{"error":{"code":38,"name":"bodyTooLarge"}}'
NOT_IMPLEMENTED = 501, b'{"error":{"code":40,"name":"notImplemented"}}'
WRONG_LENGTH = 400, malformed(b"contentLength")
NO_JSON = 400, malformed(b"json")
NO_HEAD = 400, malformed(b"head")
FORBIDDEN = 403, b'{"error":{"code":41,"name":"forbidden"}}'
TOO_LARGE_HEAD = 431, b'{"error":{"code":39,"name":"headTooLarge"}}'

# by what the library says of a head that it refuses
FAULTS = {"nvalid method": NOT_IMPLEMENTED, "oo many headers": TOO_LARGE_HEAD, "Transfer-Encoding": NOT_IMPLEMENTED,
          "overflow": TOO_LARGE, "Content-Length": WRONG_LENGTH}
# bytes of a head and of a line of it, and how many fields it may have
LONGEST_HEAD, LONGEST_LINE, MOST_FIELDS = 131072, 65536, 100
HEAD_END = re.compile(rb"\r?\n\r?\n")
FIRST_LINE = re.compile(rb"[!-~]+ [!-~\x80-\xff]+ HTTP/1\.[01]\r?\n")
# seconds for a request to come, as many for its answer to be read, and for the desk to answer a read
SILENCE, READ_PATIENCE = 75, 10


def length_of(message: RawRequestMessage) -> int | Refusal:
    """The length of the body; or the status and body with which the desk refuses such a POST before it reads a body."""
    lengths: list[str] = message.headers.getall("Content-Length", [])
    if "Transfer-Encoding" in message.headers:
        return NOT_IMPLEMENTED
    if len(lengths) > 1 or lengths and not (lengths[0].isascii() and lengths[0].isdigit()):
        return WRONG_LENGTH
    if message.path.partition("?")[0] != "/csta":
        return NOT_FOUND
    if not lengths:
        return NO_LENGTH
    digits = lengths[0].lstrip("0") or "0"
    return TOO_LARGE if len(digits) > 9 or int(digits) > LONGEST else int(digits)


def path_of(target: bytes) -> bytes:
    """The path of a target as the desk reads it: an absolute target loses its scheme and host."""
    return re.sub(rb"(?i)\Ahttp://[^/?]*", b"", target).partition(b"?")[0]


def message_of(head: bytes) -> RawRequestMessage | Refusal:
    """A head as the library reads it, which sees no more than the head; or how it is refused."""
    if not FIRST_LINE.match(head):
        return NO_HEAD
    parser = HttpRequestParser(None, asyncio.get_running_loop(), LONGEST_LINE, max_line_size=LONGEST_LINE,
                               max_field_size=LONGEST_LINE)
    try:
        message: RawRequestMessage = parser.feed_data(head)[0][0][0]
    except LineTooLong:
        return TOO_LARGE_HEAD
    except Exception as fault:                             # of an odd target it raises others than its own
        return next((refusal for words, refusal in FAULTS.items() if words in str(fault)), NO_HEAD)
    return TOO_LARGE_HEAD if len(message.raw_headers) > MOST_FIELDS else message


class Exchange(asyncio.Protocol):
    """A connection, on which one request is read. What comes after it is ignored."""

    transport: asyncio.Transport
    timer: asyncio.TimerHandle

    def __init__(self, front: Front) -> None:
        self.front, self.came = front, b""
        self.message: RawRequestMessage | None = None
        self.length = 0                                    # of the body
        self.is_whole = self.has_place = False             # whether the request has come; whether there was room

    def connection_made(self, transport: asyncio.BaseTransport) -> None:
        self.transport = cast(asyncio.Transport, transport)   # uvloop's is no subclass of it
        self.timer = asyncio.get_running_loop().call_later(SILENCE, self.transport.abort)
        self.has_place = self.front.open < self.front.most
        self.front.open += self.has_place
        if not self.has_place:
            self.transport.abort()

    def connection_lost(self, fault: Exception | None) -> None:
        self.timer.cancel()
        self.front.open -= self.has_place

    def eof_received(self) -> bool:
        """A request that ends early is none, and the desk answers nothing either. Over TLS an answer can't come after
        the end."""
        return self.is_whole and not self.transport.get_extra_info("sslcontext")

    def data_received(self, data: bytes) -> None:
        if self.is_whole:
            return
        self.came += data
        if self.message is None:
            self.begin()
        if self.message and not self.is_whole and len(self.came) >= self.length:
            self.is_whole = True
            self.front.start(self.answer(self.message, self.came[:self.length]))

    def begin(self) -> None:
        """Reads the head, once it has come."""
        end = HEAD_END.search(self.came)
        if end is None:
            return self.refuse(TOO_LARGE_HEAD) if len(self.came) > LONGEST_HEAD else None
        found = message_of(self.came[:end.end()])
        if not isinstance(found, RawRequestMessage):
            return self.refuse(found)
        self.message, self.came = found, self.came[end.end():]
        if found.method == "POST":
            length = length_of(found)
            if not isinstance(length, int):
                return self.refuse(length)
            self.length = length

    def refuse(self, refusal: Refusal) -> None:
        self.is_whole = True
        self.send(*refusal)

    async def answer(self, message: RawRequestMessage, body: bytes) -> None:
        if message.method == "POST":
            request = request_of(body)
            return self.send_line(await self.front.bridge.answer(request)) if request else self.send(*NO_JSON)
        if message.method not in ("GET", "HEAD"):
            return self.send(*NOT_IMPLEMENTED)
        target = message.path.encode("utf-8", "surrogateescape")
        if self.front.hides_requests and path_of(target) == b"/requests":
            return self.send(*FORBIDDEN)
        self.send_line(await self.front.read(target))

    def send_line(self, line: bytes) -> None:
        """Sends an answer line of the desk. Without one it asks the client to send the request again."""
        status, _, body = line.rstrip(b"\n").partition(b" ")
        if body.startswith(b'"'):                          # the report, which a line has as a JSON string
            return self.send(int(status), json.loads(body).encode(), "text/plain")
        self.send(int(status or 503), body or AGAIN)

    def send(self, status: int, body: bytes, kind: str = "application/json") -> None:
        allow = "Allow: POST\r\n" if status == 405 else ""
        head = (f"HTTP/1.1 {status} {HTTPStatus(status).phrase}\r\nContent-Type: {kind}\r\n"
                f"Content-Length: {len(body)}\r\n{allow}Connection: close\r\n\r\n").encode()
        is_head = self.message is not None and self.message.method == "HEAD"
        self.timer.cancel()
        self.timer = asyncio.get_running_loop().call_later(SILENCE, self.transport.abort)
        self.transport.write(head if is_head else head + body)
        self.transport.close()


class Front:
    # connections at a time, over TLS those whose handshake is over; each further one is closed, and its client sends
    # again
    most = 2000

    def __init__(self, bridge: Bridge, journal: Journal, context: ssl.SSLContext | None = None) -> None:
        self.bridge, self.journal, self.context, self.open = bridge, journal, context, 0
        # a front that asks for certificates has no gate before it that would look at the role
        self.hides_requests = context is not None and context.verify_mode == ssl.CERT_REQUIRED
        self.handshakes = Handshakes(self.exchange, context) if context else None
        self.readers = ThreadPoolExecutor(1)               # the desk answers one line at a time
        self.answering: set[asyncio.Task[None]] = set()

    def exchange(self) -> Exchange:
        return Exchange(self)

    async def listen(self, listening: socket.socket, backlog: int) -> None:
        """Takes connections for ever. The kernel keeps so many until they are taken."""
        listening.setblocking(False)
        if self.handshakes:
            await self.take_into(self.handshakes, listening)
        server = await asyncio.get_running_loop().create_server(self.exchange, sock=listening, backlog=backlog)
        await server.serve_forever()

    async def take_into(self, handshakes: Handshakes, listening: socket.socket) -> None:
        loop = asyncio.get_running_loop()
        while True:
            try:
                connection, address = await loop.sock_accept(listening)
            except OSError as fault:
                self.journal.report(f"no connection can be taken: {fault.strerror}", "accept", 60)
                await asyncio.sleep(1)
                continue
            handshakes.begin(connection, address[0])

    def start(self, answer: Coroutine[Any, Any, None]) -> None:
        task = asyncio.get_running_loop().create_task(answer)
        self.answering.add(task)
        task.add_done_callback(self.look_at)

    def look_at(self, task: asyncio.Task[None]) -> None:
        """An unforeseen fault is the loop's at once, and not only once nobody holds the task any more."""
        self.answering.discard(task)
        if not task.cancelled() and task.exception():
            asyncio.get_running_loop().call_exception_handler({"message": "answer", "exception": task.exception()})

    async def read(self, target: bytes) -> bytes:
        """The answer line to a read; empty if it doesn't come in time."""
        with contextlib.suppress(TimeoutError):
            async with asyncio.timeout(READ_PATIENCE):
                return await asyncio.get_running_loop().run_in_executor(self.readers, self.bridge.read, target)
        return b""
