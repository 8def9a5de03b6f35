"""What the gate listens with: aiohttp's server, each question handed to the routes. Unproved.

Both aiohttp 3.8 and 3.11 do. A response of theirs is falsy, so refusals are exceptions; and a handler goes on when its
client has left, so whoever does what costs much asks before."""
import asyncio
import socket
import sys
import time
import traceback
from collections.abc import Awaitable, Callable
from typing import Any

from aiohttp import web
from aiohttp.http import HttpVersion11
from aiohttp.http_exceptions import LineTooLong

from acd_service import listening
from acd_service.command import report
from acd_service.gate.desk import Place
from acd_service.gate.exchanges import Answer, Left, Pipe, Question, Refused, error
from acd_service.gate.packing import Packed, takes_gzip

# connections, beyond which others wait; behind half of these none stays open. 4,000 questions may be held in all
MOST_OPEN = 7000
# seconds: for a request to come whole, and between two on a connection
PATIENCE = 60
# bytes of an answer that goes on, which the other end doesn't read
MOST_UNREAD = 1 << 20
# bytes of a line of a head, and how many fields a request may have
LONGEST_LINE, MOST_FIELDS = 65536, 100
SETTINGS: dict[str, Any] = {"keepalive_timeout": PATIENCE, "access_log": None, "max_line_size": LONGEST_LINE,
                            "max_field_size": LONGEST_LINE, "auto_decompress": False}
# of a request that the library can't read: by what its fault says, the status
FAULTS = {"Content-Length overflow": 413, "Content-Length": 411, "nvalid method": 501, "oo many headers": 431}


def status_of(fault: BaseException | None) -> int:
    """The status for a request that the library can't read."""
    if isinstance(fault, LineTooLong):
        return 431
    return next((status for words, status in FAULTS.items() if words in str(fault)), 400)


def response(answer: Answer, stays: bool = False) -> web.Response:
    """An answer as the library sends it; `stays` says whether the connection stays open for the next question."""
    fields = {**dict(answer.fields), "Content-Type": answer.kind, "Connection": "keep-alive" if stays else "close"}
    made = web.Response(status=answer.status, body=answer.body, headers=fields)
    if not stays:
        made.force_close()
    return made


class Open:
    """The connection of an answer that goes on. Who doesn't read what is sent loses it."""

    def __init__(self, transport: asyncio.Transport, is_chunked: bool) -> None:
        self.transport, self.is_chunked = transport, is_chunked

    def write(self, *parts: bytes) -> None:
        data = b"".join(parts)
        if self.transport.get_write_buffer_size() > MOST_UNREAD:
            self.transport.abort()
        if not self.transport.is_closing():
            self.transport.write(b"%x\r\n%s\r\n" % (len(data), data) if self.is_chunked else data)

    def is_gone(self) -> bool:
        return self.transport.is_closing()

    def end(self) -> None:
        """What isn't read by now is never read."""
        if self.transport.get_write_buffer_size() > 0:
            self.transport.abort()


async def go_on(request: web.BaseRequest, answer: Answer,
                writes: Callable[[Pipe], Awaitable[None]]) -> web.StreamResponse:
    """An answer without an end of its own."""
    packs = takes_gzip(request.headers.get("Accept-Encoding", ""))
    fields = {**dict(answer.fields), "Content-Type": answer.kind, **({"Content-Encoding": "gzip"} if packs else {})}
    made = web.StreamResponse(status=answer.status, headers=fields)
    made.force_close()
    if request.version >= HttpVersion11:
        made.enable_chunked_encoding()
    transport = request.transport
    if transport is None:
        raise Left
    await made.prepare(request)
    opened = Open(transport, request.version >= HttpVersion11)
    if packs:
        packed = Packed(opened)
        await writes(packed)
        packed.end()
    else:
        await writes(opened)
    opened.end()
    return made


class Connection(web.RequestHandler):
    """A connection; the library's own errors are answered in the desk's form."""

    def handle_error(self, request: web.BaseRequest, status: int = 500, exc: BaseException | None = None,
                     message: str | None = None) -> web.StreamResponse:
        if request.writer.output_size > 0:
            raise ConnectionError("a part of the answer is sent already")
        if status >= 500 and not isinstance(exc, ConnectionError):
            traceback.print_exception(exc, file=sys.stderr)
            return response(error(502))
        return response(error(status_of(exc)))


class Server(web.Server):
    """Takes connections of a socket while there is room, and hands each question to `answer`."""

    def __init__(self, answer: Callable[[Question], Awaitable[Answer]], most: int = MOST_OPEN) -> None:
        super().__init__(self.handle)
        self.answer, self.most, self.open = answer, most, 0
        self.room = asyncio.Event()
        self.room.set()
        self.beginning: set[asyncio.Task[None]] = set()
        # connections that haven't asked for anything yet, with the moment at which they came
        self.silent: dict[object, tuple[Connection, float]] = {}

    def __call__(self) -> Connection:
        return Connection(self, loop=asyncio.get_running_loop(), **SETTINGS)

    def connection_made(self, handler: web.RequestHandler, transport: asyncio.Transport) -> None:
        super().connection_made(handler, transport)
        if isinstance(handler, Connection):
            self.silent[handler] = handler, time.monotonic()

    def connection_lost(self, handler: web.RequestHandler, exc: BaseException | None = None) -> None:
        super().connection_lost(handler, exc)
        self.silent.pop(handler, None)
        self.open -= 1
        self.room.set()

    def has_room(self) -> bool:
        """Whether a connection may stay open for the next question."""
        return self.open < self.most / 2

    async def listen(self, listening: socket.socket) -> None:
        """Takes connections for ever; who comes beyond the most waits. It takes all that have come before any of them
        is answered: what is short never waits until connections before it have had what is long."""
        sweeper = asyncio.create_task(self.sweep())
        try:
            while True:
                await self.room.wait()
                await self.take(listening)
        finally:
            sweeper.cancel()

    async def take(self, listening: socket.socket) -> None:
        loop = asyncio.get_running_loop()
        try:
            connection, _ = await loop.sock_accept(listening)
        except OSError as fault:
            report(f"no connection can be taken: {fault.strerror}")
            return await asyncio.sleep(1)
        self.open += 1
        if self.open >= self.most:
            self.room.clear()
        beginning = loop.create_task(self.begin(connection))
        self.beginning.add(beginning)
        beginning.add_done_callback(self.beginning.discard)

    async def begin(self, connection: socket.socket) -> None:
        try:
            await asyncio.get_running_loop().connect_accepted_socket(self, connection)
        except OSError:
            connection.close()
            self.open -= 1
            self.room.set()

    async def sweep(self) -> None:
        """Closes connections on which nothing came."""
        while True:
            await asyncio.sleep(PATIENCE / 6)
            for handler, since in list(self.silent.values()):
                if time.monotonic() - since >= PATIENCE:
                    handler.force_close()

    async def handle(self, request: web.BaseRequest) -> web.StreamResponse:
        self.silent.pop(request.protocol, None)
        try:
            if len(request.raw_headers) > MOST_FIELDS:
                raise Refused(error(431))
            answer = await self.answer(asked(request))
            if answer.goes_on is not None:
                return await go_on(request, answer, answer.goes_on)
        except Refused as refused:
            answer = refused.answer
        return response(answer, request.keep_alive and self.has_room())


def asked(request: web.BaseRequest) -> Question:
    """What the routes see of a request; several slashes at its begin are one."""
    def has_left() -> bool:
        return request.transport is None or request.transport.is_closing()

    async def read() -> bytes:
        try:
            async with asyncio.timeout(PATIENCE):
                return await request.read()
        except TimeoutError:
            raise Left from None

    target = request.raw_path.encode("utf-8", "surrogateescape").decode("latin-1")
    path, _, query = target.partition("?")
    fields: dict[str, str] = {}
    for name, value in request.raw_headers:
        fields.setdefault(name.decode("latin-1").lower(), value.decode("latin-1"))
    return Question(request.method, "/" + path.lstrip("/") if path.startswith("//") else path, query, fields, read,
                    has_left)


def listening_at(where: Place) -> socket.socket:
    """A socket at a port of the loopback address, or at a path; OSError or OverflowError where that isn't free, or is
    none."""
    found = (listening.listening_at(where.path) if where.path else
             socket.create_server(("127.0.0.1", where.port), backlog=listening.BACKLOG))
    found.setblocking(False)
    return found
