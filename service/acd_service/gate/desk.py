"""The desk, asked over a connection for each question, which the desk closes. Unproved."""
import argparse
import asyncio
import json
import re
import socket
from collections.abc import Awaitable, Callable
from typing import NamedTuple

from acd_service.gate.exchanges import NO_DESK, Answer

# seconds: for the desk's answer to a request, and to a question of the gate itself, so that pages learn that a desk
# hangs
PATIENCE, SOON = 60, 5
# questions that are out at a time: those that wait for the desk wait here, in turn
MOST_OUT = 100
# bytes of an answer's head, and of what is read at a time
LONGEST_HEAD, PART = 1 << 20, 1 << 16


class Place(NamedTuple):
    """Where a desk or the gate listens: a port of the loopback address, or the path of a socket."""
    port: int = 0
    path: str = ""


def place(text: str) -> Place | None:
    """The place that a word names: `8080`, `http://127.0.0.1:8080` or `unix:/run/acd/desk.sock`; None where it is
    empty, as a unit's setting that has no value."""
    if not text:
        return None
    if text.startswith("unix:/"):
        return Place(path=text.removeprefix("unix:"))
    found = re.fullmatch(r"(?:http://127\.0\.0\.1:)?([0-9]{1,5})/?", text)
    if not found or int(found[1]) > 65535:
        raise argparse.ArgumentTypeError(f"'{text}' is neither a port, nor http://127.0.0.1:PORT or unix:PATH")
    return Place(port=int(found[1]))


class Broken(Exception):
    """What came isn't a whole answer."""


class Away(Exception):
    """The desk doesn't answer."""


FAILS = OSError, ValueError, Broken


def read_head(head: bytes) -> tuple[int, dict[str, str]]:
    """Status and fields of the head of an answer."""
    line, *lines = head.decode("latin-1").split("\r\n")
    found = re.fullmatch(r"HTTP/1\.[01] ([0-9]{3})(?: .*)?", line)
    if not found:
        raise Broken
    pairs = (each.partition(":") for each in lines)
    return int(found[1]), {name.lower(): value.strip() for name, _, value in pairs}


async def read_answer(receive: Callable[[], Awaitable[bytes]]) -> Answer:
    """An answer that comes in parts, of which an empty one is the last."""
    came = b""
    while b"\r\n\r\n" not in came:
        part = await receive()
        if not part or len(came) > LONGEST_HEAD:
            raise Broken
        came += part
    head, _, body = came.partition(b"\r\n\r\n")
    status, fields = read_head(head)
    length = int(fields["content-length"]) if "content-length" in fields else None
    parts, has = [body], len(body)
    while (length is None or has < length) and (part := await receive()):
        parts.append(part)
        has += len(part)
    if length is not None and not 0 <= length <= has:
        raise Broken
    return Answer(status, fields.get("content-type", "application/json"), b"".join(parts)[:length])


class Desk:
    def __init__(self, where: Place) -> None:
        self.where, self.places = where, asyncio.Semaphore(MOST_OUT)

    async def ask(self, method: str, path: str, body: bytes | None = None) -> Answer:
        """The desk's answer to a client's request, byte for byte; NO_DESK where none came within PATIENCE."""
        try:
            async with asyncio.timeout(PATIENCE), self.places:
                return await self.exchange(method, path, body)
        except FAILS:
            return NO_DESK

    async def ask_soon(self, method: str, path: str) -> Answer:
        """The answer to a question of the gate itself, which waits for no client's; NO_DESK where none came within
        SOON."""
        try:
            async with asyncio.timeout(SOON):
                return await self.exchange(method, path, None)
        except FAILS:
            return NO_DESK

    async def exchange(self, method: str, path: str, body: bytes | None) -> Answer:
        """By the loop's own calls: streams of asyncio take twice as long."""
        loop = asyncio.get_running_loop()
        head = f"{method} {path} HTTP/1.1\r\nHost: desk\r\nConnection: close\r\n"
        if body is not None:
            head += f"Content-Type: application/json\r\nContent-Length: {len(body)}\r\n"
        with socket.socket(socket.AF_UNIX if self.where.path else socket.AF_INET) as connection:
            connection.setblocking(False)
            await loop.sock_connect(connection, self.where.path or ("127.0.0.1", self.where.port))
            await loop.sock_sendall(connection, f"{head}\r\n".encode("latin-1") + (body or b""))
            return await read_answer(lambda: loop.sock_recv(connection, PART))

    async def station_of(self, agent: str) -> str | None:
        """Where an agent is logged on now."""
        answer = await self.ask("GET", f"/agents/{agent}")
        found = json.loads(answer.body).get("device") if answer.status == 200 else None
        return found if isinstance(found, str) else None
