"""The loop in which the exchange runs."""
import asyncio
import os
import signal
import socket
import sqlite3
import sys
from contextlib import suppress

import acd_notify
from acd_client import AnotherHistory

from .desk import DeskLine
from .exchange import Exchange
from .music import play, sounds
from .settings import Settings
from .store import Store


class Wire:
    """The address at which SIP is spoken."""

    def __init__(self, host: str, port: int):
        self.socket = socket.socket(socket.AF_INET, socket.SOCK_DGRAM)
        self.socket.setsockopt(socket.SOL_SOCKET, socket.SO_RCVBUF, 4 << 20)
        self.socket.setblocking(False)
        self.socket.bind((host, port))

    def send(self, data: bytes, address: str) -> None:
        # a datagram that can't be sent counts as lost on its way, and is sent again
        with suppress(OSError):
            self.socket.sendto(data, (address.partition(":")[0], int(address.partition(":")[2])))

    def hear(self, exchange: Exchange) -> None:
        for _ in range(1000):
            try:
                data, source = self.socket.recvfrom(65535)
            except BlockingIOError:
                return
            exchange.receive(data, f"{source[0]}:{source[1]}")

    async def run(self, exchange: Exchange) -> None:
        """Reads all datagrams before any alarm rings, so that a late process doesn't find its peers gone."""
        asyncio.get_running_loop().add_reader(self.socket, self.hear, exchange)
        while True:
            self.hear(exchange)
            await asyncio.sleep(min(0.02, max(0.0, exchange.steps.ring_alarms())))


async def run(settings: Settings) -> None:
    host, port = settings.host, int(settings.listen.partition(":")[2])
    wire, sound, loop = Wire(host, port), sounds(settings.music), asyncio.get_running_loop()
    exchange = Exchange(settings, Store(settings.file), wire.send)
    tune, _ = await loop.create_datagram_endpoint(asyncio.DatagramProtocol, local_addr=(host, settings.music_port))
    line = DeskLine(exchange)
    exchange.steps.step(exchange.resume)
    print(f"listening on {settings.listen}", flush=True)
    acd_notify.ready()
    await asyncio.gather(line.run(), line.watch(), wire.run(exchange), play(exchange.music, sound, tune.sendto))


def main() -> None:
    # all that counts is in the file, at any time
    for number in (signal.SIGTERM, signal.SIGINT):
        signal.signal(number, lambda *_: os._exit(0))
    try:
        asyncio.run(run(Settings.read()))
    except AnotherHistory as fault:
        print(f"acd-exchange: the desk has another history: {fault}; see docs/EXCHANGE.md", file=sys.stderr)
        sys.exit(3)
    except (OSError, ValueError, sqlite3.Error) as fault:
        sys.exit(f"acd-exchange: {fault}")
