"""Music for everybody who waits: the addresses that it may be sent to, and 20 ms of G.711 in each packet of RTP."""
import asyncio
import errno
import itertools
import socket
import struct
import time
import wave
from collections.abc import Callable, Iterator
from ipaddress import IPv4Address, IPv4Network

from . import g711, sdp
from .records import Leg
from .steps import Steps
from .transactions import Transactions

PACKET = 160
# what is no address of one machine: this network, multicast, and what is reserved with the broadcast at its end
NO_MACHINE = [IPv4Network(text) for text in ("0.0.0.0/8", "224.0.0.0/4", "240.0.0.0/4")]
LOOPBACK = IPv4Network("127.0.0.0/8")
LEAST_PORT = 1024
# seconds for which it is known whether an address is allowed, since this machine may get others
KNOWN = 60.0


def is_here(host: str) -> bool:
    """Whether it is an address of this machine, or the broadcast of a network that it is in: to no other one a socket
    is bound."""
    with socket.socket(socket.AF_INET, socket.SOCK_DGRAM) as probe:
        try:
            probe.bind((host, 0))
        except OSError as fault:
            return fault.errno != errno.EADDRNOTAVAIL
    return True


class Music:
    """Who hears it: nobody before the ACK, and nobody at an address that its peer may not name, since whoever names one
    has it filled."""

    def __init__(self, steps: Steps, transactions: Transactions):
        self.steps, self.rows, self.settings, self.transactions = steps, steps.rows, steps.settings, transactions
        self.networks = steps.settings.networks
        self.allowed: dict[tuple[str, str, str], bool] = {}
        self.forget_at = 0.0

    def offer(self, asked: str) -> str:
        """The description of the music for a description; empty where they have no form in common."""
        return sdp.music(self.settings.host, self.settings.music_port, asked)

    def place(self, leg: Leg) -> tuple[str, int] | None:
        """The address to which it is sent for a leg; None, and a line, if the peer asks for it at an address that isn't
        allowed."""
        asked = sdp.media(leg.sdp)
        if asked is None or not asked[1]:
            return None
        host, port, _ = asked
        if port < LEAST_PORT or not self.is_allowed(host, leg.way, leg.sender):
            self.steps.say_hourly(f"no music goes to {host}: a sender at {leg.sender or 'no known address'} "
                                  f"({leg.way}) may not have it sent there")
            return None
        return host, port

    def is_allowed(self, host: str, way: str, sender: str) -> bool:
        if self.steps.now() >= self.forget_at:
            self.allowed.clear()
            self.forget_at = self.steps.now() + KNOWN
        key = host, way, sender
        if key not in self.allowed:
            self.allowed[key] = self.judge(IPv4Address(host), way, sender)
        return self.allowed[key]

    def judge(self, host: IPv4Address, way: str, sender: str) -> bool:
        """Allowed are the sender's address, the networks of the settings, and any address if the sender gave a
        password; an address of this machine only if it is the sender's."""
        if any(host in network for network in NO_MACHINE):
            return False
        is_sender = str(host) == sender
        ours = (self.settings.host, self.settings.edge.partition(":")[0])
        if host in LOOPBACK or str(host) in ours or is_here(str(host)):
            return is_sender
        return is_sender or way in ("trunk-password", "phone") or any(host in network for network in self.networks)

    def listeners(self) -> Iterator[tuple[Leg, tuple[str, int], int]]:
        """Those who hear a packet now: the leg, its address, and the form."""
        for leg in self.rows.legs.values():
            kind = sdp.music_type(leg.sdp) if leg.music and leg.sdp and not self.transactions.owes_ack(leg) else None
            place = self.place(leg) if kind is not None else None
            if place is not None and kind is not None:
                yield leg, place, kind


def sounds(file: str) -> dict[int, bytes]:
    """By the form of G.711; without a file a second of silence."""
    if not file:
        return {0: b"\xff" * 8000, 8: b"\xd5" * 8000}
    with wave.open(file) as played:
        if played.getparams()[:3] != (1, 2, 8000):
            raise ValueError(f"{file} isn't of 8000 Hz, 16 bits and one channel")
        frames = played.readframes(played.getnframes())
    return {0: g711.encode(g711.ulaw, frames), 8: g711.encode(g711.alaw, frames)}


async def play(music: Music, sound: dict[int, bytes], send: Callable[[bytes, tuple[str, int]], None]) -> None:
    """Sends a packet to everybody who waits, again and again; all hear the same place of the music."""
    due = time.monotonic()
    for count in itertools.count():
        at = count * PACKET % (len(sound[8]) - PACKET)
        for leg, address, kind in music.listeners():
            place = count & 0xffff, count * PACKET & 0xffffffff, int(leg.key[:8], 16)
            send(struct.pack("!BBHII", 0x80, kind, *place) + sound[kind][at:at + PACKET], address)
        due = max(due + 0.02, time.monotonic() - 1)
        await asyncio.sleep(max(0.0, due - time.monotonic()))
