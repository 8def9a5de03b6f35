"""Connections whose handshake of TLS isn't over. Nobody has vouched for them yet, so they take no place of those whose
handshake is."""
import asyncio
import contextlib
import ipaddress
import socket
import ssl
from collections.abc import Callable

SECONDS = 5                                                # from the connection to the end of its handshake
OF_ONE, OF_ALL = 50, 500                                   # of an address, and in all

Handshake = asyncio.Task[None]


def network_of(address: str) -> str:
    """Who counts as one: an address of IPv4, a network of 64 bits of IPv6."""
    found = ipaddress.ip_address(address.partition("%")[0])
    found = getattr(found, "ipv4_mapped", None) or found
    return str(found if found.version == 4 else ipaddress.ip_network((found, 64), strict=False))


class Handshakes:
    """Where there are as many as may be, a new one takes the place of the oldest: of its own address, or of the address
    that has most. `protocol` makes the protocol of a connection, which hears of it once its handshake is over."""

    def __init__(self, protocol: Callable[[], asyncio.Protocol], context: ssl.SSLContext) -> None:
        self.protocol, self.context = protocol, context
        # of each network its handshakes, the oldest first
        self.of: dict[str, dict[Handshake, None]] = {}

    @property
    def many(self) -> int:
        return sum(map(len, self.of.values()))

    def begin(self, connection: socket.socket, address: str) -> None:
        network = network_of(address)
        if len(self.of.get(network, ())) >= OF_ONE:
            self.give_up(network)
        elif self.many >= OF_ALL:
            self.give_up(max(self.of, key=lambda other: len(self.of[other])))
        handshake = asyncio.get_running_loop().create_task(self.meet(connection))
        self.of.setdefault(network, {})[handshake] = None
        handshake.add_done_callback(lambda _: self.remove(handshake, network))

    def give_up(self, network: str) -> None:
        """The oldest of a network."""
        oldest = next(iter(self.of[network]))
        self.remove(oldest, network)
        oldest.cancel()

    def remove(self, handshake: Handshake, network: str) -> None:
        handshakes = self.of.get(network, {})
        handshakes.pop(handshake, None)
        if not handshakes:
            self.of.pop(network, None)

    async def meet(self, connection: socket.socket) -> None:
        """Does the handshake. A client that left or has no certificate is no fault."""
        with contextlib.suppress(OSError):
            await asyncio.get_running_loop().connect_accepted_socket(
                self.protocol, connection, ssl=self.context, ssl_handshake_timeout=SECONDS)
