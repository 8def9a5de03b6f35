"""Asks a desk for moves over a few connections at a time. Tested, not proved."""
import time
from collections.abc import Callable, Sequence
from concurrent.futures import ThreadPoolExecutor
from queue import SimpleQueue

from acd_client import Answer, Client, Event, Page, Request, Unanswered

# requests that are under way at a time, each over a connection of its own
TOGETHER = 5
# seconds without a request after which a connection begins anew, since the other end may have closed it
FRESH = 5


def attempted(send: Callable[[Request], Answer], request: Request) -> Answer | Unanswered:
    """The answer to one sending, or why there is none."""
    try:
        return send(request)
    except Unanswered as fault:
        return fault


class Several:
    """A desk, by a client that asks for all else and others beside it for what is sent together."""

    def __init__(self, first: Client, clock: Callable[[], float] = time.monotonic) -> None:
        self.first, self.clock, self.used = first, clock, clock()
        addresses = [address.geturl() for address in first.addresses]
        self.others = [Client(*addresses, requester=first.requester, wait=first.wait, context=first.context)
                       for _ in range(TOGETHER - 1)]
        self.free: SimpleQueue[Client] = SimpleQueue()
        for client in (first, *self.others):
            self.free.put(client)
        self.threads = ThreadPoolExecutor(TOGETHER)

    def attempt(self, method: str, path: str) -> Answer:
        return self.first.attempt(method, path)

    def page(self, after: int, known: Event | None = None) -> Page:
        return self.first.page(after, known)

    def send_all(self, requests: Sequence[Request]) -> list[Answer | Unanswered]:
        """Sends each of them once, the first one first, and says in their order how they were answered. Nothing of
        them may depend on another."""
        if len(requests) == 1:
            return [attempted(self.first.send, requests[0])]
        now = self.clock()
        for client in self.others if now - self.used > FRESH else ():
            client.disconnect()
        self.used = now
        return list(self.threads.map(self.send, requests))

    def send(self, request: Request) -> Answer | Unanswered:
        """Over a connection on which nothing else is under way."""
        client = self.free.get()
        try:
            return attempted(client.send, request)
        finally:
            self.free.put(client)
