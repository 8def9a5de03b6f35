"""Who asks here and waits: the requests go into the log together, and each gets the answer to its own entry."""
import asyncio
import os
import queue
import time

from acd_service.node.entries import entry_of, fitting, value_of
from acd_service.node.journal import Journal
from acd_service.node.log import Log

Waiter = asyncio.Future[bytes]


def moment() -> int:
    """The seconds since 1970, as a line has them."""
    return min(max(int(time.time()), 0), 2 ** 32 - 1)


def settle(waiter: Waiter, answer: bytes) -> None:
    """An entry may be in the log twice. Its first answer counts."""
    if not waiter.done():
        waiter.set_result(answer)


class Waiting:
    """`answer` is of the loop, `put_for_ever` of a thread that puts, and `tell` of any thread."""

    def __init__(self, log: Log, journal: Journal, patience: float = 10) -> None:
        self.log, self.journal, self.patience = log, journal, patience
        self.waiters: dict[bytes, Waiter] = {}             # by the tokens of their entries
        self.unput: queue.SimpleQueue[tuple[bytes, bytes]] = queue.SimpleQueue()   # tokens, and their entries
        self.taken: list[tuple[bytes, bytes]] = []         # those of them that are put next

    async def answer(self, request: bytes) -> bytes:
        """The answer line to a request; empty if it doesn't come in time, or nobody acknowledged its entry."""
        loop, token = asyncio.get_running_loop(), os.urandom(16).hex().encode()
        waiter: Waiter = loop.create_future()
        self.waiters[token] = waiter
        self.unput.put((token, entry_of(token, moment(), request)))
        end = loop.call_later(self.patience, settle, waiter, b"")
        try:
            return await waiter
        finally:
            end.cancel()
            del self.waiters[token]

    def tell(self, token: bytes, answer: bytes) -> None:
        """The answer to the entry with this token, if anybody here waits for it."""
        waiter = self.waiters.get(token)
        if waiter:
            waiter.get_loop().call_soon_threadsafe(settle, waiter, answer)

    def put_for_ever(self) -> None:
        while True:
            self.put_once()

    def put_once(self) -> None:
        """Puts as many as one value may have of those that wait by now. While a majority writes it, the next ones
        come."""
        together = self.next_ones()
        try:
            self.log.append(value_of([entry for _, entry in together]))
        except OSError as fault:
            self.journal.report(f"{len(together)} requests get 503: {fault}", "append", 60)
            for token, _ in together:
                self.tell(token, b"")

    def next_ones(self) -> list[tuple[bytes, bytes]]:
        """Waits until there is one. Who has given up by now isn't put, not even where others were put before: so no
        request goes into the log later than its client was told of no answer."""
        self.taken = [one for one in self.taken if one[0] in self.waiters]
        while not self.taken or not self.unput.empty():
            one = self.unput.get()
            if one[0] in self.waiters:
                self.taken.append(one)
        many = fitting([entry for _, entry in self.taken])
        together, self.taken = self.taken[:many], self.taken[many:]
        return together
