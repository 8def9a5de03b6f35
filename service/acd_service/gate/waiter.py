"""A page of an agent that waits for news of the desk, for as long as the gate holds its question. Unproved."""
import asyncio
import zlib
from dataclasses import dataclass, field

# a page that waits for a queue's news gets its answer in every tenth turn only, so that not all pages ask again at once
TURNS = 10


def news() -> asyncio.Future[None]:
    return asyncio.get_running_loop().create_future()


@dataclass(eq=False)
class Waiter:
    agent: str
    groups: frozenset[str]
    after: int
    names: int
    woken: asyncio.Future[None] = field(default_factory=news)

    @property
    def turn(self) -> int:
        return zlib.crc32(self.agent.encode()) % TURNS

    def wake(self) -> None:
        if not self.woken.done():
            self.woken.set_result(None)
