"""Turns of the loop: what is long is begun once in a turn, so that what is short goes between. Unproved."""
import asyncio
from collections import deque


class OneByOne:
    """Those who wait go on one by one, first come first served, each in a turn of its own."""

    def __init__(self) -> None:
        self.waiting: deque[asyncio.Future[None]] = deque()

    async def turn(self) -> None:
        loop = asyncio.get_running_loop()
        mine = loop.create_future()
        self.waiting.append(mine)
        if len(self.waiting) == 1:
            loop.call_soon(self.next)
        await mine

    def next(self) -> None:
        mine = self.waiting.popleft()
        if not mine.done():
            mine.set_result(None)
        if self.waiting:
            asyncio.get_running_loop().call_soon(self.next)
