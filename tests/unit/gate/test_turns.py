#!/usr/bin/python3
"""Tests of what is long and is done once in a turn of the loop.   usage: tests/unit/gate/test_turns.py

Needs python3-aiohttp, python3-passlib and python3-bcrypt (Debian packages)."""
import asyncio
import unittest

import standing  # noqa: F401: where the modules are
from acd_service.gate.turns import OneByOne


class TurnsTest(unittest.IsolatedAsyncioTestCase):
    async def asyncSetUp(self):
        self.pictures, self.done = OneByOne(), []

    async def page(self, name):
        await self.pictures.turn()
        self.done.append(name)

    async def others(self, count):
        for _ in range(count):
            self.done.append("other")
            await asyncio.sleep(0)

    async def test_others_go_between(self):
        """In their order, one in a turn; and each time that there is nobody left it begins anew."""
        for _ in range(2):
            self.done.clear()
            await asyncio.gather(*map(self.page, "abc"), self.others(9))
            pages = [place for place, name in enumerate(self.done) if name != "other"]
            self.assertEqual("".join(self.done[place] for place in pages), "abc")
            self.assertEqual([later - place for place, later in zip(pages, pages[1:])], [2, 2], self.done)

    async def test_who_comes_while_one_goes_on(self):
        async def page_and_another():
            await self.page("a")
            await self.page("c")

        await asyncio.gather(page_and_another(), self.page("b"))
        self.assertEqual(self.done, ["a", "b", "c"])

    async def test_who_gives_up_holds_nobody_up(self):
        first, second, third = (asyncio.create_task(self.page(name)) for name in "abc")
        await asyncio.sleep(0)
        for one in (first, second):
            one.cancel()
        await asyncio.wait_for(third, standing.PATIENCE)
        self.assertEqual(self.done, ["c"])


if __name__ == "__main__":
    unittest.main()
