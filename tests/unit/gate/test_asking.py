#!/usr/bin/python3
"""Tests of how the gate asks the desk.   usage: tests/unit/gate/test_asking.py

Needs python3-aiohttp, python3-passlib and python3-bcrypt (Debian packages)."""
import argparse
import asyncio
import tempfile
import unittest
from pathlib import Path
from unittest import mock

from standing import NO_DESK

from acd_service.gate import desk
from acd_service.gate.desk import Desk, Place, place

WHOLE = b"HTTP/1.1 409 Conflict\r\nContent-Type: application/json\r\nContent-Length: 9\r\nConnection: close\r\n\r\n{\"x\": 1}\n"


class AskingTest(unittest.IsolatedAsyncioTestCase):
    async def asyncSetUp(self):
        self.heads, self.sends, self.ends, self.most, self.open = [], WHOLE, True, 0, 0
        self.folder = Path(self.enterContext(tempfile.TemporaryDirectory()))
        for begin, words in ((asyncio.start_server, ["127.0.0.1", 0]), (asyncio.start_unix_server, [self.folder / "desk"])):
            server = await begin(self.answer, *words)
            self.addCleanup(server.close)
            if begin is asyncio.start_server:
                self.desk = Desk(Place(server.sockets[0].getsockname()[1]))

    async def answer(self, reader, writer):
        self.open += 1
        self.most = max(self.most, self.open)
        self.heads.append(await reader.readuntil(b"\r\n\r\n"))
        length = self.heads[-1].lower().partition(b"content-length: ")[2].partition(b"\r")[0]
        self.heads.append(await reader.readexactly(int(length or 0)))
        await asyncio.sleep(0.05)
        writer.write(self.sends)
        if not self.ends:
            await asyncio.sleep(5)
        writer.close()
        self.open -= 1

    async def test_a_port_and_a_socket(self):
        for one in (self.desk, Desk(Place(path=str(self.folder / "desk")))):
            self.assertEqual(tuple(await one.ask("POST", "/csta", b" {} "))[:3], (409, "application/json", b'{"x": 1}\n'))
            head, body = self.heads[-2:]
            self.assertEqual(body, b" {} ")
            self.assertEqual(head.split(b"\r\n")[0], b"POST /csta HTTP/1.1")
            self.assertIn(b"Content-Type: application/json\r\nContent-Length: 4\r\n", head)
            self.assertEqual((await one.ask_soon("GET", "/agents/7")).status, 409)
            self.assertNotIn(b"Content-", self.heads[-2])

    async def test_what_is_no_whole_answer(self):
        for sends in (b"", b"HTTP/1.1 200", WHOLE[:-1], b"HTTP/1.1 OK\r\n\r\n", b"garbage\r\n\r\n", WHOLE.replace(b": 9", b": x"), b"x" * 3 * desk.LONGEST_HEAD):
            self.sends = sends
            self.assertEqual((await self.desk.ask("GET", "/"))[:3:2], NO_DESK, sends[:20])

    async def test_one_without_a_length_ends_with_the_connection(self):
        self.sends = b"HTTP/1.0 200 OK\r\n\r\n" + b"x" * 3 * desk.LONGEST_HEAD
        self.assertEqual(len((await self.desk.ask("GET", "/")).body), 3 * desk.LONGEST_HEAD)

    async def test_one_in_parts(self):
        """What comes after its length is nothing of it; a length below nothing is none."""
        for sends, wanted in ((WHOLE, b'{"x": 1}\n'), (WHOLE + b"more", b'{"x": 1}\n'), (WHOLE.replace(b": 9", b": -1"), None)):
            for size in (1, 7, len(sends)):
                parts = iter([sends[place:place + size] for place in range(0, len(sends), size)])
                answer = desk.read_answer(lambda: asyncio.sleep(0, next(parts, b"")))
                if wanted is None:
                    with self.assertRaises(desk.Broken):
                        await answer
                else:
                    self.assertEqual((await answer)[:3], (409, "application/json", wanted))

    async def test_nobody_there(self):
        for where in (Place(1), Place(path=str(self.folder / "none"))):
            self.assertEqual((await Desk(where).ask("GET", "/"))[:3:2], NO_DESK)

    async def test_a_desk_that_hangs(self):
        self.sends, self.ends = b"HTTP/1.1 200 OK\r\n", False
        with mock.patch.multiple(desk, PATIENCE=0.2, SOON=0.1):
            for ask in (self.desk.ask, self.desk.ask_soon):
                self.assertEqual((await ask("GET", "/"))[:3:2], NO_DESK)

    async def test_no_more_at_a_time_than_the_kernel_keeps(self):
        """The gate's own questions wait for no place."""
        self.desk.places = asyncio.Semaphore(3)
        asked = [asyncio.create_task(self.desk.ask("GET", "/")) for _ in range(9)]
        await asyncio.sleep(0.02)
        await self.desk.ask_soon("GET", "/")
        self.assertEqual([one.status for one in await asyncio.gather(*asked)], [409] * 9)
        self.assertEqual(self.most, 4)

    async def test_where_an_agent_is(self):
        for body, wanted in ((b'{"device":"201"}', "201"), (b"{}", None), (b'{"device":201}', None)):
            self.sends = b"HTTP/1.1 200 OK\r\nContent-Length: %d\r\n\r\n%s" % (len(body), body)
            self.assertEqual(await self.desk.station_of("7"), wanted)
        self.assertEqual(self.heads[-2].split(b"\r\n")[0], b"GET /agents/7 HTTP/1.1")
        self.sends = WHOLE
        self.assertIsNone(await self.desk.station_of("7"))

    def test_places(self):
        for text, wanted in (("8080", Place(8080)), ("http://127.0.0.1:8080", Place(8080)), ("http://127.0.0.1:8080/", Place(8080)), ("unix:/run/acd/desk.sock", Place(path="/run/acd/desk.sock")), ("", None)):
            self.assertEqual(place(text), wanted, text)
        for text in ("x", "65536", "-1", "٣", "http://desk:8080", "https://127.0.0.1:8080", "http://127.0.0.1", "unix:", "unix:run/desk", "8080 "):
            with self.assertRaises(argparse.ArgumentTypeError):
                place(text)


if __name__ == "__main__":
    unittest.main()
