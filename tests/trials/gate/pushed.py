"""Over a thousand streams at a full plan behind one address, unless another number of pages is named: how large a first picture is, how soon all have theirs, that each hears a line within ten seconds and its own news at once, and that
others of the address are answered meanwhile."""
import asyncio
import contextlib
import json
import subprocess
import sys
import threading
import time
import zlib
from base64 import b64encode
from collections import Counter
from pathlib import Path

from many import chunk_of, seconds_of
from place import PATIENCE, Place
from trial import ANY, TOP, Connection, ran, until

# boards; bytes of a first picture by gzip; seconds for which all are watched, and between two lines; megabytes that the gate takes
BOARDS, SUPERVISORS, BOARD, PAGE, WATCHED, SILENT, MEMORY = 20, 3, 80_000, 12_000, 12, 10, 150
SERVICES = 100
LOST = asyncio.IncompleteReadError, ConnectionError


def word(login):
    return f"Basic {b64encode(f'{login}:secret'.encode()).decode()}"


class Pushed(Place):
    @classmethod
    def setUpClass(cls):
        """So many agents have a page, which is open twice."""
        cls.agents = range(1, cls.options.pages + 1)
        cls.ROLES = {"other": "exchange", **{f"s{number}": "supervisor" for number in range(SUPERVISORS)}, **{f"a{number}": f"agent agent={number}" for number in cls.agents}}
        super().setUpClass()

    @classmethod
    def given(cls):
        """A full plan in work, one group an agent, whose last moment is now."""
        lines = ran(sys.executable, "-B", TOP / "bench/busy.py", 20000, "--plan", "full").output.splitlines()
        later = int(time.time()) - int(lines[-1].partition(" ")[0])
        return "".join(f"{int(moment) + later} {request}\n" for moment, _, request in (line.partition(" ") for line in lines))

    def try_first_pictures(self):
        """By gzip, as a browser takes them: of a board with its whole day, and of an agent's page with all names."""
        until(lambda: self.picture("s0", "/stream?begin=0")[1].get("day", {}).get("share") == 1, PATIENCE, 1)
        for what, login, path, most in (("a board's", "s0", "/stream?begin=0", BOARD), ("an agent's", "a1", "/stream", PAGE)):
            size, told = self.picture(login, path)
            self.see(f"{what} first picture has all", len(told["agents"] if "agents" in told else told["names"]["agents"]) == 1000, sorted(told))
            print(f"    {what} first picture: {size} bytes by gzip")
            self.see(f"{what} first picture in bytes", size < most, size)

    def picture(self, login, path):
        """How many bytes come until it is whole, and what it has."""
        with Connection(self.port, ANY, PATIENCE) as connection:
            connection.connection.request("GET", path, headers={"Authorization": word(login), "Accept-Encoding": "gzip"})
            reply, unpacked, size, told = connection.connection.getresponse(), zlib.decompressobj(zlib.MAX_WBITS | 16), 0, b""
            while not told.endswith(b"\n\n"):
                part = reply.read1()
                size, told = size + len(part), told + unpacked.decompress(part)
            return size, json.loads(told.partition(b"\n\n")[0].partition(b"data: ")[2])

    def try_a_thousand(self):
        self.told, self.ended = {}, threading.Event()
        pages = threading.Thread(target=lambda: asyncio.run(self.hold()))
        begun = time.monotonic()
        pages.start()
        try:
            wanted = 2 * len(self.agents) + BOARDS
            self.see("each has its picture", until(lambda: len(self.told) == wanted, 5 * PATIENCE), len(self.told))
            self.figure(f"seconds until {wanted} streams have their pictures, each by a connection and a log-in of its own", time.monotonic() - begun, 30)
            self.watched()
            self.news()
        finally:
            self.ended.set()
            pages.join()

    def watched(self):
        """While nobody ends, all hear something, and others ask."""
        used, began = seconds_of(self.gate), time.monotonic()
        while time.monotonic() - began < WATCHED:
            statuses = Counter(self.request("other", "tick")[0] for _ in range(SERVICES // WATCHED))
            self.expect("others are answered", set(statuses), {200})
            time.sleep(1)
        lasted, now = time.monotonic() - began, time.monotonic()
        self.expect("nobody lost the stream", [page for page, one in self.told.items() if one["ended"]], [])
        self.figure("seconds that a page heard nothing, at most", max(max(one["longest"], now - one["heard"]) for one in self.told.values()), SILENT)
        self.figure("megabytes of the gate", memory_of(self.gate.pid), MEMORY)
        workers = subprocess.run(["pgrep", "-P", (self.folder / f"pid-{self.port}").read_text().strip()], stdout=subprocess.PIPE, text=True, check=True).stdout.split()
        print(f"    nginx takes {sum(map(memory_of, workers)):.0f} megabytes; the gate {(seconds_of(self.gate) - used) / lasted:.2f} of a processor")

    def news(self):
        """A call that is put on hold: both pages of its agent are told at once."""
        snapshot = self.direct("GET", "/snapshot").value
        at = {one["device"]: one["agent"] for one in snapshot["agents"] if "device" in one and int(one["agent"]) in self.agents}
        call, device = next((call["call"], side["device"]) for call in snapshot["calls"] for side in call["connections"] if side["state"] == "connected" and side["device"] in at)
        before, agent = {page: one["own"] for page, one in self.told.items()}, at[device]
        began = time.monotonic()
        self.service("news", "holdCall", call=call, device=device)
        pages = [f"a{agent} {place}" for place in range(2)]
        self.see("both are told", until(lambda: all(self.told[page]["own"] > before[page] for page in pages), PATIENCE, 0.01), pages)
        self.figure("seconds until both pages have an agent's news", time.monotonic() - began, 0.5)

    async def hold(self):
        """All pages, by connections of their own, of which so many begin at once."""
        at_once = asyncio.Semaphore(20)
        logins = [(f"a{number}", "/stream", place) for place in range(2) for number in self.agents] + [(f"s{number % SUPERVISORS}", "/stream?begin=0", number) for number in range(BOARDS)]
        pages = [asyncio.create_task(self.page(*each, at_once)) for each in logins]
        while not self.ended.is_set():
            await asyncio.sleep(0.2)
        for page in pages:
            page.cancel()
        await asyncio.gather(*pages, return_exceptions=True)

    async def page(self, login, path, place, at_once):
        async with at_once:
            reader, unpacked = await self.begun(login, path)
        one = self.told[f"{login} {place}"] = {"heard": time.monotonic(), "longest": 0, "own": 0, "ended": False}
        with contextlib.suppress(*LOST):
            while part := await chunk_of(reader):
                text, now = unpacked.decompress(part), time.monotonic()
                one["longest"], one["heard"], one["own"] = max(one["longest"], now - one["heard"]), now, one["own"] + (b'"agent":' in text)
        one["ended"] = True

    async def begun(self, login, path):
        """A stream with its picture. On a busy machine nginx at times gives a connection up before its request is there; it is asked again, as a page does."""
        while True:
            with contextlib.suppress(*LOST):
                reader, writer = await asyncio.open_connection("127.0.0.1", self.port, ssl=ANY, limit=1 << 22)
                writer.write(f"GET {path} HTTP/1.1\r\nHost: desk\r\nAuthorization: {word(login)}\r\nAccept-Encoding: gzip\r\n\r\n".encode())
                head = await reader.readuntil(b"\r\n\r\n")
                self.see(f"{login} may look", head.startswith(b"HTTP/1.1 200 "), head[:100])
                unpacked, text = zlib.decompressobj(zlib.MAX_WBITS | 16), b""
                while b"\n\n" not in text:
                    text += unpacked.decompress(await chunk_of(reader))
                return reader, unpacked
            await asyncio.sleep(1)


def memory_of(process):
    """Megabytes in use."""
    return int(Path(f"/proc/{process}/status").read_text().partition("VmRSS:")[2].split()[0]) / 1000
