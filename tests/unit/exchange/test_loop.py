"""The loop: datagrams that come and go, what is heard before an alarm rings, and how the process starts and ends."""
from __future__ import annotations

import asyncio
import os
import signal
import socket
import sqlite3
import subprocess
import tempfile
import unittest
from collections.abc import Callable
from contextlib import redirect_stderr, redirect_stdout, suppress
from io import StringIO
from pathlib import Path
from typing import Any
from unittest import mock

from acd_client import AnotherHistory
from bridge import loop
from bridge.settings import Settings

TOP = Path(__file__).resolve().parents[3]
OPTIONS = ("OPTIONS sip:100@h SIP/2.0\r\nVia: SIP/2.0/UDP {here};branch=z9hG4bK1\r\nFrom: <sip:1@h>;tag=a\r\nTo: <sip:100@h>\r\nCall-ID: c\r\n"
           "CSeq: 1 OPTIONS\r\nMax-Forwards: 70\r\nContent-Length: 0\r\n\r\n")


def peer() -> tuple[socket.socket, str]:
    """A socket of somebody else, and its address."""
    found = socket.socket(socket.AF_INET, socket.SOCK_DGRAM)
    found.bind(("127.0.0.1", 0))
    found.settimeout(20)
    return found, "{}:{}".format(*found.getsockname())


def free_ports() -> list[int]:
    """Two, that nobody has for UDP."""
    held = [peer()[0] for _ in range(2)]
    ports = [each.getsockname()[1] for each in held]
    for each in held:
        each.close()
    return ports


class Heard:
    """Stands for an exchange."""

    def __init__(self, ring: Callable[[], float] = lambda: 0.0):
        self.got: list[tuple[bytes, str]] = []
        self.steps = mock.Mock(ring_alarms=ring)

    def receive(self, data: bytes, source: str) -> None:
        self.got.append((data, source))


class OfWire(unittest.TestCase):
    def setUp(self) -> None:
        self.wire = loop.Wire("127.0.0.1", 0)
        self.addCleanup(self.wire.socket.close)
        self.port = self.wire.socket.getsockname()[1]
        self.peer, self.address = peer()
        self.addCleanup(self.peer.close)

    def test_it_sends(self) -> None:
        self.wire.send(b"BYE", self.address)
        self.assertEqual(self.peer.recvfrom(100), (b"BYE", ("127.0.0.1", self.port)))

    def test_what_cant_be_sent_is_lost(self) -> None:
        """As on its way: no program ends for it."""
        self.wire.send(b"x" * 70_000, self.address)
        self.wire.send(b"x", "127.0.0.1:0")

    def test_it_hears_all_there_is(self) -> None:
        heard: Any = Heard()
        self.wire.hear(heard)
        for number in range(3):
            self.peer.sendto(b"%d" % number, ("127.0.0.1", self.port))
        self.wire.hear(heard)
        self.assertEqual(heard.got, [(b"%d" % number, self.address) for number in range(3)])

    def test_it_hears_a_thousand_at_once_at_the_most(self) -> None:
        """So that alarms ring in a flood, too."""
        heard: Any = Heard()
        for _ in range(1002):
            self.peer.sendto(b"x", ("127.0.0.1", self.port))
        self.wire.hear(heard)
        self.assertEqual(len(heard.got), 1000)
        self.wire.hear(heard)
        self.assertEqual(len(heard.got), 1002)

    def test_it_hears_before_an_alarm_rings(self) -> None:
        """A process that was halted finds first what came meanwhile, and hears again before each further alarm."""
        counts: list[int] = []

        def ring() -> float:
            counts.append(len(heard.got))
            if len(counts) == 3:
                raise InterruptedError
            self.peer.sendto(b"x", ("127.0.0.1", self.port))
            return 3600.0

        heard: Any = Heard(ring)
        self.peer.sendto(b"x", ("127.0.0.1", self.port))
        with self.assertRaises(InterruptedError):
            asyncio.run(asyncio.wait_for(self.wire.run(heard), 20))
        self.assertEqual(counts, [1, 2, 3])


class Whole(unittest.TestCase):
    """The exchange without a desk."""

    def setUp(self) -> None:
        held = tempfile.TemporaryDirectory()
        self.addCleanup(held.cleanup)
        self.folder = Path(held.name)
        self.port, music = free_ports()
        (self.folder / "phones").write_text("{}")
        self.words = ["--phones", str(self.folder / "phones"), "--listen", f"127.0.0.1:{self.port}", "--desk", "http://127.0.0.1:9",
                      "--file", str(self.folder / "exchange.db"), "--music-port", str(music)]
        self.peer, self.address = peer()
        self.addCleanup(self.peer.close)

    def asked(self) -> bytes:
        """The first line of the answer to who asks what it takes."""
        self.peer.sendto(OPTIONS.format(here=self.address).encode(), ("127.0.0.1", self.port))
        return self.peer.recv(65535).partition(b"\r\n")[0]

    def test_it_says_that_it_is_ready_and_answers(self) -> None:
        async def course() -> None:
            running = asyncio.create_task(loop.run(settings))
            while not out.getvalue() and not running.done():
                await asyncio.sleep(0.01)
            self.assertEqual(await asyncio.to_thread(self.asked), b"SIP/2.0 200 OK")
            running.cancel()
            with suppress(asyncio.CancelledError):
                await running

        with socket.socket(socket.AF_UNIX, socket.SOCK_DGRAM) as systemd, mock.patch("sys.argv", ["acd-exchange", *self.words]):
            systemd.bind(str(self.folder / "notify"))
            systemd.settimeout(20)
            settings = Settings.read()
            with mock.patch.dict(os.environ, {"NOTIFY_SOCKET": str(self.folder / "notify")}), redirect_stdout(StringIO()) as out, redirect_stderr(StringIO()):
                asyncio.run(course())
            self.assertEqual((out.getvalue(), systemd.recv(100)), (f"listening on 127.0.0.1:{self.port}\n", b"READY=1"))

    def test_signals_end_it(self) -> None:
        """With status 0, and it goes on from its file."""
        for one in (signal.SIGTERM, signal.SIGINT):
            with self.subTest(one), subprocess.Popen([TOP / "exchange/bin/acd-exchange", *self.words], stdout=subprocess.PIPE, stderr=subprocess.DEVNULL) as process:
                assert process.stdout
                self.assertEqual(process.stdout.readline(), f"listening on 127.0.0.1:{self.port}\n".encode())
                process.send_signal(one)
                self.assertEqual(process.wait(20), 0)

    def test_a_port_that_is_taken(self) -> None:
        with loop.Wire("127.0.0.1", self.port).socket:
            done = subprocess.run([TOP / "exchange/bin/acd-exchange", *self.words], capture_output=True, text=True, timeout=60)
        self.assertEqual((done.returncode, done.stdout, done.stderr), (1, "", "acd-exchange: [Errno 98] Address already in use\n"))


class Ends(unittest.TestCase):
    def ended(self, fault: BaseException | None) -> tuple[Any, str, list[int]]:
        """The status or the text with which it ends, what it says, and the signals that it takes from then on."""
        taken: list[int] = []
        with mock.patch.object(signal, "signal", lambda number, _: taken.append(number)), mock.patch.object(loop, "run", mock.Mock()), \
                mock.patch.object(Settings, "read"), mock.patch.object(asyncio, "run", side_effect=fault), redirect_stderr(StringIO()) as said:
            try:
                loop.main()
            except SystemExit as end:
                return end.code, said.getvalue(), taken
        return None, said.getvalue(), taken

    def test_how_it_ends(self) -> None:
        both = [signal.SIGTERM, signal.SIGINT]
        self.assertEqual(self.ended(None), (None, "", both))
        self.assertEqual(self.ended(AnotherHistory("event 5")), (3, "acd-exchange: the desk has another history: event 5; see docs/EXCHANGE.md\n", both))
        for fault in (OSError(28, "No space left on device"), ValueError("no WAV file"), sqlite3.OperationalError("disk I/O error")):
            self.assertEqual(self.ended(fault), (f"acd-exchange: {fault}", "", both))

    def test_a_fault_of_its_own_isnt_hidden(self) -> None:
        with self.assertRaises(KeyError):
            self.ended(KeyError("x"))


if __name__ == "__main__":
    unittest.main()
