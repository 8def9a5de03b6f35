"""Halts a desk for a moment: a child lets it continue whatever becomes of who halted it, and after some seconds in any
case. Tested, not proved."""
import contextlib
import os
import re
import select
import signal
import time
from collections.abc import Iterator
from dataclasses import dataclass
from pathlib import Path
from typing import NoReturn

from acd_service import held

STEP, READY = 0.01, b"1"


class Missed(Exception):
    """Why the desk wasn't halted for as long as it was needed; another time it may be."""


@dataclass(frozen=True)
class Desk:
    """A desk that runs over the file, and what was removed or moved from under it, if anything."""
    process: int
    moved: str | None

    def is_halted(self) -> bool:
        try:
            return re.search(r"^State:\s*T", Path(f"/proc/{self.process}/status").read_text(), re.MULTILINE) is not None
        except OSError:
            return False

    def go_on(self) -> None:
        with contextlib.suppress(ProcessLookupError):
            os.kill(self.process, signal.SIGCONT)

    def halt(self, end: float) -> None:
        """Waits until the process has halted: if it waits for the disk, it halts a while after the signal."""
        try:
            os.kill(self.process, signal.SIGSTOP)
        except ProcessLookupError:
            raise Missed("the desk ended meanwhile") from None
        while not self.is_halted():
            if time.monotonic() > end:
                raise Missed(f"the desk, process {self.process}, can't be halted")
            time.sleep(STEP)


def desks_over(file: Path) -> list[Desk]:
    """The desks that have the file open, and after them those whose command line names it, and that have another file
    open."""
    holding = [process for process in held.holders(file) if held.is_desk(process)]
    naming = [process for process in held.desks(file) if process not in holding]
    found = [Desk(process, held.moved(process, file)) for process in holding + naming]
    return [desk for desk in found if desk.process in holding or desk.moved]


def watch(desk: Desk, pipe: int, ready: int, seconds: float) -> NoReturn:
    """In the child: waits until the other end of the pipe is closed. No signal that a terminal or systemd sends to all
    of them ends or suspends it."""
    try:
        os.setsid()
        for one in (signal.SIGHUP, signal.SIGINT, signal.SIGTERM):
            signal.signal(one, signal.SIG_IGN)
        os.write(ready, READY)
        select.select([pipe], [], [], seconds)
    finally:
        desk.go_on()
        os._exit(0)


@contextlib.contextmanager
def watched(desk: Desk, seconds: float) -> Iterator[None]:
    """A child lets the desk continue as this ends, by a SIGKILL too, and after so many seconds in any case."""
    (theirs, ours), (is_ready, ready) = os.pipe(), os.pipe()
    child = os.fork()
    if not child:
        os.close(ours)
        watch(desk, theirs, ready, seconds)
    os.close(theirs)
    os.close(ready)
    try:
        if os.read(is_ready, 1) != READY:
            raise Missed("nothing would let the desk continue, so it wasn't halted")
        yield
    finally:
        desk.go_on()
        os.close(is_ready)
        os.close(ours)
        os.waitpid(child, 0)


@contextlib.contextmanager
def halted(desk: Desk, seconds: float) -> Iterator[float]:
    """Halts the desk for as long as this lasts, and for so many seconds at most. Gives the moment by which all has to
    be done."""
    end = time.monotonic() + seconds
    with watched(desk, seconds):
        desk.halt(end)
        yield end
        if not desk.is_halted():
            raise Missed("the desk ended or continued meanwhile")
