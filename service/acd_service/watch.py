"""What is told of a desk that runs: to systemd, that it has started, and then that it answers; to the journal, that its
file or its log was moved from under it, that its time is ahead, or that it answers nothing. Tested, not proved.

A desk itself only serves. So the process that waits until it answers stays beside it, where it ticks by itself; on
several machines the ticks tell the same."""
import contextlib
import json
import os
import select
import time
from pathlib import Path
from typing import Any

import acd_notify
from acd_client import Client, Unanswered

from acd_service import command, held, pair

MINUTE, HOUR = 60, 3600
# the last moment that a desk accepts
LAST = 4294967295
# seconds between two questions until the desk answers for the first time, and for its answer
PAUSE, SOON = 0.1, 5
# seconds that an opening may take without a word
SLOW = 5


class Journal:
    """Says each line on standard error, the same one once an hour at most."""

    def __init__(self) -> None:
        self.reported_at: dict[str, float] = {}

    def report(self, text: str) -> None:
        now = time.time()
        # a line from a time when the clock was ahead keeps no line back
        if not now - HOUR < self.reported_at.get(text, -HOUR) <= now:
            self.reported_at = {line: moment for line, moment in self.reported_at.items()
                                if now - HOUR < moment <= now} | {text: now}
            command.report(text)


class Silence:
    """Of a desk that takes connections and answers none: told once it has lasted a minute. Each question waits for so
    many seconds."""

    def __init__(self, journal: Journal, where: str, waits: float) -> None:
        self.journal, self.where, self.waits = journal, where, waits
        self.since: float | None = None

    def ends(self) -> None:
        self.since = None

    def lasts(self) -> None:
        """A question had no answer in its time; a clock that was put back begins anew."""
        now = time.time()
        if self.since is None or now < self.since:
            self.since = now - self.waits
        if now - self.since >= MINUTE:
            self.journal.report(f"the desk at {self.where} has answered nothing for a minute, and is there: "
                                "it is halted (acdctl copy --continue), or its disk hangs; until it answers no ring "
                                "and no after-call work ends by a tick")


def look_at_clock(journal: Journal, moment: int) -> None:
    """The snapshot's moment is that of the last request; if it is ahead, the desk's time doesn't advance until the
    clock reaches it."""
    if moment > int(time.time()) + MINUTE:
        until = time.strftime("%Y-%m-%d %H:%M:%S UTC", time.gmtime(moment))
        journal.report("the desk's time is over a minute ahead of this machine's clock: "
                       f"until {until} no ring and no after-call work ends by a tick")


class Minutes:
    """Says once a minute that it is time to look."""

    def __init__(self) -> None:
        self.looked = float(-MINUTE)

    def is_over(self) -> bool:
        now = time.time()
        if self.looked <= now < self.looked + MINUTE:
            return False
        self.looked = now
        return True


def look_at_files(processes: list[int], file: Path) -> None:
    """Reports that the file or its log were removed or moved from under these desks: their answers are lost with it."""
    with contextlib.suppress(OSError):
        for line in filter(None, (held.moved(process, file) for process in processes)):
            command.report(line)


def moment_of(snapshot: bytes) -> int:
    """The moment of a snapshot; 0 where it is none."""
    try:
        moment = json.loads(snapshot)["moment"]
    except (ValueError, LookupError, TypeError, RecursionError):
        return 0
    return moment if type(moment) is int and moment <= LAST else 0


def kept_by(page: Any) -> int:
    """How many requests a file has, by the first page of them: their numbers follow one another."""
    return int(page["last"] + 1 - page["requests"][0]["stamp"] if page["requests"] else 0)


def report_opening(seconds: float) -> None:
    if seconds > SLOW:
        command.report(f"the desk took {seconds:.0f} s to open its file: the more requests it has, the longer it takes "
                       "(PRUNING.md)")


# The process beside a desk

class Beside:
    """Watches the desk at an address, a process of which `ended` is the descriptor, over a file."""

    def __init__(self, desk: int, ended: int, address: str, file: Path) -> None:
        self.desk, self.address, self.file = desk, address, file
        self.ended = select.poll()
        self.ended.register(ended, select.POLLIN)
        self.journal, self.minutes = Journal(), Minutes()
        self.silence = Silence(self.journal, address, MINUTE)

    def ends_within(self, seconds: float) -> bool:
        return bool(self.ended.poll(seconds * 1000))

    def answer(self, path: str, wait: float) -> bytes:
        """What the desk answers to a question, whatever that is; Unanswered where it answers nothing."""
        with Client(self.address, wait=wait) as client:
            try:
                return client.exchange("GET", path)[1]
            except Unanswered as fault:
                if fault.__cause__ is None:
                    return b""
                raise

    def begin(self) -> bool:
        """Tells systemd that the desk answers for the first time; whether it lives to do so."""
        began = time.monotonic()
        while not self.ends_within(PAUSE):
            with contextlib.suppress(Unanswered):
                self.answer("/", SOON)
                seconds = time.monotonic() - began
                acd_notify.tell("READY=1")
                report_opening(seconds)
                self.note_opening(seconds)
                return True
        return False

    def note_opening(self, seconds: float) -> None:
        """For `acdctl status`, which says by it how long the next start takes. Where the desk doesn't show its
        requests, or the disk is full, the last note stays."""
        with contextlib.suppress(Unanswered, OSError, ValueError, LookupError, TypeError, RecursionError):
            count = kept_by(json.loads(self.answer("/requests?after=0", SOON)))
            pair.remember_opening(self.file, pair.Opening(count, seconds))

    def turn(self) -> None:
        """Asks the desk once, and once a minute looks at what may be wrong."""
        is_time = self.minutes.is_over()
        try:
            answer = self.answer("/snapshot" if is_time else "/", MINUTE)
        except Unanswered as fault:
            # of one that isn't there systemd knows
            if isinstance(fault.__cause__, TimeoutError):
                self.silence.lasts()
        else:
            acd_notify.tell("WATCHDOG=1")
            self.silence.ends()
            if is_time:
                look_at_clock(self.journal, moment_of(answer))
        if is_time:
            look_at_files([self.desk], self.file)

    def stay(self, step: int) -> None:
        """Asks each step, and each minute at least, until the desk ends. Whatever happens it stays: without it systemd
        would take the desk for one that hangs."""
        while not self.ends_within(min(step, MINUTE)):
            try:
                self.turn()
            except Exception as fault:
                self.journal.report(f"the desk's watch: {fault!r}")


def beside(address: str, file: Path, step: int | None) -> None:
    """Where systemd waits for this process, which becomes the desk, another one tells it that the desk answers. It ends
    then, if there is no step, or with the desk. It is no child of this one, since a desk waits for none."""
    if "NOTIFY_SOCKET" not in os.environ:
        return
    desk = os.getpid()
    ended = os.pidfd_open(desk)
    child = os.fork()
    if child:
        os.waitpid(child, 0)
        return os.close(ended)
    try:
        if os.fork():
            return
        watching = Beside(desk, ended, address, file)
        if watching.begin() and step:
            watching.stay(step)
    finally:
        os._exit(0)
