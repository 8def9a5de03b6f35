"""Sends a tick to a desk in each step in which one ends something: an offer that has rung, or after-call work that has
lasted, as long as its group gives.

The desk's snapshot shows when. It passes over a desk that isn't there: systemd may be about to start it again, and the
next step finds it. Each minute it looks whether the file or its log were removed or moved from under the desk. Somebody
who foresaw the ticks' keys could use them up. So it draws their requester at random, and passes it on in the
environment, never on a command line. It is tested, not proved."""
import argparse
import contextlib
import http.client
import json
import os
import re
import secrets
import signal
import string
import time
from pathlib import Path
from typing import Any, NoReturn

import acd_due
from acd_service import command, held, settings, watch
from acd_service.command import Fault

REQUESTER = "clock-[a-z]{12}"
# the greatest invoke that a desk accepts; and more bytes than any answer of a desk has
GREATEST, MOST = 999_999_999, 1 << 24


# The desk

def is_error(body: object) -> bool:
    """Whether it is what a desk answers where it refuses."""
    error = body.get("error") if isinstance(body, dict) else None
    return isinstance(error, dict) and type(error.get("code")) is int and isinstance(error.get("name"), str)


def name_of(body: Any) -> str:
    """The name of an error: the rest of its text has the requester, which isn't for the journal."""
    is_name = is_error(body) and re.fullmatch("[A-Za-z]{1,40}", body["error"]["name"])
    return f" {body['error']['name']}" if is_name else ""


class Desk:
    """The program that listens at a port of the loopback address; its whole answer comes within so many seconds, or it
    counts as not there."""

    def __init__(self, port: int, patience: float) -> None:
        self.port, self.patience = port, patience

    def ask(self, method: str, path: str, body: str | None = None) -> tuple[int, Any]:
        """The status of an answer, and its JSON, None where it is none; OSError or HTTPException where no whole answer
        comes."""
        connection = http.client.HTTPConnection("127.0.0.1", self.port)
        # no limit of one read is one of all together
        signal.setitimer(signal.ITIMER_REAL, self.patience)
        try:
            connection.request(method, path, body)
            reply = connection.getresponse()
            data = reply.read(MOST)
            # a read of so many bytes at most passes over an end that comes too early
            if reply.length and len(data) < MOST:
                raise http.client.IncompleteRead(data, reply.length)
        finally:
            signal.setitimer(signal.ITIMER_REAL, 0)
            connection.close()
        try:
            return reply.status, json.loads(data)
        except (ValueError, RecursionError):
            return reply.status, None


def too_late(*_: object) -> NoReturn:
    raise TimeoutError


class Ticker:
    def __init__(self, port: int, step: int, requester: str, file: Path) -> None:
        self.desk, self.step, self.requester, self.file = Desk(port, step), step, requester, file
        self.journal, self.minutes = watch.Journal(), watch.Minutes()
        self.silence = watch.Silence(self.journal, f"port {port}", step)

    def run(self) -> NoReturn:
        while True:
            # the number of steps since 1970 is new with each step
            invoke = int(time.time()) // self.step
            if invoke > GREATEST:
                raise Fault(f"the step {self.step} is too short by now: its number since 1970 has more than nine "
                            "digits")
            self.turn(invoke)
            self.wait()

    def turn(self, invoke: int) -> None:
        try:
            if self.is_due():
                self.send(invoke)
        except TimeoutError:
            return self.silence.lasts()
        # one that isn't there just now the next step finds
        except (OSError, http.client.HTTPException):
            pass
        self.silence.ends()

    def is_due(self) -> bool:
        """Whether a tick ends something. A desk that refuses to say (an older one has no snapshot) is sent a tick each
        step. Who answers otherwise than a desk does is sent nothing."""
        status, body = self.desk.ask("GET", "/snapshot")
        if 300 <= status <= 599 and is_error(body):
            return True
        # who isn't one may answer anything
        with contextlib.suppress(LookupError, TypeError, AttributeError):
            if status == 200 and type(body["moment"]) is int and body["moment"] <= watch.LAST:
                due: bool = acd_due.is_due(body, time.time())
                watch.look_at_clock(self.journal, body["moment"])
                return due
        self.journal.report(f"who listens at port {self.desk.port} is no desk, and is sent nothing")
        return False

    def send(self, invoke: int) -> None:
        """Sends the tick of a step; its answer has to be 200."""
        request = {"requester": self.requester, "invoke": invoke, "service": "tick"}
        status, body = self.desk.ask("POST", "/csta", json.dumps(request, separators=(",", ":")))
        if status != 200:
            self.journal.report(f"the desk answered a tick with {status}{name_of(body)}")

    def look_at_files(self) -> None:
        """Each minute, while it waits."""
        if self.minutes.is_over():
            with contextlib.suppress(OSError):
                watch.look_at_files(held.desks(self.file), self.file)

    def wait(self) -> None:
        """Until the next step begins."""
        left = self.step - time.time() % self.step
        while left > 0:
            self.look_at_files()
            time.sleep(min(left, watch.MINUTE))
            left -= watch.MINUTE


# The command

def drawn() -> str:
    """A requester as the package draws one: twelve letters, which are more than anybody tries."""
    return "clock-" + "".join(secrets.choice(string.ascii_lowercase) for _ in range(12))


def parser() -> command.Parser:
    found = command.Parser("Sends the desk a tick in each step in which one ends something: an offer that has rung, "
                           "or after-call work that has lasted, long enough.")
    found.add_argument("--port", type=command.whole_number(1, 65535), default=8080, metavar="P",
                       help="the desk's port of the loopback address; 8080 unless given")
    found.add_argument("--step", type=command.whole_number(2, 3600), default=10, metavar="SECONDS",
                       help="seconds between two looks; 10 unless given")
    settings.add_file(found, "the desk's file, to see whether it was moved")
    return found


def read(words: list[str]) -> argparse.Namespace:
    options = parser().parse_args(words)
    options.requester = os.environ.get("ACD_CLOCK") or drawn()
    if not re.fullmatch(REQUESTER, options.requester):
        raise Fault("ACD_CLOCK, which /etc/acd/clock.env gives, isn't 'clock-' and 12 letters of a-z",
                    status=command.REFUSED)
    return options


def do(options: argparse.Namespace) -> NoReturn:
    signal.signal(signal.SIGALRM, too_late)
    for one in (signal.SIGTERM, signal.SIGINT):
        signal.signal(one, signal.SIG_DFL)
    try:
        Ticker(options.port, options.step, options.requester, Path(options.file)).run()
    except Fault as fault:
        raise Fault(fault, status=command.REFUSED) from None


def main(words: list[str]) -> NoReturn:
    command.run(read, do, words)
