"""Sends alarms to one address, each until it is taken, for an hour at most. Tested, not proved.

They go one after the other, so that an alarm's end never comes before its begin. The address is shown nowhere: it may
have a word in it by which the other end knows who sends."""
import argparse
import http.client
import json
import socket
import ssl
import threading
import time
from collections import deque
from collections.abc import Callable
from typing import Any
from urllib.parse import SplitResult, urlsplit

from acd_client import credentials

from acd_service.command import NOTICE, report
from acd_service.reach import THIS_MACHINE

# seconds: of a try, without a byte and in all; between two tries, at first and at last; and of all tries
SILENT, WHOLE, FIRST, LAST, LONGEST = 10, 30, 1, 300, 3600
# alarms that wait
MOST = 1000
Message = dict[str, Any]


def address(text: str) -> SplitResult:
    """Of https alone, or on this machine."""
    try:
        parts = urlsplit(text)
        is_safe = parts.scheme == "https" or parts.scheme == "http" and parts.hostname in THIS_MACHINE
        good = bool(is_safe and parts.hostname and parts.port != 0 and not parts.fragment and text.isascii() and
                    text.isprintable() and " " not in text)
    except ValueError:
        good = False
    if not good:
        raise argparse.ArgumentTypeError("the address of the webhook must begin with https:// and have a host")
    return parts


def post(to: SplitResult, body: bytes, context: ssl.SSLContext | None) -> int:
    """The status of the answer; OSError or HTTPException where none comes. No redirection is followed."""
    host, port = to.hostname or "", to.port
    connection = (http.client.HTTPSConnection(host, port, timeout=SILENT, context=context) if to.scheme == "https"
                  else http.client.HTTPConnection(host, port, timeout=SILENT))
    timer = threading.Timer(WHOLE, cut, (connection,))
    timer.daemon = True
    timer.start()
    try:
        path = (to.path or "/") + (f"?{to.query}" if to.query else "")
        connection.request("POST", path, body, {"Content-Type": "application/json", **credentials(to)})
        return connection.getresponse().status
    finally:
        timer.cancel()
        connection.close()


def cut(connection: http.client.HTTPConnection) -> None:
    """Ends a try in which bytes come one by one."""
    if connection.sock is not None:
        try:
            connection.sock.shutdown(socket.SHUT_RDWR)
        except OSError:
            pass


class Sender:
    """`send` says with which status a body was answered; `keep` is called where what waits has changed."""

    def __init__(self, send: Callable[[bytes], int], waiting: list[Message], keep: Callable[[], None],
                 clock: Callable[[], float] = time.time) -> None:
        self.send, self.keep, self.clock = send, keep, clock
        self.waiting: deque[Message] = deque(waiting[-MOST:])
        self.changed = threading.Condition()
        self.tries = 0

    def put(self, body: dict[str, Any]) -> None:
        with self.changed:
            if len(self.waiting) >= MOST:
                self.drop("too many wait")
            self.waiting.append({"made": int(self.clock()), "body": body})
            self.changed.notify()

    def drop(self, why: str) -> None:
        """The first one is given up."""
        body = self.waiting.popleft()["body"]
        self.tries = 0
        report(f"not sent, {why}: {body.get('state')} {body.get('key')}")

    def run(self) -> None:
        """Without an end."""
        while True:
            with self.changed:
                self.changed.wait_for(lambda: self.waiting)
            time.sleep(self.turn())

    def turn(self) -> float:
        """Tries to send the first one; in how many seconds to try again."""
        with self.changed:
            first = self.waiting[0] if self.waiting else None
        if first is None:
            return 0
        why = self.fault_of(first)
        with self.changed:
            if not self.waiting or self.waiting[0] is not first:
                return 0
            if why is None:
                if self.tries:
                    report("the webhook takes alarms again", NOTICE)
                self.waiting.popleft()
                self.tries, pause = 0, 0.0
            else:
                pause = self.failed(first, why)
        self.keep()
        return pause

    def failed(self, first: Message, why: str) -> float:
        self.tries += 1
        if self.clock() - first["made"] >= LONGEST:
            self.drop(f"for an hour {why}")
            return 0.0
        if self.tries == 1:
            report(f"the webhook takes no alarm ({why}), retrying for an hour")
        return float(min(LAST, FIRST * 2 ** (self.tries - 1)))

    def fault_of(self, message: Message) -> str | None:
        """Why it wasn't taken."""
        try:
            status = self.send(json.dumps(message["body"], ensure_ascii=False).encode())
        except (OSError, http.client.HTTPException) as fault:
            return f"no answer came: {getattr(fault, 'strerror', None) or fault or type(fault).__name__}"
        return None if 200 <= status < 300 else f"the answer was {status}"
