"""Lines on standard error, which systemd keeps."""
import sys
import threading
import time
from collections.abc import Callable
from typing import TextIO

from acd_service import command


class Journal:
    """Writes a line of a kind at once, and the next one of that kind not before its time is over: a lasting fault must
    not fill the disk."""

    def __init__(self, clock: Callable[[], float] = time.monotonic, out: TextIO | None = None) -> None:
        self.clock, self.out, self.lock = clock, out or sys.stderr, threading.Lock()
        self.quiet_until: dict[object, float] = {}

    def report(self, text: str, kind: object = None, every: float = 0) -> bool:
        """Whether it wrote the line. It always writes a line without a kind."""
        with self.lock:
            now = self.clock()
            if kind is not None:
                if now < self.quiet_until.get(kind, now):
                    return False
                self.quiet_until[kind] = now + every
            command.report(text, out=self.out)
            return True
