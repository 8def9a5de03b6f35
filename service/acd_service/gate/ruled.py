"""What an office's rules do with callers, for boards: which groups are closed by their hours, whose callers were moved
lately and where to, and whose calls were ended. Unproved.

No event says who asked for it, so the gate reads that in the executed requests, wherever an event shows a call that
somebody moved or ended at its group."""
import time
from collections.abc import Awaitable, Callable
from pathlib import Path
from typing import Any

from acd_service import settings
from acd_service.command import Fault, report
from acd_service.gate.lines import as_text
from acd_service.gate.parts import Text
from acd_service.rules.reading import REQUESTER, Rules, read

FILE = settings.FILE.parent / "rules.toml"
# for so many seconds after a move a group's callers overflow
OVERFLOWS = 300
Requests = Callable[[int], Awaitable[Text]]


def is_of_group(event: Text) -> bool:
    """Whether somebody may have moved or ended a call at its group: a rule, say."""
    return event["event"] == "diverted" and event.get("cause") == "deflected" and event.get("group") == event["device"]


class Hours:
    """The rules of a file, read again when it changes. One that isn't there, or has faults, closes no group."""

    def __init__(self, file: Path | str) -> None:
        self.file, self.rules = Path(file), dict[str, Any]()
        self.stamp: tuple[int, int, int] | None = None

    def now(self) -> Rules:
        try:
            found = self.file.stat()
        except OSError:
            self.rules, self.stamp = {}, None
            return self.rules
        stamp = found.st_mtime_ns, found.st_size, found.st_ino
        if stamp != self.stamp:
            self.rules, self.stamp = {}, stamp
            try:
                has = read(self.file, REQUESTER)
                self.rules = {} if has.faults else dict(has.rules)
            except Fault as fault:
                report(str(fault))
        return self.rules


class Ruled:
    """`requests` asks the desk for a page of executed requests after a stamp; `is_rules` says whether a requester is
    one of the rules. `ended` are the calls that a rule ended, `moves` when and where each group's last caller went,
    `last` is the stamp of the last request that was read, None before the first, and `until` the moment up to which it
    is known who moved calls."""

    def __init__(self, requests: Requests, is_rules: Callable[[str], bool], file: Path | str,
                 clock: Callable[[], float] = time.time) -> None:
        self.requests, self.is_rules, self.hours, self.clock = requests, is_rules, Hours(file), clock
        self.ended: set[int] = set()
        self.moves: dict[str, tuple[int, str]] = {}
        self.last: int | None = None
        self.begin = self.until = 0

    async def read(self, begin: int) -> None:
        """Reads the requests of a moment and later that it hasn't read yet."""
        if self.last is None or begin < self.begin:
            self.begin, self.last = begin, await self.stamp_before(begin)
        while True:
            page = await self.requests(self.last)
            for one in page["requests"]:
                self.take(one)
            if not page["requests"] or self.last >= page["last"]:
                return

    async def stamp_before(self, moment: int) -> int:
        """A stamp after which all requests from this moment on are."""
        low, high = 0, int((await self.requests(2 ** 49))["last"])
        while high - low > 1:
            middle = (low + high) // 2
            first = next(iter((await self.requests(middle))["requests"]), None)
            low, high = (middle, high) if first is not None and first["moment"] < moment else (low, middle)
        return low

    def take(self, one: Text) -> None:
        self.last, asked = one["stamp"], one["request"]
        if one["status"] != 200 or not self.is_rules(asked["requester"]):
            return
        if asked["service"] == "clearConnection":
            self.ended.add(asked["call"])
        elif asked["service"] == "deflectCall":
            self.moves[asked["device"]] = one["moment"], asked["to"]

    def lines(self) -> dict[str, str]:
        """By groups whether they are closed, and where their callers go."""
        now, found = self.clock(), dict[str, Text]()
        for group, has in self.hours.now().items():
            if has.is_closed(now):
                found.setdefault(group, {})["closed"] = True
        for group, (moment, to) in self.moves.items():
            if now - moment < OVERFLOWS:
                found.setdefault(group, {})["to"] = to
        return {group: as_text(line) for group, line in found.items()}
