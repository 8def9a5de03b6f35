"""A desk's file, as the source for records of calls: its events, and facts that only the kept requests have. Tested,
not proved."""
import fcntl
import json
import shutil
import sqlite3
import tempfile
import time
from collections import Counter
from collections.abc import Iterator, Sequence
from pathlib import Path
from typing import Any, Protocol, overload

from acd_service.command import Fault
from acd_service.events import Event

KINDS = [
    "serviceInitiated", "originated", "queued", "delivered", "diverted", "established", "held", "retrieved",
    "transferred", "failed", "connectionCleared", "callCleared", "agentLoggedOn", "agentLoggedOff", "agentNotReady",
    "agentReady", "agentBusy", "agentWorkingAfterCall"
]
CAUSES: list[str | None] = [None, "newCall", "distributed", "deflected", "transferred", "noAnswer", "busy"]

# the first of the bytes that who has the file open keeps locked, and the most that a log without a page has
LOCKED, PAGELESS = 0x40000000, 56
# the bytes of a log's head, and how often a file that is written meanwhile is copied
HEAD, TRIES = 32, 10


class Rows(Protocol):
    """A connection to a file, or to a file and its archives as one."""

    def execute(self, statement: str, values: Sequence[Any] = ..., /) -> Iterator[Any]: ...

    def close(self) -> None: ...


@overload
def identifier(number: None) -> None: ...


@overload
def identifier(number: int) -> str: ...


def identifier(number: int | None) -> str | None:
    """A device or an agent as its digits; it is kept as the digit 1 and these."""
    return None if number is None else str(number)[1:]


class Book:
    """The content of a file, in the order in which it happened."""

    def __init__(self, rows: Rows) -> None:
        self.rows = rows

    def one(self, statement: str) -> Any:
        """The first row that a statement finds; None where it finds none."""
        return next(iter(self.rows.execute(statement)), None)

    def events(self) -> Iterator[Event]:
        for moment, kind, device, call, agent, group, to, cause, waited in self.rows.execute(
                "SELECT moment, kind, device, call, agent, grp, target, cause, waited FROM events ORDER BY number"):
            yield Event(moment, KINDS[kind - 1], identifier(device), call, identifier(agent), identifier(group),
                        identifier(to), CAUSES[cause or 0], waited)

    def granted(self, *texts: str) -> Iterator[tuple[int, dict[str, Any], dict[str, Any]]]:
        """Moment, request and result of the granted requests that have one of these texts."""
        has = " OR ".join("request LIKE ?" for _ in texts)
        statement = f"SELECT moment, request, body FROM kept WHERE status = 200 AND ({has}) ORDER BY stamp"
        for moment, request, body in self.rows.execute(statement, [f"%{text}%" for text in texts]):
            yield moment, json.loads(request), json.loads(body)["result"]

    def calls_that_came(self) -> Iterator[tuple[int, str, str, int, bool]]:
        """Number, caller, called and moment of each call, and whether the caller is a station. No event says who called
        whom."""
        for moment, request, result in self.granted('"service":"arriveCall"', '"service":"makeCall"'):
            is_made = request["service"] == "makeCall"
            yield result["call"], request["device" if is_made else "caller"], request["called"], moment, is_made

    def log_ons(self) -> Iterator[list[str]]:
        """The groups of each log-on. The event has none where there are several."""
        for _, request, _ in self.granted('"requested":"loggedOn"'):
            yield [request["group"]] if "group" in request else request["groups"]

    def returns_by_ticks(self) -> Counter[tuple[int, int, str]]:
        """How many of a call's returns from a device in a moment a tick made: as many as there are more of them than of
        kept rejectCalls."""
        returns: Counter[tuple[int, int, str]] = Counter()
        rows = self.rows.execute("SELECT moment, call, device FROM events WHERE kind = ? AND cause = ?",
                                 (KINDS.index("diverted") + 1, CAUSES.index("noAnswer")))
        for moment, call, device in rows:
            returns[moment, call, identifier(device)] += 1
        for moment, request, _ in self.granted('"service":"rejectCall"'):
            returns[moment, request["call"], request["device"]] -= 1
        return returns

    def names(self) -> dict[str, dict[str, str]]:
        """The names of groups and agents by their numbers."""
        tables = (("groups", "device", "acd_groups"), ("agents", "agent", "agents"))
        return {kind: {identifier(number): name
                       for number, name in self.rows.execute(f"SELECT {column}, name FROM {table}")}
                for kind, column, table in tables}

    def last_moment(self) -> int:
        moment: int = self.one("SELECT last_moment FROM meta")[0]
        return moment

    # requests in other files, if the file was pruned and not all of its archives are read

    def begins(self) -> int | None:
        """The moment of its first request, where it hasn't those before it; else nothing."""
        first: tuple[int, int] | None = self.one("SELECT stamp, moment FROM kept ORDER BY stamp LIMIT 1")
        stamp, moment = first or (self.one("SELECT last_stamp FROM meta")[0] + 1, self.last_moment())
        return moment if stamp > 1 else None

    def logged_on_before(self) -> dict[str, str]:
        """Who was logged on at which station before its first event: whose first event of these is a log-off, and who
        is logged on without one."""
        kinds = [KINDS.index(kind) + 1 for kind in ("agentLoggedOn", "agentLoggedOff")]
        firsts: dict[int, int | None] = {}
        rows = self.rows.execute("SELECT kind, device, agent FROM events WHERE kind IN (?, ?) ORDER BY number", kinds)
        for kind, station, agent in rows:
            firsts.setdefault(agent, station if kind == kinds[1] else None)
        logged_on = self.rows.execute("SELECT agent, station FROM agents WHERE station IS NOT NULL")
        stays = {agent: station for agent, station in logged_on if agent not in firsts}
        return {identifier(station): identifier(agent)
                for agent, station in {**stays, **firsts}.items() if station is not None}

    def waited_before(self) -> dict[str, int]:
        """How many waited in each group before its first event: those who wait now, minus those who came since, plus
        those who left."""
        now = self.rows.execute("SELECT device, count(*) FROM connections WHERE place IS NOT NULL AND offered IS NULL "
                                "GROUP BY device")
        waiting: Counter[int] = Counter(dict(now))
        groups = {device for device, in self.rows.execute("SELECT device FROM acd_groups")}
        queued, diverted, cleared = (KINDS.index(kind) + 1 for kind in ("queued", "diverted", "connectionCleared"))
        for kind, device, group in self.rows.execute("SELECT kind, device, grp FROM events WHERE kind IN (?, ?, ?)",
                                                     (queued, diverted, cleared)):
            if device in groups and (kind != diverted or device == group):
                waiting[device] += -1 if kind == queued else 1
        return {identifier(group): count for group, count in waiting.items()}

    def close(self) -> None:
        self.rows.close()


def connected(file: Path, folder: Path, is_live: bool = False) -> sqlite3.Connection:
    """The file's rows. It stays as it is: a log is played into the file, so one that has a log is read in a copy of
    both."""
    if not file.is_file():
        raise Fault(f"there is no file {file}")
    log = Path(f"{file}-wal")
    if is_open(file):
        if not is_live:
            raise Fault(f"{file} is open elsewhere: take a copy of it, by acdctl copy, or add --live")
        return sqlite3.connect(copied_live(file, log, Path(tempfile.mkdtemp(dir=folder))))
    if log.exists() and log.stat().st_size > PAGELESS:
        return sqlite3.connect(copied(file, log, Path(tempfile.mkdtemp(dir=folder))))
    return sqlite3.connect(f"{file.resolve().as_uri()}?immutable=1", uri=True)


def opened(file: Path, folder: Path, is_live: bool = False) -> Book:
    """The book in the file."""
    rows = connected(file, folder, is_live)
    version = rows.execute("SELECT version FROM meta").fetchone()[0]
    if version not in (1, 2):
        raise Fault(f"wrong version {version}")
    return Book(rows)


def is_open(file: Path) -> bool:
    with file.open("rb") as held:
        try:
            fcntl.lockf(held, fcntl.LOCK_SH | fcntl.LOCK_NB, 512, LOCKED)
        except OSError:
            return True
    return False


def copied(file: Path, log: Path, folder: Path) -> Path:
    for part, name in ((file, "book"), (log, "book-wal")):
        shutil.copyfile(part, folder / name)
    return folder / "book"


def copied_live(file: Path, log: Path, folder: Path) -> Path:
    """A copy of one moment, while a desk runs. The desk writes into the log, and from there into the file; the log
    begins anew, with another head, only once all of it is in the file. So a log that was copied after the file, with
    the same head as before, has all changes of the file meanwhile."""
    for _ in range(TRIES):
        before = head(log)
        book = copied(file, log, folder)
        if before and before == head(folder / "book-wal") == head(log):
            return book
        time.sleep(0.2)
    raise Fault(f"{file} changes faster than it can be copied: take a copy of it, by acdctl copy")


def head(log: Path) -> bytes:
    """The first bytes of a log, with the numbers that each beginning has anew; none where there is no whole head."""
    try:
        with log.open("rb") as file:
            found = file.read(HEAD)
    except FileNotFoundError:
        return b""
    return found if len(found) == HEAD and found[0] else b""
