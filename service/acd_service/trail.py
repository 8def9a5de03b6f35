"""Prints who asked a desk for what, when, and with which result: a line for each request that it has executed, from its
file and archives, or from a running desk; and between them, in their order, what was given and taken by the office's
page.

A requester is what the sender wrote. The gate lets a login use its requesters only. It is tested, not proved."""
import argparse
import csv
import datetime
import json
import re
import sys
import tempfile
import time
from collections.abc import Callable, Iterator, Sequence
from pathlib import Path
from typing import Any, NamedTuple, NoReturn

from acd_client import Client

from acd_service import command, reach, sheets, trail_acts
from acd_service.archives import opened
from acd_service.book import Book
from acd_service.command import Fault, report
from acd_service.office import FILE, counting, put_names
from acd_service.trail_acts import Act

# the status if other files have some of the requests that the user asked for
MISSING = 3
# members of requests, in the order in which they are printed, and those of them that have a group's, a station's or a
# caller's number
MEMBERS = ["agent", "requested", "call", "caller", "called", "device", "to", "groups", "name", "ring", "wrap",
           "priority", "monitor"]
DEVICES = ("caller", "called", "device", "to", "groups")
# the members of a result: numbers, printed in the columns of these members, and states
GIVEN, STATES = ("call", "monitor"), ("state", "pending")
# those that a table has besides where it has acts
ACTS = ["act", "of", "role", "stations"]
COLUMNS = ["stamp", "when", "requester", "invoke", "service", *MEMBERS, "outcome"]
# the columns that --names adds, and of what their names are
NAMED = {"agent": ("agent_name", "agents"), "called": ("called_name", "groups"), "device": ("device_name", "groups"),
         "to": ("to_name", "groups"), "groups": ("group_names", "groups")}
# columns of numbers that aren't to be reckoned with, and of what a spreadsheet may take for a date
NUMBERED = {"agent", "stations", *DEVICES}
LIKE_NAMES = {"requester", "name", "of", *(column for column, _ in NAMED.values())}
KEPT = "stamp, moment, request, status, body"
# what each request has
KEY = (("requester", str), ("invoke", int), ("service", str))
# before and after all moments
NEVER, EVER = -1, 1 << 40
# of groups and agents, by their numbers
Names = dict[str, dict[str, str]]


class Record(NamedTuple):
    """An executed request: when it was, what it was, and how it was answered."""
    stamp: int
    moment: int
    request: dict[str, Any]
    status: int
    reply: dict[str, Any]

    def members(self) -> dict[str, Any]:
        """The request's members; one group is printed in the form of several."""
        found = self.request | ({"groups": [self.request["group"]]} if "group" in self.request else {})
        return {name: found[name] for name in MEMBERS if name in found}

    def requester(self) -> str:
        """The requester; that of the ticks without its random part: nobody is to foresee their keys."""
        return re.sub("^clock-.*", "clock-..", self.request["requester"])

    def given(self) -> dict[str, Any]:
        """The numbers that the result gave."""
        return {name: value for name, value in self.reply.get("result", {}).items() if name in GIVEN}

    def outcome(self) -> str:
        if self.status != 200:
            return f"refused, {self.reply['error']['name']}"
        return ", ".join(f"{name} {self.reply['result'][name]}" for name in (*GIVEN, *STATES)
                         if name in self.reply["result"]) or "done"


def record_of(stamp: int, moment: int, request: Any, status: int, reply: Any) -> Record:
    """From the texts of request and reply, or what was read of them."""
    try:
        request, reply = (json.loads(text) if isinstance(text, str) else text for text in (request, reply))
        outcome = reply["result"] if status == 200 else reply["error"]
        is_whole = all(type(request[name]) is kind
                       for name, kind in KEY) and isinstance(outcome, dict) and (status == 200 or "name" in outcome)
    except (ValueError, LookupError, TypeError, AttributeError):
        is_whole = False
    if not is_whole:
        raise Fault(f"request {stamp} isn't as a desk keeps it; acd audit says more")
    return Record(stamp, moment, request, status, reply)


# Their sources

class FileRequests:
    """The requests of a file and of its archives."""

    def __init__(self, file: str, archives: Sequence[str], folder: Path, is_live: bool = False) -> None:
        self.rows = opened(file, archives, folder, is_live)
        first: tuple[int, int] | None = next(self.rows.execute("SELECT stamp, moment FROM kept ORDER BY stamp LIMIT 1"),
                                             None)
        self.last: int = next(self.rows.execute("SELECT last_stamp FROM meta"))[0]
        self.first, self.begins = first or (self.last + 1, EVER)

    def names(self) -> Names:
        return Book(self.rows).names()

    def record(self, stamp: int) -> Record:
        return next(record_of(*row) for row in self.rows.execute(f"SELECT {KEPT} FROM kept WHERE stamp = ?", (stamp,)))

    def records(self, since: int, until: int) -> Iterator[Record]:
        for row in self.rows.execute(f"SELECT {KEPT} FROM kept WHERE moment BETWEEN ? AND ? ORDER BY stamp",
                                     (since, until)):
            yield record_of(*row)


class DeskRequests:
    """The requests of a running desk after a stamp."""

    def __init__(self, desk: Client, after: int) -> None:
        self.desk, self.after, self.took = desk, after, 0.0
        page, self.last = self.page(after)
        self.first, self.begins = (page[0].stamp, page[0].moment) if page else (self.last + 1, EVER)

    def page(self, after: int) -> tuple[list[Record], int]:
        """A page, and the stamp of the last request of all. The desk has as long for others as the page before took
        it."""
        time.sleep(self.took)
        begin = time.monotonic()
        answer = reach.read(self.desk, f"/requests?after={after}")
        self.took = time.monotonic() - begin
        try:
            found, last = [record_of(*(one[name] for name in ("stamp", "moment", "request", "status", "reply")))
                           for one in answer["requests"]], answer["last"]
            if any(type(number) is not int for number in (last, *(number for one in found for number in one[:2]))):
                raise TypeError
            return found, last
        except (LookupError, TypeError):
            raise Fault("what the desk answered is no page of requests") from None

    def names(self) -> Names:
        """The desk's names, where this login reads its snapshot; none else."""
        answer = reach.insisted(self.desk, lambda: self.desk.attempt("GET", "/snapshot"), reach.SOON)
        snapshot = answer.body if answer.status == 200 else {"groups": [], "agents": []}
        return {kind: {one[member]: one["name"] for one in snapshot[kind]}
                for kind, member in (("groups", "device"), ("agents", "agent"))}

    def begin(self, since: int) -> int:
        """A stamp after which all requests from this moment on are, and not many earlier ones, so that it doesn't ask
        for each page from the first on."""
        low, high = max(self.first - 1, self.after), self.last
        while since > NEVER and high - low > 1000:
            middle = (low + high) // 2
            page, _ = self.page(middle)
            if page and page[0].moment < since:
                low = page[0].stamp
            else:
                high = middle
        return low

    def records(self, since: int, until: int) -> Iterator[Record]:
        after, last = self.begin(since), self.last
        while after < last:
            page, last = self.page(after)
            for one in page:
                if one.moment > until:
                    return
                if one.moment >= since:
                    yield one
            if not page:
                return
            after = page[-1].stamp


# Options

class When(NamedTuple):
    """A day, a minute or a second: of the day that is named, or of today."""
    day: datetime.date | None
    clock: datetime.time
    lasts: datetime.timedelta

    def begins(self) -> datetime.datetime:
        return datetime.datetime.combine(self.day or datetime.date.today(), self.clock)

    def first(self) -> int:
        return int(self.begins().timestamp())

    def last(self) -> int:
        """In an hour that comes twice, the second time."""
        return int((self.begins() + self.lasts - datetime.timedelta(seconds=1)).replace(fold=1).timestamp())


def when(text: str) -> When:
    found = re.fullmatch(r"([0-9]{4}-[0-9]{2}-[0-9]{2})?(?:(?:^|[T ])([0-9]{2}:[0-9]{2})(:[0-9]{2})?)?", text)
    try:
        if found is None:
            raise ValueError
        day, clock, seconds = found.groups()
        lasts = datetime.timedelta(days=1) if not clock else datetime.timedelta(seconds=1 if seconds else 60)
        return When(datetime.date.fromisoformat(day) if day else None,
                    datetime.time.fromisoformat((clock or ("00:00" if day else "")) + (seconds or "")), lasts)
    except ValueError:
        raise argparse.ArgumentTypeError(f"'{text}' is neither a day like 2026-11-28 nor a time like 14:32, "
                                         "14:32:07 or 2026-11-28T14:32") from None


def is_of(requester: str, one: str) -> bool:
    """Whether a requester is this one, or one of the login's."""
    return requester == one or requester.startswith(f"{one}-")


def fits(record: Record, options: argparse.Namespace) -> bool:
    """Whether it is one of those that are asked for: of each option one of its values."""
    has = record.given() | record.members()
    devices = {device for name in DEVICES for device in field(has.get(name, "")).split()}
    return all((not options.requester or any(is_of(record.request["requester"], one) for one in options.requester),
                not options.service or record.request["service"] in options.service,
                not options.invoke or record.request["invoke"] in options.invoke,
                not options.stamp or record.stamp in options.stamp,
                not options.call or has.get("call") in options.call,
                not options.agent or has.get("agent") in options.agent,
                not options.device or not devices.isdisjoint(options.device)))


def fits_act(act: Act, options: argparse.Namespace) -> bool:
    """The same of an act, which has no key, no stamp and no call."""
    has = act.given
    devices = {*map(str, has.get("groups", ())), *map(str, has.get("stations", ())), str(has.get("device"))}
    return all((not options.requester or any(is_of(name, one) for name in (act.login, str(has.get("of")))
                                             for one in options.requester),
                not options.service or act.act in options.service,
                not (options.invoke or options.stamp or options.call),
                not options.agent or has.get("agent") in options.agent,
                not options.device or not devices.isdisjoint(options.device)))


def number(text: str) -> int:
    if not re.fullmatch("[1-9][0-9]{0,9}", text):
        raise argparse.ArgumentTypeError(f"'{text}' is no number from 1 on")
    return int(text)


def digits(text: str) -> str:
    if not re.fullmatch("[0-9]{1,15}", text):
        raise argparse.ArgumentTypeError(f"'{text}' isn't 1 to 15 digits")
    return text


def parser() -> command.Parser:
    found = command.Parser("Prints who asked a desk for what, when, and with which result.", printed_usage=True)
    found.add_argument("address", nargs="?", type=reach.address, metavar="URL",
                       help="the desk's address, as http://127.0.0.1:8080 or https://desk.example:8443")
    found.add_argument("--file", metavar="FILE",
                       help="a copy of the desk's file, with its log beside it where it has one")
    found.add_argument("--live", action="store_true", help="of a file that a desk has open: what it has at this moment")
    found.add_argument("--archive", action="append", default=[], metavar="A",
                       help="an archive that the file continues; as often as there are some, "
                            "from the oldest on")
    reach.add_login_options(found)
    found.add_argument("--since", type=when, metavar="WHEN",
                       help="from then on: 2026-11-28, 14:32 of today, or 2026-11-28T14:32")
    found.add_argument("--until", type=when, metavar="WHEN", help="up to then, and with that day, minute or second")
    found.add_argument("--at", type=when, metavar="WHEN", help="of that day, minute or second")
    filters: list[tuple[str, Callable[[str], object], str]] = [
        ("requester", str, "by this requester, or one that begins with it and a hyphen"),
        ("service", str, "for this service"), ("agent", digits, "of this agent"),
        ("device", digits, "of this group, station or caller's number"), ("call", number, "of this call"),
        ("invoke", number, "with this number of the key"), ("stamp", number, "with this stamp")]
    for name, kind, about in filters:
        found.add_argument(f"--{name}", action="append", type=kind, metavar=name[0].upper(),
                           help=f"{about}; as often as there are some")
    found.add_argument("--own", type=Path, metavar="GATE",
                       help="the folder with the journal of what the office's page gave and took; a copy's own, or the "
                            "gate's, unless given")
    found.add_argument("--names", action="store_true", help="names beside numbers")
    found.add_argument("--csv", action="store_true", help="CSV in place of lines to read")
    found.add_argument("--excel", action="store_true", help="CSV with ' before what a spreadsheet would change")
    found.add_argument("--office", type=Path, metavar="FILE",
                       help=f"names and zone; {FILE} as it comes, where that is there")
    return found


def asked(words: list[str]) -> argparse.Namespace:
    found = parser()
    options = found.parse_args(words)
    if bool(options.file) == bool(options.address):
        found.error("one of URL and --file is needed")
    if options.at and (options.since or options.until):
        found.error("--at is in place of --since and --until")
    if options.live and not options.file:
        found.error("--live is of a file")
    if options.file and (options.login or options.ca):
        found.error("--login and --ca are for a desk that serves")
    reach.check(found, options)
    return options


# Their output

def moment_text(moment: int) -> str:
    """The requests of `acd import`, and of a desk without a clock, have the moment 0, which says nothing."""
    if moment == 0:
        return "-"
    return datetime.datetime.fromtimestamp(moment).strftime("%Y-%m-%d %H:%M:%S")


def field(value: object) -> str:
    return " ".join(map(str, value)) if isinstance(value, list) else str(value)


def names_of(names: Names, member: str, numbers: str) -> str:
    """The names, parted by semicolons, of those that have one; of what isn't named there are none."""
    known = names.get(NAMED[member][1], {}) if member in NAMED else {}
    return "; ".join(known[one] for one in numbers.split() if one in known)


class Lines:
    """Lines to read: when, who, what was asked for, and what came of it."""

    def __init__(self, names: Names) -> None:
        self.names = names

    def begin(self) -> None:
        pass

    def put(self, record: Record) -> None:
        request = record.request
        words = ", ".join(self.words(name, value) for name, value in record.members().items())
        asked_for = f"{request['service']} {words}" if words else request["service"]
        print(f"{moment_text(record.moment)}  {record.requester()}  {asked_for}: {record.outcome()}  (#{record.stamp}, "
              f"invoke {request['invoke']})")

    def put_act(self, act: Act) -> None:
        words = act.words()
        what = f"{act.act} {words}" if words else act.act
        print(f"{moment_text(act.moment)}  {act.login}  {what}: done  (act {act.number})")

    def words(self, name: str, value: object) -> str:
        """A member, and the names of those whose numbers it has."""
        shown = json.dumps(value) if name == "name" else field(value)
        known = names_of(self.names, name, shown)
        return f"{name} {shown} ({known})" if known else f"{name} {shown}"


class Sheet:
    """CSV, a column for each member."""

    def __init__(self, names: Names, is_guarded: bool, has_acts: bool = False) -> None:
        self.names, self.is_guarded, self.writer = names, is_guarded, csv.writer(sys.stdout, lineterminator="\n")
        self.columns = COLUMNS + [column for column, _ in NAMED.values() if names] + (ACTS if has_acts else [])

    def begin(self) -> None:
        if self.is_guarded:
            sys.stdout.write(sheets.MARK)
        self.writer.writerow(self.columns)

    def put(self, record: Record) -> None:
        has: dict[str, Any] = {name: field(value) for name, value in (record.given() | record.members()).items()}
        has |= {column: names_of(self.names, name, has.get(name, "")) for name, (column, _) in NAMED.items()}
        has |= {"stamp": record.stamp, "when": moment_text(record.moment), "requester": record.requester(),
                "invoke": record.request["invoke"], "service": record.request["service"], "outcome": record.outcome()}
        self.writer.writerow([self.guarded(column, has.get(column, "")) for column in self.columns])

    def put_act(self, act: Act) -> None:
        has = {name: field(value) for name, value in act.members().items()}
        has |= {"when": moment_text(act.moment), "requester": act.login, "service": act.act, "outcome": "done",
                "act": str(act.number)}
        self.writer.writerow([self.guarded(column, has.get(column, "")) for column in self.columns])

    def guarded(self, column: str, text: Any) -> Any:
        return sheets.guarded(text,
                              column in LIKE_NAMES) if self.is_guarded and column in LIKE_NAMES | NUMBERED else text


def sources(options: argparse.Namespace, folder: Path) -> list[FileRequests | DeskRequests]:
    """The sources of the requests, in their order: those of a running desk come after its archives, which are one
    source."""
    if options.file:
        return [FileRequests(options.file, options.archive, folder, options.live)]
    desk = reach.desk_at(options)
    if not options.archive:
        return [DeskRequests(desk, 0)]
    archive = FileRequests(options.archive[-1], options.archive[:-1], folder)
    end = DeskRequests(desk, max(archive.last - 1, 0))
    both = next(end.records(NEVER, EVER), None) if end.first == archive.last else None
    if end.last < archive.last or both and both != archive.record(archive.last):
        raise Fault(f"{options.archive[-1]} is no archive of this desk: they differ at request {archive.last}")
    return [archive, DeskRequests(desk, archive.last)]


def are_missing(found: Sequence[FileRequests | DeskRequests], since: int, options: argparse.Namespace) -> bool:
    """Reports requests that the user may have asked for and that other files have. Returns whether there are any:
    requests before the first one here aren't later than that."""
    last, missing = 0, False
    for source in found:
        if source.first > last + 1 and since <= source.begins and (
                not options.stamp or any(last < stamp < source.first for stamp in options.stamp)):
            report(f"requests {last + 1} to {source.first - 1} aren't there: name the archives that have them, "
                   "by --archive")
            missing = True
        last = source.last
    return missing


def in_order(requests: Iterator[Record], acts: Sequence[Act]) -> Iterator[Record | Act]:
    """By their moments; the requests keep their own order, and those of a moment come before its acts."""
    left = list(reversed(acts))
    for request in requests:
        while left and left[-1].moment < request.moment:
            yield left.pop()
        yield request
    yield from reversed(left)


def do(options: argparse.Namespace, folder: Path) -> bool:
    """Whether all is there that was asked for."""
    office = counting(options.office, report)
    since, until = options.at or options.since, options.at or options.until
    since, until = since.first() if since else NEVER, until.last() if until else EVER
    found = sources(options, folder)
    names: Names = found[-1].names() if options.names else {}
    put_names(names, options.file, office)
    desk = next((one.desk for one in found if isinstance(one, DeskRequests)), None)
    acts = [act for act in trail_acts.found(options.file, options.address, desk, options.own)
            if since <= act.moment <= until and fits_act(act, options)]
    put: Sheet | Lines = Sheet(names, options.excel, bool(acts)) if options.csv or options.excel else Lines(names)
    put.begin()
    requests = (one for source in found for one in source.records(since, until) if fits(one, options))
    for one in in_order(requests, acts):
        if isinstance(one, Act):
            put.put_act(one)
        else:
            put.put(one)
    sys.stdout.flush()
    return not are_missing(found, since, options)


def run(options: argparse.Namespace) -> int:
    """Its status."""
    command.print_utf_8()
    with command.while_somebody_reads(), tempfile.TemporaryDirectory() as folder:
        return 0 if do(options, Path(folder)) else MISSING


def main(words: list[str]) -> NoReturn:
    command.run(asked, run, words)
