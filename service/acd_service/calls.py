"""Prints what became of each call of a desk, each leg of a call, each agent's day or each group's quarter of an hour,
as CSV, out of a copy of the desk's file. Or writes files of the days that are over."""
import argparse
import csv
import datetime
import re
import sys
import tempfile
from collections.abc import Callable, Iterator, Mapping
from pathlib import Path
from typing import Any, NoReturn, TextIO

from acd_service import archives, chain, command, reasons, reports, sheets
from acd_service.book import Book, opened
from acd_service.command import Fault, report
from acd_service.figures import STEP, Figures, Reached
from acd_service.leaving.records import Call, Records
from acd_service.office import FILE, Office, counting, put_names
from acd_service.reasons import Given
from acd_service.record_days import AGAIN as ANEW, APART, BEFORE, KINDS, Days, Writer, wanted_from
from acd_service.rules.reading import REQUESTER

CALLS = ["number", "caller", "called", "entered", "groups", "rings", "agent", "station", "waited", "talked", "held",
         "wrapped_up", "ended", "rung", "answered_at", "ended_at"]
LEGS = ["call", "leg", "device", "agent", "group", "begun", "answered_at", "ended_at", "waited", "rang", "talked",
        "held", "wrapped_up", "ended", "to"]
AGENTS = ["day", "agent", "name", "logged_on", "ready", "talking", "wrap_up", "rings_not_answered", "rings_refused",
          "rings_hung_up", "rings", "calls", "own_calls", "not_ready", "first_on", "last_on", "groups"]
GROUPS = ["begin", "group", "entered", "answered", "abandoned", "moved", "limit", "in_time", "abandoned_late",
          "service_level", "waited", "longest", "most_waiting", "handled", "handling", "closed", "answered_by_stay",
          "abandoned_by_stay", "in_time_by_stay", "late_by_stay", "service_level_by_stay"]
# of calls and agents, where agents gave reasons and codes
CODES, REASONS = "codes", "reasons"
# the columns that --names adds for those that have numbers, and of what these are
NAMES = {"groups": ("group_names", "groups"), "group": ("group_name", "groups"), "agent": ("agent_names", "agents"),
         "rung": ("rung_names", "agents"), CODES: ("code_names", CODES), REASONS: ("reason_names", REASONS)}
# columns of numbers that aren't to be reckoned with, and of names
NUMBERED = {"caller", "called", "groups", "agent", "station", "rung", "device", "group", "to"}
NAMED = {"name", *(name for name, _ in NAMES.values())}
COPY = "%Y-%m-%dT%H%M%SZ"
AGAIN = ".again"
BESIDE = ("-wal", "-shm", "-journal", ".archive", AGAIN)
# the status if some of what the user asked for is in archives that aren't there
MISSING = 3
# an archive is read if its last request is of this many days before the first day that is wanted, or later: who was
# logged on then is known so
ENDS_BEFORE = datetime.timedelta(days=2)


Row = list[Any]
# of groups and agents, by their numbers
Names = dict[str, dict[str, str]]


# Rows

def when(moment: float | None) -> str:
    return "" if moment is None else datetime.datetime.fromtimestamp(moment).strftime("%Y-%m-%d %H:%M:%S")


def columns_with(given: Given | None) -> tuple[list[str], list[str]]:
    """Those of calls and of agents."""
    return (CALLS, AGENTS) if given is None else ([*CALLS, CODES], [*AGENTS, REASONS])


def call_row(call: Call) -> Row:
    rung = [leg for leg in call.legs if leg.rings]
    answered = [leg for leg in call.legs if leg.answered is not None]
    missed = [leg.agent for leg in rung if leg.answered is None and leg.ended_at is not None]
    return [call.number, call.caller, call.called, when(call.entered), " ".join(call.groups), len(rung),
            " ".join(leg.agent for leg in answered), " ".join(leg.device for leg in answered), call.waited, call.talked,
            call.held, sum(leg.wrapped_up for leg in call.legs), call.ended, " ".join(missed),
            when(min((leg.answered for leg in answered), default=None)), when(call.ended_at)]


def codes_of(call: Call, given: Given | None) -> Row:
    """What a call was about, by the agents who talked in it: a column, where anything was given."""
    talks = [(leg.answered, leg.agent) for leg in call.legs if leg.answered is not None]
    return [] if given is None else [" ".join(given.codes_of(call.number, talks))]


def reasons_of(given: Given, day: datetime.date, agent: str) -> str:
    """For how many seconds of a day an agent wasn't ready for which reason: `lunch:1800 training:600`, the longest
    first."""
    spent = sorted(given.spent.get((day, agent), {}).items(), key=lambda one: (-one[1], one[0]))
    return " ".join(f"{reason}:{seconds}" for reason, seconds in spent)


def leg_rows(call: Call) -> Iterator[Row]:
    for number, leg in enumerate(call.legs, 1):
        yield [call.number, number, leg.device, leg.agent, leg.group, when(leg.begun), when(leg.answered),
               when(leg.ended_at), leg.waited, leg.rang, leg.talked, leg.held, leg.wrapped_up, leg.ended, leg.to]


def agent_rows(records: Records, names: Names, given: Given | None = None) -> Iterator[tuple[datetime.date, Row]]:
    """Day and row, in the order of days and agents; with the reasons that agents gave."""
    for day, agent in sorted(records.days, key=lambda key: (key[0], int("1" + key[1]))):
        has = records.days[day, agent]
        groups = " ".join(sorted(has.groups, key=lambda group: int("1" + group)))
        more = [] if given is None else [reasons_of(given, day, agent)]
        yield day, [day, agent, names["agents"].get(agent, ""), *(has.counts[column] for column in AGENTS[3:14]),
                    when(has.first), when(has.last), groups, *more]


def group_rows(figures: Figures, waited: Mapping[str, int], begin: int, end: int,
               limit_of: Callable[[str], float]) -> Iterator[tuple[int, Row]]:
    """Begin and row of each quarter in which something was, in the order of time and number, where so many waited in
    each group before the first event."""
    found = [(number, group, has, most) for group in figures.groups.keys() | waited.keys()
             for number, has, most in figures.steps(group, waited.get(group, 0), begin // STEP, end // STEP)]
    for number, group, has, most in sorted(found, key=lambda one: (one[0], int("1" + one[1]))):
        limit, counts = limit_of(group), (has.entered, len(has.answers), len(has.losses), has.moved)
        if any(counts) or has.closed or most or has.handled:
            by_stay = len(has.stays_answered), len(has.stays_lost)
            yield number * STEP, [when(number * STEP), group, *counts, f"{limit:g}",
                                  *shown(has.reached(limit)), sum(has.answers),
                                  max(has.answers, default=""), most, has.handled, has.handling, has.closed,
                                  *by_stay, *shown(has.reached_by_stay(limit))]


def shown(found: Reached) -> Row:
    return [found.within, found.late, "" if found.level is None else found.level]


class Form:
    """How rows are written: with names beside numbers, and so that a spreadsheet changes none."""

    def __init__(self, names: Names, is_named: bool, is_guarded: bool) -> None:
        self.names, self.is_named, self.is_guarded = names, is_named, is_guarded

    def head(self, columns: list[str]) -> list[str]:
        return columns + ([NAMES[column][0] for column in self.to_name(columns)] if self.is_named else [])

    @staticmethod
    def to_name(columns: list[str]) -> list[str]:
        return [column for column in columns if column in NAMES and not (column == "agent" and "name" in columns)]

    def row(self, columns: list[str], row: Row) -> Row:
        if self.is_named:
            for column in self.to_name(columns):
                names = self.names.get(NAMES[column][1], {})
                words = str(row[columns.index(column)]).split()
                row.append("; ".join(named(names, word) for word in words))
        if self.is_guarded:
            row = [guarded(column, field) for column, field in zip(self.head(columns), row)]
        return row


def named(names: Mapping[str, str], word: str) -> str:
    """The name of a number or key; of a reason with its seconds."""
    key, colon, seconds = word.partition(":")
    return f"{names.get(key, key)}{colon and ' '}{seconds}"


def guarded(column: str, field: Any) -> Any:
    """With ' before it, where a spreadsheet would change it."""
    if column not in NUMBERED and column not in NAMED or field == "-":
        return field
    return sheets.guarded(field, column in NAMED)


# The copy

def newest(folder: Path) -> tuple[Path, int]:
    """The newest sound copy in a folder of copies, and when it was made."""
    found = []
    for place in folder.iterdir() if folder.is_dir() else ():
        try:
            found.append(
                (datetime.datetime.strptime(place.name, COPY).replace(tzinfo=datetime.timezone.utc).timestamp(), place))
        except ValueError:
            continue  # one that has another name isn't a good one
    if not found:
        raise Fault(f"there is no copy in {folder}")
    made, place = max(found)
    files = [file for file in place.iterdir() if file.is_file() and not file.name.endswith(BESIDE)]
    if len(files) != 1:
        raise Fault(f"there are {len(files)} files in {place}, and not one")
    for note in place.glob(f"*{AGAIN}"):
        report(note.read_text().strip())
    return files[0], int(made)


def archives_of(file: Path, since: datetime.date | None) -> list[Path]:
    """The archives that a file goes on from, by the notes beside them, from the oldest on: those that have requests of
    the days from one on. Where one isn't there it returns those after it."""
    found: list[Path] = []
    file = file.absolute()
    folders = [file.parent, chain.copies_of(file.parent.parent)]
    for note in chain.chain(file, folders):
        last_day = re.search(r"-([0-9]{4}-[0-9]{2}-[0-9]{2})-[0-9]+$", note.name)
        if since and last_day and datetime.date.fromisoformat(last_day[1]) < since - ENDS_BEFORE:
            break
        try:
            found.insert(0, chain.place(note, *folders))
        except chain.Broken:
            break
    return found


def follow(book: Book, records: Records | None, figures: Figures | None, write_call: Callable[[Call], object],
           made: int = 0) -> int:
    """Goes through all events; a call is handed on as soon as it and those before it are finished. Returns the moment
    up to which it has counted."""
    least = records.first if records else 1
    for event in book.events():
        if figures:
            figures.take(event)
        if records:
            records.take(event)
            for done in records.finished(least):
                write_call(done)
                least = done.number + 1
    end = max(book.last_moment(), made)
    if records:
        records.finish(end)
        for number in sorted(records.calls):
            write_call(records.calls[number])
    return end


def ended_by_rules(book: Book) -> frozenset[int]:
    """The calls that an office's rules ended, in their groups. No event says who did."""
    granted, groups = book.granted(f'"requester":"{REQUESTER}-'), book.names()["groups"]
    return frozenset(request["call"] for _, request, _ in granted
                     if request["service"] == "clearConnection" and request["device"] in groups)


def figures_of(book: Book, closed: frozenset[int]) -> Figures:
    """Of the events of a book, which are still to come."""
    return Figures(at=None if book.begins() is None else book.logged_on_before(), closed=closed)


def group_rows_of(book: Book, figures: Figures, end: int, limit_of: Callable[[str], float]) -> Iterator[
        tuple[int, Row]]:
    """The rows of a book's groups, up to a moment."""
    begins = book.begins()
    waited = {} if begins is None else book.waited_before()
    return group_rows(figures, waited, begins or 0, end, limit_of)


# Options

class Printed:
    """One table, of the days that are asked for."""

    def __init__(self, options: argparse.Namespace, office: Office, form: Form, names: Names,
                 given: Given | None) -> None:
        self.options, self.office, self.form, self.names, self.given = options, office, form, names, given
        self.writer = csv.writer(sys.stdout, lineterminator="\n")

    def is_asked_for(self, day: datetime.date) -> bool:
        since, until = self.options.since, self.options.until
        return bool((since is None or since <= day) and (until is None or day <= until))

    def put(self, columns: list[str], moment: datetime.date | float, row: Row) -> None:
        day = moment if isinstance(moment, datetime.date) else datetime.date.fromtimestamp(moment)
        if self.is_asked_for(day):
            self.writer.writerow(self.form.row(columns, row))

    def print(self, book: Book) -> None:
        calls, agents = columns_with(self.given)
        columns = {"legs": LEGS, "agents": agents, "groups": GROUPS}.get(self.options.table, calls)
        if self.options.excel:
            sys.stdout.write(sheets.MARK)
        self.writer.writerow(self.form.head(columns))
        closed = ended_by_rules(book)
        if self.options.table == "groups":
            figures = figures_of(book, closed)
            end = follow(book, None, figures, lambda call: None)
            for begin, row in group_rows_of(book, figures, end, self.office.limit_of):
                self.put(columns, begin, row)
            return
        records = Records(book, closed, self.given)
        follow(book, records, None,
               {"legs": self.put_legs, "agents": lambda call: None}.get(self.options.table, self.put_call))
        if self.options.table == "agents":
            for day, row in agent_rows(records, self.names, self.given):
                self.put(columns, day, row)

    def put_call(self, call: Call) -> None:
        columns, _ = columns_with(self.given)
        self.put(columns, call.entered, [*call_row(call), *codes_of(call, self.given)])

    def put_legs(self, call: Call) -> None:
        for row in leg_rows(call):
            self.put(LEGS, call.entered, row)


def is_whole(book: Book, since: datetime.date | None) -> bool:
    """Whether it has all requests of the days from this one on."""
    begins = book.begins()
    return begins is None or since is not None and since > datetime.date.fromtimestamp(begins)


def book_of(file: Path, options: argparse.Namespace, folder: Path, since: datetime.date | None) -> Book:
    """A file, with its archives if it hasn't all of the days from this one on, and of the one before, by which it is
    known who was logged on."""
    earlier = options.archive
    if not earlier:
        book = opened(file, folder, options.live)
        earlier = [] if is_whole(book, since and since - BEFORE) else archives_of(file, since)
        if not earlier:
            return book
        book.close()
    return Book(archives.opened(file, earlier, folder, options.live))


def write_days(folder: Path, book: Book, office: Office, form: Form, names: Names, made: int,
               given: Given | None) -> bool:
    """The files of the days that are over. Returns whether none is missing."""
    calls, agents = columns_with(given)
    heads = {kind: form.head(columns) for kind, columns in zip(KINDS, (calls, agents, GROUPS))}
    closed = ended_by_rules(book)
    records, figures = Records(book, closed, given), figures_of(book, closed)
    end, begins = made or book.last_moment(), book.begins()
    # an older archive has the beginning of the first request's day
    first = datetime.date.min if begins is None else datetime.date.fromtimestamp(begins) + datetime.timedelta(days=1)

    def marked(stream: TextIO) -> Writer:
        stream.write(sheets.MARK)
        return csv.writer(stream, lineterminator="\n")

    with Days(folder, first, datetime.date.fromtimestamp(end), heads, marked) as days:
        lacks = days.lacks()
        if lacks:
            report(f"days before {first} aren't there as a whole: name the archives, by --archive, "
                   "where they are wanted")

        def write(call: Call) -> None:
            days.write("records", datetime.date.fromtimestamp(call.entered),
                       form.row(calls, [*call_row(call), *codes_of(call, given)]))

        follow(book, records, figures, write, end)
        for day, row in agent_rows(records, names, given):
            days.write("agents", day, form.row(agents, row))
        for begin, row in group_rows_of(book, figures, end, office.limit_of):
            days.write("groups", datetime.date.fromtimestamp(begin), form.row(GROUPS, row))
    if days.set_apart:
        report(f"{days.set_apart} files by other formulas are in {folder / APART} now: their events aren't there")
    written = days.written + reports.write(folder, office, datetime.date.fromtimestamp(end))
    print(f"{written} files written")
    return not lacks


def given_to(options: argparse.Namespace, since: datetime.date | None) -> Given | None:
    """What agents gave, for the days from one on, and for those that are written anew; None where nobody ever gave
    anything."""
    folder = options.reasons or (options.copies / reasons.FOLDER if options.copies else None)
    if folder is None or not reasons.parts(folder):
        return None
    first = since or datetime.date.min
    least = datetime.date.min + BEFORE + datetime.timedelta(days=ANEW)
    return Given(reasons.given(folder, str(max(first, least) - BEFORE - datetime.timedelta(days=ANEW))))


def day(text: str) -> datetime.date:
    if not re.fullmatch(r"[0-9]{4}-[0-9]{2}-[0-9]{2}", text):
        raise argparse.ArgumentTypeError(f"'{text}' is no day like 2026-11-26")
    return datetime.date.fromisoformat(text)


def add_files(parser: argparse.ArgumentParser) -> None:
    """The options that say of what the records are."""
    of = parser.add_mutually_exclusive_group(required=True)
    of.add_argument("--file", type=Path, metavar="FILE",
                    help="a copy of the desk's file, with its log beside it where it has one")
    of.add_argument("--copies", type=Path, metavar="FOLDER", help="a folder of copies: the newest good one there")
    parser.add_argument("--archive", action="append", default=[], type=Path, metavar="A",
                        help="an archive that the file continues, in place of those that its note names; "
                             "as often as there are some, from the oldest on")
    parser.add_argument("--reasons", type=Path, metavar="FOLDER",
                        help="reasons of not ready and codes of calls; those among the copies unless given")


def parser() -> command.Parser:
    found = command.Parser("Prints CSV lines of the calls of a desk, out of a copy of its file.", printed_usage=True)
    add_files(found)
    found.add_argument("--live", action="store_true", help="of a file that a desk has open: what it has at this moment")
    table = found.add_mutually_exclusive_group()
    for name, about in (("legs", "each leg of a call: its wait in a group, its ring and talk at a station"),
                        ("agents", "each day and agent"), ("groups", "each quarter of an hour and group")):
        table.add_argument(f"--{name}", dest="table", action="store_const", const=name, help=f"a line for {about}")
    table.add_argument("--days", type=Path, metavar="FOLDER",
                       help="writes records/DAY.csv, agents/DAY.csv and groups/DAY.csv there for the days that are "
                            "over")
    found.add_argument("--since", type=day, metavar="DAY", help="from this day on, 2026-11-26 say")
    found.add_argument("--until", type=day, metavar="DAY", help="up to this day, and with it")
    found.add_argument("--names", action="store_true", help="names beside numbers")
    found.add_argument("--excel", action="store_true", help="' before what a spreadsheet would change")
    found.add_argument("--office", type=Path, metavar="FILE",
                       help=f"names, limits and zone; {FILE} as it comes, where that is there")
    return found


def asked(words: list[str]) -> argparse.Namespace:
    found = parser()
    options = found.parse_args(words)
    if options.days and (options.since or options.until or options.live):
        found.error("--days writes all days that are over, out of a copy")
    if options.live and options.copies:
        found.error("--live is of the desk's file")
    return options


def do(options: argparse.Namespace, folder: Path) -> bool:
    """Whether all is there that was asked for."""
    office = counting(options.office, report)
    file, made = newest(options.copies) if options.copies else (options.file, 0)
    since = wanted_from(options.days) if options.days else options.since
    book = book_of(file, options, folder, since)
    names = book.names()
    if options.names or options.days:
        put_names(names, file, office)
        names |= {CODES: office.codes, REASONS: office.reasons}
    given = given_to(options, since)
    if options.days:
        has_all = write_days(options.days, book, office, Form(names, True, True), names, made, given)
    else:
        Printed(options, office, Form(names, options.names, options.excel), names, given).print(book)
        sys.stdout.flush()
        has_all = is_whole(book, since)
        if not has_all:
            report(f"what was before {when(book.begins())} isn't there: name the archives that have it, by --archive")
    book.close()
    return has_all


def run(options: argparse.Namespace) -> int:
    """Its status."""
    command.print_utf_8()
    with command.while_somebody_reads(), tempfile.TemporaryDirectory() as folder:
        return 0 if do(options, Path(folder)) else MISSING


def main(words: list[str]) -> NoReturn:
    command.run(asked, run, words)
