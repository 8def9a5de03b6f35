"""Files of records, a day each: the days that are over, in FOLDER/records, FOLDER/agents and FOLDER/groups. Tested, not
proved.

Each says in its last column by which formulas it was counted. Those of other formulas are written anew where their
events are there; the others are in FOLDER/by-stay, so that nobody adds them up with these."""
import contextlib
import csv
import datetime
import os
from collections.abc import Callable, Iterable, Mapping, Sequence
from pathlib import Path
from types import TracebackType
from typing import NamedTuple, Protocol, Self, TextIO

from acd_service import put

KINDS = ("records", "agents", "groups")
# that ended so many days ago at most are written anew where they differ: a call that went on is over by now, say. Older
# ones stay as they are, also removed: callers' numbers are in them, and somebody may have to remove them in time
AGAIN = 7
# who was logged on as a day began, and for which groups, is known by the requests of the day before
BEFORE = datetime.timedelta(days=1)
# days in which nothing was have files too, with a head alone, as far back as this: a day without a file is missing
BACK = 366
# the last column of a file: by which formulas it was counted. Files without it are by the first ones, which count each
# stay in a queue as a wait
COLUMN, FORMULAS = "formulas", "2"
APART = "by-stay"


def formulas_of(file: Path) -> str:
    """By which formulas a file was counted."""
    with file.open(encoding="utf-8-sig", newline="", errors="replace") as stream:
        rows = csv.reader(stream)
        head: list[str] = next(rows, [])
        first: list[str] = next(rows, [])
    return "1" if head[-1:] != [COLUMN] else first[-1] if first else FORMULAS


def others_of(folder: Path, kind: str) -> set[str]:
    """The days whose files are by other formulas."""
    return {file.stem for file in (folder / kind).glob("*.csv") if formulas_of(file) != FORMULAS}


def newest_of(folder: Path, kind: str) -> str:
    """The newest day of which there is a file, as its text; empty where there is none."""
    return max((file.stem for file in (folder / kind).glob("*.csv")), default="")


def wanted_from(folder: Path) -> datetime.date | None:
    """The first day that hasn't its files yet, or has them by other formulas; None where that may be any."""
    try:
        newest = min(datetime.date.fromisoformat(newest_of(folder, kind)) for kind in KINDS)
        others = [datetime.date.fromisoformat(day) for kind in KINDS for day in others_of(folder, kind)]
    except ValueError:
        return None
    return min([newest + datetime.timedelta(days=1), *others])


class Writer(Protocol):
    """What csv.writer makes, or acts like it."""

    def writerow(self, row: Iterable[object], /) -> object: ...


class Begun(NamedTuple):
    """A day of which rows come, and where they go; nowhere if it needs no file."""
    day: datetime.date
    stream: TextIO | None
    writer: Writer | None


class Days:
    """The files below a folder. `first` is the first day that is there as a whole, and `today` the first that isn't
    over; `writer_of` makes a writer of rows of a stream. `others` are the days whose files are by other formulas, also
    those that are apart."""

    def __init__(self, folder: Path, first: datetime.date, today: datetime.date, heads: Mapping[str, Sequence[str]],
                 writer_of: Callable[[TextIO], Writer]) -> None:
        self.folder, self.first, self.today, self.heads, self.writer_of = folder, first, today, heads, writer_of
        self.open: dict[str, Begun] = {}
        self.newest: dict[str, str] = {}
        self.others: dict[str, set[str]] = {}
        self.written = self.set_apart = 0
        # the days of which rows came
        self.came: dict[str, set[datetime.date]] = {kind: set() for kind in KINDS}
        for kind in KINDS:
            (folder / kind).mkdir(mode=0o750, exist_ok=True)
            # the remains of a run that was killed
            for left in (folder / kind).glob(".*.new"):
                left.unlink()
            self.newest[kind] = newest_of(folder, kind)
            self.others[kind] = others_of(folder, kind) | {file.stem for file in self.apart(kind).glob("*.csv")}

    def lacks(self) -> bool:
        """Whether days before the first one would be the next, after those that are written."""
        newest = max(self.newest.values())
        return self.first > datetime.date.min and newest < str(self.first - datetime.timedelta(days=1))

    def place(self, kind: str, day: datetime.date) -> Path:
        return self.folder / kind / f"{day}.csv"

    def apart(self, kind: str) -> Path:
        """Where files of other formulas are."""
        return self.folder / APART / kind

    def wants(self, kind: str, day: datetime.date) -> bool:
        is_new = str(day) > self.newest[kind] or str(day) in self.others[kind]
        # what was written may have been of a file that knew more
        knows_less = kind == "agents" and day < self.first + BEFORE and self.place(kind, day).exists()
        is_again = (self.today - day).days <= AGAIN and not knows_less
        return self.first <= day < self.today and (is_new or is_again)

    def write(self, kind: str, day: datetime.date, row: Iterable[object]) -> None:
        """Rows come day by day; those of a day that needs no file are dropped."""
        if kind not in self.open or self.open[kind].day != day:
            self.end(kind)
            self.begin(kind, day)
        writer = self.open[kind].writer
        if writer:
            writer.writerow([*row, FORMULAS])

    def begin(self, kind: str, day: datetime.date) -> None:
        self.came[kind].add(day)
        stream = writer = None
        if self.wants(kind, day):
            stream = put.opened(self.place(kind, day), 0o640)
            writer = self.writer_of(stream)
            writer.writerow([*self.heads[kind], COLUMN])
        self.open[kind] = Begun(day, stream, writer)

    def end(self, kind: str) -> None:
        """The file is in its place at once, or as it was."""
        begun = self.open.pop(kind, None)
        if begun is None or begun.stream is None:
            return
        stream, place = begun.stream, self.place(kind, begun.day)
        with stream:
            stream.flush()
            if place.exists() and place.read_bytes() == Path(stream.name).read_bytes():
                return os.unlink(stream.name)
            if place.stem in self.others[kind]:
                self.replace_other(kind, place, Path(stream.name))
            put.settle(stream, place)
        self.written += 1

    def replace_other(self, kind: str, place: Path, new: Path) -> None:
        """A file of other formulas goes; the new one is as old, since somebody may remove files by their age."""
        apart = self.apart(kind) / place.name
        found = (place if place.exists() else apart).stat()
        os.utime(new, (found.st_atime, found.st_mtime))
        apart.unlink(missing_ok=True)
        self.others[kind].discard(place.stem)

    def write_empty(self) -> None:
        """The days since the first one in which nothing was."""
        first = min((day for days in self.came.values() for day in days), default=self.today)
        number = max(first.toordinal(), self.today.toordinal() - BACK)
        for day in map(datetime.date.fromordinal, range(number, self.today.toordinal())):
            for kind in KINDS:
                if day not in self.came[kind]:
                    self.begin(kind, day)
                    self.end(kind)

    def put_apart(self) -> None:
        """Files of other formulas that weren't written anew."""
        for kind in KINDS:
            for day in others_of(self.folder, kind):
                for folder in (self.folder / APART, self.apart(kind)):
                    folder.mkdir(mode=0o750, exist_ok=True)
                place = self.folder / kind / f"{day}.csv"
                place.rename(self.apart(kind) / place.name)
                self.set_apart += 1

    def __enter__(self) -> Self:
        return self

    def __exit__(self, kind: type[BaseException] | None, fault: BaseException | None,
                 trace: TracebackType | None) -> None:
        for each in list(self.open):
            if kind is None:
                self.end(each)
            else:
                self.drop(each)
        if kind is None:
            self.write_empty()
            self.put_apart()

    def drop(self, kind: str) -> None:
        stream = self.open.pop(kind).stream
        if stream:
            with contextlib.suppress(OSError):
                stream.close()
            Path(stream.name).unlink(missing_ok=True)
