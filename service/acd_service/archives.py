"""A desk's file with the archives that it continues, read as one: each request and each event once, in
order. Tested, not proved.

    rows = opened(file, archives, folder)
    rows.execute("SELECT moment, call FROM events WHERE kind = 3 ORDER BY number")

The archives are named from the oldest on. Rows that a file shares with the archive before it are read in the archive,
and have to be the same."""
import itertools
import re
import sqlite3
from collections.abc import Iterable, Iterator, Sequence
from dataclasses import dataclass
from pathlib import Path
from typing import Any

from acd_service.book import connected
from acd_service.command import Fault

VERSION = 2
HISTORY = {"kept": ("stamp", "last_stamp", "request"), "events": ("number", "last_event", "event")}


@dataclass
class Link:
    """One file of them, and of each of its tables with history the first row and the last one, by their numbers; none
    is left out."""
    file: Path
    rows: sqlite3.Connection
    first: dict[str, int]
    last: dict[str, int]

    def show(self, after: dict[str, int]) -> None:
        """From now on its tables show only the rows after these numbers."""
        for table, (key, _, _) in HISTORY.items():
            self.rows.execute(f"CREATE TEMP VIEW {table} AS SELECT * FROM main.{table} WHERE {key} > {after[table]}")


class Rows:
    """All links. A statement over kept or events gets the rows of one link after the other, in its order if that is the
    order of the rows; any other reads the file alone."""

    def __init__(self, links: list[Link]) -> None:
        self.links = links

    def execute(self, statement: str, values: Sequence[object] = ()) -> Iterator[Any]:
        if not re.search(rf"\bFROM ({'|'.join(HISTORY)})\b", statement):
            return self.links[-1].rows.execute(statement, values)
        return itertools.chain.from_iterable(link.rows.execute(statement, values) for link in self.links)

    def close(self) -> None:
        for link in self.links:
            link.rows.close()


def link_of(file: Path, folder: Path, is_live: bool) -> Link:
    rows = connected(file, folder, is_live)
    try:
        version, *lasts = rows.execute("SELECT version, last_stamp, last_event FROM meta").fetchone()
    except (sqlite3.Error, TypeError):
        raise Fault(f"{file} is no desk's file") from None
    # of a file that wasn't pruned version 1 is read too
    if version not in (1, VERSION):
        raise Fault(f"{file}: wrong version {version}")
    link = Link(file, rows, {}, dict(zip(HISTORY, lasts)))
    for table, (key, _, what) in HISTORY.items():
        least, most, count = rows.execute(f"SELECT min({key}), max({key}), count(*) FROM {table}").fetchone()
        link.first[table] = link.last[table] + 1 if least is None else least
        if count != link.last[table] + 1 - link.first[table] or count and most != link.last[table]:
            raise Fault(f"{file} hasn't all of its {what}s from {link.first[table]} to {link.last[table]}")
    return link


def fit(archive: Link, link: Link) -> None:
    """Refuses a link that doesn't continue this archive."""
    if archive.last["kept"] > link.last["kept"]:
        raise Fault(f"{archive.file} has requests up to {archive.last['kept']}, and {link.file} up to "
                    f"{link.last['kept']}: archives are named from the oldest on")
    for table, (key, _, what) in HISTORY.items():
        begin, end = link.first[table], archive.last[table]
        if begin > end + 1:
            raise Fault(f"{what}s {end + 1} to {begin - 1} are neither in {archive.file} nor in {link.file}")
        both = f"SELECT * FROM {table} WHERE {key} BETWEEN {begin} AND {end} ORDER BY {key}"
        pairs = itertools.zip_longest(archive.rows.execute(both), link.rows.execute(both))
        for number, (one, other) in enumerate(pairs, begin):
            if begin >= archive.first[table] and one != other:
                raise Fault(f"{archive.file} and {link.file} differ at {what} {number}")


def opened(file: Path | str, archives: Iterable[Path | str], folder: Path, is_live: bool = False) -> Rows:
    """All rows of a file, which a desk may have open, and of its archives. It copies a file that has a log into the
    folder."""
    links = [*(link_of(Path(archive), folder, False) for archive in archives), link_of(Path(file), folder, is_live)]
    for archive, link in itertools.pairwise(links):
        fit(archive, link)
    after = dict.fromkeys(HISTORY, 0)
    for link in links:
        link.show(after)
        after = link.last
    return Rows(links)
