"""The file: rows that record their changes, so that a step is kept or undone as a whole."""
import json
import sqlite3
import time
from collections.abc import Callable
from dataclasses import dataclass, field
from typing import Any, Generic, TypeVar

# the members of rows that are moments, or 0 for none
MOMENTS = ("due", "ends", "since")


@dataclass
class Row:
    """A record of the file. Code sets its members, and never changes them in place; `due` is when its alarm rings, if
    ever. The file has the class's name and its members by their names. Moments are of the monotonic clock, which begins
    anew with each boot; in the file they are of the wall clock."""
    key: str
    due: float = field(default=0.0, kw_only=True)

    def __setattr__(self, name: str, value: Any) -> None:
        self.__dict__[name] = value
        if "store" in self.__dict__:
            self.__dict__["store"].changed.add((type(self).__name__, self.key))

    def as_json(self) -> str:
        ahead = self.__dict__["store"].ahead
        return json.dumps({name: round(value + ahead, 3) if name in MOMENTS and value else value
                           for name, value in self.__dict__.items() if name != "store"})


R = TypeVar("R", bound=Row)


class Store:
    def __init__(self, path: str, wait: float = 5.0, now: Callable[[], float] = time.monotonic,
                 wall: Callable[[], float] = time.time):
        self.now, self.wall, self.ahead = now, wall, wall() - now()
        self.tables: dict[str, Table[Any]] = {}
        self.changed: set[tuple[str, str]] = set()
        self.base = sqlite3.connect(path, timeout=wait)
        # a second program over this file is refused
        self.base.executescript("PRAGMA locking_mode=EXCLUSIVE; PRAGMA journal_mode=WAL; PRAGMA synchronous=NORMAL;"
                                "CREATE TABLE IF NOT EXISTS rows(kind, key, row, PRIMARY KEY(kind, key))")

    def clock_was_set(self) -> bool:
        """Whether the wall clock went by more than a second otherwise than the monotonic one."""
        return abs(self.wall() - self.now() - self.ahead) > 1

    def follow_clock(self) -> None:
        """Writes all moments anew, so that they are right at the next start."""
        self.ahead = self.wall() - self.now()
        self.changed |= {(name, key) for name, table in self.tables.items() for key, row in table.items()
                         if any(row.__dict__.get(each) for each in MOMENTS)}

    def undo(self) -> None:
        """Reads the changed rows from the file again. They count as changed, so that their alarms are set."""
        changed, self.changed = self.changed, set()
        for kind, key in changed:
            self.tables[kind].pop(key, None)
            self.tables[kind].read("kind = ? AND key = ?", kind, key)

    def commit(self) -> list[Any]:
        """Writes the changed rows into the file, and returns those that are there. If it fails, the program has to
        end."""
        rows = [self.tables[kind][key] for kind, key in self.changed if key in self.tables[kind]]
        with self.base:
            self.base.executemany("DELETE FROM rows WHERE kind = ? AND key = ?", self.changed)
            self.base.executemany("INSERT INTO rows VALUES(?, ?, ?)",
                                  [(type(row).__name__, row.key, row.as_json()) for row in rows])
        self.changed.clear()
        return rows


class Table(dict[str, R], Generic[R]):
    """The rows of one kind, by key; at first those of the file."""

    def __init__(self, store: Store, row: type[R]):
        super().__init__()
        self.store, self.row = store, row
        store.tables[row.__name__] = self
        self.read("kind = ?", row.__name__)

    def read(self, where: str, *values: str) -> None:
        for (text,) in self.store.base.execute(f"SELECT row FROM rows WHERE {where}", values).fetchall():
            members = json.loads(text)
            for name in MOMENTS:
                if members.get(name):
                    members[name] -= self.store.ahead
            self.add(self.row(**members))

    def add(self, row: R) -> R:
        row.__dict__["store"], self[row.key] = self.store, row
        self.store.changed.add((self.row.__name__, row.key))
        return row

    def remove(self, key: str) -> None:
        if self.pop(key, None) is not None:
            self.store.changed.add((self.row.__name__, key))
