"""What a desk's state is made of: its agents, groups, stations and calls. Unproved."""
from __future__ import annotations

from collections.abc import Callable, Iterable
from dataclasses import dataclass, field
from typing import Any, NamedTuple, TypeVar

# an event report, or a part of a snapshot
Text = dict[str, Any]
Made = TypeVar("Made")


@dataclass
class Agent:
    """`log_on` identifies a log-on: the number of its event, or of the last event before the gate first saw it. Of the
    ready agents of a group the one of the least `rank` is next."""
    id: str
    name: str = ""
    state: str = "null"
    since: int = 0
    rank: int = 0
    station: str | None = None
    groups: list[str] = field(default_factory=list)
    pending: str | None = None
    log_on: int | None = None

    def told(self) -> tuple[object, ...]:
        """What is told of it."""
        return self.name, self.state, self.since, self.station, self.groups, self.pending, self.log_on


@dataclass
class Group:
    id: str
    name: str = ""
    ring: int = 0
    wrap: int = 0
    priority: int = 0
    waiting: set[Call] = field(default_factory=set)
    ringing: set[Call] = field(default_factory=set)
    agents: set[str] = field(default_factory=set)

    def told(self) -> tuple[str, int, int, int]:
        """What snapshots alone tell."""
        return self.name, self.ring, self.wrap, self.priority


@dataclass
class Station:
    """`gave` are the calls that were sent from here last."""
    id: str
    agent: str | None = None
    calls: set[int] = field(default_factory=set)
    gave: set[int] = field(default_factory=set)


@dataclass
class Connection:
    """`group` is that of a queue, or of the offer of one; `sent` that of a caller who was sent to this station from
    there, or was passed on: the group that the caller entered last."""
    device: str
    state: str
    group: str | None
    since: int
    sent: str | None = None

    @property
    def whose(self) -> str | None:
        """The group that the caller came from, by an offer or without one."""
        return self.sent if self.group is None else self.group


class Doing(NamedTuple):
    """What an agent does, since when, and for which group."""
    doing: str
    since: int
    group: str | None = None


@dataclass(eq=False)
class Call:
    """`queued` is since when the caller waits, or waited before somebody answered; `ended` the number of the report
    that began to clear it; `left` the group or station that the call was sent from last."""
    number: int
    since: int
    caller: str | None = None
    called: str | None = None
    rank: int = 0
    queued: int | None = None
    ended: int = 0
    left: str | None = None
    connections: dict[str, Connection] = field(default_factory=dict)

    def told(self) -> tuple[object, ...]:
        """What is told of it."""
        return self.since, self.caller, self.called, self.queued, self.connections


def in_order(numbers: Iterable[str]) -> list[str]:
    """Devices or agents by the number that the digit 1 and their digits make."""
    return sorted(numbers, key=lambda number: (len(number), number))


def made(kind: Callable[[str], Made], table: dict[str, Made], number: str) -> Made:
    found = table.get(number)
    if found is None:
        found = table[number] = kind(number)
    return found
