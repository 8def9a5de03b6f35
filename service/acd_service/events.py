"""An event of a desk, as its file has it and as its event reports tell it. Tested, not proved."""
from collections.abc import Mapping
from typing import Any, NamedTuple


class Event(NamedTuple):
    """`kind` is the name of the event; an event of an agent has no call."""
    moment: int
    kind: str
    device: str | None = None
    call: int | None = None
    agent: str | None = None
    group: str | None = None
    to: str | None = None
    cause: str | None = None
    waited: int | None = None


MEMBERS = ("moment", "event", *Event._fields[2:])


def event_of(report: Mapping[str, Any]) -> Event:
    """The event of a report."""
    return Event._make(map(report.get, MEMBERS))
