"""Since when callers wait, out of events: the one definition of a wait, for boards, agents' pages and files of
records. Tested, not proved.

A wait begins as a caller enters a queue, and goes on wherever the caller is sent, to another group or to an agent by
name, until an agent answers or the caller goes. Who is passed on after a talk waits anew, for the group of the call
that went before. Where nobody is logged on nobody answers: who is sent there has left the queue, and waits on if the
call comes back."""
from __future__ import annotations

from collections.abc import Mapping
from dataclasses import dataclass
from enum import Enum
from typing import NamedTuple

from acd_service.events import Event

# the wait of a call that entered before the first event that was counted: longer than any limit
EVER = (1 << 32) - 1


class End(Enum):
    """How a wait ends: an agent answers; the caller goes; or the call ends, or is answered, outside of all groups."""
    ANSWERED, LOST, LEFT = range(3)


class Ended(NamedTuple):
    """A wait that ended in a group, which the caller entered last: how, after how many seconds, and how many of them
    were of the last stay in the queue; None where it didn't end in a queue, or ringing for it."""
    group: str
    how: End
    seconds: int
    of_stay: int | None = None


@dataclass(eq=False)
class Wait:
    """`since` when the caller waits, and entered the queue last (`stay`), None where that was before the first event;
    `until` when, if the caller was sent to where nobody is logged on. It is `over` while somebody talks to the
    caller."""
    group: str
    since: int | None
    stay: int | None
    until: int | None = None
    over: bool = False


class Waits:
    """The waits of live calls, by their numbers. `at` says who is logged on at a station."""

    def __init__(self, at: Mapping[str, str] | None = None) -> None:
        self.at = dict(at or {})
        self.calls: dict[int, Wait] = {}
        # calls that a station made: their callers are followed in queues alone
        self.made: set[int] = set()
        self.first: int | None = None

    def take(self, event: Event) -> Ended | None:
        """The next event, and the wait that it ends."""
        self.first = event.moment if self.first is None else self.first
        kind = event.kind
        if event.agent is not None:
            self.log(event.device or "", event.agent, kind)
        elif kind == "queued":
            self.enter(event)
        elif kind == "delivered" and event.group is None:
            self.ring(event)
        elif kind == "diverted":
            self.divert(event)
        elif kind == "established":
            return self.answer(event)
        elif kind == "callCleared":
            return self.end(event)
        elif kind == "serviceInitiated":
            self.made.add(event.call or 0)
        return None

    def log(self, station: str, agent: str, kind: str) -> None:
        if kind == "agentLoggedOff":
            self.at.pop(station, None)
        else:
            self.at[station] = agent

    def enter(self, event: Event) -> None:
        number, group, wait = event.call or 0, event.device or "", self.calls.get(event.call or 0)
        entered = None if event.cause == "noAnswer" else event.moment
        if wait is None or wait.over:
            self.calls[number] = Wait(group, entered, entered)
        else:
            wait.group, wait.until = group, None
            wait.stay = wait.stay if entered is None else entered

    def ring(self, event: Event) -> None:
        """It rings at a station, to which it was sent."""
        number, wait = event.call or 0, self.calls.get(event.call or 0)
        if wait is None:
            return
        if wait.over:
            wait = self.calls[number] = Wait(wait.group, event.moment, None)
        is_nobody = event.device not in self.at or number in self.made
        wait.until = (event.moment if wait.until is None else wait.until) if is_nobody else None

    def divert(self, event: Event) -> None:
        """One that entered before the first event, and is sent somewhere else."""
        if event.cause == "deflected" and event.group is not None:
            self.calls.setdefault(event.call or 0, Wait(event.group, None, None))

    def answer(self, event: Event) -> Ended | None:
        number, wait = event.call or 0, self.calls.get(event.call or 0)
        if event.group is not None:
            of_stay = event.waited or 0
            seconds = of_stay if wait is None else self.seconds(wait, event.moment, of_stay)
            self.calls[number] = Wait(event.group, None, None, over=True)
            return Ended(event.group, End.ANSWERED, seconds, of_stay)
        if wait is None or wait.over or wait.until is not None and event.device not in self.at:
            return None
        wait.over = True
        if number in self.made:
            return self.left(wait)
        return Ended(wait.group, End.ANSWERED, self.seconds(wait, event.moment, 0))

    def seconds(self, wait: Wait, moment: int, least: int) -> int:
        """How long it has been going on, as far as that is known."""
        return max(least, moment - (self.first or 0)) if wait.since is None else moment - wait.since

    @staticmethod
    def left(wait: Wait) -> Ended:
        """It ended as the caller was sent out of all groups."""
        known = wait.since is not None and wait.until is not None
        return Ended(wait.group, End.LEFT, (wait.until or 0) - (wait.since or 0) if known else 0)

    def end(self, event: Event) -> Ended | None:
        number = event.call or 0
        wait = self.calls.pop(number, None)
        self.made.discard(number)
        if event.group is not None:
            since, stay = (None, None) if wait is None else (wait.since, wait.stay)
            return Ended(event.group, End.LOST, EVER if since is None else event.moment - since,
                         EVER if stay is None else event.moment - stay)
        if wait is None or wait.over:
            return None
        if wait.until is not None:
            return self.left(wait)
        return Ended(wait.group, End.LOST, EVER if wait.since is None else event.moment - wait.since)

    def meet(self, number: int, group: str, entered: int | None) -> None:
        """A live call of before the first event entered a group last, and the queue where it still waits."""
        self.calls[number] = Wait(group, entered, entered, over=entered is None)

    def since(self, number: int) -> int | None:
        """Since when a call waits; None where it doesn't, or where that was before the first event."""
        wait = self.calls.get(number)
        return None if wait is None or wait.over else wait.since

    def so_far(self, number: int, moment: int) -> int:
        """The seconds that a call's wait, if it has one, has been going on in a moment, as far as that is known."""
        wait = self.calls.get(number)
        if wait is None or wait.over or wait.since is None:
            return 0
        return (moment if wait.until is None else wait.until) - wait.since
