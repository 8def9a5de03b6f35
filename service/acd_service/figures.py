"""The figures of groups by quarters of an hour, and of agents, out of events: the one count of them, for the board and
for files of records. Tested, not proved.

A quarter has the waits of its calls one by one, so that any limit of the service level may be asked for."""
from __future__ import annotations

import math
from array import array
from collections import defaultdict
from collections.abc import Container, Iterator, Mapping
from dataclasses import dataclass, field
from typing import NamedTuple

from acd_service.events import Event
from acd_service.waits import End, Ended, Waits

STEP = 900
# what an agent does from each event on, for the agent's figures
DOES = {"agentBusy": "talk", "agentWorkingAfterCall": "afterCall", "agentReady": "ready", "agentNotReady": "notReady",
        "agentLoggedOn": "notReady"}
# a call leaves a device
ENDS = ("diverted", "transferred", "connectionCleared")


class Reached(NamedTuple):
    """How many were answered within a limit, how many gave up later than that, and the service level: in whole
    percent, of those that were answered, or gave up later, so many were answered within it."""
    within: int
    late: int
    level: int | None


def reached(answers: array[int], losses: array[int], limit: float) -> Reached:
    within, late = sum(wait <= limit for wait in answers), sum(wait > limit for wait in losses)
    counted = len(answers) + late
    return Reached(within, late, math.floor(100 * (within / counted) + 0.5) if counted else None)


def no_waits() -> array[int]:
    return array("I")


@dataclass(eq=False)
class Quarter:
    """`answers` are the waits of those that were answered, `losses` of those who gave up, without those whose calls a
    rule ended, which are `closed`; `stays_answered` and `stays_lost` those of their last stay in the queue, where the
    wait ended there; `top` and `end` how many more wait than before the first event, at most and in the end."""
    entered: int = 0
    moved: int = 0
    closed: int = 0
    handled: int = 0
    handling: int = 0
    top: int = 0
    end: int = 0
    answers: array[int] = field(default_factory=no_waits)
    losses: array[int] = field(default_factory=no_waits)
    stays_answered: array[int] = field(default_factory=no_waits)
    stays_lost: array[int] = field(default_factory=no_waits)

    def add(self, ended: Ended) -> None:
        """A wait that was answered, or lost."""
        is_answer = ended.how is End.ANSWERED
        (self.answers if is_answer else self.losses).append(ended.seconds)
        if ended.of_stay is not None:
            (self.stays_answered if is_answer else self.stays_lost).append(ended.of_stay)

    def close(self, ended: Ended) -> None:
        """Of a wait that counts as lost a rule ended the call."""
        self.losses.remove(ended.seconds)
        if ended.of_stay is not None:
            self.stays_lost.remove(ended.of_stay)
        self.closed += 1

    def reached(self, limit: float) -> Reached:
        return reached(self.answers, self.losses, limit)

    def reached_by_stay(self, limit: float) -> Reached:
        return reached(self.stays_answered, self.stays_lost, limit)


class Talk(NamedTuple):
    """A talk with a caller from outside whom no group gave the agent: since when, and the group that the caller came
    from, nothing where there was none."""
    since: int
    group: str


@dataclass(eq=False)
class AgentFigures:
    """Seconds by what the agent did, from the first event that was counted on. The agent is in the `state` since
    `since`, or in `talks` by the numbers of their calls, and `handles` a call of this group since `handled`; `kind` is
    the last event."""
    since: int
    state: str = ""
    calls: int = 0
    missed: int = 0
    spent: dict[str, int] = field(default_factory=dict)
    groups: set[str] = field(default_factory=set)
    handles: str = ""
    handled: int = 0
    kind: str = ""
    talks: dict[int, Talk] = field(default_factory=dict)

    @property
    def does(self) -> str:
        """A talk is one also where the desk says that the agent is ready."""
        return "talk" if self.talks else self.state

    def pass_to(self, moment: int) -> None:
        """Counts the seconds up to the moment."""
        if self.does:
            self.spent[self.does] = self.spent.get(self.does, 0) + moment - self.since
        self.since = moment


class Figures:
    """What is of `begin` or later. A wait is counted in the group where it ends, as a whole; a stay in a queue where
    the call enters it, or is moved; and a call is handled where its talk and the after-call work right after it end.
    `changed` are group and number of the quarters that changed, `touched` the agents whose figures did; `at` says who
    was logged on at a station before the first event; `closed` are calls of which it is known that rules ended them."""

    def __init__(self, begin: float = -math.inf, at: Mapping[str, str] | None = None,
                 closed: Container[int] = ()) -> None:
        self.begin, self.closed = begin, closed
        self.waits = Waits(at)
        self.moment = 0
        self.groups: defaultdict[str, dict[int, Quarter]] = defaultdict(dict)
        self.agents: dict[str, AgentFigures] = {}
        self.balance: defaultdict[str, int] = defaultdict(int)
        self.changed: set[tuple[str, int]] = set()
        self.touched: set[str] = set()
        # stations whose agent's next event follows an answered call of a group, or an offer without an answer
        self.answered: dict[str, str] = {}
        self.missed: set[str] = set()
        # of what rings at a station its call, and whether a group offered it
        self.rings: dict[str, tuple[int, bool]] = {}
        # where the call that is being cleared had connections: the first is where somebody began to
        self.cleared: list[str] = []

    def take(self, event: Event) -> None:
        """The next event."""
        self.moment = event.moment
        agent, ended = self.waits.at.get(event.device or ""), self.waits.take(event)
        if event.kind == "connectionCleared":
            self.cleared.append(event.device or "")
        if event.moment >= self.begin:
            self.count(event, agent)
        if ended is not None and ended.how is not End.LEFT:
            self.end(event, ended)
        self.follow(event)

    def follow(self, event: Event) -> None:
        """What rings and what is being cleared, of before the begin too."""
        if event.kind == "delivered":
            self.rings[event.device or ""] = event.call or 0, event.group is not None
        elif event.call is not None and self.rings.get(event.device or "", (None,))[0] == event.call:
            del self.rings[event.device or ""]
        if event.kind == "callCleared":
            self.cleared.clear()

    def count(self, event: Event, agent: str | None) -> None:
        """Counts it; the agent was logged on at its device before."""
        if event.agent is not None:
            self.take_agent(event, event.agent)
            return
        self.take_call(event)
        if agent is not None and self.is_hung_up(event):
            self.figures_of(agent, event.moment).missed += 1
        if agent is not None and event.call not in self.waits.made:
            self.take_talk(event, event.call or 0, agent)

    def is_hung_up(self, event: Event) -> bool:
        """Whether somebody ends it at a station where an offer rings, or a caller from outside."""
        call, is_offer = self.rings.get(event.device or "", (None, False))
        is_first = event.kind == "connectionCleared" and self.cleared == [event.device]
        return is_first and call == event.call and (is_offer or call not in self.waits.made)

    def quarter(self, group: str, moment: int) -> Quarter:
        """The quarter of an hour of this moment, which is about to change."""
        number, quarters = moment // STEP, self.groups[group]
        self.changed.add((group, number))
        found = quarters.get(number)
        if found is None:
            found = quarters[number] = Quarter(top=self.balance[group], end=self.balance[group])
        return found

    def change(self, moment: int, group: str, by: int) -> None:
        """So many more wait in the group."""
        quarter = self.quarter(group, moment)
        quarter.end = self.balance[group] = self.balance[group] + by
        quarter.top = max(quarter.top, quarter.end)

    def take_call(self, event: Event) -> None:
        moment, kind, device, _, _, group, _, cause, _ = event
        if kind == "queued":
            if cause != "noAnswer":
                self.quarter(device or "", moment).entered += 1
            self.change(moment, device or "", 1)
        elif kind == "diverted":
            self.take_diversion(moment, device or "", group, cause)
        elif kind == "established" and group is not None:
            self.answered[device or ""] = group
        elif kind == "callCleared" and group is not None and group in self.cleared:
            self.change(moment, group, -1)

    def take_diversion(self, moment: int, device: str, group: str | None, cause: str | None) -> None:
        if group == device:
            self.change(moment, device, -1)
        if group is not None and cause == "deflected":
            self.quarter(group, moment).moved += 1
        if cause == "noAnswer":
            self.missed.add(device)

    def end(self, event: Event, ended: Ended) -> None:
        """A wait ends."""
        if event.moment < self.begin:
            return
        quarter = self.quarter(ended.group, event.moment)
        if ended.how is End.LOST and event.call in self.closed:
            quarter.closed += 1
        else:
            quarter.add(ended)

    def figures_of(self, number: str, moment: int) -> AgentFigures:
        """Those of an agent, up to a moment, which are about to change."""
        found = self.agents.get(number)
        if found is None:
            found = self.agents[number] = AgentFigures(moment)
        self.touched.add(number)
        found.pass_to(moment)
        return found

    def handle(self, group: str, begun: int, moment: int) -> None:
        """An agent is done with a call of the group."""
        quarter = self.quarter(group, moment)
        quarter.handled += 1
        quarter.handling += moment - begun

    def take_talk(self, event: Event, call: int, number: str) -> None:
        """What an agent does with a caller from outside, where the desk has no state of the agent for it."""
        moment, kind = event.moment, event.kind
        if kind == "established" and event.group is None:
            agent, wait = self.figures_of(number, moment), self.waits.calls.get(call)
            agent.talks[call] = Talk(moment, wait.group if wait is not None else "")
            agent.calls += 1
            if wait is not None:
                agent.groups.add(wait.group)
        elif kind in ENDS and number in self.agents and call in self.agents[number].talks:
            self.end_talk(self.figures_of(number, moment), call, moment)

    def end_talk(self, agent: AgentFigures, call: int, moment: int) -> None:
        """After-call work in which the agent is by then belongs to it."""
        talk = agent.talks.pop(call)
        if talk.group and agent.state == "afterCall" and not agent.handles and not agent.talks:
            agent.handles, agent.handled = talk.group, talk.since
        elif talk.group:
            self.handle(talk.group, talk.since, moment)

    def take_agent(self, event: Event, number: str) -> None:
        moment, kind, device = event.moment, event.kind, event.device or ""
        agent = self.figures_of(number, moment)
        # after-call work right after a call belongs to it
        if agent.handles and not (agent.kind == "agentBusy" and kind == "agentWorkingAfterCall"):
            self.handle(agent.handles, agent.handled, moment)
            agent.handles = ""
        agent.kind, agent.state = kind, DOES.get(kind, "")
        for call in list(agent.talks) if kind == "agentLoggedOff" else ():
            self.end_talk(agent, call, moment)
        if device in self.missed:
            self.missed.discard(device)
            agent.missed += 1
        group = self.answered.pop(device, None)
        if kind == "agentBusy" and group is not None:
            agent.calls += 1
            agent.groups.add(group)
            agent.handles, agent.handled = group, moment

    def steps(self, group: str, before: int, begin: int, end: int) -> Iterator[tuple[int, Quarter, int]]:
        """The quarters in which something was, from the number begin up to end: the number, the figures, and the most
        that waited at once, where so many waited before the first event."""
        counted, waiting, number = self.groups.get(group, {}), before, begin
        for at in [*sorted(counted), end + 1]:
            for between in range(number, at) if waiting else ():
                yield between, Quarter(), waiting
            if at in counted:
                yield at, counted[at], max(waiting, before + counted[at].top)
                waiting = before + counted[at].end
            number = at + 1
