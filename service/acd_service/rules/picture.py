"""The picture of a desk by which rules judge: who waits where and since when, which stations are idle, who is logged on
in which group. It is made of a snapshot and kept up to date by event reports. Tested, not proved."""
from collections import defaultdict
from collections.abc import Iterable, Mapping
from dataclasses import dataclass, field
from typing import Any

# a snapshot ranks by stamps, of at most 1000000000; less EARLIER they come before all numbers of events, which rank
# later things
EARLIER = 2_000_000_000
# what occupies a station, and what leaves a device
OCCUPIES = ("serviceInitiated", "originated", "delivered", "established", "held", "retrieved")
LEAVES = ("diverted", "transferred", "connectionCleared")
# the states in a snapshot of who was answered
TALKS = ("connected", "hold")
QUEUED, FAILED, BUSY = "queued", "fail", "busy"


@dataclass
class Call:
    """`entered` is the moment at which its wait began: it first entered a group then, or again after somebody had
    talked to the caller. It is None where the call didn't wait since. `groups` are those in which it has waited ever;
    `rank` is its place among those who wait where it does."""
    number: int
    entered: int | None = None
    groups: set[str] = field(default_factory=set)
    rank: int = 0
    connections: dict[str, str] = field(default_factory=dict)

    @property
    def waits_in(self) -> str | None:
        return next((device for device, state in self.connections.items() if state == QUEUED), None)


@dataclass
class Group:
    """`empty_since` is the moment since which nobody is logged on, as far as that is known: never an earlier one."""
    agents: set[str] = field(default_factory=set)
    empty_since: int = 0


class Picture:
    """`moment` is that of the last request, or of the last event; `last` the number of that event. `unknown` are agents
    whose groups no event names, each with the number of its log-on; as long as there is one, any group may have it."""

    def __init__(self) -> None:
        self.last = self.moment = 0
        self.calls: dict[int, Call] = {}
        self.groups: dict[str, Group] = {}
        # the agent who is logged on at a station
        self.stations: dict[str, str | None] = {}
        self.unknown: dict[str, int] = {}

    @classmethod
    def of(cls, snapshot: Mapping[str, Any], history: Iterable[Mapping[str, Any]]) -> "Picture":
        """By a snapshot, and the events before it that say how its calls came to be where they are."""
        found = cls()
        found.last, found.moment = snapshot["last"], snapshot["moment"]
        found.groups = {one["device"]: Group() for one in snapshot["groups"]}
        found.stations = {one["device"]: one.get("agent") for one in snapshot["stations"]}
        for agent in snapshot["agents"]:
            found.assign(agent["agent"], groups_of(agent))
        for call in snapshot["calls"]:
            found.begin_call(call)
        found.look_back(history)
        return found

    def begin_call(self, text: Mapping[str, Any]) -> None:
        call = self.calls[text["call"]] = Call(text["call"])
        for one in text["connections"]:
            device = one["device"]
            call.connections[device] = one["state"] if one["state"] in (QUEUED, FAILED) else BUSY
            group = device if one["state"] == QUEUED else one.get("group")
            if group:
                call.groups.add(group)
                call.rank = one.get("place", EARLIER) - EARLIER
            if group and one["state"] not in TALKS:
                # where no event says more
                call.entered = text["since"] if text["called"] in self.groups else one.get("queued", text["since"])
        if call.groups and text["called"] in self.groups:
            call.groups.add(text["called"])

    def look_back(self, history: Iterable[Mapping[str, Any]]) -> None:
        """What the events before the snapshot add: since when each call waits and in which groups it has waited, and
        until when a group may have had somebody."""
        events, entered = list(history), set[int]()
        of_agents: dict[str, list[str]] = {}
        staffed = self.staffed_before(events)
        for event in events:
            kind, call = event["event"], self.calls.get(event.get("call", 0))
            if kind == "queued" and call:
                call.groups.add(event["device"])
                if call.number not in entered:
                    entered.add(call.number)
                    call.entered = event["moment"]
            elif kind == "established" and call and ("group" in event or event["device"] in staffed):
                entered.discard(call.number)
                call.entered = None
            elif kind == "agentLoggedOn":
                staffed.add(event["device"])
                of_agents[event["agent"]] = [event["group"]] if "group" in event else list(self.groups)
            elif kind == "agentLoggedOff":
                staffed.discard(event["device"])
                for group in of_agents.pop(event["agent"], self.groups):
                    self.groups[group].empty_since = event["moment"]

    def staffed_before(self, events: Iterable[Mapping[str, Any]]) -> set[str]:
        """The stations at which somebody was logged on before these events, which lead to the present."""
        first: dict[str, bool] = {}
        for event in events:
            if event["event"] in ("agentLoggedOn", "agentLoggedOff"):
                first.setdefault(event["device"], event["event"] == "agentLoggedOff")
        return {station for station, agent in self.stations.items() if first.get(station, agent is not None)}

    # agents

    def assign(self, agent: str, groups: Iterable[str]) -> None:
        self.unknown.pop(agent, None)
        for group in groups:
            self.groups.setdefault(group, Group()).agents.add(agent)

    def log_off(self, agent: str, moment: int) -> None:
        was_unknown = self.unknown.pop(agent, None) is not None
        for group in self.groups.values():
            if agent in group.agents or was_unknown:
                group.agents.discard(agent)
                group.empty_since = moment

    def is_empty(self, group: str) -> bool:
        return not self.groups[group].agents and not self.unknown

    # events

    def apply(self, event: Mapping[str, Any]) -> None:
        """The next event report (docs/USING.md, Event reports)."""
        self.last, self.moment = event["number"], max(self.moment, event["moment"])
        if "agent" in event:
            self.change_agent(event)
        elif event["event"] == "callCleared":
            self.calls.pop(event["call"], None)
        else:
            self.change_call(event)

    def change_agent(self, event: Mapping[str, Any]) -> None:
        agent, station = event["agent"], event["device"]
        if event["event"] == "agentLoggedOn":
            self.stations[station] = agent
            if "group" in event:
                self.assign(agent, [event["group"]])
            else:
                self.unknown[agent] = event["number"]
        elif event["event"] == "agentLoggedOff":
            self.stations[station] = None
            self.log_off(agent, event["moment"])

    def change_call(self, event: Mapping[str, Any]) -> None:
        kind, device = event["event"], event["device"]
        call = self.calls.setdefault(event["call"], Call(event["call"]))
        if kind in LEAVES:
            call.connections.pop(device, None)
        elif kind == "failed":
            call.connections[device] = FAILED
        elif kind in OCCUPIES:
            call.connections[device] = BUSY
            if kind == "established" and ("group" in event or self.stations.get(device) is not None):
                call.entered = None
        elif kind == "queued":
            call.connections[device] = QUEUED
            call.groups.add(device)
            self.groups.setdefault(device, Group())
            call.entered = event["moment"] if call.entered is None else call.entered
            # one that comes back from an agent has its old place
            call.rank = call.rank if event["cause"] == "noAnswer" else event["number"]

    # what rules ask

    def queues(self) -> defaultdict[str, list[Call]]:
        """Those who wait in each group, the first one first."""
        found: defaultdict[str, list[Call]] = defaultdict(list)
        for call in sorted(self.calls.values(), key=lambda call: call.rank):
            group = call.waits_in
            if group is not None:
                found[group].append(call)
        return found

    def busy_stations(self) -> set[str]:
        return {device for call in self.calls.values() for device, state in call.connections.items() if state == BUSY}


def groups_of(agent: Mapping[str, Any]) -> list[str]:
    """The groups of an agent, as a snapshot or `/agents/{id}` has them: none of one who is logged off."""
    return list(agent["groups"]) if "groups" in agent else [agent["group"]] if "group" in agent else []
