"""The lines that a board draws: what each group, agent and call is like now, and the figures of a day. Unproved."""
import json
from collections import Counter
from collections.abc import Iterable
from typing import Any

from acd_service.figures import AgentFigures, Quarter
from acd_service.gate.parts import Agent, Call, Connection, Group, in_order
from acd_service.gate.state import State
from acd_service.gate.texts import without_nothing

# of the figures the place of the longest wait, the one that isn't summed up
LONGEST = 7
# of the connections of a call the one of the least is the one that it is shown by
RANK = {"queued": 0, "alerting": 1, "hold": 2, "fail": 3, "connected": 4, "initiated": 5}


def as_text(value: Any) -> str:
    return json.dumps(value, separators=(",", ":"), sort_keys=True)


def without_zeros(**members: Any) -> dict[str, Any]:
    """The members that say something: a board knows what is missing."""
    return {name: value for name, value in members.items() if value}


def waits_since(call: Call) -> int:
    return call.since if call.queued is None else call.queued


def group_line(state: State, group: Group) -> str:
    """`queued` is since when the caller waits who waits longest, in the queue or while it rings; `next` the agent who
    gets the next call."""
    agents = [state.agents[number] for number in group.agents]
    eligible = [agent for agent in agents if state.is_eligible(agent.id)]
    following = min(eligible, key=lambda agent: (agent.rank, len(agent.id), agent.id), default=None)
    counts = Counter(state.doing(agent).doing for agent in agents)
    queued = min((waits_since(call) for call in group.waiting | group.ringing), default=None)
    return as_text(without_zeros(name=group.name, ring=group.ring, wrap=group.wrap, priority=group.priority,
                                 waiting=len(group.waiting), ringing=len(group.ringing), counts=counts,
                                 next=following and following.id) | without_nothing(queued=queued))


def agent_line(state: State, agent: Agent) -> str:
    """`group` is that of the call which the agent is busy with, `calls` are those at the agent's station."""
    doing = state.doing(agent)
    station = state.stations.get(agent.station) if agent.station else None
    calls = sorted(number for number in station.calls if number in state.calls) if station else []
    return as_text(without_zeros(calls=calls, doing=doing.doing, group=doing.group, groups=agent.groups,
                                 name=agent.name, pending=agent.pending, since=doing.since, station=agent.station))


def side_of(state: State, call: Call) -> Connection | None:
    """The connection that a call is shown by; never that of a caller from outside."""
    sides = [one for one in call.connections.values() if not state.is_outside(call, one.device)]
    return min(sides, key=lambda one: RANK[one.state]) if sides else None


def call_line(state: State, call: Call) -> str:
    """`begun` is there where it isn't `since`; `direct` where no group gave the call to the agent, and `queued` is
    since when such a caller waits."""
    side = side_of(state, call)
    if side is None:
        return as_text(without_zeros(begun=call.since, caller=call.caller))
    since = waits_since(call) if side.state == "queued" else side.since
    begun = call.since if call.since != since else None
    direct = side.sent is not None
    queued = waits_since(call) if direct and side.state == "alerting" else None
    return as_text(without_zeros(at=side.device, begun=begun, caller=call.caller, direct=direct, group=side.whose,
                                 queued=queued, since=since, state=side.state))


def groups_of(state: State, numbers: Iterable[str]) -> dict[str, str]:
    return {number: group_line(state, state.groups[number]) for number in numbers if number in state.groups}


def agents_of(state: State, numbers: Iterable[str]) -> dict[str, str]:
    return {number: agent_line(state, state.agents[number]) for number in numbers if number in state.agents}


def calls_of(state: State, numbers: Iterable[int]) -> dict[str, str]:
    return {str(number): call_line(state, state.calls[number]) for number in numbers if number in state.calls}


def all_of(state: State) -> dict[str, dict[str, str]]:
    """The lines of the whole desk, by tables."""
    return {"groups": groups_of(state, state.groups), "agents": agents_of(state, state.agents),
            "calls": calls_of(state, state.calls)}


def names_text(state: State) -> str:
    """Number, name and station of all agents, groups with their names, and stations, as a page of an agent needs them
    for transfers: in few bytes, since it gets all of them."""
    agents = [[agent.id, agent.name, *([agent.station] if agent.station else [])]
              for agent in (state.agents[number] for number in in_order(state.agents))]
    groups = [[number, state.groups[number].name] for number in in_order(state.groups)]
    return as_text({"agents": agents, "groups": groups, "stations": in_order(state.stations)})


# figures of a day

def figures_of(quarter: Quarter, limit: float) -> list[int]:
    """Entered, answered, abandoned, moved, waited, answered within the limit, abandoned later, the longest wait of an
    answered call, calls that agents are done with, seconds for them, and calls that a rule ended; then by the last stay
    in a queue answered, abandoned, answered within the limit, and abandoned later."""
    within, late, _ = quarter.reached(limit)
    within_stay, late_stay, _ = quarter.reached_by_stay(limit)
    return [quarter.entered, len(quarter.answers), len(quarter.losses), quarter.moved, sum(quarter.answers), within,
            late, max(quarter.answers, default=0), quarter.handled, quarter.handling, quarter.closed,
            len(quarter.stays_answered), len(quarter.stays_lost), within_stay, late_stay]


def sum_of(quarters: Iterable[list[int]]) -> list[int]:
    """The figures of several quarters together."""
    return [max(column) if place == LONGEST else sum(column) for place, column in enumerate(zip(*quarters))]


def agent_figures_line(agent: AgentFigures) -> str:
    """Calls, missed offers, seconds of talk, after-call work, ready and not ready up to a moment, that moment, what the
    agent does since then, and groups."""
    seconds = [agent.spent.get(name, 0) for name in ("talk", "afterCall", "ready", "notReady")]
    return as_text([agent.calls, agent.missed, *seconds, agent.since, agent.does, sorted(agent.groups)])
