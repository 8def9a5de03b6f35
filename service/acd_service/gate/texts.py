"""What an agent's page is told of the desk: the agent, own calls whole, queues with shortened callers, names.
Unproved."""
import json
from collections.abc import Iterable
from typing import Any

from acd_service.gate.parts import Call, Connection, Group, Text, in_order
from acd_service.gate.state import State


def as_json(text: Text) -> bytes:
    return json.dumps(text, separators=(",", ":"), sort_keys=True).encode()


def without_nothing(**members: Any) -> Text:
    return {name: value for name, value in members.items() if value is not None}


def side_text(one: Connection) -> Text:
    return without_nothing(device=one.device, group=one.group if one.state != "queued" else None, sent=one.sent,
                           since=one.since, state=one.state)


def call_text(state: State, call: Call, station: str) -> Text:
    """A call at an agent's station, with all members."""
    connections = [side_text(call.connections[device]) for device in in_order(call.connections)]
    return without_nothing(call=call.number, called=call.called, caller=call.caller, connections=connections,
                           back=state.back(call, station), queued=call.queued, since=call.since)


def queue_text(state: State, group: Group) -> Text:
    """A queue, in which no caller's number is whole."""
    calls = [without_nothing(call=call.number, caller=call.caller and f"...{call.caller[-3:]}", queued=call.queued)
             for call in sorted(group.waiting, key=lambda call: call.rank)]
    ready = sum(state.is_eligible(number) for number in group.agents)
    return {"calls": calls, "device": group.id, "loggedOn": len(group.agents), "name": group.name, "ready": ready,
            "ring": group.ring, "wrap": group.wrap}


def own_text(state: State, number: str) -> Text:
    """An agent's state and calls."""
    agent = state.agents.get(number)
    if agent is None:
        return {"agent": {"agent": number}, "calls": []}
    state_text = without_nothing(agent=agent.id, device=agent.station, groups=agent.groups or None, logOn=agent.log_on,
                                 name=agent.name, pending=agent.pending, since=agent.since, state=agent.state)
    here = [call for call in state.calls_of(agent) if agent.station in call.connections]
    return {"agent": state_text, "calls": [call_text(state, call, agent.station) for call in here if agent.station]}


def place_text(state: State, device: str) -> Text:
    """What a page says of a place to which somebody is about to send a caller: of a group how many are logged on and
    ready there, of a station who is there and what that agent does."""
    group, agent = state.groups.get(device), state.agent_at(device)
    if group is not None:
        ready = sum(state.is_eligible(number) for number in group.agents)
        return {"device": device, "loggedOn": len(group.agents), "ready": ready}
    if agent is None:
        return {"device": device}
    return {"device": device, "agent": agent.id, "doing": state.doing(agent).doing}


def agent_text(state: State, number: str, groups: Iterable[str]) -> Text:
    """An agent as the agent's page shows it: state, calls, queues. `groups` are those of an agent who is logged off."""
    queues = [queue_text(state, state.groups[group]) for group in groups_of(state, number, groups)]
    return own_text(state, number) | {"groups": queues}


def groups_of(state: State, number: str, groups: Iterable[str]) -> list[str]:
    """The groups of the plan in which an agent is logged on, or those of the agent's line."""
    agent = state.agents.get(number)
    if agent is None:
        return []
    return [group for group in (agent.groups if agent.station else in_order(groups)) if group in state.groups]


def names_text(state: State) -> Text:
    """Who has which name, and where agents are logged on, for transfers."""
    agents = [without_nothing(agent=number, device=state.agents[number].station, name=state.agents[number].name)
              for number in in_order(state.agents)]
    groups = [{"device": number, "name": state.groups[number].name} for number in in_order(state.groups)]
    return {"agents": agents, "groups": groups, "stations": in_order(state.stations)}
