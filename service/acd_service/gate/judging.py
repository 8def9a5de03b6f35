"""The rules of each role: whether a login may send a body to the desk. They are pure: what a rule looks at is fetched
before, and judged then. Unproved."""
import json
from collections.abc import Container
from enum import Enum
from typing import Any, NamedTuple, TypeVar

from acd_service.gate.roles import Role, has_keys
from acd_service.gate.state import State

PLAN = {"addGroup", "addStation", "addAgent", "setGroupPriority", "changeGroup", "changeAgent"}
CALLS = {
    "makeCall", "phoneOffHook", "answerCall", "rejectCall", "holdCall", "retrieveCall", "clearConnection",
    "deflectCall", "singleStepTransfer"
}
# what a program may ask for that moves callers by an office's rules
OF_RULES = {"clearConnection", "deflectCall"}
LEADS_TO = ("ready", "notReady", "loggedOff")
# the states that need neither a station nor a group
OTHER_STATES = ("ready", "notReady", "workingAfterCall", "loggedOff")
Request = dict[str, Any]
Member = TypeVar("Member")


class Look(Enum):
    """What of the desk a rule looks at, as it is at the moment."""
    NOTHING = "nothing"
    STATION = "where the role's agent is logged on"
    STATE = "agents, groups and calls"


class Seen(NamedTuple):
    """What was fetched of the desk: the station of an agent, or its state."""
    agent: str | None = None
    station: str | None = None
    state: State | None = None


class Logins:
    """Whoever is in one of these tables."""

    def __init__(self, *tables: Container[object]) -> None:
        self.tables = tables

    def __contains__(self, login: object) -> bool:
        return any(login in table for table in self.tables)


class Twice(Exception):
    """A member is there twice: the desk decides which one counts, so the gate doesn't guess."""


def once(members: list[tuple[str, Member]]) -> dict[str, Member]:
    found = dict(members)
    if len(found) != len(members):
        raise Twice
    return found


def read(body: bytes) -> Request | None:
    """The request of a body; None where it is no object with a requester, Twice where a member is there twice."""
    try:
        request = json.loads(body.decode("utf-8"), object_pairs_hook=once)
    except (ValueError, RecursionError):
        return None
    return request if isinstance(request, dict) and isinstance(request.get("requester"), str) else None


def owner(requester: str, logins: Container[object]) -> str | None:
    """The longest login that is the requester, or with which the requester begins, followed by a hyphen."""
    begin, hyphen = requester, "-"
    while begin not in logins and hyphen:
        begin, hyphen, _ = begin.rpartition("-")
    return begin if begin in logins else None


def looks_at(role: Role, login: str, logins: Container[object], body: bytes) -> Look:
    """What has to be fetched before `may` judges this body: nothing where it is refused or let through without."""
    try:
        request = read(body)
    except Twice:
        return Look.NOTHING
    if request is None or not role.asks or not has_keys(login) or owner(request["requester"], logins) != login:
        return Look.NOTHING
    if role.name == "lead" and may_be_leads(role, request) or role.name == "rules" and may_be_rules(request):
        return Look.STATE
    return Look.STATION if role.name == "agent" and is_call_within(role, request) else Look.NOTHING


def may(role: Role, login: str, logins: Container[object], body: bytes, seen: Seen = Seen()) -> bool:
    """Whether the login may send this body, by what was seen of the desk."""
    if not role.asks or not has_keys(login):
        return False
    try:
        request = read(body)
    except Twice:
        return False
    if request is None:
        return role.name == "exchange"  # the desk answers 400
    if owner(request["requester"], logins) != login:
        return False
    if role.name == "lead":
        return may_be_leads(role, request) and seen.state is not None and may_lead(role, request, seen.state)
    if role.name == "rules":
        # a connection at a group is one that waits, and the desk refuses any other
        return may_be_rules(request) and seen.state is not None and request["device"] in seen.state.groups
    return role.name == "exchange" or may_ask(role, request, seen)


def may_ask(role: Role, request: Request, seen: Seen) -> bool:
    """The rules of office, admin and agent."""
    if role.name in ("office", "admin"):
        return isinstance(request.get("service"), str) and request["service"] in PLAN
    if request.get("service") == "setAgentState":
        return request.get("agent") == role.agent and logs_on_within(role, request)
    return is_call_within(role, request) and seen.agent == role.agent and request["device"] == seen.station


def may_administer(role: Role) -> bool:
    """Whether it may give and take logins, roles, first passwords and names."""
    return role.name == "admin"


def may_read_acts(role: Role) -> bool:
    """Whether it may read who did that."""
    return role.reads_requests or may_administer(role)


def is_call_within(role: Role, request: Request) -> bool:
    """Whether it is a call service at one of an agent's stations: then it has to be where this agent is logged on."""
    service, device = request.get("service"), request.get("device")
    if not isinstance(service, str) or service not in CALLS or not isinstance(device, str) or role.agent is None:
        return False
    return role.stations is None or device in role.stations


def are_within(allowed: frozenset[str] | None, numbers: object) -> bool:
    if allowed is None:
        return True
    return isinstance(numbers, list) and all(isinstance(one, str) and one in allowed for one in numbers)


def logs_on_within(role: Role, request: Request) -> bool:
    """Whether setAgentState of an agent keeps to the role's stations and groups."""
    if request.get("requested") in OTHER_STATES:
        return True
    groups = [request["group"]] if "group" in request else request.get("groups")
    return are_within(role.stations, [request.get("device")]) and are_within(role.groups, groups)


def may_be_rules(request: Request) -> bool:
    """The part of the rule of who moves waiting callers that needs no look at the desk."""
    service = request.get("service")
    return isinstance(service, str) and service in OF_RULES and isinstance(request.get("device"), str)


def may_be_leads(role: Role, request: Request) -> bool:
    """The part of a lead's rule that needs no look at the desk."""
    service = request.get("service")
    if service == "setAgentState":
        return request.get("requested") in LEADS_TO and isinstance(request.get("agent"), str)
    if service in ("clearConnection", "deflectCall"):
        has_target = service == "clearConnection" or isinstance(request.get("to"), str)
        return type(request.get("call")) is int and isinstance(request.get("device"), str) and has_target
    return service == "setGroupPriority" and are_within(role.groups, [request.get("device")])


def may_lead(role: Role, request: Request, state: State) -> bool:
    """Whether a lead may ask for this, as the desk is now."""
    service, groups = request["service"], role.groups or frozenset()
    if service == "setAgentState":
        agent = state.agents.get(request["agent"])
        return agent is not None and not groups.isdisjoint(agent.groups)
    if service == "setGroupPriority":
        return request["device"] in state.groups
    call = state.calls.get(request["call"])
    here = call.connections.get(request["device"]) if call else None
    if not call or not here or here.whose not in groups:
        return False
    if service == "clearConnection":
        others = [one.whose for one in call.connections.values()]
        return here.state != "queued" and all(group is None or group in groups for group in others)
    there = state.agent_at(request["to"])
    is_within = request["to"] in groups or (there is not None and not groups.isdisjoint(there.groups))
    # an offer is the desk's, and a tick takes it back
    waits = here.state == "queued" or here.state == "alerting" and here.group is None
    return waits and is_within
