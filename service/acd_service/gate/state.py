"""A desk by its reports: agents, groups, stations and calls, and which of them a report concerns. Unproved."""
from __future__ import annotations

from dataclasses import replace

from acd_service.events import event_of
from acd_service.gate.parts import Agent, Call, Connection, Doing, Group, Station, Text, made
from acd_service.waits import Waits

# a snapshot ranks by stamps, of at most 1000000000; less EARLIER they come before all numbers of events, which rank
# later things
EARLIER = 2_000_000_000
STATE_AFTER = {"agentLoggedOn": "notReady", "agentLoggedOff": "null", "agentNotReady": "notReady",
               "agentReady": "ready", "agentBusy": "busy", "agentWorkingAfterCall": "workingAfterCall"}
BECOMES = {"originated": "connected", "established": "connected", "held": "hold", "retrieved": "connected"}
LEAVES = {"diverted", "transferred", "connectionCleared"}


class State:
    """The desk by its reports. `touched` are the agents whose state or calls changed, `dirty` the groups whose queue or
    agents did, `moved` the calls that changed or ended, `renamed` says whether a name or a station's agent did;
    `unknown` are agents whose groups no report names, `leaving` agents who leave a call that is being cleared, with the
    rank that they then have."""

    def __init__(self, snapshot: Text | None = None, before: State | None = None) -> None:
        self.last = self.moment = 0
        self.agents: dict[str, Agent] = {}
        self.groups: dict[str, Group] = {}
        self.stations: dict[str, Station] = {}
        self.calls: dict[int, Call] = {}
        # those that may be without a caller
        self.nameless: dict[int, None] = {}
        self.touched: set[str] = set()
        self.dirty: set[str] = set()
        self.moved: set[int] = set()
        self.renamed = False
        self.unknown: set[str] = set()
        self.leaving: dict[str, int] = {}
        self.waits: Waits = before.waits if before else Waits()
        if snapshot is not None:
            self.begin(snapshot, before)

    def begin(self, snapshot: Text, before: State | None) -> None:
        self.last, self.moment = snapshot["last"], snapshot["moment"]
        for text in snapshot["groups"]:
            group = made(Group, self.groups, text["device"])
            group.name, group.ring, group.wrap = text["name"], text["ring"], text["wrap"]
            group.priority = text.get("priority", 0)
        for text in snapshot["stations"]:
            made(Station, self.stations, text["device"]).agent = text.get("agent")
        for text in snapshot["agents"]:
            agent = made(Agent, self.agents, text["agent"])
            agent.name, agent.state, agent.since = text["name"], text["state"], text["since"]
            agent.station, agent.pending = text.get("device"), text.get("pending")
            agent.rank, agent.log_on = text.get("stamp", 0) - EARLIER, self.log_on_of(agent, before)
            self.assign_groups(agent, text)
        for text in snapshot["calls"]:
            self.begin_call(text, before)
        self.waits.at = self.logged_on()
        self.touched, self.dirty, self.moved = set(), set(), set()

    def log_on_of(self, agent: Agent, before: State | None) -> int | None:
        """The log-on of before, if the agent's station, state and time of change are the same."""
        was = before.agents.get(agent.id) if before else None
        if agent.station and was and (was.station, was.state, was.since) == (agent.station, agent.state, agent.since):
            return was.log_on
        return self.last if agent.station else None

    def begin_call(self, text: Text, before: State | None) -> None:
        call = self.call_of(text["call"], text["since"])
        call.caller, call.called = text["caller"], text["called"]
        known = before.calls.get(call.number) if before else None
        if known is not None:
            call.queued = known.queued
            self.leaves(call, known.left)
        if call.caller in self.stations:
            self.waits.made.add(call.number)
        for one in text["connections"]:
            device, state = one["device"], one["state"]
            call.rank = one["place"] - EARLIER if "place" in one else call.rank
            call.queued = one.get("queued") if call.queued is None else call.queued
            since = one.get("offered") or self.since_when(call, device, state, known)
            group = device if state == "queued" else one.get("group")
            self.put(call, device, state, group, since)
            if group is not None and known is None:
                self.waits.meet(call.number, group, one.get("queued"))

    def since_when(self, call: Call, device: str, state: str, known: Call | None) -> int:
        """Since when a connection is as a snapshot shows it, which doesn't say so."""
        old, agent = known.connections.get(device) if known else None, self.agent_at(device)
        if old and old.state == state:
            return old.since
        return agent.since if agent else call.queued or call.since

    def call_of(self, number: int, since: int) -> Call:
        found = self.calls.get(number)
        if found is None:
            found = self.calls[number] = Call(number, since)
            self.nameless[number] = None
        return found

    def assign_groups(self, agent: Agent, text: Text) -> None:
        """Puts the agent into the groups that the desk's text of the agent names."""
        self.leave(agent)
        agent.groups = text.get("groups") or ([text["group"]] if "group" in text else [])
        for group in agent.groups:
            made(Group, self.groups, group).agents.add(agent.id)
        self.dirty.update(agent.groups)

    def leave(self, agent: Agent) -> None:
        for group in agent.groups:
            self.groups[group].agents.discard(agent.id)
        self.dirty.update(agent.groups)
        agent.groups = []

    def agent_at(self, device: str) -> Agent | None:
        station = self.stations.get(device)
        return self.agents.get(station.agent) if station and station.agent else None

    def apply(self, report: Text) -> None:
        if report["number"] <= self.last:
            return
        self.last, self.moment = report["number"], report["moment"]
        self.waits.take(event_of(report))
        if "agent" in report:
            self.change_agent(report)
        else:
            self.change_call(report)

    def change_agent(self, report: Text) -> None:
        agent, event = made(Agent, self.agents, report["agent"]), report["event"]
        if event == "agentLoggedOn":
            agent.station, agent.log_on = report["device"], report["number"]
            made(Station, self.stations, report["device"]).agent = agent.id
            self.assign_groups(agent, report)
            if "group" not in report:
                self.unknown.add(agent.id)
        elif event == "agentLoggedOff":
            made(Station, self.stations, report["device"]).agent = None
            agent.station = agent.log_on = None
            self.leave(agent)
            self.unknown.discard(agent.id)
        self.renamed |= event in ("agentLoggedOn", "agentLoggedOff")
        agent.state, agent.since = STATE_AFTER[event], report["moment"]
        agent.rank = self.leaving.pop(agent.id, report["number"])
        self.touched.add(agent.id)
        self.dirty.update(agent.groups)
        self.touch_others(report["device"])

    def change_call(self, report: Text) -> None:
        number, event, device, moment = report["call"], report["event"], report.get("device", ""), report["moment"]
        call = self.call_of(number, moment)
        self.mark(call)
        if event == "serviceInitiated":
            call.caller = device
            self.put(call, device, "initiated", None, moment)
        elif event == "queued":
            self.enqueue(call, report)
        elif event == "delivered":
            # who is passed on after a talk waits anew, without a queue
            call.queued = self.waits.since(number) or call.queued
            self.put(call, device, "alerting", report.get("group"), moment)
        elif event == "failed":
            self.put(call, device, "fail", None, moment)
        elif event in BECOMES:
            self.become(call, device, BECOMES[event], moment)
        elif event in LEAVES:
            self.leave_call(call, device, report)
        elif event == "callCleared":
            self.clear(call)
        if event == "originated":
            call.called = report["to"]
        self.mark(call)

    def clear(self, call: Call) -> None:
        for left in list(call.connections):
            self.take(call, left)
        self.leaves(call, None)
        del self.calls[call.number]

    def mark(self, call: Call) -> None:
        """Whom the call touches."""
        self.moved.add(call.number)
        for device, connection in call.connections.items():
            if connection.whose in self.groups:
                self.dirty.add(connection.whose)
            agent = self.agent_at(device)
            if agent:
                self.touched.add(agent.id)
                self.dirty.update(agent.groups)
                self.touch_others(device)

    def touch_others(self, device: str) -> None:
        """What the agent there does concerns those to whom calls were sent from there: who may give one back."""
        for number in self.stations[device].gave if device in self.stations else ():
            others = (self.agent_at(other) for other in self.calls[number].connections)
            self.touched.update(other.id for other in others if other is not None)

    def enqueue(self, call: Call, report: Text) -> None:
        if report["cause"] != "noAnswer":
            call.rank, call.queued = report["number"], self.waits.since(call.number)
        self.put(call, report["device"], "queued", report["device"], report["moment"])

    def put(self, call: Call, device: str, state: str, group: str | None, since: int) -> None:
        one = call.connections[device] = Connection(device, state, group, since)
        if state == "queued":
            made(Group, self.groups, device).waiting.add(call)
        elif device in self.stations:
            self.stations[device].calls.add(call.number)
            self.send(call, one)
        if state == "alerting" and group is not None:
            made(Group, self.groups, group).ringing.add(call)

    def send(self, call: Call, one: Connection) -> None:
        """Notes where a caller comes from who is at a station without an offer, and for whom it rings there as long as
        the caller waits."""
        wait = self.waits.calls.get(call.number)
        if one.group is not None or wait is None or not self.is_customers(call):
            return
        one.sent = wait.group
        if one.state == "alerting" and not wait.over and wait.until is None:
            made(Group, self.groups, wait.group).ringing.add(call)

    def is_customers(self, call: Call) -> bool:
        """Whether the caller is from outside."""
        return call.number not in self.waits.made and call.caller not in self.stations

    def become(self, call: Call, device: str, state: str, since: int) -> None:
        connection = call.connections.get(device)
        if connection is None:
            return self.put(call, device, state, None, since)
        if connection.whose is not None:
            made(Group, self.groups, connection.whose).ringing.discard(call)
        connection.state, connection.since = state, since

    def leave_call(self, call: Call, device: str, report: Text) -> None:
        if report["event"] == "connectionCleared" and not call.ended:
            call.ended = report["number"]
        if report["event"] == "transferred" or report.get("cause") == "deflected":
            self.leaves(call, device)
        self.take(call, device)

    def leaves(self, call: Call, device: str | None) -> None:
        """It is sent from this group or station, or ends."""
        if call.left in self.stations:
            self.stations[call.left].gave.discard(call.number)
        call.left = device
        if device in self.stations:
            self.stations[device].gave.add(call.number)

    def take(self, call: Call, device: str) -> None:
        connection, agent = call.connections.pop(device, None), self.agent_at(device)
        if device in self.stations:
            self.stations[device].calls.discard(call.number)
        if connection is None or connection.whose is None:
            return
        group = made(Group, self.groups, connection.whose)
        group.waiting.discard(call)
        group.ringing.discard(call)
        if agent is None or connection.group is None:
            return
        agent.pending = None  # it holds now
        # of two agents who leave one call by one request the lesser number was ready first
        if call.ended and connection.state != "alerting":
            self.leaving[agent.id] = call.ended

    def learn(self, text: Text) -> None:
        """Takes the desk's text of an agent, which the gate reads since no report names the agent's groups."""
        agent = made(Agent, self.agents, text["agent"])
        self.unknown.discard(agent.id)
        if agent.station and agent.station == text.get("device"):
            agent.pending = text.get("pending")
            self.assign_groups(agent, text)
            self.touched.add(agent.id)

    def learn_waits(self, waits: Waits) -> None:
        """Takes over since when callers wait, and where they came from, which a snapshot doesn't say of who was moved
        before."""
        self.waits.made |= waits.made & self.calls.keys()
        for number, wait in waits.calls.items():
            call = self.calls.get(number)
            if call is None or wait.since is None:
                continue
            self.waits.calls[number] = replace(wait)
            if not wait.over:
                call.queued = wait.since
            for device, one in call.connections.items():
                if device in self.stations:
                    self.send(call, one)
            self.mark(call)

    def callers_unknown(self) -> list[int]:
        """The calls whose caller no report named, the newest last."""
        left = ((number, self.calls.get(number)) for number in self.nameless)
        self.nameless = {number: None for number, call in left if call and None in (call.caller, call.called)}
        return list(self.nameless)

    def calls_of(self, agent: Agent) -> list[Call]:
        """The calls at the agent's station."""
        station = self.stations.get(agent.station) if agent.station else None
        return [self.calls[call] for call in sorted(station.calls) if call in self.calls] if station else []

    def sides_of(self, agent: Agent) -> list[Connection]:
        """The connections at the agent's station."""
        return [call.connections[agent.station] for call in self.calls_of(agent) if agent.station in call.connections]

    def logged_on(self) -> dict[str, str]:
        """The agents by their stations."""
        return {station.id: station.agent for station in self.stations.values() if station.agent is not None}

    def is_eligible(self, number: str) -> bool:
        """Whether the desk may offer a call to the agent."""
        agent = self.agents[number]
        return agent.state == "ready" and all(one.state == "fail" for one in self.sides_of(agent))

    def doing(self, agent: Agent) -> Doing:
        """What the agent does: a group's call comes before all else, then one of another caller from outside, then a
        call of the agent's own."""
        here = self.sides_of(agent)
        given = next((one for one in here if one.group), None) or self.customers(agent)
        if given is not None:
            named = {"alerting": "ringing", "hold": "hold"}.get(given.state)
            return Doing(named or "busy", given.since if named or not given.group else agent.since, given.whose)
        own = next((one for one in here if one.state != "fail"), None) if agent.state == "ready" else None
        return Doing("own", own.since) if own else Doing(agent.state, agent.since)

    def customers(self, agent: Agent) -> Connection | None:
        """The call of a caller from outside whom no group gave the agent; one that the agent has comes first."""
        calls = [call for call in self.calls_of(agent) if self.is_customers(call)]
        here = [call.connections[agent.station] for call in calls if agent.station in call.connections]
        order = [one for name in ("connected", "hold", "alerting") for one in here if one.state == name]
        return order[0] if order else None

    def back(self, call: Call, device: str) -> str | None:
        """To whom a call goes back that rings at a station without an offer: to the group it came from, or to the
        colleague, where that one may take it; else to the caller's last group."""
        one, colleague = call.connections[device], self.agent_at(call.left or "")
        if one.state != "alerting" or one.group is not None or not self.is_customers(call):
            return None
        is_free = colleague is not None and colleague.state != "notReady" and not self.sides_of(colleague)
        if call.left in self.groups or call.left != device and is_free:
            return call.left
        return one.sent if one.sent in self.groups else None

    def is_outside(self, call: Call, device: str) -> bool:
        """Whether it is the side of a caller from outside, who has no station."""
        return device == call.caller and device not in self.stations

    def differs(self, other: State) -> None:
        """Marks differences from an earlier state of the same moment: in members that no report names, as the side of
        a caller from outside."""
        for number, agent in self.agents.items():
            was = other.agents.get(number)
            if was is None or was.told() != agent.told():
                self.touched.add(number)
                self.renamed |= was is None or (was.name, was.station) != (agent.name, agent.station)
        for call in self.calls.values():
            before = other.calls.get(call.number)
            if before is None or before.told() != call.told():
                self.mark(call)
        for number, group in self.groups.items():
            old = other.groups.get(number)
            if old is None or old.told() != group.told():
                self.dirty.add(number)
                self.renamed |= old is None or old.name != group.name
        self.renamed |= self.stations.keys() != other.stations.keys()
