"""The desk's switch once more, in Python: what each request answers and reports.

It is written from the rules of the services in docs/MODEL.md's terms and takes nothing from the verified program, so that
tests/office.py can foresee the answers that the program has to give. It keeps plain dictionaries, goes over all
of them for each question and is slow. `Desk` adds the kept replies."""
import json
from dataclasses import dataclass, field, replace

REFUSALS = {
    "unknownDevice": 1, "unknownAgent": 2, "unknownCall": 3, "unknownConnection": 4, "wrongConnectionState": 5,
    "wrongAgentState": 6, "deviceExists": 7, "agentExists": 8, "notStation": 9, "notGroup": 10, "destinationBusy": 11,
    "sameDevice": 12, "stationTaken": 13, "stationBusy": 14, "tooManyCalls": 15, "planFull": 16, "unknownMonitor": 17,
    "callerPlanned": 18,
}
GREATEST = {"requests": 1000000000, "calls": 2000, "groups": 64, "stations": 1000, "agents": 1000, "monitors": 256}
EVENT_OF = {"null": "agentLoggedOff", "notReady": "agentNotReady", "ready": "agentReady", "busy": "agentBusy",
            "workingAfterCall": "agentWorkingAfterCall"}
LIVE = ("initiated", "alerting", "connected")
OCCUPYING = ("initiated", "alerting", "connected", "hold")


class Refused(Exception):
    """A refusal, by its name."""


def refuse_if(holds, name):
    if holds:
        raise Refused(name)


def order(digits):
    """The number of a device or an agent, by which they are ordered."""
    return int("1" + digits)


@dataclass
class Group:
    name: str
    ring: int
    wrap: int
    priority: int = 0
    entered: int = 0
    answered: int = 0
    abandoned: int = 0
    moved: int = 0
    waited: int = 0


@dataclass
class Agent:
    name: str
    stamp: int
    since: int
    state: str = "null"
    pending: str = None
    station: str = None
    groups: list = field(default_factory=list)  # in their order


@dataclass
class Connection:
    state: str
    group: str = None  # where it is queued, or from which it was distributed
    place: int = None
    queued: int = None
    offered: int = None


@dataclass
class Call:
    caller: str
    called: str
    since: int
    connections: dict = field(default_factory=dict)  # by device


@dataclass
class Monitor:
    device: str
    after: int


class Switch:
    def __init__(self, limits=None):
        self.limits = {**GREATEST, **(limits or {})}
        self.groups, self.stations, self.agents, self.calls, self.monitors = {}, set(), {}, {}, {}
        self.stamp = self.moment = self.last_call = self.last_monitor = 0
        self.events = []

    # what is asked of the state

    def planned(self, device):
        return device in self.groups or device in self.stations

    def at(self, device):
        """The connections at a device."""
        return [call.connections[device] for call in self.calls.values() if device in call.connections]

    def live_at(self, station):
        return any(connection.state in LIVE for connection in self.at(station))

    def idle(self, station):
        return not any(connection.state in OCCUPYING for connection in self.at(station))

    def agent_at(self, station):
        return next((agent for agent, record in self.agents.items() if record.station == station), None)

    def distributed(self, device, connection):
        return device in self.stations and connection.group is not None

    def occupied(self, agent):
        station = self.agents[agent].station
        return station is not None and any(self.distributed(station, connection) for connection in self.at(station))

    def waiting(self, group):
        """Place and number of the calls that are queued at the group, by place."""
        return sorted((call.connections[group].place, number) for number, call in self.calls.items()
                      if group in call.connections and call.connections[group].state == "queued")

    def eligible(self, group):
        """Stamp, number and name of the agents to whom a call of the group may be offered, the longest ready first."""
        return sorted((record.stamp, order(agent), agent) for agent, record in self.agents.items()
                      if group in record.groups and record.state == "ready" and not self.occupied(agent)
                      and self.idle(record.station))

    # what changes it

    def report(self, event, **members):
        members = {name: value for name, value in members.items() if value is not None}
        self.events.append({"event": event, "moment": self.moment, "number": len(self.events) + 1, **members})
        group = members.get("group")
        if event == "queued" and members["cause"] != "noAnswer":
            self.groups[members["device"]].entered += 1
        elif event == "established" and group:
            self.groups[group].answered += 1
            self.groups[group].waited += members["waited"]
        elif event == "callCleared" and group:
            self.groups[group].abandoned += 1
        elif event == "diverted" and group and members["cause"] == "deflected":
            self.groups[group].moved += 1

    def become(self, agent, state):
        """The agent's new state, from this request on, with its report."""
        record = self.agents[agent]
        record.state, record.stamp, record.since = state, self.stamp, self.moment
        station = record.station
        if state == "null":
            record.station, record.groups = None, []
        self.report(EVENT_OF[state], agent=agent, device=station)

    def release(self, device, connection, how):
        """What a distributed connection's end makes of the agent; how: answered, unanswered or noAnswer."""
        if not self.distributed(device, connection):
            return
        agent = self.agent_at(device)
        record = self.agents[agent]
        pending, record.pending = record.pending, None
        if how == "unanswered" and pending in (None, "ready"):
            return
        if pending is None or (how == "noAnswer" and pending == "ready"):
            state = {"answered": "workingAfterCall", "noAnswer": "notReady"}[how]
        else:
            state = "null" if pending == "loggedOff" else pending
        self.become(agent, state)

    @staticmethod
    def ending(connection):
        return "unanswered" if connection.state == "alerting" else "answered"

    def arrive(self, number, device, cause):
        """The call comes to its destination."""
        connections = self.calls[number].connections
        if device in self.groups:
            connections[device] = Connection("queued", device, self.stamp, self.moment)
            self.report("queued", device=device, call=number, cause=cause)
        elif self.idle(device):
            connections[device] = Connection("alerting")
            self.report("delivered", device=device, call=number, cause=cause)
        else:
            connections[device] = Connection("fail")
            self.report("failed", device=device, call=number, cause="busy")

    def new_call(self, device, state, called):
        self.last_call += 1
        self.calls[self.last_call] = Call(device, called, self.moment, {device: Connection(state)})
        return self.last_call

    def found(self, number, device):
        refuse_if(number not in self.calls, "unknownCall")
        call = self.calls[number]
        refuse_if(device not in call.connections, "unknownConnection")
        return call, call.connections[device]

    def check_destination(self, call, to):
        refuse_if(not self.planned(to), "unknownDevice")
        refuse_if(to in call.connections, "sameDevice")
        refuse_if(to in self.stations and not self.idle(to), "destinationBusy")

    # the services

    def add_group(self, device, name, ring, wrap):
        self.check_device(device, "groups")
        self.groups[device] = Group(name, ring, wrap)

    def add_station(self, device):
        self.check_device(device, "stations")
        self.stations.add(device)

    def check_device(self, device, kind):
        callers = {call.caller for call in self.calls.values()}
        refuse_if(self.planned(device) or device in callers, "deviceExists")
        refuse_if(len(getattr(self, kind)) >= self.limits[kind], "planFull")

    def add_agent(self, agent, name):
        refuse_if(agent in self.agents, "agentExists")
        refuse_if(len(self.agents) >= self.limits["agents"], "planFull")
        self.agents[agent] = Agent(name, self.stamp, self.moment)

    def arrive_call(self, caller, called):
        refuse_if(self.planned(caller), "callerPlanned")
        refuse_if(not self.planned(called), "unknownDevice")
        refuse_if(len(self.calls) >= self.limits["calls"], "tooManyCalls")
        number = self.new_call(caller, "connected", called)
        self.arrive(number, called, "newCall")
        return {"call": number}

    def make_call(self, device, called):
        refuse_if(not self.planned(device), "unknownDevice")
        refuse_if(device not in self.stations, "notStation")
        refuse_if(not self.planned(called), "unknownDevice")
        refuse_if(called == device, "sameDevice")
        refuse_if(self.live_at(device), "stationBusy")
        refuse_if(len(self.calls) >= self.limits["calls"], "tooManyCalls")
        number = self.new_call(device, "initiated", called)
        self.report("serviceInitiated", device=device, call=number)
        return {"call": number}

    def phone_off_hook(self, call, device):
        record, connection = self.found(call, device)
        refuse_if(connection.state != "initiated", "wrongConnectionState")
        connection.state = "connected"
        self.report("originated", device=device, call=call, to=record.called)
        self.arrive(call, record.called, "newCall")

    def answer_call(self, call, device):
        _, connection = self.found(call, device)
        refuse_if(connection.state != "alerting", "wrongConnectionState")
        connection.state = "connected"
        if not self.distributed(device, connection):
            self.report("established", device=device, call=call)
            return
        self.report("established", device=device, call=call, group=connection.group,
                    waited=self.moment - connection.queued)
        connection.place = connection.queued = connection.offered = None
        self.become(self.agent_at(device), "busy")

    def hold_call(self, call, device):
        _, connection = self.found(call, device)
        refuse_if(device not in self.stations, "notStation")
        refuse_if(connection.state != "connected", "wrongConnectionState")
        connection.state = "hold"
        self.report("held", device=device, call=call)

    def retrieve_call(self, call, device):
        _, connection = self.found(call, device)
        refuse_if(connection.state != "hold", "wrongConnectionState")
        refuse_if(self.live_at(device), "stationBusy")
        connection.state = "connected"
        self.report("retrieved", device=device, call=call)

    def clear_connection(self, call, device):
        record, _ = self.found(call, device)
        ended = sorted(record.connections.items(), key=lambda end: end[0] != device)
        group = next((connection.group for _, connection in ended if connection.state in ("queued", "alerting")), None)
        for end, _ in ended:
            self.report("connectionCleared", device=end, call=call)
        self.report("callCleared", call=call, group=group)
        for end, connection in ended:
            del record.connections[end]
            self.release(end, connection, self.ending(connection))
        del self.calls[call]

    def deflect_call(self, call, device, to):
        record, connection = self.found(call, device)
        refuse_if(connection.state not in ("alerting", "queued"), "wrongConnectionState")
        self.check_destination(record, to)
        del record.connections[device]
        self.report("diverted", device=device, call=call, to=to, cause="deflected", group=connection.group)
        self.arrive(call, to, "deflected")
        self.release(device, connection, "unanswered")

    def single_step_transfer(self, call, device, to):
        record, connection = self.found(call, device)
        refuse_if(device not in self.stations, "notStation")
        others = [other.state for end, other in record.connections.items() if end != device]
        refuse_if(connection.state != "connected" or others not in (["connected"], ["hold"]), "wrongConnectionState")
        self.check_destination(record, to)
        del record.connections[device]
        self.report("transferred", device=device, call=call, to=to)
        self.arrive(call, to, "transferred")
        self.release(device, connection, "answered")

    def set_agent_state(self, agent, requested, device=None, groups=None):
        refuse_if(agent not in self.agents, "unknownAgent")
        record = self.agents[agent]
        refuse_if((record.state == "null") != (requested == "loggedOn"), "wrongAgentState")
        if requested == "loggedOn":
            self.log_on(agent, device, groups)
        elif self.occupied(agent):
            record.pending = requested
            return {"pending": requested, "state": record.state}
        elif requested != record.state:
            self.become(agent, "null" if requested == "loggedOff" else requested)
        return {"state": record.state}

    def log_on(self, agent, device, groups):
        refuse_if(not self.planned(device), "unknownDevice")
        refuse_if(device not in self.stations, "notStation")
        refuse_if(self.agent_at(device) is not None, "stationTaken")
        for group in groups:
            refuse_if(not self.planned(group), "unknownDevice")
            refuse_if(group not in self.groups, "notGroup")
        record = self.agents[agent]
        record.state, record.station, record.groups = "notReady", device, groups
        record.stamp, record.since = self.stamp, self.moment
        self.report("agentLoggedOn", agent=agent, device=device, group=groups[0] if len(groups) == 1 else None)

    def set_group_priority(self, device, priority):
        refuse_if(not self.planned(device), "unknownDevice")
        refuse_if(device not in self.groups, "notGroup")
        self.groups[device].priority = priority

    def change_group(self, device, name, ring, wrap):
        refuse_if(not self.planned(device), "unknownDevice")
        refuse_if(device not in self.groups, "notGroup")
        group = self.groups[device]
        group.name, group.ring, group.wrap = name, ring, wrap

    def change_agent(self, agent, name):
        refuse_if(agent not in self.agents, "unknownAgent")
        self.agents[agent].name = name

    def monitor_start(self, device):
        refuse_if(not self.planned(device), "unknownDevice")
        refuse_if(len(self.monitors) >= self.limits["monitors"], "planFull")
        self.last_monitor += 1
        self.monitors[self.last_monitor] = Monitor(device, len(self.events))
        return {"monitor": self.last_monitor}

    def monitor_stop(self, monitor):
        refuse_if(monitor not in self.monitors, "unknownMonitor")
        del self.monitors[monitor]

    def offers(self):
        """Number, station and connection of the offers, by call number."""
        return [(number, device, connection) for number, call in sorted(self.calls.items())
                for device, connection in call.connections.items()
                if connection.state == "alerting" and self.distributed(device, connection)]

    def overdue(self):
        """Those that have rung for the ring time."""
        return [offer for offer in self.offers() if 0 < self.groups[offer[2].group].ring <= self.moment - offer[2].offered]

    def take_back(self, number, device, connection):
        """An offered call goes back to its place in its group's queue."""
        connections, group = self.calls[number].connections, connection.group
        del connections[device]
        self.report("diverted", device=device, call=number, to=group, cause="noAnswer", group=group)
        connections[group] = Connection("queued", group, connection.place, connection.queued)
        self.report("queued", device=group, call=number, cause="noAnswer")
        self.release(device, connection, "noAnswer")

    def reject_call(self, call, device):
        _, connection = self.found(call, device)
        is_offered = connection.state == "alerting" and self.distributed(device, connection)
        refuse_if(not is_offered, "wrongConnectionState")
        self.take_back(call, device, connection)

    def working(self):
        """The agents in after-call work."""
        return [agent for agent, record in self.agents.items() if record.state == "workingAfterCall"]

    def tick(self):
        for number, device, connection in self.overdue():
            self.take_back(number, device, connection)
        for agent in sorted(self.working(), key=order):
            record = self.agents[agent]
            if 0 < self.groups[record.groups[0]].wrap <= self.moment - record.since:
                self.become(agent, "ready")

    def open_groups(self):
        """The groups where a call waits and an agent is eligible."""
        return [group for group in self.groups if self.waiting(group) and self.eligible(group)]

    def distribute(self):
        while open_groups := self.open_groups():
            group = min(open_groups, key=lambda each: (-self.groups[each].priority, order(each)))
            number, agent = self.waiting(group)[0][1], self.eligible(group)[0][2]
            station, connections = self.agents[agent].station, self.calls[number].connections
            connections[station] = replace(connections.pop(group), state="alerting", offered=self.moment)
            self.report("diverted", device=group, call=number, to=station, cause="distributed", group=group)
            self.report("delivered", device=station, call=number, cause="distributed", group=group)

    SERVICES = {
        "addGroup": add_group, "addStation": add_station, "addAgent": add_agent, "arriveCall": arrive_call,
        "makeCall": make_call, "phoneOffHook": phone_off_hook, "answerCall": answer_call, "holdCall": hold_call,
        "retrieveCall": retrieve_call, "clearConnection": clear_connection, "deflectCall": deflect_call,
        "singleStepTransfer": single_step_transfer, "setAgentState": set_agent_state, "monitorStart": monitor_start,
        "monitorStop": monitor_stop, "tick": tick, "setGroupPriority": set_group_priority,
        "rejectCall": reject_call, "changeGroup": change_group, "changeAgent": change_agent,
    }

    def step(self, moment, service, members):
        """Executes a request: its result, or the name of its refusal."""
        self.stamp += 1
        self.moment = max(self.moment, moment)
        try:
            answer = self.SERVICES[service](self, **members) or {}
        except Refused as refusal:
            return str(refusal)
        self.distribute()
        return answer


def understood(service, members):
    """The members of a request, where a log-on has its groups in their order, whichever way it names them."""
    if service != "setAgentState" or members["requested"] != "loggedOn":
        return members
    groups = [members["group"]] if "group" in members else members["groups"]
    rest = {name: value for name, value in members.items() if name not in ("group", "groups")}
    return {**rest, "groups": sorted(groups, key=order)}


def compact(value):
    return json.dumps(value, separators=(",", ":"), sort_keys=True)


def error(name, code, **key):
    return compact({"error": {"code": code, "name": name}, **key})


class Desk:
    """Kept replies before the switch. The answers are lines."""

    def __init__(self, limits=None):
        self.switch, self.kept = Switch(limits), {}

    def take(self, moment, requester, invoke, service, **members):
        members = understood(service, members)
        key, request = (requester, invoke), (service, members)
        if key in self.kept:
            first, reply = self.kept[key]
            reused = "422 " + error("invokeReused", 31, invoke=invoke, requester=requester)
            return reply if first == request else reused
        if self.switch.stamp >= self.switch.limits["requests"]:
            return "507 " + error("deskFull", 32, invoke=invoke, requester=requester)
        outcome = self.switch.step(moment, service, members)
        if isinstance(outcome, str):
            reply = "409 " + error(outcome, REFUSALS[outcome], invoke=invoke, requester=requester)
        else:
            reply = "200 " + compact({"invoke": invoke, "requester": requester, "result": outcome})
        self.kept[key] = request, reply
        return reply
