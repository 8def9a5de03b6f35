#!/usr/bin/python3
"""A day in an office of working size, and a morning in a small one: input lines for `acd lines`, and what has to come.

usage: office.py given | wanted | seen | try [PROGRAM] | limits [PROGRAM]

given prints the day's input lines, wanted its answer lines and then all event reports, seen how often each situation came
up. 12 groups of three priorities, 40 stations, 40 agents of one to eight groups, some 60 live calls, 3000 requests of eight
requesters; then 300 repeats, other requests under keys that are used, and a last call. try has PROGRAM (release/acd) answer
the day over memory and over a file, and export the file's event reports: it counts the lines that weren't foreseen.
limits tries PROGRAM with as many of everything as there may be (tests/limits.py), over memory, files and HTTP. The morning
is played by tests/trials/try-scenes.
What has to come is foreseen by tests/switch.py, which knows nothing of the verified program. The same lines come at each run."""
import json
import random
import subprocess
import sys
import tempfile
from collections import Counter, defaultdict, namedtuple
from pathlib import Path

import limits
import tables
from switch import REFUSALS, Desk, compact

GROUPS = [("100", 20, 30), ("101", 20, 30), ("0100", 15, 20), ("110", 30, 45), ("9", 20, 0), ("120", 0, 30), ("00", 25, 40),
          ("900000000000001", 20, 30), ("900000000000002", 12, 15), ("130", 40, 60), ("140", 20, 30), ("999999999999999", 0, 0)]
STATIONS = ([f"2{n:02}" for n in range(1, 25)] + [f"02{n:02}" for n in range(1, 9)]
            + [f"30000000000000{n}" for n in range(4)] + ["7", "07", "007", "77"])
AGENTS = ([str(n) for n in range(1, 21)] + [f"0{n}" for n in range(1, 11)] + [f"90000000{n}" for n in range(8)]
          + ["000000000", "999999999"])
STATES = ["notReady", "ready", "workingAfterCall", "loggedOff"]
PLANNER, EXCHANGE, CLOCK, WATCHER = (f"{name}-of-the-help-line-office" for name in ("planning", "exchange", "the-time", "watchers"))
DESKS = [f"help-line-office-of-the-city-00{n}" for n in range(1, 5)]
# what has to come up, and how often at least
WANTED = {"tick with several overdue offers": 8, "several offers after one request": 15, "several offers, not after tick": 3,
          "queued call deflected": 30, "offered call deflected": 30, "offered call deflected to its own group": 5,
          "call transferred": 30, "private call answered": 20, "two agents released": 1, "state pending": 20, "call abandoned": 20,
          "call failed": 10, "monitorStart": 20, "monitorStop": 10, "moment before the last": 20,
          "rejectCall": 10, "rejected call offered at once": 3, "changeGroup": 20, "changeAgent": 20}
MIXED = {"log-on in several groups": 20, "log-on in eight groups": 5, "log-on with both members": 3, "setGroupPriority": 20,
         "offer of a group of higher priority": 20, "repeat in another order": 5}
UNREACHED = {"tooManyCalls", "planFull"}  # the limits are greater than this office

# an office and how long it is watched: wanted is what has to come up, and named the refusals that have to
# mixed: its agents serve several groups, of three priorities
Size = namedtuple("Size", "seed requests repeats reused live_calls wild signs groups stations agents wanted named mixed")
DAY = Size(3004, 3000, 300, 10, 60, 3, "\"\\", GROUPS, STATIONS, AGENTS, WANTED | MIXED, set(REFUSALS) - UNREACHED, True)
SELDOM = {"rejected call offered at once": 0}  # where so few agents are ready
MORNING = Size(543, 300, 5, 2, 8, 8, "'/", GROUPS[2:6], STATIONS[::5], AGENTS[::5], dict.fromkeys(WANTED, 1) | SELDOM, DAY.named, False)
PRIORITIES = [0, 5, 9]
RELEASE = Path(__file__).resolve().parent.parent / "release/acd"


class Office:
    def __init__(self, size, desk=None):
        """Over the plain switch unless another desk is given."""
        self.size, self.rng = size, random.Random(size.seed)
        self.group_names, self.station_names, self.agent_names = [each[0] for each in size.groups], size.stations, size.agents
        self.desk = desk or Desk()
        self.switch = self.desk.switch
        self.now, self.given, self.wanted, self.made, self.asked, self.seen = 0, [], [], [], [], Counter()
        self.invokes = dict.fromkeys([PLANNER, EXCHANGE, CLOCK, WATCHER, *DESKS], 0)
        self.pace, self.known_at, self.known = 1, None, {}

    # lines

    def invoke(self, requester):
        self.invokes[requester] += 1
        count = self.invokes[requester]
        return {DESKS[3]: 1000000000 - count, WATCHER: 123456789 + 7 * count}.get(requester, count)

    def line(self, moment, request):
        """The request's text: mostly its members in order, at times with spaces, others members or another order."""
        if self.rng.random() < 0.85:
            return f"{moment} {json.dumps(request, separators=(',', ':'))}"
        members = list(request.items())
        self.rng.shuffle(members)
        text = json.dumps(dict([("note", [1, {"to": None}]), *members]), indent=self.rng.choice([None, 0])).replace("\n", " ")
        return f"{moment:010} {text}"

    def send(self, moment, requester, invoke, service, members):
        request = {"requester": requester, "invoke": invoke, "service": service, **members}
        known = len(self.switch.events)
        self.given.append(self.line(moment, request))
        self.wanted.append(self.desk.take(moment, requester, invoke, service, **members))
        self.made.append(self.switch.events[known:])

    def ask(self, requester, service, **members):
        """A new request, a while after the last one; at times it is late, with a moment before the last."""
        if self.rng.random() < 0.4:
            self.now += self.rng.randrange(1, 4)
        late = self.rng.random() < 0.03
        moment = max(0, self.now - 5) if late else self.now
        known, before = len(self.switch.events), self.switch.moment
        invoke = self.invoke(requester)
        if service == "tick" and len(self.switch_overdue(moment)) > 1:
            self.seen["tick with several overdue offers"] += 1
        self.send(moment, requester, invoke, service, members)
        self.asked.append((requester, invoke, service, members))
        self.seen["moment before the last"] += moment < before
        self.watch(service, json.loads(self.wanted[-1][4:]), self.switch.events[known:])

    def switch_overdue(self, moment):
        switch, kept = self.switch, self.switch.moment
        switch.moment = max(switch.moment, moment)
        overdue = switch.overdue()
        switch.moment = kept
        return overdue

    def watch(self, service, reply, events):
        """Counts what came up."""
        if "error" in reply:
            self.seen[reply["error"]["name"]] += 1
            return
        self.seen[service] += 1
        self.watch_groups(events)
        self.seen["state pending"] += "pending" in reply["result"]
        offers = sum(event["event"] == "delivered" and event["cause"] == "distributed" for event in events)
        self.seen["several offers after one request"] += offers > 1
        self.seen["several offers, not after tick"] += offers > 1 and service != "tick"
        first = events[0] if events else {"event": None}
        if service == "deflectCall":
            offered = first["device"] in self.switch.stations and "group" in first
            self.seen["offered call deflected"] += offered
            self.seen["offered call deflected to its own group"] += offered and first["group"] == first["to"]
            self.seen["queued call deflected"] += first["device"] in self.switch.groups
        self.seen["rejected call offered at once"] += service == "rejectCall" and offers > 0
        self.seen["call transferred"] += first["event"] == "transferred"
        self.seen["private call answered"] += first["event"] == "established" and "group" not in first
        names = Counter(event["event"] for event in events)
        self.seen["two agents released"] += service == "clearConnection" and names["agentWorkingAfterCall"] == 2
        self.seen["call abandoned"] += any(event["event"] == "callCleared" and "group" in event for event in events)
        self.seen["call failed"] += names["failed"] > 0

    def watch_groups(self, events):
        """Counts what comes up in a mixed office alone."""
        members = self.asked[-1][3]
        groups = members.get("groups", [])
        self.seen["log-on in several groups"] += len(groups) > 1 and "group" not in members
        self.seen["log-on in eight groups"] += len(groups) == 8 and "group" not in members
        self.seen["log-on with both members"] += "group" in members and "groups" in members
        for event in events:
            if event["event"] == "delivered" and event["cause"] == "distributed":
                served = self.switch.agents[self.switch.agent_at(event["device"])].groups
                least = min(self.switch.groups[group].priority for group in served)
                self.seen["offer of a group of higher priority"] += self.switch.groups[event["group"]].priority > least

    # what is there to act on

    def ends(self):
        """By its state each connection's place among all, its call and device, and whether it was distributed: gone over once behind each executed request."""
        if self.known_at != self.switch.stamp:
            self.known_at, self.known = self.switch.stamp, defaultdict(list)
            all_ends = ((number, device, connection) for number, call in self.switch.calls.items() for device, connection in call.connections.items())
            for place, (number, device, connection) in enumerate(all_ends):
                self.known[connection.state].append((place, (number, device), self.switch.distributed(device, connection)))
        return self.known

    def connections(self, *states, distributed=None):
        """Call and device of the connections in these states."""
        known = self.ends()
        found = known[states[0]] if len(states) == 1 else sorted(one for state in states for one in known[state])
        return [end for _, end, is_distributed in found if distributed in (None, is_distributed)]

    def agents(self, *states):
        return [agent for agent, record in self.switch.agents.items() if record.state in states]

    def at_stations(self, *states):
        return [end for end in self.connections(*states) if end[1] in self.switch.stations]

    def free_stations(self):
        """Those with no agent, or all."""
        return [station for station in self.station_names if self.switch.agent_at(station) is None] or self.station_names

    def idle_stations(self):
        return [station for station in self.station_names if self.switch.idle(station)]

    def desk_name(self):
        return self.rng.choice(DESKS)

    def pick(self, *lists):
        """One out of a list, the first list that has any."""
        return self.rng.choice(next(each for each in lists if each))

    # requests

    def open(self):
        quote, slash = self.size.signs
        for device, ring, wrap in self.size.groups:
            name = f"Group {device} {quote}of{quote} the help line"[:40]
            self.ask(PLANNER, "addGroup", device=device, name=name, ring=ring, wrap=wrap)
        if self.size.mixed:
            for place, device in enumerate(self.group_names):
                self.ask(PLANNER, "setGroupPriority", device=device, priority=PRIORITIES[place % 3])
        for station in self.station_names:
            self.ask(PLANNER, "addStation", device=station)
        for agent in self.agent_names:
            self.ask(PLANNER, "addAgent", agent=agent, name=f"Agent {agent} {slash} of the help line office {slash}"[:40])
        for place, (agent, station) in enumerate(zip(self.rng.sample(self.agent_names, len(self.agent_names)), self.station_names)):
            self.ask(self.desk_name(), "setAgentState", agent=agent, requested="loggedOn", device=station,
                     **self.serving(self.group_names[place % len(self.group_names)]))
            if place % 3 == 0:
                self.set_state(agent, "ready")

    def set_state(self, agent, requested):
        members = {}
        if requested == "loggedOn":
            members = {"device": self.place(self.free_stations()), **self.serving(self.place(self.group_names))}
        self.ask(self.desk_name(), "setAgentState", agent=agent, requested=requested, **members)

    def serving(self, device):
        """The members that name this group; in a mixed office at times with up to seven others, in any order."""
        if not self.size.mixed or self.rng.random() < 0.3:
            return {"group": device}
        others = [group for group in self.group_names if group != device]
        groups = [device, *self.rng.sample(others, self.rng.choice([0, 1, 2, 3, min(7, len(others))]))]
        self.rng.shuffle(groups)
        return {"groups": groups} if self.rng.random() < 0.9 else {"group": device, "groups": groups}

    def set_priority(self, device):
        self.ask(PLANNER, "setGroupPriority", device=device, priority=self.rng.choice(PRIORITIES))

    def change_group(self, device):
        self.ask(PLANNER, "changeGroup", device=device, name=f"Group {device}, {self.now}"[:40],
                 ring=self.rng.choice([0, 5, 15, 20, 40]), wrap=self.rng.choice([0, 1, 20, 30, 60]))

    def change_agent(self, agent):
        self.ask(PLANNER, "changeAgent", agent=agent, name=f"Agent {agent}, {self.now}"[:40])

    def place(self, devices):
        """One of these devices; at times one of the other kind."""
        return self.rng.choice(devices if self.rng.random() < 0.9 else [self.station_names[0], self.group_names[0]])

    def arrive(self):
        caller = f"03{self.rng.randrange(500):07}"
        called = self.rng.choice(self.group_names) if self.rng.random() < 0.93 else self.rng.choice(self.station_names)
        self.ask(EXCHANGE, "arriveCall", caller=caller, called=called)

    def make_call(self):
        device = self.pick([station for station in self.station_names if not self.switch.live_at(station)], self.station_names)
        called = self.pick(self.idle_stations(), self.station_names) if self.rng.random() < 0.5 else self.rng.choice(self.group_names)
        self.ask(self.desk_name(), "makeCall", device=device, called=called)

    def destination(self, own=None):
        """Where a call is given to: back to where it came from, some group or some station."""
        chance = self.rng.random()
        if own and chance < 0.2:
            return own
        if chance < 0.6:
            return self.rng.choice(self.group_names)
        return self.pick(self.idle_stations(), self.station_names) if chance < 0.9 else self.rng.choice(self.station_names)

    def deflect(self, end):
        own = self.switch.calls[end[0]].connections[end[1]].group
        self.ask(self.desk_name(), "deflectCall", call=end[0], device=end[1], to=self.destination(own))

    def transfer(self, end):
        call = self.switch.calls[end[0]]
        back = call.caller if self.switch.planned(call.caller) else call.called
        self.ask(self.desk_name(), "singleStepTransfer", call=end[0], device=end[1], to=self.destination(back))

    def beside_agents(self):
        """The ends at stations of calls whose other end was distributed and answered."""
        answered = defaultdict(list)
        for call, station in self.connections("connected", "hold", distributed=True):
            answered[call].append(station)
        return [(call, device) for call, device in self.at_stations("connected") if any(station != device for station in answered[call])]

    def transfer_to_group(self, end):
        to = self.pick([group for group in self.group_names if self.switch.eligible(group)], self.group_names)
        self.ask(self.desk_name(), "singleStepTransfer", call=end[0], device=end[1], to=to)

    def act(self, service):
        return lambda end: self.ask(self.desk_name(), service, call=end[0], device=end[1])

    def clear(self, end):
        self.ask(EXCHANGE, "clearConnection", call=end[0], device=end[1])

    def tick(self):
        self.now += self.rng.choice([0, 1, 5, 12, 25, 30])
        self.ask(CLOCK, "tick")

    def any_device(self):
        """A planned device, a number that nobody has, or an outside caller's."""
        callers = [call.caller for call in self.switch.calls.values()]
        return self.rng.choice(self.group_names + self.rng.sample(self.station_names, min(12, len(self.station_names))) + ["5", "031234567890123"] + callers[:3])

    def any_end(self):
        """A call and a device: mostly a live call, and mostly one of its own devices."""
        others = [self.switch.last_call + 1, 1, 1000000000]
        call = self.rng.choice(list(self.switch.calls) if self.switch.calls and self.rng.random() < 0.8 else others)
        ends = list(self.switch.calls[call].connections) if call in self.switch.calls else []
        return call, self.rng.choice(ends) if ends and self.rng.random() < 0.6 else self.any_device()

    def wild_plan(self):
        device = self.any_device()
        if not self.switch.planned(device) and device.startswith(("5", "0312")):
            device = self.group_names[0]  # the plan stays as it is
        ring, wrap = self.rng.choice([0, 20, 3600]), self.rng.choice([0, 30])
        agent = self.rng.choice(self.agent_names)
        return self.rng.choice([("addGroup", {"device": device, "name": " ", "ring": ring, "wrap": wrap}),
                                ("addStation", {"device": device}), ("addAgent", {"agent": agent, "name": "~"}),
                                ("changeGroup", {"device": self.any_device(), "name": "~", "ring": ring, "wrap": wrap}),
                                ("changeAgent", {"agent": self.rng.choice([agent, "5555"]), "name": " "})])

    def wild_agent(self):
        agent = self.rng.choice(self.agent_names) if self.rng.random() < 0.8 else "5555"
        away = self.pick(self.agents("null"), self.agent_names)
        station = self.rng.choice(self.free_stations() if self.rng.random() < 0.6 else self.station_names)
        group = self.rng.choice([self.any_device(), self.rng.choice(self.station_names)])
        return "setAgentState", self.rng.choice([
            {"agent": agent, "requested": self.rng.choice(STATES)},
            {"agent": agent, "requested": "loggedOn", "device": self.any_device(), **self.serving(self.any_device())},
            {"agent": away, "requested": "loggedOn", "device": station, **self.serving(group)},
        ])

    def wild_call(self):
        call, device = self.any_end()
        to = self.any_device() if self.rng.random() < 0.8 else self.any_end()[1]
        service = self.rng.choice(["phoneOffHook", "answerCall", "holdCall", "retrieveCall", "deflectCall", "singleStepTransfer", "rejectCall"])
        given = {"to": to} if service in ("deflectCall", "singleStepTransfer") else {}
        return service, {"call": call, "device": device, **given}

    def wild_other(self):
        monitor = self.rng.choice([1, 1000000000, self.switch.last_monitor + 1])
        others = [("setGroupPriority", {"device": self.any_device(), "priority": self.rng.choice(PRIORITIES)})] if self.size.mixed else []
        return self.rng.choice(others + [
            ("arriveCall", {"caller": self.any_device(), "called": self.any_device()}),
            ("makeCall", {"device": self.any_device(), "called": self.any_device()}),
            ("clearConnection", {"call": self.any_end()[0], "device": self.any_device()}),
            ("monitorStart", {"device": self.any_device()}), ("monitorStop", {"monitor": monitor}),
        ])

    def wild(self):
        """A request with members out of the blue, which is mostly refused."""
        ways = [self.wild_plan, self.wild_agent, self.wild_call, self.wild_call, self.wild_other]
        service, members = self.rng.choice(ways)()
        self.ask(self.rng.choice([PLANNER, EXCHANGE, WATCHER, *DESKS]), service, **members)

    def ways(self):
        """Weight, request and what it may act on. The pace decides how soon calls that ring are answered."""
        own_calls = [end for end in self.connections("connected") if end[1] not in self.switch.stations]
        beside, answered = self.beside_agents(), set(self.connections("connected", distributed=True))
        return [
            (6 * self.pace, self.act("answerCall"), self.connections("alerting", distributed=True)),
            (4, self.act("answerCall"), self.connections("alerting", distributed=False)),
            (1, self.act("rejectCall"), self.connections("alerting", distributed=True)),
            (4, self.act("phoneOffHook"), self.connections("initiated")),
            (3, self.act("holdCall"), self.at_stations("connected")), (3, self.act("retrieveCall"), self.connections("hold")),
            (2, self.clear, own_calls), (3, self.clear, self.at_stations("connected", "hold")),
            (2, self.clear, self.connections("fail")),
            (1, self.clear, self.connections("queued")), (1, self.clear, self.connections("alerting")),
            (2, self.deflect, self.connections("queued")), (3, self.deflect, self.connections("alerting")),
            (3, self.transfer, self.at_stations("connected")), (6, self.transfer_to_group, beside),
            (4, self.clear, [end for end in beside if end in answered]),
            (5, lambda agent: self.set_state(agent, "ready"), self.agents("notReady", "workingAfterCall")),
            (2, lambda agent: self.set_state(agent, self.rng.choice(STATES)), self.agents("ready", "busy")),
            (2, lambda agent: self.set_state(agent, self.rng.choice(STATES)), self.agents("notReady", "workingAfterCall")),
            (6, lambda agent: self.set_state(agent, "loggedOn"), self.agents("null")),
            (2, lambda _: self.make_call(), [None]), (self.size.wild, lambda _: self.wild(), [None]), (2, lambda _: self.tick(), [None]),
            (0.3, self.act("holdCall"), self.connections("queued")), (0.3, self.transfer, self.connections("queued")),
            (1, lambda device: self.ask(WATCHER, "monitorStart", device=device), self.station_names),
            (1, lambda monitor: self.ask(WATCHER, "monitorStop", monitor=monitor), list(self.switch.monitors)),
            (1, self.set_priority, self.group_names if self.size.mixed else []),
            (1, self.change_group, self.group_names), (1, self.change_agent, self.agent_names),
        ]

    def work(self):
        """One request of the day."""
        if self.rng.random() < 0.01:
            self.pace = self.rng.choice([0, 1, 2])
        if self.rng.random() < 0.01:
            self.repeat()
        if len(self.switch.calls) < self.size.live_calls and self.rng.random() < 0.6:
            return self.arrive()
        ways = [way for way in self.ways() if way[2]]
        _, request, things = self.rng.choices(ways, [way[0] for way in ways])[0]
        return request(self.rng.choice(things))

    def repeat(self, service=None):
        """A request of before once more, at some moment; or another service under its key."""
        requester, invoke, first, members = self.rng.choice([each for each in self.asked if each[2] != service])
        moment = self.rng.randrange(2 * self.now)
        members = {} if service else self.reordered(members)
        self.send(moment, requester, invoke, service or first, members)

    def reordered(self, members):
        """The same request, with its groups in another order."""
        if "groups" not in members:
            return members
        groups = self.rng.sample(members["groups"], len(members["groups"]))
        self.seen["repeat in another order"] += groups != members["groups"]
        return {**members, "groups": groups}

    def check(self):
        """Refuses a day on which something didn't come up."""
        rare = {what: self.seen[what] for what, least in self.size.wanted.items() if self.seen[what] < least}
        rare |= {name: 0 for name in self.size.named if self.seen[name] == 0}
        if rare:
            sys.exit(f"too seldom: {rare}")

    def day(self):
        self.open()
        while len(self.asked) < self.size.requests:
            self.work()
        for _ in range(self.size.repeats):
            self.repeat()
        for _ in range(self.size.reused):
            self.repeat("tick")
        self.ask(EXCHANGE, "arriveCall", caller="0301234", called="100")  # the small office has no such group
        self.check()
        return self


def tried(office, program):
    """How many lines the program writes otherwise than foreseen."""
    def wrong(words, wanted):
        given = "".join(line + "\n" for line in office.given) if words[0] == "lines" else ""
        ran = subprocess.run([program, *words], input=given, capture_output=True, text=True, check=True)
        found = ran.stdout.splitlines()
        return abs(len(found) - len(wanted)) + sum(one != other for one, other in zip(found, wanted))

    with tempfile.TemporaryDirectory() as folder:
        file = ["--file", f"{folder}/desk.db"]
        return wrong(["lines"], office.wanted) + wrong(["lines", *file], office.wanted) + wrong(["export", *file], tables.export(office.switch).splitlines())


def main():
    what, rest = sys.argv[1:2], sys.argv[2:]
    if what == ["given"]:
        # over the quick switch, which answers this day as the plain one does: limits.check_quick
        return print(*Office(DAY, limits.Noting()).day().given, sep="\n")
    office = Office(DAY).day()
    if what == ["wanted"]:
        print(*office.wanted, *map(compact, office.switch.events), sep="\n")
    elif what == ["seen"]:
        print(*(f"{count:6} {what}" for what, count in sorted(office.seen.items())), sep="\n")
    elif what == ["limits"]:
        limits.try_limits(*(rest or [RELEASE]), office)
    elif what == ["try"]:
        count = tried(office, *(rest or [RELEASE]))
        print(f"{len(office.given)} requests, {len(office.switch.events)} event reports, {count} lines wrong")
        return count > 0
    else:
        sys.exit(__doc__)


if __name__ == "__main__":
    sys.exit(main())
