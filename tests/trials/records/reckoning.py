"""What acd-calls has to print of a day, reckoned from the states that tests/switch.py goes through, second by second, and from no event."""
import bisect
import json
import math
import time
from collections import Counter, defaultdict

from switch import Desk, Switch, order

COLUMNS = {"ready": "ready", "busy": "talking", "workingAfterCall": "wrap_up", "notReady": "not_ready"}
COUNTS = ("logged_on", "ready", "talking", "wrap_up", "rings_not_answered", "rings_refused", "rings_hung_up", "rings", "calls", "own_calls", "not_ready")
RETURNS = {"tick": "rings_not_answered", "rejectCall": "rings_refused"}
FIGURES = ("entered", "answered", "abandoned", "moved", "waited")
RULES = "rules-"  # what requesters of rules begin with
OUTSIDE = ("note",)  # members that the office's lines have besides
LIMIT, STEP = 20, 900


def stretched(lines, begin, factor):
    """The same lines, at other moments."""
    for line in lines:
        moment, _, request = line.partition(" ")
        yield f"{begin + int(moment) * factor} {request}"


def ended_by_rules(lines):
    """The same lines, where a rule does every second of what takes a call out of a group's queue, or would if that were a group."""
    groups, count = set(), 0
    for line in lines:
        request = json.loads(line.partition(" ")[2]) if line.endswith("}") and '"service"' in line else {}
        if request.get("service") == "addGroup":
            groups.add(request["device"])
        elif request.get("service") == "clearConnection" and request["device"] in groups:
            count += 1
            line = line.replace(f'"{request["requester"]}"', f'"{RULES}{request["device"]}-{count}"') if count % 2 else line
        yield line


def when(moment):
    return "" if moment is None else time.strftime("%Y-%m-%d %H:%M:%S", time.localtime(moment))


def joined(values):
    return ",".join('"' + text.replace('"', '""') + '"' if set(text) & set(',"') else text
                    for text in (" ".join(value) if isinstance(value, list) else str(value) for value in values))


def level_of(in_time, answered, late):
    counted = answered + late
    return math.floor(100 * (in_time / counted) + 0.5) if counted else ""


class Connections(dict):
    """A call's connections, which tell what comes and goes in them; it goes by pop where the call is distributed, and by del else."""

    def __init__(self, number, told, first):
        super().__init__()
        self.number, self.told = number, told
        for device, connection in first.items():
            self[device] = connection

    def __setitem__(self, device, connection):
        super().__setitem__(device, connection)
        self.told.comes(self.number, device, connection)

    def __delitem__(self, device):
        connection = self[device]
        super().__delitem__(device)
        self.told.goes(self.number, device, connection, False)

    def pop(self, device):
        connection = super().pop(device)
        self.told.goes(self.number, device, connection, True)
        return connection


class Watched(Switch):
    def __init__(self, told):
        super().__init__()
        self.told = told

    def new_call(self, device, state, called):
        number = super().new_call(device, state, called)
        call = self.calls[number]
        call.connections = Connections(number, self.told, call.connections)
        return number


class Reckoning:
    def __init__(self, lines, limits=None):
        self.desk = Desk()
        self.switch = self.desk.switch = Watched(self)
        self.calls, self.legs, self.open, self.places, self.wraps = {}, defaultdict(list), defaultdict(dict), defaultdict(set), {}
        self.handles = {}
        # calls from outside that an agent answered without an offer and still has: since when, and for which group
        self.talks = defaultdict(dict)
        self.days = defaultdict(lambda: {**dict.fromkeys(COUNTS, 0), "first": None, "last": None, "groups": set()})
        self.quarters, self.waiting, self.limits = defaultdict(Counter), Counter(), limits or {}
        self.waits = defaultdict(lambda: {"group": None, "since": None, "until": None})
        moments = [int(line.partition(" ")[0]) for line in lines]
        self.first, last = min(moments), max(moments)
        self.dates = [time.strftime("%Y-%m-%d", time.localtime(second)) for second in range(self.first, last + 1)]
        self.changes = [self.first + place for place in range(1, len(self.dates)) if self.dates[place] != self.dates[place - 1]]
        self.switch.moment = self.first
        self.answers = [self.take(line) for line in lines]
        for number in self.switch.calls:
            wait = self.waits[number]
            if wait["since"] is not None:
                self.calls[number]["waited"] += (self.switch.moment if wait["until"] is None else wait["until"]) - wait["since"]

    def date(self, second):
        return self.dates[second - self.first]

    def take(self, line):
        moment, _, text = line.partition(" ")
        request = self.request = {name: value for name, value in json.loads(text).items() if name not in OUTSIDE}
        stamp, begin = self.switch.stamp, self.switch.moment
        calls = self.before = {number: {device: (it.state, it.group, it.place) for device, it in call.connections.items()} for number, call in self.switch.calls.items()}
        queued = {number: it.queued for number, call in self.switch.calls.items() for it in call.connections.values() if it.place is not None}
        legs = {number: dict(self.open[number]) for number in calls}
        agents = {agent: (record.state, record.station, list(record.groups)) for agent, record in self.switch.agents.items()}
        figures = {device: [getattr(group, name) for name in FIGURES] for device, group in self.switch.groups.items()}
        self.stations = {station: agent for agent, (_, station, _) in agents.items() if station}
        waiting = dict(self.waiting)
        answer = self.desk.take(int(moment), **request)
        if self.switch.stamp > stamp:
            self.pass_to(begin, calls, agents, legs)
            self.change_calls(request, calls, legs)
            self.change_waits(request, calls)
            self.change_agents(request, calls, agents)
            self.change_talks()
            self.pass_quarters(begin, waiting)
            self.change_quarters(figures, queued)
        return answer

    # what comes and goes in a request

    def comes(self, number, device, connection):
        legs = self.legs[number]
        if legs and legs[-1]["to"] is None:
            legs[-1]["to"] = device
        if not self.switch.planned(device):
            return
        is_station = device in self.switch.stations
        leg = self.open[number][device] = {"device": device, "agent": (self.switch.agent_at(device) or "-") if is_station else "", "group": connection.group or "",
                                           "begun": self.switch.moment, "answered_at": None, "ended_at": None, "waited": 0, "rang": 0, "talked": 0, "held": 0,
                                           "wrapped_up": 0, "ended": "live", "to": "", "rings": connection.state == "alerting"}
        legs.append(leg)
        if connection.state == "queued":
            self.waiting[device] += 1
            self.see_most(self.switch.moment, device, self.waiting[device])
        if is_station and connection.place is not None:
            self.days[self.date(self.switch.moment), leg["agent"]]["rings"] += 1

    def goes(self, number, device, connection, is_distributed):
        if connection.state == "queued":
            self.waiting[device] -= 1
        leg = self.open[number].pop(device, None)
        if leg is None:
            return
        leg["ended_at"], service = self.switch.moment, self.request["service"]
        if is_distributed:
            leg["ended"], leg["to"] = "offered", None  # it comes to a station next
        elif service in ("tick", "rejectCall"):
            leg["ended"], leg["to"] = {"tick": "taken back", "rejectCall": "rejected"}[service], leg["group"]
        elif service in ("deflectCall", "singleStepTransfer"):
            leg["ended"], leg["to"] = {"deflectCall": "deflected", "singleStepTransfer": "transferred"}[service], self.request["to"]
        else:
            leg["ended"] = self.ending(self.before[number], self.calls[number]["caller"], self.request["device"])

    def ending(self, ends, caller, device):
        """By the states before, and by where it was cleared."""
        state = ends[device][0]
        if self.is_ended_by_rule():
            return "closed"
        if state in ("queued", "alerting"):
            return f"at {device} while it {'waited' if state == 'queued' else 'rang'}"
        if any(place is not None for _, _, place in ends.values()):
            return "abandoned"
        states = {state for state, _, _ in ends.values()}
        return ("busy" if "fail" in states else "not answered" if states & {"alerting", "initiated"}
                else "by caller" if device == caller else "by agent" if device in self.stations else "by other")

    # the seconds since the request before, by what held in them

    def pass_to(self, begin, calls, agents, legs):
        seconds = self.switch.moment - begin
        for number, ends in calls.items():
            states, row = [state for state, _, _ in ends.values()], self.calls[number]
            row["talked"] += seconds * (states == ["connected"] * 2)
            row["held"] += seconds * ("hold" in states)
            for device, leg in legs[number].items():
                state = ends[device][0]
                for column, does in (("waited", state == "queued"), ("rang", state == "alerting"), ("talked", states == ["connected"] * 2), ("held", state == "hold")):
                    leg[column] += seconds * does
        cuts = [begin, *self.changes[bisect.bisect_right(self.changes, begin):bisect.bisect_left(self.changes, self.switch.moment)], self.switch.moment]
        for agent, (state, station, groups) in agents.items():
            talks = any(device == station and place is None and it in ("connected", "hold") and number in self.talks[agent]
                        for number, ends in calls.items() for device, (it, _, place) in ends.items())
            if state == "workingAfterCall" and self.wraps[agent] is not None:
                self.calls[self.wraps[agent]["call"]]["wrapped_up"] += seconds
                self.wraps[agent]["leg"]["wrapped_up"] += seconds
            for one, other in zip(cuts, cuts[1:]):
                if state != "null" and other > one:
                    day = self.is_on(one, agent, groups, other)
                    day["logged_on"] += other - one
                    day["talking" if talks else COLUMNS[state]] += other - one

    def is_on(self, begin, agent, groups, end):
        """The agent is logged on in these groups from begin to end, on one day."""
        day = self.days[self.date(begin), agent]
        day["first"], day["last"] = begin if day["first"] is None else day["first"], max(end, day["last"] or end)
        day["groups"] |= set(groups)
        return day

    def change_calls(self, request, calls, legs):
        for number, call in self.switch.calls.items():
            if number not in calls:
                self.calls[number] = {"number": number, "caller": call.caller, "called": call.called, "entered": when(call.since), "groups": [], "rings": 0, "agent": [],
                                      "station": [], "waited": 0, "talked": 0, "held": 0, "wrapped_up": 0, "ended": "live", "rung": [], "answered_at": "", "ended_at": ""}
            before, row = calls.get(number, {}), self.calls[number]
            for device, it in call.connections.items():
                if it.place is not None and it.place not in self.places[number]:
                    self.places[number].add(it.place)
                    row["groups"].append(it.group)
                if it.state == "alerting" and before.get(device, ("",))[::2] != ("alerting", it.place):
                    row["rings"] += 1
                if it.state == "connected" and before.get(device, ("",))[0] == "alerting":
                    self.change_answered(row, device, self.open[number][device], before[device][2] is not None)
                if it.state == "connected" and before.get(device, ("",))[0] == "initiated" and device in self.stations:
                    self.days[self.date(self.switch.moment), self.stations[device]]["own_calls"] += 1
        for number in calls.keys() - self.switch.calls.keys():
            row, ends, device = self.calls[number], calls[number], request["device"]
            row["ended"], row["ended_at"] = self.ending(ends, row["caller"], device), when(self.switch.moment)
            if device in self.stations and ends[device][0] == "alerting" and (ends[device][2] is not None or row["caller"] not in self.switch.stations):
                self.days[self.date(self.switch.moment), self.stations[device]]["rings_hung_up"] += 1

    def change_answered(self, row, device, leg, is_offer):
        agent = self.stations.get(device)
        row["agent"].append(agent or "-")
        row["station"].append(device)
        row["answered_at"] = row["answered_at"] or when(self.switch.moment)
        leg["answered_at"], leg["agent"] = self.switch.moment, agent or "-"
        is_callers = is_offer or row["caller"] not in self.switch.stations
        if agent:
            self.days[self.date(self.switch.moment), agent]["calls" if is_callers else "own_calls"] += 1
        if agent and is_callers and not is_offer:
            self.talks[agent][row["number"]] = self.switch.moment, self.waits[row["number"]]["group"]

    def change_agents(self, request, calls, agents):
        for agent, record in self.switch.agents.items():
            state, station, _ = agents.get(agent, ("null", None, []))
            at_it = [(number, *end) for number, ends in calls.items() for device, end in ends.items() if device == station and end[1] is not None]
            if record.state == "workingAfterCall" and state != "workingAfterCall":
                self.wraps[agent] = next(({"call": number, "leg": [leg for leg in self.legs[number] if leg["device"] == station][-1]}
                                          for number, how, _, _ in at_it if how in ("connected", "hold")), None)
            if state != record.state:
                self.change_handling(agent, state, record)
            if record.state not in ("null", state):
                self.is_on(self.switch.moment, agent, record.groups, self.switch.moment)
            for number, how, _, place in at_it:
                now = self.switch.calls[number].connections.get(station) if number in self.switch.calls else None
                column = RETURNS.get(request["service"])
                if column and how == "alerting" and (now is None or now.place != place):
                    self.days[self.date(self.switch.moment), agent][column] += 1

    def change_handling(self, agent, state, record):
        """From an answer of a group's call to the end of it, or of the after-call work that is right behind it."""
        if record.state == "busy":
            self.handles[agent] = self.switch.moment, next(it.group for it in self.switch.at(record.station) if it.group and it.state == "connected")
        elif agent in self.handles and (state, record.state) != ("busy", "workingAfterCall"):
            begun, group = self.handles.pop(agent)
            self.quarters[self.switch.moment // STEP, group].update({"handled": 1, "handling": self.switch.moment - begun})

    def change_talks(self):
        """After-call work in which the agent is at the end of such a talk belongs to it, where it isn't another call's and no other talk goes on."""
        for agent, talks in self.talks.items():
            record = self.switch.agents[agent]
            for number in [one for one in talks if not self.is_there(one, record.station)]:
                begun, group = talks.pop(number)
                if group and record.state == "workingAfterCall" and agent not in self.handles and not talks:
                    self.handles[agent] = begun, group
                elif group:
                    self.quarters[self.switch.moment // STEP, group].update({"handled": 1, "handling": self.switch.moment - begun})

    def is_there(self, number, station):
        """Whether somebody at the station has the call without an offer: one that was sent on may be offered there at once."""
        here = self.switch.calls[number].connections.get(station) if number in self.switch.calls else None
        return here is not None and here.place is None

    # who waits, from the first entrance on

    def change_waits(self, request, calls):
        for number in calls.keys() - self.switch.calls.keys():
            is_in_group = any(place is not None for _, _, place in calls[number].values())
            self.end_wait(number, "closed" if self.is_ended_by_rule() else "abandoned" if is_in_group or self.waits[number]["until"] is None else "left")
        for number, call in self.switch.calls.items():
            wait, before = self.waits[number], calls.get(number, {})
            placed = next((it for it in call.connections.values() if it.place is not None), None)
            rings = next((device for device, it in call.connections.items() if it.state == "alerting" and it.place is None), None)
            if placed:
                wait.update(group=placed.group, until=None, since=self.switch.moment if wait["since"] is None else wait["since"])
            elif rings and wait["group"] and rings not in before:
                is_person = self.switch.agent_at(rings) and call.caller not in self.switch.stations
                wait["since"] = self.switch.moment if wait["since"] is None else wait["since"]
                wait["until"] = None if is_person else self.switch.moment if wait["until"] is None else wait["until"]
            elif not rings and wait["since"] is not None and request["service"] == "answerCall" and request["call"] == number:
                self.change_answer(number, before[request["device"]][2] is not None, self.switch.agent_at(request["device"]), call.caller in self.switch.stations)

    def change_answer(self, number, is_offer, agent, is_inside):
        """Where nobody is logged on nobody talks to the caller; one who sits at a station is followed in queues alone."""
        if is_offer or agent or self.waits[number]["until"] is None:
            self.end_wait(number, "answered" if is_offer or not is_inside else "left")

    def is_ended_by_rule(self):
        """Whether it is a rule that ends a call, in its group."""
        return self.request["requester"].startswith(RULES) and self.request["device"] in self.switch.groups

    def end_wait(self, number, how):
        wait = self.waits[number]
        if wait["since"] is None:
            return
        seconds = (wait["until"] if how == "left" else self.switch.moment) - wait["since"]
        self.calls[number]["waited"] += seconds
        quarter = self.quarters[self.switch.moment // STEP, wait["group"]]
        if how == "answered":
            quarter["longest"] = max(quarter["longest"], seconds)
            quarter.update(answered=1, waited=seconds, in_time=int(seconds <= self.limit(wait["group"])))
        elif how == "abandoned":
            quarter.update(abandoned=1, late=int(seconds > self.limit(wait["group"])))
        elif how == "closed":
            quarter.update(closed=1)
        wait.update(since=None, until=None)

    # quarters of an hour

    def limit(self, group):
        return self.limits.get(group, LIMIT)

    def see_most(self, moment, group, waiting):
        quarter = self.quarters[moment // STEP, group]
        quarter["most"] = max(quarter["most"], waiting)

    def pass_quarters(self, begin, waiting):
        """So many waited from the request before on."""
        for number in range(begin // STEP + 1, self.switch.moment // STEP + 1):
            for group, count in waiting.items():
                self.see_most(number * STEP, group, count)

    def change_quarters(self, figures, queued):
        moment, number = self.switch.moment, self.request.get("call")
        for device, group in self.switch.groups.items():
            more = {name: getattr(group, name) - before for name, before in zip(FIGURES, figures.get(device, [0] * len(FIGURES)))}
            if not any(more.values()):
                continue
            quarter = self.quarters[moment // STEP, device]
            lost = 0 if self.is_ended_by_rule() else more["abandoned"]
            quarter.update(entered=more["entered"], moved=more["moved"], answered_by_stay=more["answered"], abandoned_by_stay=lost)
            if more["answered"]:
                quarter["in_time_by_stay"] += more["waited"] <= self.limit(device)
            if lost:
                quarter["late_by_stay"] += moment - queued[number] > self.limit(device)

    # the lines

    def call_lines(self):
        yield "number,caller,called,entered,groups,rings,agent,station,waited,talked,held,wrapped_up,ended,rung,answered_at,ended_at"
        for number, row in sorted(self.calls.items()):
            row["rung"] = [leg["agent"] for leg in self.legs[number] if leg["rings"] and leg["answered_at"] is None and leg["ended_at"] is not None]
            yield joined(row.values())

    def leg_lines(self):
        yield "call,leg,device,agent,group,begun,answered_at,ended_at,waited,rang,talked,held,wrapped_up,ended,to"
        for number in sorted(self.calls):
            for place, leg in enumerate(self.legs[number], 1):
                told = {**leg, **{name: when(leg[name]) for name in ("begun", "answered_at", "ended_at")}}
                del told["rings"]
                yield joined([number, place, *told.values()])

    def day_lines(self):
        yield f"day,agent,name,{','.join(COUNTS)},first_on,last_on,groups"
        for date, agent in sorted(self.days, key=lambda key: (key[0], order(key[1]))):
            day = self.days[date, agent]
            yield joined([date, agent, self.switch.agents[agent].name, *(day[name] for name in COUNTS), when(day["first"]), when(day["last"]), sorted(day["groups"], key=order)])

    def quarter_lines(self):
        yield "begin,group,entered,answered,abandoned,moved,limit,in_time,abandoned_late,service_level,waited,longest,most_waiting,handled,handling,closed,answered_by_stay,abandoned_by_stay," \
              "in_time_by_stay,late_by_stay,service_level_by_stay"
        for number, group in sorted(self.quarters, key=lambda key: (key[0], order(key[1]))):
            has = self.quarters[number, group]
            by_stay = [has[f"{name}_by_stay"] for name in ("answered", "abandoned", "in_time", "late")]
            if any(has[name] for name in ("entered", "answered", "abandoned", "closed", "moved", "most", "handled")):
                yield joined([when(number * STEP), group, has["entered"], has["answered"], has["abandoned"], has["moved"], self.limit(group), has["in_time"], has["late"],
                              level_of(has["in_time"], has["answered"], has["late"]), has["waited"], has["longest"] if has["answered"] else "", has["most"], has["handled"],
                              has["handling"], has["closed"], *by_stay, level_of(by_stay[2], by_stay[0], by_stay[3])])
