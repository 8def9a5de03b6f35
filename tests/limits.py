"""An office at the limits: `tests/office.py limits [PROGRAM]`.

64 groups, 1,000 stations and agents, 2,000 live calls and 256 monitors, all with names, requesters and numbers of full length; agents
of eight groups; hundreds of offers that go back, of rested agents and of new offers at one tick; invokes to 999999999 and
moments to 4294967295; requests until the file has 100,000 rows. PROGRAM answers them over memory and over a file, and what it
writes has to be that of the switch, also in the tables; then over a file that stock SQLite makes of the foreseen rows, where each
request is sent again, in lines and over HTTP, each read is read over HTTP, and alterations far behind are looked for by the audit.
A file is made where tempfile makes it: on a disk each request waits for it."""
import argparse
import bisect
import csv
import io
import json
import random
import shutil
import sys
from collections import Counter, defaultdict
from pathlib import Path

sys.path.append(str(Path(__file__).resolve().parent / "trials"))
import tables  # noqa: E402
import trial  # noqa: E402
from switch import Desk, Switch, compact, error  # noqa: E402

LAST = 4294967295
ROWS = 100000
PLANNER, WATCHER, CLOCK, EXCHANGE, DESK, OTHER = (f"{name}-of-the-help-line-office"
                                                  for name in ["planning", "watchers", "the-time", "exchange", "the-desk", "1st-desk"])
SIGNS = ["\"", "\\", ",", "~", " ", "'", "{\"}"]
GROUPS = [f"9{n:014}" for n in range(63)] + ["0" * 15]
STATIONS = [f"2{n:014}" for n in range(999)] + ["9" * 15]
AGENTS = [f"{n:09}" for n in range(999)] + ["9" * 9]
PHRASES = {200: "OK", 400: "Bad Request", 404: "Not Found", 409: "Conflict", 413: "Payload Too Large", 422: "Unprocessable Entity"}


class Ends(dict):
    """The connections of a call by device, which the switch notes at the device too. A connection that failed stays so, and no
    other one fails later: those that keep a station from being idle are counted as they come and go."""

    def __init__(self, switch, call, ends):
        super().__init__()
        self.switch, self.call = switch, call
        for device, end in ends.items():
            self[device] = end

    def __setitem__(self, device, end):
        super().__setitem__(device, end)
        self.switch.ends[device][self.call] = end
        self.switch.occupying[device] += end.state != "fail"
        if end.offered is not None:
            self.switch.ringing.add((self.call, device))

    def __delitem__(self, device):
        self.pop(device)

    def pop(self, device):
        self.switch.occupying[device] -= self[device].state != "fail"
        self.switch.ringing.discard((self.call, device))
        del self.switch.ends[device][self.call]
        return super().pop(device)


class Quick(Switch):
    """The switch with notes of who is where, since going over all calls for each question would take hours here."""

    def __init__(self, limits=None):
        super().__init__(limits)
        self.ends, self.occupying, self.seats = defaultdict(dict), Counter(), {}
        self.ringing, self.in_state = set(), defaultdict(set)  # the offers, also some that were answered; who has logged on, by state

    def at(self, device):
        return self.ends[device].values()

    def idle(self, station):
        return self.occupying[station] == 0

    def agent_at(self, station):
        return self.seats.get(station)

    def waiting(self, group):
        return sorted((end.place, call) for call, end in self.ends[group].items())

    def free(self):
        """Those who are ready at an idle station: there nobody is occupied."""
        agents, occupying = self.agents, self.occupying
        return [agent for agent in self.in_state["ready"] if occupying[agents[agent].station] == 0]

    def eligible(self, group):
        return sorted((self.agents[agent].stamp, tables.order(agent), agent) for agent in self.free() if group in self.agents[agent].groups)

    def open_groups(self):
        return {group for agent in self.free() for group in self.agents[agent].groups if self.ends[group]}

    def offers(self):
        found = [(call, device, self.calls[call].connections[device]) for call, device in sorted(self.ringing)]
        found = [offer for offer in found if offer[2].state == "alerting"]
        self.ringing = {offer[:2] for offer in found}
        return found

    def working(self):
        return self.in_state["workingAfterCall"]

    def new_call(self, device, state, called):
        number = super().new_call(device, state, called)
        self.calls[number].connections = Ends(self, number, self.calls[number].connections)
        return number

    def become(self, agent, state):
        station = self.agents[agent].station
        self.in_state[self.agents[agent].state].discard(agent)
        super().become(agent, state)
        self.in_state[state].add(agent)
        if state == "null":
            del self.seats[station]

    def log_on(self, agent, device, groups):
        super().log_on(agent, device, groups)
        self.seats[device] = agent
        self.in_state["null"].discard(agent)
        self.in_state["notReady"].add(agent)


class Noting(Desk):
    """A desk over the quick switch that notes the moment of each executed request, and its last event."""

    def __init__(self, limits=None):
        super().__init__()
        self.switch, self.moments, self.last_events = Quick(limits), [], []

    def take(self, moment, requester, invoke, service, **members):
        reply = super().take(moment, requester, invoke, service, **members)
        if self.switch.stamp > len(self.moments):
            self.moments.append(self.switch.moment)
            self.last_events.append(len(self.switch.events))
        return reply


def seconds(place):
    """Ring and wrap of the group at this place: of two never, of two the greatest."""
    return {15: (0, 0), 14: (3600, 3600)}.get(place % 32, (20, 30))


class Course:
    def __init__(self):
        self.rng, self.desk = random.Random(64), Noting()
        self.switch = self.desk.switch
        self.now, self.asked, self.wanted, self.invokes, self.seen = 0, [], [], Counter(), Counter()

    # requests

    def ask(self, requester, service, **members):
        self.invokes[requester] += 1
        count = self.invokes[requester]
        invoke = count if requester in ("plan", WATCHER) else 1000000000 - count
        known = len(self.switch.events)
        self.asked.append((self.now, requester, invoke, service, members))
        self.wanted.append(self.desk.take(self.now, requester, invoke, service, **members))
        made = Counter((it["event"], it.get("cause")) for it in self.switch.events[known:])
        self.seen["most events of one request"] = max(self.seen["most events of one request"], made.total())
        if service == "tick":
            for what, count in [("offers that go back at one tick", made["diverted", "noAnswer"]),
                                ("agents who become ready at one tick", made["agentReady", None]),
                                ("offers at one tick", made["delivered", "distributed"])]:
                self.seen[what] = max(self.seen[what], count)
        reply = self.wanted[-1]
        self.seen[json.loads(reply[4:])["error"]["name"] if reply.startswith("409") else service] += 1

    def by_desk(self, service, **members):
        self.ask(self.rng.choice([DESK, OTHER]), service, **members)

    def state(self, agent, requested):
        self.by_desk("setAgentState", agent=agent, requested=requested)

    def pass_by(self, seconds):
        self.now = min(LAST, self.now + seconds)

    # what is there

    def ends(self, *states):
        return [(call, device) for call, it in self.switch.calls.items() for device, end in it.connections.items()
                if end.state in states and device not in self.switch.groups]

    def at_agents(self, *states):
        return [end for end in self.ends(*states) if self.switch.distributed(end[1], self.switch.calls[end[0]].connections[end[1]])]

    def agents(self, *states):
        return [agent for agent, it in self.switch.agents.items() if it.state in states]

    def some(self, things, most):
        return self.rng.sample(things, min(most, len(things)))

    # the course

    def plan(self):
        for place, device in enumerate(GROUPS):
            ring, wrap = seconds(place)
            name = (f"{place:02}" + SIGNS[place % len(SIGNS)] * 40)[:40]
            self.ask("plan", "addGroup", device=device, name=name, ring=ring, wrap=wrap)
        for device in STATIONS:
            self.ask("plan", "addStation", device=device)
        for place, agent in enumerate(AGENTS):
            self.ask("plan", "addAgent", agent=agent, name=(SIGNS[place % 7] * 36)[:36] + f"{place:04}")
        self.planned = len(self.asked)
        self.ask(PLANNER, "addGroup", device="1" * 15, name="~" * 40, ring=3600, wrap=3600)
        self.ask(PLANNER, "addStation", device="1" * 15)
        self.ask(PLANNER, "addAgent", agent="1" * 9, name="~" * 40)

    def open(self):
        for place, device in enumerate(GROUPS):
            self.ask(PLANNER, "setGroupPriority", device=device, priority=place % 10)
        for device in GROUPS + STATIONS[:192]:
            self.ask(WATCHER, "monitorStart", device=device)
        self.now = 5
        for place, (agent, station) in enumerate(zip(AGENTS, STATIONS)):
            groups = [GROUPS[(place + 8 * step) % 64] for step in range(8 if place % 4 else 1)]
            self.rng.shuffle(groups)
            self.by_desk("setAgentState", agent=agent, requested="loggedOn", device=station, groups=groups)
        self.now = 10
        for place, agent in enumerate(AGENTS):
            self.state(agent, "workingAfterCall" if place % 5 < 2 else "ready")

    def arrive(self):
        while len(self.switch.calls) < 2000:
            caller = f"03{self.rng.randrange(10 ** 13):013}"
            self.ask(EXCHANGE, "arriveCall", caller=caller, called=GROUPS[self.switch.last_call % 64])

    def overfill(self):
        self.ask(EXCHANGE, "arriveCall", caller="0" * 14 + "1", called=GROUPS[0])
        self.by_desk("makeCall", device=STATIONS[0], called=GROUPS[0])

    def give_away(self):
        for call, device in self.some(self.at_agents("connected"), 60):
            self.by_desk("singleStepTransfer", call=call, device=device, to=self.rng.choice(GROUPS + STATIONS[:20]))
        for call, device in self.some(self.ends("alerting"), 40):
            self.by_desk("deflectCall", call=call, device=device, to=self.rng.choice(GROUPS))
        for group in self.some(GROUPS, 40):
            if self.switch.waiting(group):
                self.by_desk("deflectCall", call=self.switch.waiting(group)[0][1], device=group, to=self.rng.choice(GROUPS))

    def correct(self):
        """Offers are rejected, and groups and agents get other names of full length; ring and wrap stay, so that as much goes back at a tick."""
        for call, device in self.some(self.at_agents("alerting"), 20):
            self.by_desk("rejectCall", call=call, device=device)
        for place in self.some(range(64), 8):
            ring, wrap = seconds(place)
            self.ask(PLANNER, "changeGroup", device=GROUPS[place], name=(f"{self.now}" + SIGNS[place % len(SIGNS)] * 40)[:40], ring=ring, wrap=wrap)
        for agent in self.some(AGENTS, 20):
            self.ask(PLANNER, "changeAgent", agent=agent, name=(self.rng.choice(SIGNS) * 40 + f"{self.now}")[-40:])

    def call_inside(self):
        """Private calls, which some answer, and one that is dialled to a group."""
        for agent in self.some(self.agents("notReady", "workingAfterCall"), 30):
            self.by_desk("makeCall", device=self.switch.agents[agent].station, called=self.rng.choice(GROUPS[:5] + STATIONS))
        for call, device in self.ends("initiated"):
            self.by_desk("phoneOffHook", call=call, device=device)

    def work(self):
        """Calls are answered, held, retrieved, given away and cleared, others come, and the wrap and the ring pass."""
        self.pass_by(7)
        self.correct()
        for call, device in self.ends("alerting")[:500]:
            self.by_desk("answerCall", call=call, device=device)
        for call, device in self.some(self.at_agents("connected"), 150):
            self.by_desk("holdCall", call=call, device=device)
        for call, device in self.some(self.at_agents("hold"), 100):
            self.by_desk("retrieveCall", call=call, device=device)
        for agent in self.some(self.agents("busy"), 60):
            self.state(agent, self.rng.choice(["ready", "notReady", "workingAfterCall"]))
        self.give_away()
        for call, device in self.some(self.at_agents("connected", "hold"), 400) + self.some(self.ends("fail"), 50):
            self.by_desk("clearConnection", call=call, device=self.rng.choice(list(self.switch.calls[call].connections)))
        self.call_inside()
        for agent in self.some(self.agents("notReady"), 200):
            self.state(agent, "ready")
        self.arrive()
        self.pass_by(self.rng.choice([12, 23, 30]))
        self.ask(CLOCK, "tick")

    def rows(self):
        switch = self.switch
        return switch.stamp + len(switch.events) + 2 * len(switch.calls) + 2 * len(AGENTS)

    def day(self):
        self.plan()
        self.open()
        self.ask(WATCHER, "monitorStart", device=STATIONS[0])
        self.now = 11
        self.arrive()
        self.overfill()
        self.now = 40
        self.ask(CLOCK, "tick")
        while self.rows() < ROWS:
            self.work()
        self.now = LAST
        self.ask(CLOCK, "tick")
        for call, device in self.ends("alerting")[:300]:
            self.by_desk("answerCall", call=call, device=device)
        self.arrive()
        self.ask(CLOCK, "tick")
        return self

    # as lines

    def lines(self, first=0, moment=None):
        return [f"{at if moment is None else moment} " + json.dumps(
            {"requester": requester, "invoke": invoke, "service": service, **members}, separators=(",", ":"))
            for at, requester, invoke, service, members in self.asked[first:]]


WANTED = {"offers that go back at one tick": 400, "agents who become ready at one tick": 300, "offers at one tick": 300,
          "most events of one request": 2000, "planFull": 4, "tooManyCalls": 2, "monitorStart": 256, "addGroup": 64, "addStation": 1000, "addAgent": 1000,
          "rejectCall": 200, "changeGroup": 100, "changeAgent": 200}


def wide(moment, members, length):
    """A line whose JSON is so long."""
    text = json.dumps(members, separators=(",", ":"))
    return f"{moment} {text[:1]}{' ' * (length - len(text))}{text[1:]}"


def faulty(course):
    """Lines at the limits of lines, which are no new requests, and their answers."""
    _, requester, invoke, service, members = course.asked[-1]
    request = {"requester": requester, "invoke": invoke, "service": service, **members}
    malformed = "400 {\"error\":{\"code\":30,\"member\":\"%s\",\"name\":\"malformed\"}}"
    return [
        (wide(LAST, request, 4096), course.wanted[-1]),
        (wide(LAST, request, 4097), "413 {\"error\":{\"code\":38,\"name\":\"bodyTooLarge\"}}"),
        (wide(LAST + 1, request, 200), malformed % "moment"),
        (f"{LAST} " + compact({**request, "invoke": 1000000000}), malformed % "invoke"),
        (f"{LAST} " + compact({**request, "requester": requester + "s"}), malformed % "requester"),
        (f"{LAST} " + compact({**request, "service": "tock"}), malformed % "service"),
        (f"{LAST} " + compact({"requester": PLANNER, "invoke": 1, "service": "addAgent", "agent": "1" * 10, "name": "A"}), malformed % "agent"),
        (f"{LAST} " + compact({"requester": PLANNER, "invoke": 1, "service": "addAgent", "agent": "1", "name": "A" * 41}), malformed % "name"),
        (f"{LAST} " + compact({"requester": PLANNER, "invoke": 1, "service": "addStation", "device": "1" * 16}), malformed % "device"),
        (f"{LAST} " + compact({**request, "service": "addStation", "device": "1"}),
         "422 " + error("invokeReused", 31, invoke=invoke, requester=requester)),
    ]


# what the program does

class OfLines(trial.Trial):
    """Trials whose checks are lines and rows, each by itself."""

    def answers(self, what, words, wanted, given=(), status=0):
        done = self.acd(*words, given="".join(line + "\n" for line in given), seconds=None)
        self.expect(f"status of {what}", (done.status, done.faults), (status, ""))
        self.expect_each(what, done.output.splitlines(), wanted)

    def expect_tables(self, what, file, wanted):
        found = tables.held(file)
        for table, rows in wanted.items():
            self.expect_each(f"{what}: rows of {table}", found[table], rows)

    def serve(self, what, file, exchanges):
        with trial.Desk(self.program, file, connections=len(exchanges)) as desk:
            self.expect(f"{what}: listening", desk.first_line, f"listening on 127.0.0.1:{desk.port}\n")
            for request, reply in exchanges:
                self.expect(f"{what}: {request[:60]!r}", trial.bytes_back(desk.port, request.encode()).decode(), reply)
            self.expect(f"{what}: its end", desk.ends(), (0, "", ""))


def write_plan(course, path):
    with path.open("w") as text:
        writer = csv.writer(text, lineterminator="\n")
        writer.writerow(["kind", "number", "name", "ring", "wrap"])
        for _, _, _, service, it in course.asked[:course.planned]:
            number = it.get("device") or it["agent"]
            writer.writerow([service.removeprefix("add").lower(), number, it.get("name"), it.get("ring"), it.get("wrap")])


def export(course):
    text = io.StringIO()
    columns = "number,moment,event,call,device,agent,group,to,cause,waited".split(",")
    writer = csv.DictWriter(text, columns, lineterminator="\n")
    writer.writeheader()
    writer.writerows(course.switch.events)
    return text.getvalue().splitlines()


# over HTTP

def reply_of(status, body, kind="application/json"):
    head = f"HTTP/1.1 {status} {PHRASES[status]}\r\nContent-Type: {kind}\r\nContent-Length: {len(body)}\r\nConnection: close\r\n\r\n"
    return head + body


def got(path, told):
    return f"GET {path} HTTP/1.1\r\nHost: desk\r\n\r\n", told


def reads(switch):
    """Each read that there is, with its reply."""
    asked = [(f"/agents/{agent}", tables.agent_told(switch, agent)) for agent in switch.agents]
    asked += [(f"/devices/{device}", tables.device_told(switch, device)) for device in [*switch.groups, *sorted(switch.stations)]]
    asked += [(f"/queues/{group}", tables.queue_told(switch, group)) for group in switch.groups]
    asked += [(f"/calls/{call}", tables.call_told(switch, call)) for call in switch.calls]
    asked += [(f"/monitors/{monitor}/events", tables.monitor_told(switch, monitor)) for monitor in switch.monitors]
    asked += [(f"/monitors/{monitor}/events?after={after}", tables.monitor_told(switch, monitor, after))
              for monitor in [1, 63, 256] for after in [len(switch.events) // 2, len(switch.events) - 500]]
    asked += [(f"/events?after={after}", tables.events_told(switch, after)) for after in range(0, len(switch.events) + 100, 100)]
    found = [got(path, reply_of(200, compact(told))) for path, told in asked]
    found.append(got("/reports/queues", reply_of(200, tables.report(switch), "text/plain")))
    missing = reply_of(404, "{\"error\":{\"code\":35,\"name\":\"notFound\"}}")
    return found + [got(path, missing) for path in [f"/calls/{switch.last_call + 1}", "/calls/1000000000", "/monitors/257/events",
                                                    "/agents/1111111111", "/devices/1111111111111111", f"/queues/{STATIONS[0]}"]]


def posts(course, first=0):
    """The requests, with their answers as replies."""
    found = []
    for line, wanted in zip(course.lines(first), course.wanted[first:]):
        body = line.split(" ", 1)[1]
        status, told = wanted.split(" ", 1)
        found.append((f"POST /csta HTTP/1.1\r\nHost: desk\r\nContent-Length: {len(body)}\r\n\r\n{body}", reply_of(int(status), told)))
    return found


def check_quick(office):
    """The quick switch answers the day of the other office as the plain one does."""
    quick = Noting()
    for line, wanted in zip(office.given, office.wanted):
        moment, text = line.split(" ", 1)
        request = {name: value for name, value in json.loads(text).items() if name != "note"}
        if quick.take(int(moment), **request) != wanted:
            raise SystemExit(f"the quick switch answers otherwise: {line}")
    if quick.switch.events != office.switch.events:
        raise SystemExit("the quick switch reports otherwise")


def check(course):
    """This course has what it is for."""
    rare = {what: course.seen[what] for what, least in WANTED.items() if course.seen[what] < least}
    if rare or len(course.switch.calls) != 2000:
        raise SystemExit(f"too seldom: {rare}")


class Limits(OfLines):
    @classmethod
    def setUpClass(cls):
        super().setUpClass()
        cls.course = course = Course().day()
        check_quick(cls.options.office)
        check(course)
        cls.wanted = tables.rows(course.desk)
        longest = max(len(row[4]) for row in cls.wanted["kept"])
        cls.tell(f"foreseen: {len(course.asked)} requests, {len(course.switch.events)} event reports, {sum(map(len, cls.wanted.values()))} rows, "
                 f"a kept request of {longest} bytes, an export of {sum(len(line) + 1 for line in export(course))}")
        for what in WANTED:
            print(f"{course.seen[what]:10} {what}")

    def printed(self, what, file):
        """What the commands print of the file."""
        switch = self.course.switch
        self.answers(f"report of {what}", ["report", "--file", file], tables.report(switch).splitlines())
        self.answers(f"export of {what}", ["export", "--file", file], export(self.course))
        self.answers(f"audit of {what}", ["audit", "--file", file, "--count"], ["sound", f"executed {switch.stamp}"])

    def try_memory(self):
        course, extra = self.course, faulty(self.course)
        given = course.lines() + [line for line, _ in extra] + course.lines(moment=LAST)
        self.answers("lines over memory, and again", ["lines"], course.wanted + [reply for _, reply in extra] + course.wanted, given)
        self.tell("answered over memory, and again")

    def try_a_file(self):
        course, file, plan = self.course, self.folder / "desk.db", self.folder / "plan.csv"
        write_plan(course, plan)
        self.answers("import", ["import", "--file", file, "--plan", plan], course.wanted[:course.planned])
        self.answers("lines over a file", ["lines", "--file", file], course.wanted[course.planned:], course.lines(course.planned))
        self.expect_tables("the program's file", file, self.wanted)
        self.printed("the program's file", file)
        self.answers("import again", ["import", "--file", file, "--plan", plan], course.wanted[:course.planned])
        self.answers("lines over a file again", ["lines", "--file", file], course.wanted, course.lines(moment=LAST))
        self.expect_tables("after repeats", file, self.wanted)
        self.tell(f"answered over a file of {file.stat().st_size} bytes, told and again")

    def try_what_sql_made(self):
        course, file, kept = self.course, self.folder / "laid.db", self.folder / "kept.db"
        tables.lay(file, self.wanted)
        self.tell("a file made by SQL")
        shutil.copy(file, kept)
        self.printed("what SQL made", file)
        self.answers("lines over what SQL made", ["lines", "--file", file], course.wanted, course.lines(moment=LAST))
        self.expect_tables("what SQL made", file, self.wanted)
        self.tell("told, and each request again")
        self.alter(kept)
        self.over_http(file)

    def over_http(self, file):
        """Over a file that ends at the greatest moment, which the clock doesn't reach."""
        course = self.course
        self.serve("reads", file, reads(course.switch))
        self.tell("each read over HTTP")
        self.serve("again", file, posts(course))
        self.tell("each request again over HTTP")
        first = len(course.asked)
        course.work()
        self.serve("new", file, posts(course, first))
        self.expect_tables("after HTTP", file, tables.rows(course.desk))
        self.printed("what HTTP left", file)
        self.tell(f"{len(course.asked) - first} new requests over HTTP, at the moment {LAST}")

    def alter(self, file):
        """One alteration each, late in the file: the audit tells its place, and the file stays as it was."""
        switch, desk = self.course.switch, self.course.desk
        event = len(switch.events) * 9 // 10
        place, last_place = (bisect.bisect_left(desk.last_events, number) + 1 for number in [event, len(switch.events)])
        stamp, call = switch.stamp - 50, max(switch.calls)
        altered = [
            (place, f"UPDATE events SET moment = moment - 1 WHERE number = {event}"),
            (place, f"UPDATE events SET call = coalesce(call, 0) + 1, agent = agent + 1 WHERE number = {event}"),
            (stamp, f"UPDATE kept SET body = replace(body, 'requester', 'Requester') WHERE stamp = {stamp}"),
            (switch.stamp + 1, f"UPDATE calls SET since = since - 1 WHERE call = {call}"),
            (switch.stamp + 1, "UPDATE agents SET since = since - 1 WHERE agent = 1999999999"),
            (last_place, f"DELETE FROM events WHERE number = {len(switch.events)}"),
            (switch.stamp, f"DELETE FROM kept WHERE stamp = {switch.stamp}"),
        ]
        copy = self.folder / "altered.db"
        for place, sql in altered:
            shutil.copy(file, copy)
            self.expect(sql, tables.change(copy, sql), 1)
            before = copy.read_bytes()
            self.answers(sql, ["audit", "--file", copy], [f"differs at request {place}"], status=3)
            self.see(f"{sql}: the file as it was", copy.read_bytes() == before)
        self.tell(f"{len(altered)} alterations, from event {event} on")


def try_limits(program, office):
    trial.main([Limits], argparse.Namespace(program=Path(program), office=office), most=20)
