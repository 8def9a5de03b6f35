"""An office's day at a desk that acd-tick sends its ticks to, and once more at the switch in Python, which gets one in each step: the events are the same."""
import heapq
import json
import random

from ground import BEGIN, CLOCK, HOUR, Ground, Played
from trial import Lines, Plan, Requests, compact

import switch

DAY = 24 * HOUR
# the morning begins, callers come until the evening; a talk lasts so long on average
OPENS, CLOSES, TALK = BEGIN + 8 * HOUR, BEGIN + 18 * HOUR, 180

# rings and wraps of 0 among others; 01 is the least of these groups
ODD = [("01", 0, 45), ("900", 20, 0), ("9", 0, 0), ("1000", 7, 13), ("99", 25, 30)]


class Judge:
    """The switch in Python."""

    def __init__(self):
        self.desk, self.seen = switch.Desk(), 0

    def ask(self, moment, request):
        status, body = self.desk.take(moment, **request).split(" ", 1)
        return int(status), json.loads(body)

    def events(self):
        new = self.desk.switch.events[self.seen:]
        self.seen += len(new)
        return new


class Answered(Lines):
    """The program, which answers lines, each with its moment."""

    seen = 0

    def line(self, moment, text):
        status, body = self.say(f"{moment} {text}").rstrip("\n").split(" ", 1)
        return int(status), body

    def ask(self, moment, request):
        status, body = self.line(moment, compact(request))
        return status, json.loads(body)

    def events(self):
        found = []
        while True:
            page = json.loads(self.line(0, f"GET /history?after={self.seen}")[1])
            found += page["events"]
            self.seen = found[-1]["number"] if found else self.seen
            if self.seen >= page["last"]:
                return found


class Office:
    """Callers and agents, who do what the events let them do. Two that see the same events do the same."""

    def __init__(self, desk, plan, calls, seed=1, jumps=(), days=1):
        self.desk, self.jumps, self.random = desk, jumps, random.Random(seed)
        self.heap, self.put, self.request, self.rings, self.history, self.executed = [], 0, Requests(), {}, [], 0
        self.groups = [device for device, _, _ in plan]
        agents = max(3, int(calls / (CLOSES - OPENS) * (TALK + 31) / 0.75) + 1)
        for request in self.request.plan(Plan([(device, "G", ring, wrap) for device, ring, wrap in plan], [str(2000 + number) for number in range(agents)], [str(number + 1) for number in range(agents)])):
            self.send(BEGIN, request)
        for number in range(agents):
            self.at(OPENS - 60, "log on", number)
        for number in range(calls * days):
            self.at(self.random.uniform(OPENS, CLOSES) + number // calls * DAY, "arrive", number)

    def at(self, time, *what):
        self.put += 1
        heapq.heappush(self.heap, (time, self.put, what))

    def shown(self, time):
        """What the clock shows at a time."""
        return int(time + next((seconds for begin, seconds in reversed(self.jumps) if begin <= time), 0))

    def send(self, time, request):
        self.executed += 1
        status, body = self.desk.ask(self.shown(time), request)
        self.follow(time)
        return status, body

    def follow(self, time):
        for event in self.desk.events():
            self.history.append(event)
            kind, device = event["event"], event.get("device")
            if kind == "delivered":
                self.rings[device] = event["call"]
                # three in a hundred ring on
                self.at(time + (min(self.random.expovariate(1 / 6), 18) if self.random.random() > 0.03 else 90), "answer", device, event["call"])
            elif kind == "diverted":
                self.rings.pop(device, None)
            elif kind == "agentNotReady" and time > OPENS:
                self.at(time + self.random.uniform(20, 200), "ready", event["agent"])
            elif kind == "agentWorkingAfterCall" and self.random.random() < 0.6:
                self.at(time + self.random.uniform(2, 28), "ready", event["agent"])

    def play(self, until):
        """All that people do up to a time."""
        while self.heap and self.heap[0][0] <= until:
            time, _, (what, *rest) = heapq.heappop(self.heap)
            getattr(self, what.replace(" ", "_"))(time, *rest)

    def log_on(self, time, number):
        agent, chosen = str(number + 1), self.random.sample(self.groups, 1 + number % min(3, len(self.groups)))
        self.send(time, self.request.log_on(agent, str(2000 + number), *chosen))
        self.ready(time, agent)

    def arrive(self, time, number):
        caller = f"0301{number:05}"
        status, body = self.send(time, self.request.arrive(caller, self.random.choice(self.groups)))
        if status == 200 and self.random.random() < 0.05:
            self.at(time + self.random.uniform(5, 60), "clear", body["result"]["call"], caller)

    def answer(self, time, device, call):
        if self.rings.get(device) == call:
            self.rings.pop(device)
            if self.send(time, self.request.at("answerCall", call, device))[0] == 200:
                self.at(time + self.random.expovariate(1 / TALK), "clear", call, device)

    def clear(self, time, call, device):
        self.send(time, self.request.at("clearConnection", call, device))

    def ready(self, time, agent):
        self.send(time, self.request.state(agent))


class Ticked(Played):
    """The desk that acd-tick finds: before it shows itself all that people do until then is done."""

    def __init__(self, office, moment, has_snapshot):
        super().__init__()
        self.office, self.moment, self.has_snapshot, self.ticks, self.refused = office, moment, has_snapshot, 0, 0

    def now(self):
        return float(self.moment.read_text())

    def read(self):
        self.office.play(self.now())
        if self.has_snapshot:
            return self.office.desk.line(0, "GET /snapshot")
        return 404, '{"error":{"code":35,"name":"notFound"}}'

    def take(self, request):
        self.ticks += 1
        status, body = self.office.send(self.now(), request)
        self.refused += status != 200
        return status, json.dumps(body)


def judged(office, parts):
    """Over the switch in Python, with a tick in each step: how many steps there are, and in how many of them the tick makes events."""
    steps = ended = 0
    for begin, end, step in parts:
        time = float(begin)
        while time < end:
            office.play(time)
            known = len(office.history)
            office.send(time, {"requester": CLOCK, "invoke": office.shown(time) // step, "service": "tick"})
            steps, ended = steps + 1, ended + (len(office.history) > known)
            time += step - office.shown(time) % step
    return steps, ended


class Days(Ground):
    def day(self, what, plan, calls, parts=((BEGIN, BEGIN + DAY, 10),), jumps=(), has_snapshot=True, days=1):
        """A part has a beginning, an end and a step; from each jump's time on the clock is so many seconds ahead. What is told."""
        wanted = Office(Judge(), plan, calls, jumps=jumps, days=days)
        with Answered(self.program, words=["--reads"]) as lines:
            office = Office(lines, plan, calls, jumps=jumps, days=days)
            steps, ended = judged(wanted, parts)
            with Ticked(office, self.folder / "moment", has_snapshot) as desk:
                told = [self.by_its_own_clock(desk, (end - begin) / HOUR, begin=begin, step=step, jumps=jumps) for begin, end, step in parts]
            lines.ends()
        differs = next((pair for pair in zip(office.history, wanted.history) if pair[0] != pair[1]), None)
        self.expect(f"{what}: the events, the first that differs", (len(office.history), differs), (len(wanted.history), None))
        self.expect(f"{what}: ticks in the steps that end something", desk.ticks, ended if has_snapshot else steps)
        self.expect(f"{what}: refused ticks", desk.refused, 0)
        print(f"{what}: {office.executed} executed, of them {desk.ticks} ticks ({desk.ticks / office.executed:.0%}) in {steps} steps, {len(office.history)} events", flush=True)
        return "".join(told)

    def try_days(self):
        plan = [("900", 20, 30), ("901", 20, 30)]
        # not at a whole step of both
        first, second = OPENS + 2 * HOUR + 7, OPENS + 4 * HOUR + 13
        parts = ((OPENS - HOUR, first, 5), (first, second, 10), (second, OPENS + 6 * HOUR, 5))
        told = [self.day("an office of 300 calls", plan, 300), self.day("an office of 2,000 calls", plan, 2000), self.day("rings and wraps of 0", ODD, 600),
                self.day("a step of 5 that becomes 10, and 5 again", ODD, 600, parts), self.day("a desk without a snapshot", ODD, 300, ((BEGIN, BEGIN + DAY, 30),), has_snapshot=False)]
        self.expect("nothing is told", "".join(told), "")

    def try_a_clock_ahead(self):
        jumps = ((OPENS + HOUR + 3, DAY + 4), (OPENS + 2 * HOUR + 1, 0))
        told = self.day("a clock a day ahead for an hour", ODD, 300, ((BEGIN, BEGIN + 2 * DAY, 30),), jumps, days=2)
        self.expect("that is told each hour of a day", told.count("the desk's time is over a minute ahead"), 24)
