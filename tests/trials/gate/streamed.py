"""What boards and agents' pages are pushed, over an office's day at its own moments: the lines of a board beside the desk's reads and beside figures that another program reckons from its
events, and whoever loses the stream and goes on beside a new picture."""
import asyncio
import json
import random
from collections import Counter

from board import figures
from followed import Asked, following, office
from trial import Trial

from acd_service.gate.boards import RECENT, Sight
from acd_service.gate.streams import Stream

LIMIT, EACH, LOSSES, PAGES, MANY = 7, 50, 1000, 12, 1800
FIGURES = ("entered", "answered", "abandoned", "moved", "waited", "within", "late", "longest", "handled", "handling", "closed", "answeredStay", "abandonedStay", "withinStay", "lateStay")
ALONE = ("ready", "workingAfterCall", "notReady", "busy")
MEMBERS = ("answered", "clock", "live")


class Page:
    """A page as a program: it takes events into what it has, and loses the stream by chance."""

    def __init__(self, streams, login, **sees):
        self.streams, self.login, self.sees = streams, login, sees
        self.picture, self.name, self.stream, self.task, self.losses = {}, "", None, None, 0

    def write(self, *parts):
        kind, *lines = b"".join(parts).decode().rstrip("\n").split("\n")
        told = dict(line.split(": ", 1) for line in lines)
        self.name = told.get("id", self.name)
        members = {name: value for name, value in json.loads(told["data"]).items() if name not in MEMBERS}
        if kind == "event: picture":
            # names stay: they come again only where they changed
            self.picture = {name: value for name, value in self.picture.items() if name == "names"} if "agent" in self.sees else {}
        if kind in ("event: picture", "event: change"):
            self.merge(members)

    def merge(self, members):
        for name, value in members.items():
            if isinstance(value, dict) and name not in ("agent", "day", "names", "missed", "changed") or name == "day" and "agent" not in self.sees:
                table = self.picture.setdefault(name, {})
                table.update(value)
                self.picture[name] = {key: line for key, line in table.items() if line is not None}
            else:
                self.picture[name] = value
        if "events" in members:
            # a page keeps as many as a new picture has
            self.picture["events"] = dict(sorted(self.picture["events"].items(), key=lambda one: int(one[0]))[-RECENT:])
        if "queues" in members:
            self.picture["groups"] = {group: line for group, line in self.picture.get("groups", {}).items() if group in members["queues"]}

    def is_gone(self):
        return False

    def begin(self, after=""):
        self.stream = Stream(self.login, lambda: True, **self.sees)
        self.task = asyncio.ensure_future(self.streams.hold(self.stream, self, after))

    async def lose(self):
        """It isn't there for a while."""
        self.losses += 1
        self.stream.end("left")
        await self.task
        self.stream = None


class Streamed(Trial):
    def try_streamed(self):
        """Over the whole day, and from two requests on over as many as show what a late beginning may lack."""
        lines, compared = office(), 0
        for begun, ended, groups in ((0, None, frozenset()), (220, 1000, frozenset({"110"})), (1200, 2000, frozenset({"100", "0100", "9"}))):
            compared += asyncio.run(self.beside_the_desk(lines[:ended], begun, groups))
        self.see("much was compared", compared > 7000, compared)

    async def beside_the_desk(self, lines, begun, groups):
        """Begun at some request, and carried on to the last one without a new snapshot; its day counts from a quarter of an hour after the first, and another one from the first."""
        desk = self.enterContext(Asked(self.program))
        follower, events, compared, begin = following.Following(desk.ask, clock=lambda: float(desk.moment)), [], 0, int(lines[0].split()[0]) + 900
        sights = [Sight(begin, (("", float(LIMIT)),), groups, frozenset({"day"})), Sight(0)]
        for number, line in enumerate(lines, 1):
            desk.say(line)
            if number < begun or (number % EACH and number != len(lines)):
                continue
            follower.renewed = float("inf") if events else 0
            state = await follower.catch_up()
            while not follower.days.whole:
                await follower.read_day()
            follower.settle(True)
            events += self.new_events(desk, events[-1]["number"] if events else 0)
            views = [follower.streams.see(sight, state) for sight in sights]
            while follower.streams.boards.tasks:
                await asyncio.gather(*follower.streams.boards.tasks)
            follower.number += 1
            follower.streams.boards.turn(follower.number)
            day, whole = ({name: json.loads(table.whole()) for name, table in view.tables.items()} for view in views)
            compared += self.compare_state(f"behind request {number}", desk, day, events, named=number == max(begun, EACH) and len(events) == len(self.new_events(desk, 0)))
            compared += self.compare_report(f"behind request {number}", desk, whole["sums"])
        compared += self.compare_figures(events, day, begin)
        self.expect(f"who waited at once, of {sorted(groups) or 'all'}", peaks_of(day["peaks"], day["sums"], day["groups"], groups, begin, events), walked(events, groups, begin))
        print(f"    {compared} lines compared with the desk's reads and other figures, begun at request {begun}")
        return compared

    def compare_state(self, when, desk, tables, events, named):
        """Groups, agents and calls as the desk's reads have them; since when callers wait by the events; names where they can't have changed since."""
        longest, sent = figures.waiting(events)
        groups = {event["call"]: event["device"] for event in events if event["event"] == "queued"}
        snapshot = json.loads(desk.told("/snapshot")[1])
        sides = [(call["call"], side) for call in snapshot["calls"] for side in call["connections"]]
        stations = {station["device"] for station in snapshot["stations"]}
        callers = {call["call"]: groups.get(call["call"]) for call in snapshot["calls"] if call["caller"] not in stations}
        doings = {agent["agent"]: doing_of(agent, [(call, side) for call, side in sides if side["device"] == agent.get("device")], callers) for agent in snapshot["agents"]}
        for group in snapshot["groups"]:
            number, line = group["device"], tables["groups"][group["device"]]
            queue = json.loads(desk.told(f"/queues/{number}")[1])
            counts = Counter(doings[agent["agent"]][0] for agent in snapshot["agents"] if number in groups_of(agent))
            ringing = {call for call, side in sides if side["state"] == "alerting" and side.get("group") == number}
            self.expect(f"{when}, group {number}", (line.get("waiting", 0), line.get("queued"), line.get("next"), line.get("ringing", 0), line.get("counts", {})),
                        (len(queue["calls"]), longest.get(number), next(iter(queue["ready"]), None), len(ringing) + sent.get(number, 0), counts))
        for agent in snapshot["agents"]:
            line, calls = tables["agents"][agent["agent"]], sorted(call for call, side in sides if side["device"] == agent.get("device"))
            self.expect(f"{when}, agent {agent['agent']}", (line["doing"], line.get("group"), line.get("station"), line.get("groups", []), line.get("calls", [])),
                        (*doings[agent["agent"]], agent.get("device"), groups_of(agent), calls))
        planned = {one["device"] for one in (*snapshot["groups"], *snapshot["stations"])}
        wanted = {str(call["call"]): (call["since"], call["caller"], {(side["device"], side["state"]) for side in call["connections"] if side["device"] in planned}) for call in snapshot["calls"]}
        self.expect(f"{when}, the calls", {number: (line.get("begun", line.get("since")), line["caller"], wanted.get(number, ((), (), ()))[2] and (line["at"], line["state"]) in wanted[number][2]) for number, line in tables["calls"].items()},
                    {number: (begun, caller, bool(there)) for number, (begun, caller, there) in wanted.items()})
        if named:
            self.expect(f"{when}, names and priorities", {number: (line.get("name"), line.get("ring", 0), line.get("wrap", 0), line.get("priority", 0)) for number, line in tables["groups"].items()},
                        {group["device"]: (group["name"], group["ring"], group["wrap"], group.get("priority", 0)) for group in snapshot["groups"]})
        return len(snapshot["groups"]) + len(snapshot["agents"]) + len(snapshot["calls"])

    def compare_report(self, when, desk, sums):
        """The desk's own report, which counts stays in queues, from the beginning of the file."""
        rows = [line.split() for line in desk.told("/reports/queues")[1].decode().splitlines()[1:]]
        for group, _, _, entered, answered, abandoned, moved, *_ in rows:
            has = dict(zip(FIGURES, sums.get(group, [0] * len(FIGURES))))
            self.expect(f"{when}, the report of {group}", [str(has[name]) for name in ("entered", "answeredStay", "abandonedStay", "moved")], [entered, answered, abandoned, moved])
        return len(rows)

    def compare_figures(self, events, tables, begin):
        """Sums, quarters of an hour and agents' figures, call by call and agent by agent."""
        end = events[-1]["moment"] + 1
        wanted = figures.reckoned(events, begin, end, {}, LIMIT, set())
        for name, found, others in (("sums", tables["sums"], wanted["groups"]), ("quarters", {f"{key.split()[0]} {int(key.split()[1]) * 900}": line for key, line in tables["quarters"].items()}, wanted["quarters"])):
            self.expect(name, {key: dict(zip(FIGURES, line)) for key, line in found.items() if any(line[:len(FIGURES)])},
                        {key: {figure: line.get(figure, 0) for figure in FIGURES} for key, line in others.items() if key.partition(" ")[0] != "all" and any(line.values())})
        agents = {}
        for number, (calls, missed, *spent, since, does, _) in tables["spent"].items():
            agents[number] = [calls, missed, *(seconds + (end - since if does == name else 0) for name, seconds in zip(("talk", "afterCall", "ready", "notReady"), spent))]
        others = {number: [line[name] for name in ("calls", "missed", "talk", "work", "ready", "notReady")] for number, line in wanted["agents"].items()}
        # whoever has just logged on has nothing but noughts, in one reckoning and not in the other
        self.expect("agents", *({number: line for number, line in lines.items() if any(line)} for lines in (agents, others)))
        return len(tables["sums"]) + len(tables["quarters"]) + len(agents)

    @staticmethod
    def new_events(desk, after):
        found = []
        while True:
            page = json.loads(desk.told(f"/history?after={after}")[1])
            found += page["events"]
            after = page["events"][-1]["number"] if page["events"] else after
            if after >= page["last"]:
                return found

    def try_losses(self):
        asyncio.run(self.losses(office()[:MANY]))

    async def losses(self, lines):
        """Pages that lose the stream a thousand times, and go on from the number that they had: each has in the end what a new picture has."""
        desk, chance = self.enterContext(Asked(self.program)), random.Random(3)
        follower = following.Following(desk.ask)
        streams = follower.streams
        agents = sorted({json.loads(line.partition(" ")[2])["agent"] for line in lines if '"addAgent"' in line})[:PAGES]
        sights = [Sight(0, (("", 20.0),)), Sight(int(lines[0].split()[0]) + 900, (("", 5.0), ("100", 60.0)), frozenset({"100", "9"}), frozenset({"day", "events"}))]
        begun = [Page(streams, f"{sight}{number}", sight=sight) for sight in sights for number in range(PAGES)] + [Page(streams, agent, agent=agent, groups=frozenset({"100", "9"})) for agent in agents]
        streams.run = lambda: asyncio.sleep(0)      # turns are taken here, at the day's own moments
        clock, compared, went_on = 0.0, 0, 0
        streams.clock = lambda: clock
        for number, line in enumerate(lines, 1):
            desk.say(line)
            if number % 10 == 0:
                # now and then by a new snapshot, which has what no event tells
                follower.renewed = 0 if number % 250 == 0 else float("inf")
                state = await follower.catch_up()
                clock += 1.1
                list(streams.take_turn(clock))
                went_on += await self.by_chance(begun, chance)
            if number % 100 == 0:
                clock += 1.1
                list(streams.take_turn(clock))
                compared += self.compare(streams, state, begun, number)
        losses = sum(page.losses for page in begun)
        print(f"    {losses} losses, {went_on} times a page went on, {compared} pages compared with a new picture")
        self.see("a thousand losses", losses >= LOSSES and compared > 300, (losses, went_on, compared))

    @staticmethod
    async def by_chance(pages, chance):
        """Some lose the stream, others begin again; how many went on from a number."""
        went_on = 0
        for page in pages:
            if page.stream is None and chance.random() < 0.6:
                after = page.name if chance.random() < 0.9 else ""
                went_on += after != ""
                page.begin(after)
            elif page.stream is not None and chance.random() < 0.25:
                await page.lose()
        for _ in range(5):
            await asyncio.sleep(0)
        return went_on

    def compare(self, streams, state, begun, number):
        compared = 0
        for page in begun:
            if page.stream is None:
                continue
            new = Page(streams, "new", **page.sees)
            new.stream = Stream("other", lambda: True, pipe=new, **page.sees)
            streams.begin(new.stream, "")
            self.expect(f"behind request {number}, {page.sees}", differences(page.picture, new.picture), [])
            compared += 1
        return compared


def differences(has, wanted):
    found = []
    for name in has.keys() | wanted.keys():
        one, other = has.get(name), wanted.get(name)
        if isinstance(one, dict) and isinstance(other, dict):
            found += [(name, key, one.get(key), other.get(key)) for key in one.keys() | other.keys() if one.get(key) != other.get(key)][:3]
        elif one != other:
            found.append((name, one, other))
    return found


def groups_of(agent):
    return agent.get("groups") or ([agent["group"]] if "group" in agent else [])


def doing_of(agent, here, callers):
    """What an agent does, and for which group, by the agent's state and the connections at the station; `callers` are the calls from outside, with the groups that they entered last."""
    given = [(side["state"], side["group"]) for _, side in here if side.get("group")]
    given += [(state, callers[call]) for state in ("connected", "hold", "alerting") for call, side in here if call in callers and side["state"] == state]
    if given:
        state, group = given[0]
        return {"alerting": "ringing", "hold": "hold"}.get(state, "busy"), group
    return "own" if agent["state"] == "ready" and any(side["state"] != "fail" for _, side in here) else agent["state"], None


def walked(events, groups, begin):
    """How many waited at most in each quarter of an hour, by the calls that are in a queue behind each event."""
    queues, waiting, most = {event["device"] for event in events if event["event"] == "queued"}, {}, {}
    for event in events:
        if event["moment"] >= begin:
            quarter = event["moment"] // 900
            most[quarter] = max(most.get(quarter, 0), sum(not groups or group in groups for group in waiting.values()))
        if event["event"] == "queued":
            waiting[event["call"]] = event["device"]
        elif event.get("device") in queues and waiting.get(event.get("call")) == event["device"]:
            del waiting[event["call"]]
        if event["moment"] >= begin:
            most[quarter] = max(most[quarter], sum(not groups or group in groups for group in waiting.values()))
    return most


def peaks_of(peaks, sums, lines, groups, begin, events):
    """The same by what a board was told."""
    chosen = [group for group in sums if not groups or group in groups]
    before = sum(lines[group].get("waiting", 0) - sums[group][len(FIGURES)] for group in chosen) + sum(line.get("waiting", 0) for group, line in lines.items() if group not in sums and (not groups or group in groups))
    found, waiting = {}, before
    for quarter in range(begin // 900, events[-1]["moment"] // 900 + 1):
        top, end = peaks.get(str(quarter), (None, None))
        found[quarter] = waiting if top is None else max(waiting, before + top)
        waiting = waiting if end is None else before + end
    return found
