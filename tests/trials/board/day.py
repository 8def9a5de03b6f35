#!/usr/bin/python3
"""A made-up day of a help line: a plan, shifts, callers with and without patience, talks, holds, transfers, breaks and ticks.

usage: day.py --begin B --end E [--groups G] [--agents A] [--load L] [--seed S]     (default: 12, 150, 0.95, 1)

Prints the day as lines for `acd lines`; B and E are its first and last moment, in seconds since 1970. It foresees what the desk does
with them, so that each request is granted: an agent in three serves two or three groups, and every fourth group goes before the others.
The same words give the same lines. To carry the day on in real time is live.py's part."""
import argparse
import heapq
import random
import sys
from itertools import count
from pathlib import Path

sys.path.append(str(Path(__file__).resolve().parents[1]))
from trial import Plan, Requests, line  # noqa: E402

NAMES = ["Billing", "Orders", "Returns", "Technical help", "Deliveries", "New customers", "Complaints", "Insurance", "Contracts",
         "Moving house", "Power failure", "Water", "Meter readings", "Business customers", "Internet", "Mobile", "Television",
         "Doctors on call", "Poison helpline", "Travel", "Lost cards", "Loans", "Savings", "Switchboard"]
FIRST = "Ana Ben Cleo Dora Emil Finn Greta Hugo Ida Jan Kira Leo Mia Nils Olga Paul Quin Rosa Sven Tara Udo Vera Willi Xenia Yara Zoe".split()
LAST = ("Adler Berg Cremer Diaz Ebert Frank Gomez Haas Iken Jung Koch Lang Maier Novak Otto Peters Quast Richter Sommer Tamm Ulrich "
        "Vogt Weber Yilmaz Zander").split()
RING, WRAP, TICK, TALK = 20, 45, 5, 180
PRIORITY = 5
BY_HOUR = [0.25, 0.6, 1.0, 1.15, 1.0, 0.8, 0.95, 1.1, 0.9, 0.7, 0.5, 0.35]  # arrivals over the day, as shares of what the agents can serve


class Agent:
    def __init__(self, number, groups, station):
        self.number, self.groups, self.station = number, groups, station
        self.state, self.since, self.pending, self.call, self.turn = "null", 0, None, None, 0


class Call:
    def __init__(self, number, caller, group, place):
        self.number, self.caller, self.group, self.place = number, caller, group, place
        self.state, self.agent, self.offered, self.deflected = "queued", None, 0, False


class Day:
    def __init__(self, begin, end, groups, agents, load, seed):
        self.begin, self.end, self.load, self.chance = begin, end, load, random.Random(seed)
        self.now, self.stamp, self.last_call, self.live = begin, 0, 0, 0
        self.request, self.ahead, self.serial, self.lines = Requests(), [], count(), []
        self.weights = [self.chance.uniform(0.4, 1.6) for _ in range(groups)]
        self.agents = [Agent(str(number + 1), self.some_groups(), str(2000 + number)) for number in range(agents)]
        self.waiting, self.ready = [[] for _ in self.weights], [[] for _ in self.weights]
        self.served = sorted(range(groups), key=lambda group: (not self.goes_first(group), group))
        self.ringing, self.wrapping = set(), set()

    def some_groups(self):
        many = self.chance.choice([1, 1, 1, 1, 2, 3])
        return sorted(set(self.chance.choices(range(len(self.weights)), self.weights, k=many)))

    @staticmethod
    def goes_first(group):
        return group % 4 == 3

    @staticmethod
    def device(group):
        return str(100 + group)

    def ask(self, request):
        self.stamp += 1
        self.lines.append(line(self.now, request))

    def after(self, seconds, what, *things):
        heapq.heappush(self.ahead, (self.now + max(1, int(seconds)), next(self.serial), what, things))

    # what the desk does

    def enqueue(self, call, place):
        call.state, call.place, call.agent = "queued", place, None
        heapq.heappush(self.waiting[call.group], (place, call.number, call))

    def become(self, agent, state):
        agent.state, agent.since = state, self.now
        self.wrapping.discard(agent)
        if state == "workingAfterCall":
            self.wrapping.add(agent)
        if state == "ready":
            agent.turn = self.stamp
            for group in agent.groups:
                heapq.heappush(self.ready[group], (self.stamp, int("1" + agent.number), agent))

    def first_of(self, group):
        """The call and the agent of the next offer in a group, where it has both."""
        waiting, ready = self.waiting[group], self.ready[group]
        while waiting and not (waiting[0][2].state == "queued" and waiting[0][2].place == waiting[0][0] and waiting[0][2].group == group):
            heapq.heappop(waiting)
        while ready and not (ready[0][2].state == "ready" and ready[0][2].turn == ready[0][0]):
            heapq.heappop(ready)
        # one who is rung keeps the place among the ready, and is passed over
        free = next((entry[2] for entry in sorted(ready) if entry[2].call is None and entry[2].state == "ready" and entry[2].turn == entry[0]), None)
        return (waiting[0][2], free) if waiting and free else None

    def distribute(self):
        group = next((group for group in self.served if self.waiting[group] and self.ready[group] and self.first_of(group)), None)
        while group is not None:
            call, agent = self.first_of(group)
            heapq.heappop(self.waiting[group])
            call.state, call.agent, call.offered, agent.call = "ringing", agent, self.now, call
            self.ringing.add(call)
            if self.chance.random() < 0.97:
                self.after(self.chance.randrange(2, 13), self.answer, call, call.offered)
            group = next((group for group in self.served if self.waiting[group] and self.ready[group] and self.first_of(group)), None)

    def release(self, agent, answered):
        self.ringing.discard(agent.call)
        pending, agent.call, agent.pending = agent.pending, None, None
        self.become(agent, {"loggedOff": "null", None: "workingAfterCall" if answered else "notReady"}.get(pending, pending))
        if agent.state == "notReady":
            self.after(self.chance.randrange(60, 600), self.say_ready, agent)
        elif agent.state == "workingAfterCall" and self.chance.random() < 0.5:
            self.after(self.chance.randrange(5, 40), self.say_ready, agent)

    # what people do

    def plan(self):
        groups = [(self.device(group), NAMES[group] if group < len(NAMES) else f"Group {group + 1}", RING, WRAP) for group in range(len(self.weights))]
        agents = [(agent.number, f"{FIRST[place % 26]} {LAST[(place // 26 + place) % 25]}") for place, agent in enumerate(self.agents)]
        for request in [*self.request.plan(Plan(groups, [], [])),
                        *(self.request("setGroupPriority", device=device, priority=PRIORITY) for group, (device, *_) in enumerate(groups) if self.goes_first(group)),
                        *self.request.plan(Plan([], [agent.station for agent in self.agents], agents))]:
            self.ask(request)

    def log_on(self, agent):
        self.ask(self.request.log_on(agent.number, agent.station, *map(self.device, agent.groups)))
        self.become(agent, "notReady")
        self.after(self.chance.randrange(5, 90), self.say_ready, agent)
        self.after(self.chance.expovariate(1 / 4000), self.take_break, agent)

    def say_ready(self, agent):
        if agent.state in ("notReady", "workingAfterCall"):
            self.ask(self.request.state(agent.number))
            self.become(agent, "ready")

    def take_break(self, agent):
        if agent.state == "null":
            return
        self.after(self.chance.expovariate(1 / 4000) + 600, self.take_break, agent)
        if agent.state != "notReady":
            self.leave(agent, "notReady")
            self.after(self.chance.randrange(240, 1200), self.say_ready, agent)

    def leave(self, agent, requested):
        """To a state at once, or behind the call that the agent has."""
        if agent.state == "null":
            return
        self.ask(self.request.state(agent.number, requested))
        if agent.call:
            agent.pending = requested
        else:
            self.become(agent, "null" if requested == "loggedOff" else requested)

    def arrive(self, group):
        share = BY_HOUR[min(11, 12 * (self.now - self.begin) // (self.end - self.begin))]
        serving = len(self.agents) * self.weights[group] / sum(self.weights) / (TALK + 40)
        self.after(self.chance.expovariate(max(1e-5, serving * self.load * share)), self.arrive, group)
        if self.live >= 1950:
            return
        self.last_call, self.live = self.last_call + 1, self.live + 1
        call = Call(self.last_call, f"03{self.chance.randrange(10 ** 7):07}", group, 0)
        self.ask(self.request.arrive(call.caller, self.device(group)))
        self.enqueue(call, self.stamp)
        self.after(self.chance.expovariate(1 / 240) + 5, self.lose_patience, call)

    def lose_patience(self, call):
        if call.state != "queued":
            return
        if call.deflected or self.chance.random() > 0.08 or len(self.weights) == 1:
            return self.clear(call)
        to = (call.group + 1) % len(self.weights)
        self.ask(self.request.at("deflectCall", call.number, self.device(call.group), requester="sup", to=self.device(to)))
        call.group, call.deflected = to, True
        self.enqueue(call, self.stamp)
        self.after(self.chance.expovariate(1 / 240) + 30, self.lose_patience, call)

    def clear(self, call):
        self.ask(self.request.at("clearConnection", call.number, call.caller))
        call.state, self.live = "cleared", self.live - 1

    def answer(self, call, offered):
        if call.state != "ringing" or call.offered != offered:
            return
        self.ask(self.request.at("answerCall", call.number, call.agent.station))
        call.state = call.agent.state = "busy"
        self.ringing.discard(call)
        talk, chance = self.chance.lognormvariate(0, 0.6) * TALK * 0.85, self.chance.random()
        if chance < 0.1:
            self.after(talk * 0.4, self.hold, call, talk * 0.6)
        elif chance < 0.15 and len(self.weights) > 1:
            self.after(talk * 0.5, self.transfer, call)
        else:
            self.after(talk, self.hang_up, call)

    def hold(self, call, rest):
        self.ask(self.request.at("holdCall", call.number, call.agent.station))
        self.after(self.chance.randrange(15, 90), self.retrieve, call, rest)

    def retrieve(self, call, rest):
        self.ask(self.request.at("retrieveCall", call.number, call.agent.station))
        self.after(rest, self.hang_up, call)

    def transfer(self, call):
        agent = call.agent
        call.group = (call.group + self.chance.randrange(1, len(self.weights))) % len(self.weights)
        self.ask(self.request.at("singleStepTransfer", call.number, agent.station, to=self.device(call.group)))
        self.enqueue(call, self.stamp)
        self.release(agent, answered=True)
        self.after(self.chance.expovariate(1 / 300) + 20, self.lose_patience, call)

    def hang_up(self, call):
        self.clear(call)
        self.release(call.agent, answered=True)

    def tick(self):
        self.after(TICK, self.tick)
        self.ask(self.request.tick())
        for call in sorted((call for call in self.ringing if self.now - call.offered >= RING), key=lambda call: call.number):
            agent = call.agent
            self.enqueue(call, call.place)
            self.release(agent, answered=False)
            if call.state == "queued":
                self.after(self.chance.expovariate(1 / 240), self.lose_patience, call)
        for agent in sorted((agent for agent in self.wrapping if self.now - agent.since >= WRAP), key=lambda agent: int("1" + agent.number)):
            self.become(agent, "ready")

    def run(self):
        self.plan()
        for agent in self.agents:
            if self.chance.random() < 0.92:
                self.after(self.chance.randrange(1800), self.log_on, agent)
                if self.chance.random() < 0.08:
                    self.after((self.end - self.begin) * self.chance.uniform(0.5, 1), self.leave, agent, "loggedOff")
        for group in range(len(self.weights)):
            self.arrive(group)
        self.after(1, self.tick)
        while self.ahead[0][0] < self.end:
            self.now, _, what, things = heapq.heappop(self.ahead)
            what(*things)
            self.distribute()
        return self.lines


def main():
    parser = argparse.ArgumentParser()
    parser.add_argument("--begin", type=int, required=True)
    parser.add_argument("--end", type=int, required=True)
    parser.add_argument("--groups", type=int, default=12)
    parser.add_argument("--agents", type=int, default=150)
    parser.add_argument("--load", type=float, default=0.95)
    parser.add_argument("--seed", type=int, default=1)
    sys.stdout.writelines(Day(**vars(parser.parse_args())).run())


if __name__ == "__main__":
    main()
