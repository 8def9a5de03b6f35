#!/usr/bin/python3
"""Input lines of a busy call centre for `acd lines`: the same arguments print the same lines.

usage: busy.py REQUESTS [--plan small|full] [--groups N] [--agents N] [--calls N] [--each N] [--seed N]

First comes the opening: the plan, agents who log on and become ready, calls up to the wanted number, and an answer
to each call that rings. Then REQUESTS lines of a working day follow: calls that arrive, are answered, held, retrieved
and cleared, agents who become ready again, and ticks. `busy.py 0` prints the opening alone.

small: 2 groups, 10 stations, 10 agents, 18 live calls; full: 64 groups, 1000 stations, 1000 agents, 1800 live calls.
The other words change one of these; there are as many stations as agents, and each agent serves one group, or as many as --each says.
The generator keeps count of who rings where, so that each line is a request that the desk grants."""
import argparse
import heapq
import json
import random
from collections import namedtuple

Plan = namedtuple("Plan", "groups stations live")
PLANS = {"small": Plan(2, 10, 18), "full": Plan(64, 1000, 1800)}
RING, WRAP = 20, 30


class Agent:
    """An agent, who stays at one station and in the same groups."""

    def __init__(self, number, groups):
        self.number, self.groups = number, groups
        self.state, self.stamp, self.since = "null", 0, 0


class Call:
    """A live call from outside."""

    def __init__(self, number, caller, group, place):
        self.number, self.caller, self.group, self.place = number, caller, group, place
        self.agent, self.offered, self.state = None, 0, "queued"


class Members:
    """A set out of which one is drawn by chance, the same one on each run."""

    def __init__(self):
        self.list, self.places = [], {}

    def add(self, member):
        self.places[member] = len(self.list)
        self.list.append(member)

    def remove(self, member):
        place, last = self.places.pop(member), self.list.pop()
        if last is not member:
            self.list[place] = last
            self.places[last] = place

    def draw(self, rng):
        return self.list[rng.randrange(len(self.list))]

    def __len__(self):
        return len(self.list)


class Centre:
    """The call centre as far as the generator has to know it. Each request is printed as it is made."""

    def __init__(self, plan, each, rng):
        self.plan, self.rng = plan, rng
        self.now = self.stamp = self.calls = self.printed = 0
        self.invokes = {}
        self.agents = [Agent(a + 1, sorted({(a + n) % plan.groups for n in range(each)})) for a in range(plan.stations)]
        self.waiting = [[] for _ in range(plan.groups)]
        self.ready = [[] for _ in range(plan.groups)]
        self.queued, self.ringing, self.talking, self.held = Members(), Members(), Members(), Members()
        self.idle, self.working = Members(), Members()

    def ask(self, requester, service, **members):
        self.stamp += 1
        self.invokes[requester] = self.invokes.get(requester, 0) + 1
        request = {"requester": requester, "invoke": self.invokes[requester], "service": service, **members}
        print(self.now, json.dumps(request, separators=(",", ":")))
        self.printed += 1

    @staticmethod
    def group(g):
        return f"9{g:02}"

    @staticmethod
    def station(agent):
        return f"2{agent.number - 1:04}"

    # what the switch does by itself

    def become_ready(self, agent):
        agent.state, agent.stamp = "ready", self.stamp
        for group in agent.groups:
            heapq.heappush(self.ready[group], (agent.stamp, agent.number, agent))

    def wait(self, call):
        call.state = "queued"
        heapq.heappush(self.waiting[call.group], (call.place, call))
        self.queued.add(call)

    def distribute(self):
        for waiting, ready in zip(self.waiting, self.ready):
            while True:
                # (an agent may have gone, by an offer in another group)
                while ready and (ready[0][2].state, ready[0][2].stamp) != ("ready", ready[0][0]):
                    heapq.heappop(ready)
                while waiting and waiting[0][1].state != "queued":
                    heapq.heappop(waiting)
                if not ready or not waiting:
                    break
                call, agent = heapq.heappop(waiting)[1], heapq.heappop(ready)[2]
                self.queued.remove(call)
                self.ringing.add(call)
                call.state, call.agent, call.offered = "ringing", agent, self.now
                agent.state = "ringing"

    # requests

    def open(self):
        for g in range(self.plan.groups):
            self.ask("plan", "addGroup", device=self.group(g), name=f"Group {g}", ring=RING, wrap=WRAP)
        for agent in self.agents:
            self.ask("plan", "addStation", device=self.station(agent))
        for agent in self.agents:
            self.ask("plan", "addAgent", agent=str(agent.number), name=f"Agent {agent.number}")
        for agent in self.agents:
            self.log_on(agent)
            self.ask_ready(agent)
        while self.live() < self.plan.live:
            self.arrive()
        while self.ringing:
            self.answer()

    def live(self):
        return len(self.queued) + len(self.ringing) + len(self.talking) + len(self.held)

    def log_on(self, agent):
        groups = [self.group(group) for group in agent.groups]
        named = {"group": groups[0]} if len(groups) == 1 else {"groups": groups}
        self.ask("desk", "setAgentState", agent=str(agent.number), requested="loggedOn", device=self.station(agent), **named)
        agent.state = "notReady"
        self.idle.add(agent)

    def ask_ready(self, agent):
        self.ask("desk", "setAgentState", agent=str(agent.number), requested="ready")
        (self.working if agent.state == "workingAfterCall" else self.idle).remove(agent)
        self.become_ready(agent)
        self.distribute()

    def arrive(self):
        caller = f"03{self.rng.randrange(10**7):07}"
        group = self.rng.randrange(self.plan.groups)
        self.ask("pbx", "arriveCall", caller=caller, called=self.group(group))
        self.calls += 1
        self.wait(Call(self.calls, caller, group, self.stamp))
        self.distribute()

    def answer(self):
        call = self.ringing.draw(self.rng)
        self.ask("desk", "answerCall", call=call.number, device=self.station(call.agent))
        self.ringing.remove(call)
        self.talking.add(call)
        call.state = call.agent.state = "busy"

    def hold(self):
        call = self.talking.draw(self.rng)
        self.ask("desk", "holdCall", call=call.number, device=self.station(call.agent))
        self.talking.remove(call)
        self.held.add(call)

    def retrieve(self):
        call = self.held.draw(self.rng)
        self.ask("desk", "retrieveCall", call=call.number, device=self.station(call.agent))
        self.held.remove(call)
        self.talking.add(call)

    def hang_up(self):
        call = self.talking.draw(self.rng)
        self.ask("pbx", "clearConnection", call=call.number, device=call.caller)
        self.talking.remove(call)
        call.state, agent = "cleared", call.agent
        agent.state, agent.since = "workingAfterCall", self.now
        self.working.add(agent)

    def abandon(self):
        call = self.queued.draw(self.rng)
        self.ask("pbx", "clearConnection", call=call.number, device=call.caller)
        self.queued.remove(call)
        call.state = "cleared"

    def tick(self):
        self.ask("clock", "tick")
        overdue = [call for call in self.ringing.list if self.now - call.offered >= RING]
        for call in sorted(overdue, key=lambda call: call.number):
            self.ringing.remove(call)
            call.agent.state = "notReady"
            self.idle.add(call.agent)
            self.wait(call)
        done = [agent for agent in self.working.list if self.now - agent.since >= WRAP]
        for agent in sorted(done, key=lambda agent: agent.number):
            self.working.remove(agent)
            self.become_ready(agent)
        self.distribute()

    def work(self):
        """One request of the working day."""
        if self.rng.random() < 0.1:
            self.now += 1
        if self.live() < self.plan.live and self.rng.random() < 0.8:
            return self.arrive()
        ways = [(6, self.answer, self.ringing), (1, self.hold, self.talking), (3, self.retrieve, self.held),
                (4, self.hang_up, self.talking), (6, lambda: self.ask_ready(self.idle.draw(self.rng)), self.idle),
                (4, lambda: self.ask_ready(self.working.draw(self.rng)), self.working)]
        if len(self.queued) * 2 > self.plan.live:
            ways.append((2, self.abandon, self.queued))
        open_ways = [(weight, way) for weight, way, members in ways if len(members) > 0]
        if not open_ways or self.rng.random() < 0.05:
            return self.tick()
        return self.rng.choices([way for _, way in open_ways], [weight for weight, _ in open_ways])[0]()


def main():
    parser = argparse.ArgumentParser(description=__doc__, formatter_class=argparse.RawDescriptionHelpFormatter)
    parser.add_argument("requests", type=int)
    parser.add_argument("--plan", choices=sorted(PLANS), default="small")
    parser.add_argument("--groups", type=int, dest="groups")
    parser.add_argument("--agents", type=int, dest="stations")
    parser.add_argument("--calls", type=int, dest="live")
    parser.add_argument("--each", type=int, default=1, choices=range(1, 9))
    parser.add_argument("--seed", type=int, default=1)
    args = parser.parse_args()
    changed = {name: vars(args)[name] for name in Plan._fields if vars(args)[name] is not None}
    centre = Centre(PLANS[args.plan]._replace(**changed), args.each, random.Random(args.seed))
    centre.open()
    for _ in range(args.requests):
        centre.work()


if __name__ == "__main__":
    main()
