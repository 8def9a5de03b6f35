"""A course of requests by kinds, for bench/kinds --memory: blocks of one kind each, all of them granted but those that are to be refused.

A plan of so many groups, and of as many stations as agents. Ring and wrap are an hour, so what is offered or ends second by second is overdue
second by second, and each tick ends one thing. Behind each round all agents are logged off and no call lives, so the next begins as this one."""
import json
from collections import deque

HOUR = 3600
MONITORS = 256  # at most


class Course:
    def __init__(self, groups, agents, rounds=1):
        self.groups, self.count, self.rounds = groups, agents, rounds
        self.now, self.invoke, self.calls, self.monitors = 0, 0, 0, 0
        self.lines, self.ready = [], [deque() for _ in range(groups)]
        self.ringing, self.waiting = deque(), deque()  # call, agent and group; call and group
        self.talked, self.made = [], []  # call and agent; call and station

    def ask(self, service, **members):
        self.invoke += 1
        request = {"requester": "kinds", "invoke": self.invoke, "service": service, **members}
        self.lines.append(f"{self.now} {json.dumps(request, separators=(',', ':'))}\n")

    def group(self, agent):
        return f"9{agent % self.groups:02}"

    @staticmethod
    def station(agent):
        return f"2{agent:04}"

    @property
    def agents(self):
        return range(self.count)

    def state(self, agent, requested, **members):
        self.ask("setAgentState", agent=str(agent + 1), requested=requested, **members)

    def add_groups(self):
        for g in range(self.groups):
            self.ask("addGroup", device=self.group(g), name=f"Group {g}", ring=HOUR, wrap=HOUR)

    def add_stations(self):
        for agent in self.agents:
            self.ask("addStation", device=self.station(agent))

    def add_agents(self):
        for agent in self.agents:
            self.ask("addAgent", agent=str(agent + 1), name=f"Agent {agent + 1}")

    def log_on(self):
        for agent in self.agents:
            self.state(agent, "loggedOn", device=self.station(agent), group=self.group(agent))

    def be_ready(self):
        for agent in self.agents:
            self.state(agent, "ready")
        self.seat_again()

    def be(self, requested):
        for agent in self.agents:
            self.state(agent, requested)
        for each in self.ready:
            each.clear()

    def arrive(self, offered):
        """A call each second, to the groups in turn."""
        for n in self.agents:
            self.now += 1
            self.calls += 1
            g = n % self.groups
            self.ask("arriveCall", caller=f"03{self.calls:07}", called=self.group(g))
            if offered:
                self.ringing.append((self.calls, self.ready[g].popleft(), g))
            else:
                self.waiting.append((self.calls, g))

    def answer(self):
        while self.ringing:
            call, agent, _ = self.ringing.popleft()
            self.ask("answerCall", call=call, device=self.station(agent))
            self.talked.append((call, agent))

    def at_agents(self, service):
        for call, agent in self.talked:
            self.ask(service, call=call, device=self.station(agent))

    def pend(self):
        """Those who talk ask for what comes anyway."""
        for _, agent in self.talked:
            self.state(agent, "workingAfterCall")

    def deflect(self):
        """Each call that waits goes to the next group."""
        for _ in self.agents:
            call, g = self.waiting.popleft()
            to = (g + 1) % self.groups
            self.ask("deflectCall", call=call, device=self.group(g), to=self.group(to))
            self.waiting.append((call, to))

    def transfer(self):
        """Half of the calls that are talked go to a group where all wait."""
        for _ in range(self.count // 2):
            self.now += 1
            call, agent = self.talked.pop(0)
            self.ask("singleStepTransfer", call=call, device=self.station(agent), to=self.group(agent))
            self.waiting.append((call, agent % self.groups))

    def clear(self, calls):
        """By the callers, one each second."""
        for call, *_ in list(calls):
            self.now += 1
            self.ask("clearConnection", call=call, device=f"03{call:07}")
        calls.clear()

    def make(self):
        """Each agent's station begins a call to a group."""
        for agent in self.agents:
            self.calls += 1
            self.ask("makeCall", device=self.station(agent), called=self.group(agent))
            self.made.append((self.calls, self.station(agent)))

    def at_makers(self, service):
        for call, station in self.made:
            self.ask(service, call=call, device=station)

    def watch(self):
        for agent in range(min(self.count, MONITORS)):
            self.ask("monitorStart", device=self.station(agent))

    def watch_no_more(self):
        for _ in range(min(self.count, MONITORS)):
            self.monitors += 1
            self.ask("monitorStop", monitor=self.monitors)

    def rank(self):
        for n in self.agents:
            self.ask("setGroupPriority", device=self.group(n), priority=n // self.groups % 10)

    def change_groups(self):
        """Names alone, so that what is overdue stays so."""
        for n in self.agents:
            self.ask("changeGroup", device=self.group(n), name=f"Group {n}", ring=HOUR, wrap=HOUR)

    def change_agents(self):
        for agent in self.agents:
            self.ask("changeAgent", agent=str(agent + 1), name=f"Agent {agent + 1}, changed")

    def reject(self):
        """Each offer that rings; nobody else is ready, so the call waits at its old place."""
        for call, agent, _ in self.ringing:
            self.ask("rejectCall", call=call, device=self.station(agent))

    def tick(self, step=1, count=None):
        for _ in range(count or self.count):
            self.ask("tick")
            self.now += step

    def wrap_each(self):
        """An agent goes into after-call work, and a tick an hour later ends it; nobody else is in it."""
        for agent in self.agents:
            self.state(agent, "workingAfterCall")
            self.now += HOUR
            self.ask("tick")
        self.seat_again()

    def take_waiting(self):
        """Those whose offers went back become ready, and each gets one of them again."""
        for _, agent, _ in self.ringing:
            self.state(agent, "ready")

    def again(self):
        """The last requests once more."""
        self.lines += self.lines[-self.count:]

    def refused(self, service, **members):
        for _ in self.agents:
            self.ask(service, **members)

    def overdue(self, first):
        """The moment at which what happened at `first` is overdue."""
        self.now = max(self.now, first + HOUR)

    def seat_again(self):
        """The agents became ready in the order of their numbers."""
        for each in self.ready:
            each.clear()
        for agent in self.agents:
            self.ready[agent % self.groups].append(agent)

    def blocks(self):
        """Name, requests of one unit, lines; of a name that is None nothing is told."""
        yield self.block(None, lambda: self.tick(0, 9))
        yield self.block("addGroup", self.add_groups)
        yield self.block("addStation", self.add_stations)
        yield self.block("addAgent", self.add_agents)
        for _ in range(self.rounds):
            yield from self.day()

    def day(self):
        yield self.block("setAgentState loggedOn", self.log_on)
        yield self.block("setAgentState ready, nobody waits", self.be_ready)
        yield from self.talk()
        yield from self.rest()
        yield from self.own_calls()
        yield from self.ring()
        yield from self.little()
        yield self.block("setAgentState loggedOff", lambda: self.be("loggedOff"))

    def talk(self):
        yield self.block("arriveCall, offered at once", lambda: self.arrive(True))
        yield self.block("arriveCall, waits", lambda: self.arrive(False))
        yield self.block("answerCall", self.answer)
        yield self.block("answerCall, refused (wrongConnectionState)", lambda: self.at_agents("answerCall"))
        yield self.block("holdCall", lambda: self.at_agents("holdCall"))
        yield self.block("retrieveCall", lambda: self.at_agents("retrieveCall"))
        yield self.block("setAgentState, pending", self.pend)
        yield self.block("deflectCall, of one that waits, to a group", self.deflect)
        self.began = self.now + 1
        yield self.block("singleStepTransfer to a group", self.transfer)
        yield self.block("clearConnection, talked", lambda: self.clear(self.talked))
        yield self.block("clearConnection, waits", lambda: self.clear(self.waiting))

    def rest(self):
        self.overdue(self.began)
        yield self.block("tick that ends one wrap of many", self.tick)
        yield self.block("setAgentState notReady", lambda: self.be("notReady"))

    def own_calls(self):
        yield self.block("makeCall", self.make)
        yield self.block("phoneOffHook, to a group", lambda: self.at_makers("phoneOffHook"))
        yield self.block("clearConnection, of a station's own call", lambda: self.at_makers("clearConnection"))
        self.made.clear()
        yield self.block("setAgentState ready, nobody waits, again", self.be_ready)
        yield self.block("setAgentState workingAfterCall and the tick that ends it, nobody else", self.wrap_each, 2)

    def ring(self):
        began = self.now + 1
        yield self.block("arriveCall, offered at once, again", lambda: self.arrive(True))
        yield self.block("tick, nothing overdue, all agents ring", lambda: self.tick(0, (self.count + 3) // 4))
        self.overdue(began)
        yield self.block("tick that takes back one offer of many", self.tick)
        yield self.block("setAgentState ready, one waits: offered", self.take_waiting)
        yield self.block("rejectCall, nobody else is ready", self.reject)
        yield self.block("setAgentState ready, one waits: offered, again", self.take_waiting)
        yield self.block("clearConnection, rings", lambda: self.clear(self.ringing))

    def little(self):
        yield self.block("monitorStart", self.watch)
        yield self.block("monitorStop", self.watch_no_more)
        yield self.block("setGroupPriority", self.rank)
        yield self.block("changeGroup", self.change_groups)
        yield self.block("changeAgent", self.change_agents)
        yield self.block("tick, nothing to do", lambda: self.tick(0))
        yield self.block("a repeat", self.again)
        yield self.block("answerCall, refused (unknownCall)", lambda: self.refused("answerCall", call=1000000000, device="20000"))
        yield self.block("a repeat of a refusal", self.again)
        yield self.block("arriveCall, refused (unknownDevice)", lambda: self.refused("arriveCall", caller="0300", called="8888"))
        yield self.block("setAgentState, refused (wrongAgentState)", lambda: self.refused("setAgentState", agent="1", requested="loggedOn", device="20000", group="900"))
        yield self.block("addAgent, refused (agentExists)", lambda: self.refused("addAgent", agent="1", name="Agent 1"))
        yield self.block("no JSON", lambda: self.lines.extend([f"{self.now} {{\n"] * self.count))

    def block(self, name, act, each=1):
        begun = len(self.lines)
        act()
        return name, each, self.lines[begun:]
