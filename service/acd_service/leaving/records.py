"""The course of each call and of each agent's day, by the events. Tested, not proved."""
import datetime
import math
from collections import defaultdict
from dataclasses import dataclass, field

from acd_service.book import Fault
from acd_service.reasons import Given
from acd_service.waits import Waits

# what a call's event makes of the connection at its device
STATES = {"serviceInitiated": "initiated", "originated": "connected", "queued": "queued", "delivered": "alerting", "established": "connected", "held": "hold",
          "retrieved": "connected", "failed": "fail"}
BEGINS = ("serviceInitiated", "queued", "delivered", "failed")
ENDS = ("diverted", "transferred", "connectionCleared")
RINGS = ("alerting", "offered")
AGENT_STATES = {"agentLoggedOn": "notReady", "agentLoggedOff": "null", "agentNotReady": "notReady", "agentReady": "ready", "agentBusy": "busy",
                "agentWorkingAfterCall": "workingAfterCall"}
# the column of the seconds in a state
SECONDS = {"ready": "ready", "busy": "talking", "workingAfterCall": "wrap_up", "notReady": "not_ready"}
COUNTS = ("logged_on", "ready", "talking", "wrap_up", "rings_not_answered", "rings_refused", "rings_hung_up", "rings", "calls", "own_calls", "not_ready")


def midnight(day):
    """The moment at which a day begins in this machine's zone."""
    return int(datetime.datetime.combine(day, datetime.time()).timestamp())


class Calendar:
    """The days of moments in this machine's zone; most are on the day of the one before."""

    def __init__(self):
        self.day, self.begins, self.ends = None, 0, 0

    def day_of(self, moment):
        if not self.begins <= moment < self.ends:
            self.day = datetime.datetime.fromtimestamp(moment).date()
            self.begins, self.ends = midnight(self.day), midnight(self.day + datetime.timedelta(days=1))
        return self.day


@dataclass(eq=False)
class Leg:
    """A call at one device, from its arrival there to its end there: in a group's queue, or at a station. `offered` is a leg that rings by distribution."""
    device: str
    state: str
    begun: int
    group: str = ""
    agent: str = ""  # who is logged on at the station, - for nobody
    rings: bool = False
    answered: int = None
    ended_at: int = None
    waited: int = 0
    rang: int = 0
    talked: int = 0
    held: int = 0
    wrapped_up: int = 0
    ended: str = "live"
    to: str = ""


@dataclass(eq=False)
class Call:
    number: int
    caller: str
    called: str
    entered: int
    groups: list = field(default_factory=list)
    legs: list = field(default_factory=list)
    waited: int = 0
    talked: int = 0
    held: int = 0
    ended: str = "live"
    ended_at: int = None
    at: dict = field(default_factory=dict)  # where it is: device to leg, with the caller's from outside, which is none of its legs
    since: int = 0
    busy: int = 0  # how many agents are busy with it, or in after-call work after it
    is_outside: bool = True  # whether the caller is

    def pass_to(self, moment):
        """Counts the seconds up to the moment by what the call's connections are."""
        seconds, self.since = moment - self.since, moment
        if not seconds:
            return
        legs = self.at.values()
        states = [leg.state for leg in legs]
        are_talking = states == ["connected", "connected"]
        self.talked += seconds * are_talking
        self.held += seconds * ("hold" in states)
        for leg in legs:
            leg.waited += seconds * (leg.state == "queued")
            leg.rang += seconds * (leg.state in RINGS)
            leg.talked += seconds * are_talking
            leg.held += seconds * (leg.state == "hold")

    def begin(self, leg):
        self.at[leg.device] = leg
        self.legs.append(leg)

    def end(self, device, moment, ended, to):
        leg = self.at.pop(device)
        leg.ended, leg.ended_at, leg.to = ended, moment, to or ""

    def ending(self, device, is_agent):
        """How a call ends that is cleared first at this device."""
        state, states = self.at[device].state, [leg.state for leg in self.at.values()]
        if state == "queued":
            return f"at {device} while it waited"
        if state in RINGS:
            return f"at {device} while it rang"
        if "queued" in states or "offered" in states:
            return "abandoned"
        if "fail" in states:
            return "busy"
        if "alerting" in states or "initiated" in states:
            return "not answered"
        return "by caller" if device == self.caller else "by agent" if is_agent else "by other"


@dataclass(eq=False)
class Agent:
    state: str = "null"
    since: int = 0
    groups: list = field(default_factory=list)
    call: Call = None  # the call that the agent is busy with, or after which the agent is in after-call work, and its leg
    leg: Leg = None
    talks: set = field(default_factory=set)  # calls from outside that the agent has without an offer


@dataclass(eq=False)
class Day:
    """An agent's day: seconds and counts by their columns, from when to when the agent was logged on, and in which groups."""
    counts: dict = field(default_factory=lambda: dict.fromkeys(COUNTS, 0))
    first: int = None
    last: int = None
    groups: set = field(default_factory=set)


class Records:
    """The calls and the agents' days, event by event. `closed` are the calls that rules ended; `given` is what agents gave."""

    def __init__(self, book, closed, given=None):
        self.closed, self.given = closed, given or Given()
        self.came, self.log_ons, self.by_ticks = book.calls_that_came(), book.log_ons(), book.returns_by_ticks()
        self.calls, self.agents, self.days, self.calendar = {}, defaultdict(Agent), defaultdict(Day), Calendar()
        self.at = {}  # who is logged on at a station
        # the first call of the records: earlier ones began in other files
        self.first = 1
        if book.begins() is not None:
            self.at = book.logged_on_before()
            self.first = self.meet() or math.inf
        self.waits = Waits(self.at)

    def take(self, event):
        moment, kind, device, call, agent, group, to, cause, _ = event
        ended = self.waits.take(event)
        if agent is not None:
            self.take_agent(moment, kind, device, agent)
            self.given.take(event)
        elif call >= self.first:
            self.take_call(moment, kind, device, self.known(call), group, to, cause)
            if ended is not None:
                self.calls[call].waited += ended.seconds

    def known(self, number):
        """The call of a number; those that came before its first event are known then."""
        while number not in self.calls:
            if self.meet() is None:
                raise Fault(f"no kept request tells of call {number}: the beginning of this file is elsewhere")
        return self.calls[number]

    def meet(self):
        """The next call that came is known from now on: its number, or nothing where there is none."""
        came, caller, called, moment, is_made = next(self.came, (None,) * 5)
        if came is not None:
            call = self.calls[came] = Call(came, caller, called, moment, since=moment)
            call.is_outside = not is_made
            if not is_made:
                call.at[caller] = Leg(caller, "connected", moment)
        return came

    def take_call(self, moment, kind, device, call, group, to, cause):
        call.pass_to(moment)
        if kind == "callCleared":
            call.ended_at = moment
        elif kind in ENDS:
            self.take_end(moment, kind, device, call, to, cause)
        elif kind in BEGINS:
            state = "offered" if cause == "distributed" else STATES[kind]
            call.begin(Leg(device, state, moment, device if kind == "queued" else group or "", "" if kind == "queued" else self.at.get(device, "-"), kind == "delivered"))
            if kind == "queued" and cause != "noAnswer":
                call.groups.append(device)
            if state == "offered":
                self.count(moment, self.at[device], "rings")
        else:
            self.take_change(moment, kind, device, call, call.at[device])

    def take_end(self, moment, kind, device, call, to, cause):
        ended = {"distributed": "offered", "deflected": "deflected"}.get(cause, kind)
        if kind == "connectionCleared":
            if call.ended == "live":
                call.ended = "closed" if call.number in self.closed else call.ending(device, device in self.at)
                if device in self.at and call.at[device].state in RINGS and (call.is_outside or call.at[device].state == "offered"):
                    self.count(moment, self.at[device], "rings_hung_up")
            ended = call.ended
        elif cause == "noAnswer":
            ended = self.take_return(moment, call.number, device)
        call.end(device, moment, ended, to)
        if device in self.at and call.number in self.agents[self.at[device]].talks:
            self.talk(moment, self.at[device], call.number, False)

    def talk(self, moment, number, call, begins):
        """An agent begins or ends to talk to a caller from outside without an offer, which is no state of the agent."""
        agent = self.agents[number]
        self.pass_to(moment, number, agent)
        if begins:
            agent.talks.add(call)
        else:
            agent.talks.discard(call)

    def take_return(self, moment, call, device):
        """How the offer ended: by a tick or by a rejectCall, which no event shows. Of several in one moment a tick made the first at most: no offer of that moment is overdue."""
        is_refused = not self.by_ticks[moment, call, device]
        self.by_ticks[moment, call, device] = 0
        self.count(moment, self.at[device], "rings_refused" if is_refused else "rings_not_answered")
        return "rejected" if is_refused else "taken back"

    def take_change(self, moment, kind, device, call, leg):
        before, leg.state = leg.state, STATES[kind]
        agent = self.at.get(device)
        if kind == "established":
            leg.answered, leg.agent = moment, agent or "-"
            if before == "offered":
                self.agents[agent].call, self.agents[agent].leg = call, leg
                self.count(moment, agent, "calls")
        if agent and kind == "established" and before != "offered" and call.is_outside:
            self.count(moment, agent, "calls")
            self.talk(moment, agent, call.number, True)
        elif agent and (kind == "originated" or (kind == "established" and before != "offered")):
            self.count(moment, agent, "own_calls")

    def count(self, moment, agent, column):
        self.days[self.calendar.day_of(moment), agent].counts[column] += 1

    def take_agent(self, moment, kind, station, number):
        agent = self.agents[number]
        self.pass_to(moment, number, agent)
        before, agent.state = agent.state, AGENT_STATES[kind]
        if agent.state == "busy":
            if agent.call is not None:  # the records have the call
                agent.call.busy += 1
        elif agent.call is not None and (before, agent.state) != ("busy", "workingAfterCall"):
            agent.call.busy -= 1
            agent.call = agent.leg = None
        if kind == "agentLoggedOn":
            self.at[station], agent.groups = number, next(self.log_ons, [])
        elif kind == "agentLoggedOff":
            agent.talks.clear()
            del self.at[station]

    def pass_to(self, moment, number, agent):
        """Counts the agent's seconds up to the moment, each to its day."""
        if agent.state == "workingAfterCall" and agent.leg is not None:
            agent.leg.wrapped_up += moment - agent.since
        begin, agent.since = agent.since, moment
        while agent.state != "null":
            day = self.days[self.calendar.day_of(begin), number]
            end = min(moment, self.calendar.ends)
            day.first, day.last = begin if day.first is None else day.first, end
            day.groups.update(agent.groups)
            day.counts["logged_on"] += end - begin
            column = "talking" if agent.talks else SECONDS[agent.state]
            day.counts[column] += end - begin
            if column == "not_ready":
                self.given.spend(number, self.calendar.day_of(begin), begin, end)
            if end == moment:
                return
            begin = end

    def finish(self, moment):
        """Counts the times up to the moment."""
        for call in self.calls.values():
            if call.ended_at is None:
                call.pass_to(moment)
                call.waited += self.waits.so_far(call.number, moment)
        for number, agent in self.agents.items():
            self.pass_to(moment, number, agent)

    def finished(self, least):
        """The calls from this number on that nothing is counted for any more, up to the first for which something is."""
        while least in self.calls and self.calls[least].ended_at is not None and not self.calls[least].busy:
            yield self.calls.pop(least)
            least += 1
