"""Each agent's day, by the desk's event reports: calls, talks, offers that the desk withdrew. Unproved.

A day begins at midnight of this machine's zone, as in acd-calls. The gate reads the reports of today once, a page at a
time, and continues with each new one."""
import datetime
from collections import deque
from collections.abc import Awaitable, Callable
from dataclasses import dataclass, field

from acd_service.events import event_of
from acd_service.gate.parts import Text
from acd_service.gate.state import State
from acd_service.gate.texts import without_nothing
from acd_service.waits import Waits

# reports of before midnight say who is logged on where, and who talks
EARLIER = 4 * 3600
# how many of the last calls a day names
LAST = 5


@dataclass
class AgentDay:
    """The agent talks since `since`: `is_busy` by the desk's own state, or in `talks`, the numbers of calls of callers
    from outside whom no group gave the agent. `calls` are the last of today, `done` the last of all. `missed_offer` is
    the last offer that the desk withdrew, until the agent logs on or off."""
    answered: int = 0
    talking: int = 0
    missed: int = 0
    since: int | None = None
    is_busy: bool = False
    talks: set[int] = field(default_factory=set)
    calls: deque[Text] = field(default_factory=lambda: deque(maxlen=LAST))
    done: deque[Text] = field(default_factory=lambda: deque(maxlen=LAST))
    missed_offer: Text | None = None

    def pass_to(self, moment: int, begins: int) -> None:
        """Counts the talk up to a moment, and says whether it goes on."""
        if self.since is not None:
            self.talking += max(0, moment - max(self.since, begins))
        self.since = moment if self.is_busy or self.talks else None


def midnight(moment: float, days: int = 0) -> int:
    """The begin of a moment's day, or of a day later."""
    day = datetime.date.fromtimestamp(moment) + datetime.timedelta(days=days)
    return int(datetime.datetime.combine(day, datetime.time()).timestamp())


class Days:
    """`last` is the number of the last report that it took, None before the first; `whole` whether it has taken all of
    today's once."""

    def __init__(self, moment: float) -> None:
        self.last: int | None = None
        self.whole = False
        self.agents: dict[str, AgentDay] = {}
        self.at: dict[str, str | None] = {}
        self.offers: dict[str, tuple[int, int, str | None]] = {}
        self.talks: dict[int, dict[str, tuple[int, str | None]]] = {}
        self.waits = Waits()
        # while a call is being cleared: its first connection is gone
        self.cleared: bool | None = None
        self.begins, self.ends = midnight(moment), midnight(moment, 1)

    def roll(self, moment: float) -> bool:
        """Whether another day has begun; then it clears the figures of the day before."""
        if moment < self.ends:
            return False
        self.begins, self.ends = midnight(moment), midnight(moment, 1)
        for day in self.agents.values():
            day.answered = day.talking = day.missed = 0
            day.calls.clear()
        return True

    def day_of(self, agent: str) -> AgentDay:
        found = self.agents.get(agent)
        if found is None:
            found = self.agents[agent] = AgentDay()
        return found

    def take(self, report: Text, state: State) -> None:
        """The next report; state is the desk before it, or a later one, and says who calls, and who is where as long as
        no report did."""
        self.last = report["number"]
        self.waits.take(event_of(report))
        self.roll(report["moment"])
        if "agent" in report:
            self.take_agent(report, report["moment"])
        else:
            self.take_call(report, report["moment"], state)

    def take_agent(self, report: Text, moment: int) -> None:
        day, event = self.day_of(report["agent"]), report["event"]
        self.at[report["device"]] = report["agent"] if event != "agentLoggedOff" else None
        day.is_busy = event == "agentBusy"
        day.answered += day.is_busy and moment >= self.begins
        if event in ("agentLoggedOn", "agentLoggedOff"):
            day.missed_offer = None
            day.talks.clear()
        day.pass_to(moment, self.begins)

    def take_call(self, report: Text, moment: int, state: State) -> None:
        event, number, device = report["event"], report["call"], report.get("device", "")
        if event == "delivered":
            self.offers[device] = number, moment, report.get("group")
        elif event == "established":
            self.establish(report, moment, state)
        elif event == "callCleared":
            self.talks.pop(number, None)
            self.cleared = None
        elif event in ("diverted", "transferred", "connectionCleared"):
            self.leave(report, moment, state)

    def agent_at(self, device: str, state: State) -> str | None:
        station = state.stations.get(device)
        return self.at.get(device, station.agent if station else None)

    def establish(self, report: Text, moment: int, state: State) -> None:
        number, device, group = report["call"], report["device"], report.get("group")
        self.offers.pop(device, None)
        agent, wait = self.agent_at(device, state), self.waits.calls.get(number)
        self.talks.setdefault(number, {})[device] = moment, group or (wait.group if wait is not None else None)
        if group is None and agent is not None and number not in self.waits.made:
            day = self.day_of(agent)
            day.talks.add(number)
            day.answered += moment >= self.begins
            day.pass_to(moment, self.begins)

    def leave(self, report: Text, moment: int, state: State) -> None:
        number, device, call = report["call"], report["device"], state.calls.get(report["call"])
        agent, caller = self.agent_at(device, state), call.caller if call else None
        offered, since, group = self.offers.pop(device, (None, 0, None))
        is_first, self.cleared = self.cleared is None, report["event"] == "connectionCleared" or None
        is_hung_up = is_first and self.cleared and offered == number
        if is_hung_up and agent and (group is not None or number not in self.waits.made):
            self.day_of(agent).missed += moment >= self.begins
        if report.get("cause") == "noAnswer" and agent and offered == number:
            day = self.day_of(agent)
            day.missed += moment >= self.begins
            day.missed_offer = {"call": number, "caller": caller, "group": report.get("group"), "moment": moment,
                                "since": since}
        if agent and number in self.day_of(agent).talks:
            self.day_of(agent).talks.remove(number)
            self.day_of(agent).pass_to(moment, self.begins)
        began, group = self.talks.get(number, {}).pop(device, (None, None))
        if began is not None and agent:
            done = {"call": number, "caller": caller, "group": group, "moment": began, "talked": moment - began}
            self.day_of(agent).done.append(done)
            if moment >= self.begins:
                self.day_of(agent).calls.append(done)

    def text(self, agent: str) -> Text | None:
        """The day as an agent's page shows it; None until all of it is known."""
        if not self.whole:
            return None
        day = self.agents.get(agent) or AgentDay()
        return {"answered": day.answered, "begins": self.begins,
                "calls": [without_nothing(**call) for call in day.calls], "missed": day.missed,
                "talking": day.talking, **without_nothing(talks=day.since)}

    def done(self, agent: str) -> list[Text]:
        """The last calls in which the agent has talked."""
        return [without_nothing(**call) for call in self.agents[agent].done] if agent in self.agents else []

    def missed_offer(self, agent: str) -> Text | None:
        day = self.agents.get(agent)
        return without_nothing(**day.missed_offer) if day and day.missed_offer else None


async def beginning(ask: Callable[[int], Awaitable[list[Text]]], last: int, moment: float) -> tuple[int, bool]:
    """The number of the last event before a moment, by bisection, and True; if the file begins later, the number before
    its first event, and False. ask returns the events after a number."""
    low, high = 0, last
    while low < high:
        middle = (low + high) // 2
        events = await ask(middle)
        later = next((place for place, event in enumerate(events) if event["moment"] >= moment), None)
        if later is None and events:
            low = events[-1]["number"]
        elif later == 0 and events[0]["number"] > middle + 1:
            return int(events[0]["number"]) - 1, False
        elif not later:
            high = middle
        else:
            return int(events[later - 1]["number"]), True
    return low, True
