"""What boards are told: the desk as it is, once for all of them, and the figures of the days that they count. Unproved.

A day is read from the desk once, a page at a time, and goes on with each new report. Boards that count the same day
with the same limits share its lines."""
import asyncio
import math
import re
from collections.abc import Callable, Coroutine, Iterable, Mapping
from itertools import count
from typing import NamedTuple

from acd_service.command import report
from acd_service.gate import lines
from acd_service.gate.counting import Day, Peaks, Read
from acd_service.gate.desk import Away
from acd_service.gate.parts import Text
from acd_service.gate.reasons import Given
from acd_service.gate.ruled import OVERFLOWS, Ruled
from acd_service.gate.state import State
from acd_service.gate.tables import Recent as Latest, Table, Tables
from acd_service.recent import Goals, Recent

# events that a board is shown; days that are counted, and what boards may want to see, at a time
RECENT, MOST_DAYS, MOST_VIEWS = 4000, 32, 64
# seconds of a limit, where a board names none, and until the desk is asked again where it doesn't answer; and so many
# seconds of events before a day say since when its first callers wait
LIMIT, AGAIN, EARLIER = 20.0, 1, 4 * 3600.0
USUAL = {"limit": LIMIT, "goal": 80.0, "lost": 5.0}


class Sight(NamedTuple):
    """What a board wants to see besides the desk as it is. Its day counts from `begin`; `limits` are those of groups,
    and of "" for all others; `groups` are the chosen ones, none for all. `parts` may be `day`, the day by quarters of
    an hour, and `events`; `past` are other days, from a moment to another. `goals` and `losts` are the goals of the
    service level and of those who give up, and `alone` says whether the level is of the answered alone."""
    begin: int
    limits: tuple[tuple[str, float], ...] = ()
    groups: frozenset[str] = frozenset()
    parts: frozenset[str] = frozenset()
    past: tuple[tuple[int, int], ...] = ()
    goals: tuple[tuple[str, float], ...] = ()
    losts: tuple[tuple[str, float], ...] = ()
    alone: bool = False

    @property
    def reach(self) -> float:
        """Since when calls wait is known of so many seconds before the day: those of each limit at least."""
        return max(EARLIER, *(limit for _, limit in self.limits), LIMIT)


# a limit as a board's address has it, a day in seconds since 1970, and other days
LIMITS = r"[0-9]{1,5}(\.[0-9]{1,15})?"
SAID = {"begin": "[0-9]{1,12}", "groups": "(all|[0-9]{1,15}(,[0-9]{1,15})*)?",
        "show": "((day|events)(,(day|events))*)?",
        "past": "([0-9]{1,12}-[0-9]{1,12}(,[0-9]{1,12}-[0-9]{1,12})?)?", "level": "(answered)?"}


def sight_of(said: Mapping[str, str]) -> Sight:
    """What a board asks for by the members of its query; ValueError where one can't be read."""
    for name, form in SAID.items():
        if not re.fullmatch(form, said.get(name, "0" if name == "begin" else "")):
            raise ValueError(name)
    limits, goals, losts = (numbers_of(said, name) for name in USUAL)
    past = [span.split("-") for span in said.get("past", "").split(",") if span]
    return Sight(int(said.get("begin", "0")), limits,
                 frozenset(filter(None, said.get("groups", "").removeprefix("all").split(","))),
                 frozenset(filter(None, said.get("show", "").split(","))),
                 tuple((int(begin), int(end)) for begin, end in past), goals, losts, bool(said.get("level")))


def numbers_of(said: Mapping[str, str], name: str) -> tuple[tuple[str, float], ...]:
    """The number of a name for each group that has one, and for "", all others."""
    form = rf"{name}(\.[0-9]{{1,15}})?"
    found = {key[len(name) + 1:]: value for key, value in said.items() if re.fullmatch(form, key)}
    if not all(re.fullmatch(LIMITS, value) for value in found.values()):
        raise ValueError(name)
    return tuple(sorted((group, float(value)) for group, value in found.items()))


class TooMany(Exception):
    """There is no room for one more stream, view or day."""


class View:
    """The tables of one sight. `serial` is no other view's; `seen` is when somebody last looked, by a clock that is
    never set back."""
    serials = count(1)

    def __init__(self, sight: Sight, day: Day, past: Mapping[tuple[int, int], Day], common: Tables,
                 number: int) -> None:
        self.sight, self.day, self.past, self.serial = sight, day, past, next(self.serials)
        self.limits, self.seen = {name: dict(numbers) for name, numbers in
                                  zip(USUAL, (sight.limits, sight.goals, sight.losts))}, 0.0
        self.recents: dict[str, Recent] = {}
        self.known: dict[str, dict[int, list[int]]] = {}
        self.peaks = Peaks(day, sight.groups) if "day" in sight.parts else None
        self.own = {name: Table(number) for name in ("day", "sums", "spent", "recent")}
        if self.peaks is not None:
            self.own |= {name: Table(number) for name in ("quarters", "peaks", "past")}
        wanted = [name for name in common if name != "events" or "events" in sight.parts]
        self.tables: Tables = {name: common[name] for name in wanted} | self.own
        if day.whole:
            every = ((group, each) for group, quarters in day.groups.items() for each in quarters)
            self.put_figures(every, day.agents, number)

    def limit_of(self, group: str, name: str = "limit") -> float:
        return self.limits[name].get(group, self.limits[name].get("", USUAL[name]))

    def put_recent(self, moment: int, number: int) -> None:
        """Writes down the last half hour, and since when it is an alarm."""
        for group, endings in self.day.endings.items():
            if group not in self.recents:
                level, lost = self.limit_of(group, "goal"), self.limit_of(group, "lost")
                goals = Goals(self.limit_of(group), level, lost, self.sight.alone)
                self.recents[group] = Recent(endings, goals)
            recent = self.recents[group]
            since = recent.pass_to(moment)
            self.own["recent"].put(group, lines.as_text([*recent.figures(), *since]), number)

    def put_figures(self, quarters: Iterable[tuple[str, int]], agents: Iterable[str], number: int) -> None:
        """Writes down what changed of the day."""
        groups: set[str] = set()
        for group, each in quarters:
            groups.add(group)
            quarter = self.day.groups[group][each]
            known = self.known.setdefault(group, {})[each] = lines.figures_of(quarter, self.limit_of(group))
            if "quarters" in self.own:
                self.own["quarters"].put(f"{group} {each}", lines.as_text([*known, quarter.top, quarter.end]), number)
        for group in groups:
            line = [*lines.sum_of(self.known[group].values()), self.day.balance[group]]
            self.own["sums"].put(group, lines.as_text(line), number)
        for agent in agents:
            self.own["spent"].put(agent, lines.agent_figures_line(self.day.agents[agent]), number)
        for each in self.peaks.catch_up() if self.peaks is not None else ():
            self.own["peaks"].put(str(each), lines.as_text(self.peaks.found[each] if self.peaks else []), number)

    def put(self, last: int, moment: int, number: int) -> None:
        """Writes down what changed, and what the moment changes."""
        if self.day.whole:
            self.put_figures(self.day.changed, self.day.touched, number)
            self.put_recent(moment, number)
        self.put_day(last, number)

    def put_day(self, last: int, number: int) -> None:
        self.own["day"].put("share", lines.as_text(self.day.share(last)), number)
        self.own["day"].put("moment", str(self.day.moment), number)
        for (begin, _), day in self.past.items() if "past" in self.own else ():
            if day.whole and day.is_known and str(begin) not in self.own["past"].lines:
                self.own["past"].put(str(begin), self.past_line(day), number)

    def past_line(self, day: Day) -> str:
        return lines.as_text({group: {str(each): lines.figures_of(quarter, self.limit_of(group))
                                      for each, quarter in quarters.items()}
                              for group, quarters in day.groups.items()})


class Boards:
    """All of it, as long as boards are looked at. `events` asks the desk for a page of events."""

    def __init__(self, events: Read, state: State, number: int, ruled: Ruled, given: Given | None = None) -> None:
        self.events, self.state, self.ruled, self.given = events, state, ruled, given or Given()
        self.common: dict[str, Table] = {name: Table(number, found) for name, found in lines.all_of(state).items()}
        self.common["desk"], self.common["rules"] = Table(number), Table(number, ruled.lines())
        self.common["reasons"] = Table(number, self.given.lines(state))
        self.common["events"] = Latest(number, RECENT)
        self.days: dict[tuple[int, float, float], Day] = {}
        self.views: dict[Sight, View] = {}
        self.tasks: set[asyncio.Task[None]] = set()
        self.judging: asyncio.Task[None] | None = None
        self.touched: set[str] = set()
        self.dirty: set[str] = set()
        self.moved: set[int] = set()
        # reports that boards of the part `events` haven't been told; and whether those of before are among them
        self.fresh: list[Text] | None = None
        self.has_events = False
        self.put_desk(number)

    # what happens

    def take(self, told: Text) -> None:
        """The next report."""
        for day in self.days.values():
            if day.whole and day.last == told["number"] - 1:
                day.take_report(told)
        if self.fresh is not None:
            self.fresh.append(told)

    def mark(self, state: State) -> None:
        """Takes over what changed of the desk."""
        self.state = state
        self.touched |= state.touched
        self.dirty |= state.dirty
        self.moved |= state.moved

    def renew(self, state: State, found: Mapping[str, Mapping[str, str]], number: int) -> bool:
        """Takes over the lines of a new snapshot; whether that changes anything."""
        self.state = state
        return any([self.common[name].renew(lines_of, number) for name, lines_of in found.items()])

    # what boards see

    def view(self, sight: Sight, number: int) -> View:
        """The view of a sight; TooMany where there is no room for one more."""
        found = self.views.get(sight)
        if found is None:
            if len(self.views) >= MOST_VIEWS:
                raise TooMany
            past = {span: self.day(*span, sight.reach) for span in sight.past}
            found = View(sight, self.day(sight.begin, math.inf, sight.reach), past, self.common, number)
            if "events" in sight.parts and self.fresh is None:
                self.fresh = []
                self.start(self.read_events)
            found.put_day(self.state.last, number)
            if found.day.whole:
                found.put_recent(self.moment, number)
            self.views[sight] = found
        return found

    def day(self, begin: int, end: float, reach: float) -> Day:
        key = begin, end, reach
        if key not in self.days:
            if len(self.days) >= MOST_DAYS:
                raise TooMany
            day = self.days[key] = Day(*key, self.state.logged_on())
            day.reading = self.start(lambda: day.read(self.events, lambda: self.state.last))
        return self.days[key]

    def start(self, work: Callable[[], Coroutine[None, None, None]]) -> asyncio.Task[None]:
        """Does this beside all else, again and again until the desk has answered."""
        async def until_it_is_done() -> None:
            while True:
                try:
                    return await work()
                except Away:
                    await asyncio.sleep(AGAIN)
                except Exception as fault:  # what nobody foresaw
                    return report(f"what boards are told isn't read: {fault!r}")
        task = asyncio.get_running_loop().create_task(until_it_is_done())
        self.tasks.add(task)
        task.add_done_callback(self.tasks.discard)
        return task

    def judge(self) -> None:
        """Asks who moved or ended calls at their groups, where some were."""
        days, now = [day for day in self.days.values() if day.whole], int(self.ruled.clock())
        is_new = any(day.moved > max(self.ruled.until, now - OVERFLOWS) or day.suspects for day in days)
        if is_new and (self.judging is None or self.judging.done()):
            self.judging = self.start(lambda: self.judged(days, now))

    async def judged(self, days: list[Day], now: int) -> None:
        suspects = [(day, list(day.suspects)) for day in days]
        until = max((day.moved for day in days), default=0)
        begins = [moment for day in days for moment, _ in day.suspects.values()]
        await self.ruled.read(min([now - OVERFLOWS, *begins]))
        self.ruled.until = until
        for day, calls in suspects:
            day.judge(calls, self.ruled.ended)

    async def read_events(self) -> None:
        """The last events before those that come."""
        last, found = self.state.last, list[Text]()
        after = max(0, last - RECENT)
        while after < last and (page := await self.events(f"/history?after={after}")):
            found += [told for told in page if told["number"] <= last]
            after = page[-1]["number"]
        self.fresh = found + [told for told in self.fresh or [] if told["number"] > last]
        self.has_events = True

    def forget(self, is_seen: Callable[[View], bool]) -> None:
        """Drops views that nobody looks at any more, and days that no view has."""
        self.views = {sight: view for sight, view in self.views.items() if is_seen(view)}
        wanted = {id(day) for view in self.views.values() for day in [view.day, *view.past.values()]}
        for key, day in list(self.days.items()):
            if id(day) not in wanted:
                if day.reading is not None:
                    day.reading.cancel()
                del self.days[key]

    def close(self) -> None:
        for task in self.tasks:
            task.cancel()

    # the turn

    def turn(self, number: int) -> None:
        """Writes down what changed since the last turn, under a number that nobody was told yet."""
        state, common = self.state, self.common
        for name, keys, found in (("agents", self.touched, lines.agents_of(state, self.touched)),
                                  ("groups", self.dirty, lines.groups_of(state, self.dirty)),
                                  ("calls", set(map(str, self.moved)), lines.calls_of(state, self.moved))):
            for key, line in found.items():
                common[name].put(key, line, number)
            for key in keys - found.keys():
                common[name].drop(key, number)
        self.touched, self.dirty, self.moved = set(), set(), set()
        self.put_desk(number)
        self.judge()
        common["rules"].renew(self.ruled.lines(), number)
        common["reasons"].renew(self.given.lines(state), number)
        if self.fresh and self.has_events:
            for told in self.fresh:
                common["events"].put(str(told["number"]), lines.as_text(told), number)
            self.fresh = []
        for view in self.views.values():
            view.put(state.last, self.moment, number)
        for day in self.days.values():
            if day.whole:
                day.changed, day.touched = set(), set()

    @property
    def moment(self) -> int:
        """Now, by the clock; the desk's may be ahead of it."""
        return max(self.state.moment, int(self.ruled.clock()))

    def put_desk(self, number: int) -> None:
        self.common["desk"].put("last", str(self.state.last), number)
        self.common["desk"].put("moment", str(self.state.moment), number)
