"""A day that boards count, read from the desk a page at a time. Unproved."""
import asyncio
import math
from array import array
from collections import defaultdict
from collections.abc import Awaitable, Callable, Iterable, Mapping, Set

from acd_service.events import Event, event_of
from acd_service.figures import STEP, Figures
from acd_service.gate.days import beginning
from acd_service.gate.parts import Text
from acd_service.gate.ruled import is_of_group
from acd_service.recent import Endings
from acd_service.waits import Ended

Read = Callable[[str], Awaitable[list[Text]]]


class Day(Figures):
    """The figures of a day, and the course of who waits. `last` is the number of the last report that it took, None
    before the first; `whole` says whether it has all up to the present, or to its end, and `is_known` is False where
    its beginning is in another file."""

    def __init__(self, begin: int, until: float, reach: float, at: Mapping[str, str] | None = None) -> None:
        super().__init__(begin, at)
        self.until, self.reach = until, reach
        self.last: int | None = None
        self.first = 0
        self.reading: asyncio.Task[None] | None = None
        self.whole, self.is_known = False, True
        # calls that ended at their group, where callers who give up do not end it: the moment, and the wait
        self.suspects: dict[int, tuple[int, Ended]] = {}
        # the waits of each group that ended, of before the day too
        self.endings: defaultdict[str, Endings] = defaultdict(Endings)
        # when a call was moved at its group last
        self.moved = 0
        self.numbers: dict[str, int] = {}
        # of each change the quarter of an hour, and the number of the group, less than nothing where one waits less
        self.quarters_of_course, self.course = array("I"), array("i")

    def change(self, moment: int, group: str, by: int) -> None:
        super().change(moment, group, by)
        self.quarters_of_course.append(moment // STEP)
        self.course.append(by * self.numbers.setdefault(group, len(self.numbers) + 1))

    def end(self, event: Event, ended: Ended) -> None:
        super().end(event, ended)
        self.endings[ended.group].add(event.moment, ended)
        if event.call is not None and self.cleared and self.cleared[0] == ended.group:
            self.suspects[event.call] = event.moment, ended

    def judge(self, suspects: Iterable[int], ended: Set[int]) -> None:
        """Of these calls rules ended some: nobody gave up."""
        for call in suspects:
            found = self.suspects.pop(call, None)
            if found is not None and call in ended:
                moment, wait = found
                self.endings[wait.group].remove(moment, wait)
                if moment >= self.begin:
                    self.quarter(wait.group, moment).close(wait)

    def take_report(self, told: Text) -> None:
        self.last = told["number"]
        if told["moment"] < self.until:
            self.take(event_of(told))
        if is_of_group(told):
            self.moved = told["moment"]

    async def read(self, events: Read, last: Callable[[], int]) -> None:
        """Reads what the desk had before, up to the present; reports that come later are given to it. It goes on where
        it was broken off."""
        if self.last is None:
            begin = self.begin - self.reach - 1
            self.first, is_whole = await beginning(lambda after: events(f"/events?after={after}"), last(), begin)
            self.last = self.first
            self.is_known = is_whole or await self.has_earlier(events)
            if not self.first or self.until < math.inf:
                self.waits.at.clear()   # nobody was logged on yet; of another day, nobody at its midnight is the guess
        while self.last < last():
            page = await events(f"/history?after={self.last}")
            for told in page:
                if told["number"] <= last():
                    self.take_report(told)
            if not page or page[-1]["moment"] >= self.until:
                break
            await asyncio.sleep(0)
        self.whole = True

    async def has_earlier(self, events: Read) -> bool:
        """Whether the file has events of before the day, where it begins later than its reach."""
        page = await events(f"/events?after={self.first}")
        return bool(page) and page[0]["moment"] < self.begin

    def share(self, last: int) -> float:
        """How much of it has been read; 1 once it is whole."""
        if self.whole:
            return 1
        read = 0 if self.last is None else 100 * (self.last - self.first) // max(1, last - self.first)
        return min(99, read) / 100


class Peaks:
    """How many waited at once in the chosen groups, by quarters of an hour: more than before the first report, at most
    and in the end."""

    def __init__(self, day: Day, groups: frozenset[str]) -> None:
        self.day, self.groups = day, groups
        self.place = self.balance = 0
        self.found: dict[int, list[int]] = {}

    def catch_up(self) -> set[int]:
        """The quarters that changed."""
        names, changed = {number: group for group, number in self.day.numbers.items()}, set()
        for place in range(self.place, len(self.day.course)):
            one, number = self.day.course[place], self.day.quarters_of_course[place]
            if self.groups and names[abs(one)] not in self.groups:
                continue
            quarter = self.found.setdefault(number, [self.balance, self.balance])
            self.balance += 1 if one > 0 else -1
            quarter[:] = max(quarter[0], self.balance), self.balance
            changed.add(number)
        self.place = len(self.day.course)
        return changed
