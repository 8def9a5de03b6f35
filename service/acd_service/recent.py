"""Who was answered in time, and who gave up, in the last half hour of a group: whether that is an alarm, and since
when it is so. Tested, not proved.

A wait counts from the second in which it ends on, for half an hour. What holds at the end of a second holds of it."""
from __future__ import annotations

from array import array
from typing import NamedTuple

from acd_service.waits import End, Ended

# seconds; and of fewer calls a share says nothing
WINDOW, LEAST = 1800, 10
# so many percent below its goal the service level is an alarm
FAR = 15


class Goals(NamedTuple):
    """The limit in seconds, and goals in percent; `alone` if the level is of the answered alone."""
    limit: float = 20.0
    goal: float = 80.0
    lost: float = 5.0
    alone: bool = False


class Since(NamedTuple):
    """Since when each is an alarm; None if it is none."""
    level: int | None = None
    lost: int | None = None


class Endings:
    """The waits of a group that ended, in their order. `removed` counts those that were taken out again."""

    def __init__(self) -> None:
        self.moments, self.seconds, self.answers = array("q"), array("q"), array("b")
        self.removed = 0

    def add(self, moment: int, ended: Ended) -> None:
        self.moments.append(moment)
        self.seconds.append(ended.seconds)
        self.answers.append(ended.how is End.ANSWERED)

    def remove(self, moment: int, ended: Ended) -> None:
        """Nobody gave up then: a rule ended the call."""
        for place in range(len(self.moments) - 1, -1, -1):
            if (self.moments[place], self.seconds[place], self.answers[place]) == (moment, ended.seconds, 0):
                del self.moments[place], self.seconds[place], self.answers[place]
                self.removed += 1
                return


class Recent:
    """The last half hour of a group. `answered`, `late` and so on are of `endings` from the place `first` on up to
    `place`, at the end of the second `at`; `before` is what was an alarm before it."""

    def __init__(self, endings: Endings, goals: Goals) -> None:
        self.endings, self.goals = endings, goals
        self.begin()

    def begin(self) -> None:
        self.removed, self.first, self.place, self.at = self.endings.removed, 0, 0, 0
        self.answered = self.within = self.lost = self.late = 0
        self.before = Since()

    def pass_to(self, moment: int) -> Since:
        """Since when it is an alarm, in this moment."""
        if self.removed != self.endings.removed or self.is_behind():
            self.begin()
        while self.step(moment):
            pass
        return self.judged()

    def is_behind(self) -> bool:
        """Whether the next wait ended before the last second that was judged."""
        return self.place < len(self.endings.moments) and self.endings.moments[self.place] < self.at

    def step(self, until: int) -> bool:
        """The next wait that ends, or is over half an hour old."""
        moments, place = self.endings.moments, self.place
        comes = moments[place] if place < len(moments) else until + 1
        goes = moments[self.first] + WINDOW if self.first < place else until + 1
        moment = min(comes, goes)
        if moment > until:
            return False
        if moment > self.at:
            self.before, self.at = self.judged(), moment
        if goes <= comes:
            self.count(self.first, -1)
            self.first += 1
        else:
            self.count(place, 1)
            self.place += 1
        return True

    def count(self, place: int, by: int) -> None:
        is_late = self.endings.seconds[place] > self.goals.limit
        if self.endings.answers[place]:
            self.answered += by
            self.within += 0 if is_late else by
        else:
            self.lost += by
            self.late += by if is_late else 0

    def judged(self) -> Since:
        level = self.at if self.before.level is None else self.before.level
        lost = self.at if self.before.lost is None else self.before.lost
        return Since(level if self.misses_level() else None, lost if self.misses_lost() else None)

    def misses_level(self) -> bool:
        counted = self.answered if self.goals.alone else self.answered + self.late
        enough = self.answered + self.late >= LEAST and counted > 0
        return enough and self.goals.goal - 100 * (self.within / counted) > FAR

    def misses_lost(self) -> bool:
        """More than twice as many as the goal."""
        counted = self.answered + self.lost
        return counted >= LEAST and 100 * (self.lost / counted) > 2 * self.goals.lost

    def figures(self) -> list[int]:
        """Answered, gave up, answered within the limit, gave up later than that."""
        return [self.answered, self.lost, self.within, self.late]
