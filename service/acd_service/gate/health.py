"""Whether all is well, in one word: by what the gate knows anyhow of the desk that it follows. Unproved."""
import time
from collections.abc import Callable, Iterator

from acd_service.gate.following import Following
from acd_service.gate.state import State

# seconds: since the desk's last answer, where it answers within one and is asked five times in one; since the picture
# had all that the desk had; since when a tick has been due; and for which a word counts
DESK, BEHIND, TICKS, KEPT = 1.5, 3, 60, 0.2
WELL = "ok"


def ends(state: State) -> Iterator[int]:
    """The moments at which a tick ends something of what the state shows: an offer that rings, after-call work."""
    for call in state.calls.values():
        for one in call.connections.values():
            group = state.groups.get(one.group or "")
            if one.state == "alerting" and group and group.ring:
                yield one.since + group.ring
    for agent in state.agents.values():
        group = state.groups.get(agent.groups[0]) if agent.state == "workingAfterCall" and agent.groups else None
        if group and group.wrap:
            yield agent.since + group.wrap


def overdue(state: State, clock: float) -> float:
    """For how many seconds a tick has been due; 0 where none is."""
    return max(0.0, clock - min(ends(state), default=clock))


class Health:
    """Who asks for it has the gate follow the desk, and costs the desk nothing more."""

    def __init__(self, following: Following, clock: Callable[[], float] = time.time) -> None:
        self.following, self.clock = following, clock
        self.judged, self.said = 0.0, WELL

    async def word(self) -> str:
        """What is wrong: the desk doesn't answer, the picture is behind it, or nobody sends ticks; else WELL."""
        state, now = await self.following.known(), time.monotonic()
        if now - self.judged >= KEPT:
            self.judged, self.said = now, self.judge(state, now)
        return self.said

    def judge(self, state: State | None, now: float) -> str:
        if now - self.following.spoke > DESK:
            return "desk"
        if state is None or now - self.following.heard > BEHIND:
            return "behind"
        return "ticks" if overdue(state, self.clock()) > TICKS else WELL
