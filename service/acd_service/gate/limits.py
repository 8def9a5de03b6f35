"""What the gate counts by login and address, and the replies to a lead's requests, which it keeps for a minute.
Unproved."""
import contextlib
import re
import time
from collections import Counter
from collections.abc import Callable, Hashable, Iterator

from acd_service.gate.exchanges import Answer
from acd_service.gate.roles import Role

# requests a second of one login, and how many it may have saved up
EACH_SECOND, AT_ONCE = {"exchange": 1000}, 10_000
OF_OTHERS = 500
# reads that cost the desk most, or the gate, and as how many requests they count
HEAVY, WEIGHT = r"/(snapshot|history|calls|stream)([/?].*)?|/mine\?stream(&.*)?", 20
# sessions that begin: of a login and of an address, a second, and how many either may have saved up
LOG_INS = {"login": (1 / 3, 20), "address": (20, 1000)}
MOST_RATES = 100_000
# questions of a login that are held
MOST_HELD = 100
# for so many seconds a lead's request that is sent again gets its reply again
AGAIN, MOST_REPLIES = 60, 1000


class Rates:
    """How often somebody may ask: each has what it saved up, of which the longest unused is forgotten first."""

    def __init__(self, clock: Callable[[], float] = time.monotonic) -> None:
        self.clock = clock
        self.left: dict[Hashable, tuple[float, float]] = {}

    def takes(self, who: Hashable, each: float, most: float, weight: float = 1) -> bool:
        """Whether this may ask for so much: it gets `each` in a second, and saves up `most`."""
        now = self.clock()
        left, since = self.left.pop(who, (most, now))
        left = min(most, left + (now - since) * each)
        takes = left >= weight
        self.left[who] = left - weight * takes, now
        while len(self.left) > MOST_RATES:
            del self.left[next(iter(self.left))]
        return takes

    def takes_request(self, login: str, role: Role, path: str = "") -> bool:
        """A request of a login, after the check of the password."""
        each = EACH_SECOND.get(role.name or "", OF_OTHERS)
        return self.takes(login, each, AT_ONCE, WEIGHT if re.fullmatch(HEAVY, path) else 1)

    def takes_log_in(self, login: str, address: bytes) -> bool:
        return (self.takes(("login", login), *LOG_INS["login"])
                and self.takes(("address", address), *LOG_INS["address"]))


class Replies:
    """The replies to a lead's requests, by their bytes: the gate doesn't judge a repeated request by the state that the
    first one made."""

    def __init__(self, clock: Callable[[], float] = time.monotonic) -> None:
        self.clock = clock
        self.found: dict[tuple[str, bytes], tuple[Answer, float]] = {}

    def of(self, login: str, body: bytes) -> Answer | None:
        reply, until = self.found.get((login, body), (None, 0))
        return reply if self.clock() < until else None

    def keep(self, login: str, body: bytes, reply: Answer) -> None:
        self.found[login, body] = reply, self.clock() + AGAIN
        while len(self.found) > MOST_REPLIES or next(iter(self.found.values()))[1] <= self.clock():
            del self.found[next(iter(self.found))]


class Held:
    """How many questions of each login are held."""

    def __init__(self) -> None:
        self.count: Counter[str] = Counter()

    @contextlib.contextmanager
    def one(self, login: str) -> Iterator[bool]:
        """A question that may be held; whether there is room for one more of this login."""
        has_room = self.count[login] < MOST_HELD
        self.count[login] += has_room
        try:
            yield has_room
        finally:
            self.count[login] -= has_room
            if not self.count[login]:
                del self.count[login]
