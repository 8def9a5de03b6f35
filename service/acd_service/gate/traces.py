"""Lines of the journal about who came, who was refused, who went and who took what away: each with login and address.
Unproved.

Strangers choose how often they are refused, and under which names. So an address has so many lines of refusals in a
minute, all together have so many, and one line says that there are more; and what is shown of a name is short."""
import time
from collections.abc import Callable

from acd_service import command
from acd_service.command import INFO, NOTICE
from acd_service.gate.passwords import network

MINUTE, HOUR = 60, 3600
# lines of refusals in a minute: of an address, and of all
MOST_OF_ADDRESS, MOST = 10, 100
# signs of a login that are shown; readings that are remembered
LONGEST, MOST_KNOWN = 64, 10_000
# nginx of before 1.16 tells the address at the door alone
UNTOLD = "an address that nginx doesn't tell"


def shown(login: str) -> str:
    """A login as a line shows it: what anybody may have written makes no other line, and no long one."""
    is_plain = login.isprintable() and " " not in login and 0 < len(login) <= LONGEST
    return login if is_plain else ascii(login[:LONGEST])


class Traces:
    def __init__(self, clock: Callable[[], float] = time.monotonic) -> None:
        self.clock, self.since = clock, clock()
        self.log_ins = self.refusals = 0
        # of this minute: the refusals of each address, and the lines of all
        self.refused: dict[bytes, int] = {}
        self.lines = 0
        # when a line last said that a login reads requests
        self.read: dict[tuple[str, str], float] = {}

    def tell(self, did: str, login: str, address: str, priority: int = INFO) -> None:
        command.report(f"{did}: {shown(login)} at {shown(address) if address else UNTOLD}", priority)

    def log_in(self, login: str, address: str) -> None:
        self.log_ins += 1
        self.tell("log-in", login, address)

    def log_off(self, login: str, address: str) -> None:
        self.tell("log-off", login, address)

    def download(self, login: str, address: str, name: str) -> None:
        self.tell(f"{name} taken", login, address)

    def requests(self, login: str, address: str) -> None:
        """Once an hour: a login that follows reads them all the time."""
        now = self.clock()
        if now - self.read.get((login, address), now - HOUR) < HOUR:
            return
        self.read.pop((login, address), None)
        self.read[login, address] = now
        if len(self.read) > MOST_KNOWN:
            del self.read[next(iter(self.read))]
        self.tell("requests read", login, address)

    def refusal(self, login: str, address: str, why: str) -> None:
        now = self.clock()
        self.refusals += 1
        if now - self.since >= MINUTE:
            self.since, self.lines, self.refused = now, 0, {}
        if self.lines > MOST:
            return
        whose = network(address.encode())
        count = self.refused[whose] = self.refused.get(whose, 0) + 1
        if count > MOST_OF_ADDRESS + 1:
            return
        self.lines += 1
        if self.lines > MOST:
            command.report("more refusals, of many addresses: none is told until a minute has passed", NOTICE)
        elif count > MOST_OF_ADDRESS:
            command.report(f"more refusals at {shown(address)}: none is told until a minute has passed", NOTICE)
        else:
            self.tell(f"refused, {why}", login, address, NOTICE)
