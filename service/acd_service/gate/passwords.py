"""Judges passwords: remembers a right one, counts wrong ones, and lets what nobody has vouched for wait by turns of the
addresses for one of a few threads. Unproved."""
import asyncio
import contextlib
import hashlib
import hmac
import ipaddress
import itertools
import os
import secrets
import time
from collections import Counter, OrderedDict, deque
from collections.abc import AsyncIterator, Callable
from concurrent.futures import ThreadPoolExecutor
from typing import NamedTuple, Protocol

from passlib.context import CryptContext

from acd_service.command import report
from acd_service.gate.exchanges import Left

# what htpasswd makes, or has made: no plain text, so that a line which isn't a hash is nobody's password
FORMS = CryptContext(
    schemes=["bcrypt", "sha512_crypt", "sha256_crypt", "apr_md5_crypt", "md5_crypt", "ldap_salted_sha1", "ldap_sha1"])
MINUTE, HOUR = 60, 3600
MOST_WRONG = 10
MOST_PAIRS = 100_000
# wrong passwords of a login within an hour of which the journal is told
MOST_GUESSES = 100
# passwords that wait to be checked, of an address and in all, and how many are checked at once: half of the processors,
# two at least
MOST_OF_ADDRESS, MOST_WAITING, AT_ONCE = 20, 200, max(2, min(4, len(os.sched_getaffinity(0)) // 2))
# addresses of which it knows when they had their last turn
MOST_KNOWN = 4096
RIGHT, WRONG, TOO_MANY = "right", "wrong", "too many"


def text(login: bytes) -> str:
    """A login of bytes as the files' text has it."""
    return login.decode("utf-8", "replace")


def network(address: bytes) -> bytes:
    """An address as it is counted: of IPv6 its network of 64 bits, since whoever has one address has all of these."""
    try:
        found = ipaddress.ip_address(address.decode("ascii"))
    except ValueError:
        return address
    if isinstance(found, ipaddress.IPv4Address):
        return address
    return str(found.ipv4_mapped).encode() if found.ipv4_mapped else found.packed[:8]


class Attempt(NamedTuple):
    """A login and a password as bytes; `pair` is a digest of address and login, `given` one of login and password."""
    login: bytes
    password: bytes
    pair: bytes
    given: bytes


class Users(Protocol):
    """The hash of each login's password, as the users' file has it."""

    def now(self) -> dict[str, str]: ...


# one who waits: whether a turn came, or the place was given up
Place = asyncio.Future[bool]


class Turns:
    """Who waits for a turn: of an address in their order, of the addresses first the one whose last turn was the
    longest ago; a turn of a right password doesn't count. So an address that comes anew, and one without guesses, waits
    for nobody but those who have their turn now. Where there are too many the address with most waiting gives up its
    latest."""

    def __init__(self, at_once: int = AT_ONCE) -> None:
        self.free, self.count, self.numbers = at_once, 0, itertools.count(1)
        self.waiting: dict[bytes, deque[Place]] = {}
        self.last: OrderedDict[bytes, int] = OrderedDict()

    @contextlib.asynccontextmanager
    async def turn(self, address: bytes) -> AsyncIterator[bool]:
        """Waits for a turn; whether there was one."""
        place: Place = asyncio.get_running_loop().create_future()
        self.enter(address, place)
        self.call()
        try:
            yield await place
        finally:
            if place.done() and not place.cancelled() and place.result():
                self.free += 1
                self.call()

    def forget(self, address: bytes) -> None:
        """The last turn of this address was for a right password."""
        self.last.pop(address, None)

    def enter(self, address: bytes, place: Place) -> None:
        self.waiting.setdefault(address, deque()).append(place)
        self.count += 1
        if len(self.waiting[address]) > MOST_OF_ADDRESS:
            self.take(address, latest=True).set_result(False)
        elif self.count > MOST_WAITING:
            fullest = max(reversed(self.waiting), key=lambda each: (len(self.waiting[each]), self.last.get(each, 0)))
            self.take(fullest, latest=True).set_result(False)

    def take(self, address: bytes, latest: bool = False) -> Place:
        places = self.waiting[address]
        place = places.pop() if latest else places.popleft()
        if not places:
            del self.waiting[address]
        self.count -= 1
        return place

    def call(self) -> None:
        """Gives turns to those who are next."""
        while self.free and self.waiting:
            address = min(self.waiting, key=lambda each: self.last.get(each, 0))
            place = self.take(address)
            if place.cancelled():
                continue
            self.last[address] = next(self.numbers)
            self.last.move_to_end(address)
            if len(self.last) > MOST_KNOWN:
                self.last.popitem(last=False)
            self.free -= 1
            place.set_result(True)


class Passwords:
    """Judges passwords by the users' hashes; remembers a right one until it wasn't used for a minute, and counts wrong
    ones by address and login."""

    def __init__(self, users: Users, clock: Callable[[], float] = time.monotonic) -> None:
        self.users, self.clock, self.key = users, clock, secrets.token_bytes(32)
        self.turns, self.pool = Turns(), ThreadPoolExecutor(AT_ONCE, "password")
        # of a login the password that was right, the hash that it fitted, and until when it counts
        self.right: dict[bytes, tuple[bytes, str, float]] = {}
        # of a pair the moments of wrong passwords; of a login since when they were counted, and how many
        self.wrong: dict[bytes, list[float]] = {}
        self.guesses: dict[str, tuple[float, int]] = {}
        # of a pair those that are being checked, which may be wrong: no eleventh try slips by
        self.checked: Counter[bytes] = Counter()

    async def judge(self, address: bytes, login: bytes, password: bytes,
                    has_left: Callable[[], bool] = lambda: False) -> str:
        """The verdict; a password that has to be checked waits for its turn, and is dropped where it has_left by
        then."""
        address = network(address)
        attempt = Attempt(login, password, self.digest(b"pair", address + b"\0" + login),
                          self.digest(b"given", login + b":" + password))
        verdict = self.known(self.users.now(), attempt)
        if verdict is not None:
            return verdict
        async with self.turns.turn(address) as is_turn:
            if not is_turn:
                return TOO_MANY
            if has_left():
                raise Left
            hashes = self.users.now()
            verdict = self.known(hashes, attempt, checks=True) or await self.looked_at(hashes, attempt)
        if verdict == RIGHT:
            self.turns.forget(address)
        return verdict

    def known(self, hashes: dict[str, str], attempt: Attempt, checks: bool = False) -> str | None:
        """The verdict without a check of the password, or None; with `checks` it is checked then."""
        now = self.clock()
        given, hashed, until = self.right.get(attempt.login, (b"", "", now))
        if now < until and hashed == hashes.get(text(attempt.login)) and hmac.compare_digest(given, attempt.given):
            self.right[attempt.login] = given, hashed, now + MINUTE
            return RIGHT
        wrong = sum(now - moment < MINUTE for moment in self.wrong.get(attempt.pair, ()))
        if wrong + self.checked[attempt.pair] >= MOST_WRONG:
            return TOO_MANY
        if checks:
            self.checked[attempt.pair] += 1
        return None

    async def looked_at(self, hashes: dict[str, str], attempt: Attempt) -> str:
        try:
            good = await asyncio.get_running_loop().run_in_executor(self.pool, self.fits, hashes, attempt)
        finally:
            self.checked[attempt.pair] -= 1
            self.checked = +self.checked
        now = self.clock()
        if good:
            self.right[attempt.login] = attempt.given, hashes[text(attempt.login)], now + MINUTE
            return RIGHT
        earlier = [moment for moment in self.wrong.pop(attempt.pair, ()) if now - moment < MINUTE]
        self.wrong[attempt.pair] = [*earlier, now]
        oldest = next(iter(self.wrong))
        if len(self.wrong) > MOST_PAIRS or now - self.wrong[oldest][-1] >= MINUTE:
            del self.wrong[oldest]
        if text(attempt.login) in hashes:
            self.count_guess(text(attempt.login), now)
        return WRONG

    def count_guess(self, login: str, now: float) -> None:
        """A line of the journal, once an hour, for a login at which many guess."""
        since, count = self.guesses.get(login, (now, 0))
        if now - since >= HOUR:
            since, count = now, 0
        self.guesses[login] = since, count + 1
        if count == MOST_GUESSES:
            report(f"{login}: over {MOST_GUESSES} wrong passwords within an hour")

    def fits(self, hashes: dict[str, str], attempt: Attempt) -> bool:
        """Checks the password. An unknown name takes as long as a known one: its check uses a hash of another login,
        and doesn't count."""
        known, others = hashes.get(text(attempt.login)), list(hashes.values())
        another = others[int.from_bytes(self.digest(b"name", attempt.login)) % len(others)] if others else None
        hashed = known or another
        try:
            return bool(hashed) and FORMS.verify(attempt.password, hashed) and known is not None
        except ValueError:  # a NUL in a password, over 4096 bytes, or a hash that is cut off
            return False

    def digest(self, purpose: bytes, data: bytes) -> bytes:
        return hashlib.blake2b(data, digest_size=32, key=self.key, person=purpose).digest()
