"""Sessions of people who logged in by a form: a cookie for the browser, and its digest in a file that outlives a start.
Unproved."""
import asyncio
import base64
import contextlib
import hashlib
import json
import re
import secrets
import time
from collections.abc import AsyncIterator, Callable, Iterable
from dataclasses import dataclass
from pathlib import Path
from typing import Any, NamedTuple

from acd_service import put
from acd_service.command import report
from acd_service.gate.passwords import Users

COOKIE = "__Host-acd"
UNUSED, LONGEST = 12 * 3600, 24 * 3600
# the gate writes a click into the file once in this time
USED_AGAIN = 60
# sessions of one login; one more ends the oldest of this login, and nobody else's
MOST = 100
NO_SECRET = "it has no 64 signs"
# 32 bytes that were drawn, and a signature by which nginx tells them from made-up ones
TOKEN = r"[A-Za-z0-9_-]{43}\.[A-Za-z0-9_-]{22}"


@dataclass
class Session:
    """`bound` is a digest of the login's line in the users' file: another password ends the session."""
    login: str
    bound: str
    begun: int
    used: int

    @property
    def ends(self) -> int:
        return min(self.used + UNUSED, self.begun + LONGEST)


def digest(text: str) -> str:
    return hashlib.sha256(text.encode()).hexdigest()


class Secrets(NamedTuple):
    """What the gate and nginx know: `session` signs the cookies of sessions, `proxy` says that a request is nginx's."""
    session: str = ""
    proxy: str = ""


def secrets_of(file: Path | str) -> Secrets:
    """nginx reads the file as a part of its configuration. One of before 1.17 has one secret, which is both. Without
    that they are some that nginx can't have."""
    text, why = "", NO_SECRET
    try:
        text = Path(file).read_text()
    except OSError as fault:
        why = fault.strerror or NO_SECRET
    except ValueError:
        pass
    found = dict(re.findall(r'\$acd_(session|proxy)_secret\b[^"]*"([0-9a-f]{64})"', text))
    if "session" not in found:
        report(f"{file} has no secret, so that nginx takes no session for ours: {why}")
        found = {"session": secrets.token_hex(32)}
    return Secrets(**{"proxy": found["session"], **found})


def signed(drawn: str, secret: str) -> str:
    """The token, as nginx's secure_link_md5 makes its signature."""
    signature = hashlib.md5(f"{secret}{drawn}".encode(), usedforsecurity=False).digest()
    return f"{drawn}." + base64.urlsafe_b64encode(signature).decode().rstrip("=")


def cookie_of(field: str) -> str | None:
    """The session's token in a field Cookie; None where it has none, "" where it has something else under that name, or
    two."""
    given = [value for name, _, value in (part.strip().partition("=") for part in field.split(";")) if name == COOKIE]
    if not given:
        return None
    return given[0] if len(given) == 1 and re.fullmatch(TOKEN, given[0]) else ""


def cookie_field(token: str | None) -> tuple[str, str]:
    """The field Set-Cookie of a token; without one the browser forgets its cookie."""
    age = LONGEST if token else 0
    return "Set-Cookie", f"{COOKIE}={token or ''}; Path=/; Max-Age={age}; HttpOnly; Secure; SameSite=Strict"


class Sessions:
    """`users` has the hash of each login's password. Without a file sessions end with the gate. Who changes one waits
    until it is in the file, and nobody else does."""

    def __init__(self, file: Path | str | None, users: Users, clock: Callable[[], float] = time.time,
                 secret: str = "") -> None:
        self.file, self.users, self.clock, self.secret = Path(file) if file else None, users, clock, secret
        self.writing = asyncio.Lock()
        self.changes = self.written = 0
        self.found = self.kept()
        # of sessions whose login is about to get another password, by which they go on, what that will bind them to
        self.coming: dict[str, str] = {}

    def kept(self) -> dict[str, Session]:
        """The sessions of the file; it reports a line that can't be read, and passes over it."""
        found: dict[str, Session] = {}
        try:
            lines = self.file.read_text().splitlines() if self.file else []
        except OSError:
            lines = []
        for line in lines:
            try:
                members = json.loads(line)
                found[members["digest"]] = Session(str(members["login"]), str(members["bound"]), int(members["begun"]),
                                                   int(members["used"]))
            except (ValueError, KeyError, TypeError):
                report(f"{self.file} has a line that is no session")
        return found

    async def keep(self) -> None:
        """Writes all sessions down, whole or not at all, in a thread; those who come meanwhile are written at once."""
        if self.file is None:
            return
        self.changes += 1
        wanted = self.changes
        async with self.writing:
            if self.written < wanted:
                self.written = self.changes
                found = [{"digest": name, **vars(session)} for name, session in self.found.items()]
                await asyncio.to_thread(self.write, found)

    def write(self, found: Iterable[dict[str, Any]]) -> None:
        if self.file is None:
            return
        try:
            put.put(self.file, "".join(json.dumps(members) + "\n" for members in found))
        except OSError as fault:
            report(f"{self.file} can't be written: {fault.strerror}")

    def bound(self, login: str) -> str | None:
        """None for who has no password any more."""
        hashed = self.users.now().get(login)
        return hashed and digest(f"{login}:{hashed}")

    def is_current(self, session: Session) -> bool:
        return session.begun - 60 <= self.clock() < session.ends

    def is_good(self, session: Session, coming: str | None) -> bool:
        return self.is_current(session) and self.bound(session.login) in (session.bound, coming or session.bound)

    async def begin(self, login: str) -> str:
        """The token of a new session. Others end by time alone: who isn't among the users now may be in a moment, when
        the file is written."""
        token, now = signed(secrets.token_urlsafe(32), self.secret), int(self.clock())
        self.found = {name: session for name, session in self.found.items() if self.is_current(session)}
        oldest_first = sorted((session.used, name) for name, session in self.found.items() if session.login == login)
        for _, name in oldest_first[:max(0, len(oldest_first) + 1 - MOST)]:
            del self.found[name]
        self.found[digest(token)] = Session(login, self.bound(login) or "", now, now)
        await self.keep()
        return token

    def of(self, token: str | None) -> Session | None:
        """The session of a token, where it is good."""
        name = digest(token or "")
        session = self.found.get(name) if token else None
        return session if session and self.is_good(session, self.coming.get(name)) else None

    async def use(self, token: str | None) -> Session | None:
        """Somebody clicked."""
        session = self.of(token)
        if session is not None and self.clock() - session.used >= USED_AGAIN:
            session.used = int(self.clock())
            await self.keep()
        return session

    async def end(self, token: str | None) -> None:
        if token and self.found.pop(digest(token), None):
            await self.keep()

    @contextlib.asynccontextmanager
    async def changing(self, login: str, hashed: str, token: str | None) -> AsyncIterator[None]:
        """While this lasts the login gets a password of this hash. The session of the token goes on all the while, and
        where that was done the login's others have ended."""
        name, bound = digest(token or ""), digest(f"{login}:{hashed}")
        self.coming[name] = bound
        try:
            yield
            if name in self.found:
                self.found[name].bound = bound
            await self.end_all(login, name)
        finally:
            del self.coming[name]

    async def end_all(self, login: str, but: str = "") -> None:
        """Ends the sessions of a login, but for that of this digest."""
        left = {name: one for name, one in self.found.items() if one.login != login or name == but}
        if len(left) < len(self.found) or but:
            self.found = left
            await self.keep()
