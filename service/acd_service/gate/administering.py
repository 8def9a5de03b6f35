"""What an office's administrator does by a page, and how everybody changes their own password. Unproved.

POST /office/plan is a request to the desk whose name may be of any script; /office/login gives a login or changes its
role, /office/password gives a first password, /office/end ends a login, and /password is for everybody. GET /office
has the logins, and GET /acts who did all that. The gate answers these only where it has found out by itself who asks,
by a session or a password: a field X-Login, which a proxy of before 1.16 sends, isn't enough."""
import asyncio
import contextlib
import hashlib
import json
from collections.abc import Awaitable, Callable
from pathlib import Path
from typing import Any

from passlib.hash import bcrypt

from acd_service import put
from acd_service.command import report
from acd_service.gate import accounts, acts
from acd_service.gate.accounts import GIVEN, Accounts
from acd_service.gate.door import Door, token_of
from acd_service.gate.exchanges import Answer, Question, Refused, error
from acd_service.gate.judging import Twice, may_administer, may_read_acts, once
from acd_service.gate.limits import Replies
from acd_service.gate.passwords import RIGHT, TOO_MANY
from acd_service.gate.roles import NOTHING, Role, has_keys, role_of
from acd_service.gate.sessions import Sessions
from acd_service.gate.texts import as_json
from acd_service.gate.traces import Traces
from acd_service.spelling import is_shown, spelled

# signs of a password, at least, and bytes at most, since bcrypt counts no more
SHORTEST, LONGEST = 10, 72
# of bcrypt: 2 to this power rounds, as `htpasswd -C 8`
ROUNDS = 8
# acts that the page shows
LATEST = 50
# what is wrong with what somebody asked for, by status, code and name
ERRORS = {"wrongPassword": (403, 47), "passwordForm": (400, 48), "loginExists": (409, 49), "rootsLogin": (409, 50),
          "unknownLogin": (404, 51), "tooManyLogins": (409, 52), "notWritten": (500, 53)}
# services that give a name, the kind of what gets it, and the member with its number
NAMING = {"addGroup": ("groups", "device"), "changeGroup": ("groups", "device"), "addAgent": ("agents", "agent"),
          "changeAgent": ("agents", "agent")}
# what the page shows of a plan
PLANNED = {"groups": ("device", "name", "ring", "wrap"), "stations": ("device",), "agents": ("agent", "name")}
DONE = Answer(200, "application/json", b"{}")
Members = dict[str, Any]


def refused(name: str) -> Refused:
    status, code = ERRORS[name]
    return Refused(Answer(status, "application/json", as_json({"error": {"code": code, "name": name}})))


def malformed(member: str) -> Refused:
    told = {"error": {"code": 30, "member": member, "name": "malformed"}}
    return Refused(Answer(400, "application/json", as_json(told)))


def members_of(body: bytes, **kinds: type | tuple[type, ...]) -> Members:
    """The members of a body, each of its kind; those that it lacks are None where their kind says so."""
    try:
        given = json.loads(body.decode("utf-8"), object_pairs_hook=once)
    except (ValueError, RecursionError, Twice):
        raise malformed("json") from None
    if not isinstance(given, dict):
        raise malformed("json")
    found = {name: given.get(name) for name in kinds}
    for name, kind in kinds.items():
        if not isinstance(found[name], kind):
            raise malformed(name)
    return found


def refuse_form(password: str, login: str) -> None:
    """Refuses what must not be a password."""
    is_good = len(password) >= SHORTEST and len(password.encode("utf-8", "replace")) <= LONGEST and \
        password.isprintable() and password.lower() != login
    if not is_good:
        raise refused("passwordForm")


def hashed(password: str) -> str:
    made: str = bcrypt.using(rounds=ROUNDS).hash(password)
    return made


def role_given(members: Members) -> Role:
    """The role that a form names."""
    words = [str(members["role"])]
    for name in ("agent", "stations", "groups"):
        value = members[name]
        numbers = [value] if isinstance(value, str) else value or []
        if numbers:
            words.append(f"{name}={','.join(map(str, numbers))}")
    try:
        role = role_of([] if any(" " in word or "#" in word for word in words) else words)
    except ValueError:
        raise malformed("role") from None
    if role.name not in GIVEN:
        raise malformed("role")
    return role


def told_of(account: accounts.Account) -> Members:
    """A login as the page shows it."""
    role = account.role or NOTHING
    found = {"agent": role.agent, "first": account.first, "groups": sorted(role.groups or ()), "login": account.login,
             "role": role.name, "stations": sorted(role.stations or ())}
    return {name: value for name, value in found.items() if value}


class Office:
    """`ask_desk` judges a body and sends it to the desk, `role_of` is a login's role as it is now, `renamed` is told of
    a body and its reply that changed a name, and `ask_soon` asks the desk a question of the gate's own."""

    def __init__(self, found: Accounts, door: Door, sessions: Sessions, traces: Traces,
                 ask_desk: Callable[[Question, bytes], Awaitable[Answer]], role_of: Callable[[str], Role],
                 renamed: Callable[[bytes, bytes], None], ask_soon: Callable[[str, str], Awaitable[Answer]]) -> None:
        self.accounts, self.door, self.sessions, self.traces = found, door, sessions, traces
        self.ask_desk, self.role_of, self.renamed, self.ask_soon = ask_desk, role_of, renamed, ask_soon
        self.writing, self.replies = asyncio.Lock(), Replies()
        self.gets = {"/office": self.shown, "/acts": self.page}
        self.posts = {"/office/plan": self.plan, "/office/login": self.give_login,
                      "/office/password": self.give_password, "/office/end": self.end_login,
                      "/password": self.change_password}

    # who may

    def folder(self, question: Question) -> Path:
        """The folder of the gate's own files. Refused where there is none, and where no proxy with the gate's secret
        sent the question: then the gate hasn't judged the login by itself."""
        if not self.door.is_proxys(question):
            raise Refused(error(403))
        if self.accounts.folder is None:
            raise Refused(error(404))
        return self.accounts.folder

    def refuse_strangers(self, question: Question) -> Path:
        """The same for who administers, before anything else is looked at."""
        folder = self.folder(question)
        self.refuse_others(question.login)
        return folder

    def refuse_others(self, login: str) -> None:
        if not may_administer(self.role_of(login)):
            raise Refused(error(403))

    # what is read

    async def shown(self, question: Question) -> Answer:
        """What the page shows: the plan, logins, and the latest acts. Of root's logins it has their roles."""
        folder = self.refuse_strangers(question)
        latest = await asyncio.to_thread(acts.read, folder / acts.FILE)
        answer = await self.ask_soon("GET", "/snapshot")
        plan = await asyncio.to_thread(self.planned, answer.body) if answer.status == 200 else None
        self.refuse_others(question.login)
        own, (roles, users) = self.accounts.own(), self.accounts.roots
        roots = [{"login": login, "role": roles.get(login, NOTHING).name} for login in sorted(roles.keys() | users)]
        found: Members = {"acts": latest[-LATEST:], "logins": [told_of(one) for one in own.values()], "roots": roots}
        return Answer(200, "application/json", as_json(found if plan is None else {**found, "plan": plan}))

    def planned(self, body: bytes) -> Members:
        """The plan of a snapshot, with the names that pages show."""
        snapshot = self.accounts.shown(json.loads(body))
        return {kind: [{name: one[name] for name in members} for one in snapshot[kind]]
                for kind, members in PLANNED.items()}

    async def page(self, question: Question) -> Answer:
        """Acts after a number, for those who read the desk's requests, and who administers."""
        folder = self.folder(question)
        if not may_read_acts(self.role_of(question.login)):
            raise Refused(error(403))
        after = question.query.removeprefix("after=") or "0"
        if not (after.isascii() and after.isdigit() and len(after) <= 15):
            raise Refused(error(400))
        found = await asyncio.to_thread(acts.Acts(folder / acts.FILE).page, int(after))
        return Answer(200, "application/json", as_json(found))

    # acts

    async def act(self, question: Question, did: str, work: Callable[[Path], object], **members: object) -> None:
        """Writes an act down and does it, once whoever asked was judged."""
        folder = self.folder(question)
        try:
            await asyncio.to_thread(self.do, folder, question.login, did, work, members)
        except OSError as fault:
            report(f"{fault.filename or folder} can't be written: {fault.strerror}")
            raise refused("notWritten") from None
        about = members.get("of") or members.get("agent") or members.get("device") or question.login
        self.traces.tell(f"{did} of {about}", question.login, question.address)

    @staticmethod
    def do(folder: Path, login: str, did: str, work: Callable[[Path], object], members: Members) -> None:
        with put.alone(folder):
            journal = acts.Acts(folder / acts.FILE)
            number = journal.add(login, did, **members)
            try:
                work(folder)
            except OSError:
                with contextlib.suppress(OSError):
                    journal.add(login, acts.NOT_DONE, number_of=number)
                raise

    async def once(self, question: Question, body: bytes, work: Callable[[], Awaitable[None]]) -> Answer:
        """Does an act of the administrator's, which the same bytes within a minute do once."""
        key = hashlib.sha256(question.path.encode() + b"\0" + body).digest()
        async with self.writing:
            self.refuse_others(question.login)
            if self.replies.of(question.login, key) is None:
                await work()
                self.replies.keep(question.login, key, DONE)
        return DONE

    async def plan(self, question: Question, body: bytes) -> Answer:
        """A request to the desk with the name's spelling; where it is granted, the name itself is kept."""
        self.refuse_strangers(question)
        members_of(body)
        request = json.loads(body)
        name, service = request.get("name"), request.get("service")
        if name is not None:
            if not isinstance(name, str) or not is_shown(name):
                raise malformed("name")
            request["name"] = spelled(name)
        sent = json.dumps(request, separators=(",", ":")).encode()
        reply = await self.ask_desk(question, sent)
        if reply.status == 200 and name is not None and isinstance(service, str) and service in NAMING:
            kind, member = NAMING[service]
            await self.keep_name(question, kind, str(request[member]), name if name != request["name"] else None)
            self.renamed(sent, reply.body)
        return reply

    async def keep_name(self, question: Question, kind: str, number: str, name: str | None) -> None:
        async with self.writing:
            self.refuse_others(question.login)
            if self.accounts.names().get(kind, {}).get(number) == name:
                return
            member = {"agent" if kind == "agents" else "device": number, "name": name}
            await self.act(question, "giveName" if name else "takeName",
                           lambda folder: accounts.give_name(folder, kind, number, name), **member)

    async def give_login(self, question: Question, body: bytes) -> Answer:
        """A new login with a first password, or another role of one that is there."""
        self.refuse_strangers(question)
        text = (str, type(None))
        given = members_of(body, login=str, role=str, agent=text, password=text, groups=(list, type(None)),
                           stations=(list, type(None)))
        login, password = given["login"], given["password"]
        if not has_keys(login):
            raise malformed("login")
        role = role_given(given)
        if password is not None:
            refuse_form(password, login)
        made = await asyncio.to_thread(hashed, password) if password is not None else None

        async def work() -> None:
            self.refuse_roots(login)
            own = self.accounts.own()
            if made is None and login not in own:
                raise refused("unknownLogin")
            if made is not None and login in own:
                raise refused("loginExists")
            if made is not None and len(own) >= accounts.MOST:
                raise refused("tooManyLogins")
            await self.act(question, "changeRole" if made is None else "giveLogin", give, of=login, role=role.name,
                           agent=role.agent, stations=listed(role.stations), groups=listed(role.groups))

        def give(folder: Path) -> None:
            accounts.give_role(folder, login, role)
            if made is not None:
                accounts.give_password(folder, login, made, is_first=True)

        return await self.once(question, body, work)

    async def give_password(self, question: Question, body: bytes) -> Answer:
        """Another first password, for who forgot the last one. It ends the login's sessions."""
        self.refuse_strangers(question)
        given = members_of(body, login=str, password=str)
        login, password = given["login"], given["password"]
        refuse_form(password, login)
        made = await asyncio.to_thread(hashed, password)

        async def work() -> None:
            self.refuse_unknown(login)
            await self.act(question, "givePassword",
                           lambda folder: accounts.give_password(folder, login, made, is_first=True), of=login)
            await self.sessions.end_all(login)

        return await self.once(question, body, work)

    async def end_login(self, question: Question, body: bytes) -> Answer:
        """Takes a login away, and ends its sessions."""
        self.refuse_strangers(question)
        login = members_of(body, login=str)["login"]

        async def work() -> None:
            self.refuse_unknown(login)
            await self.act(question, "endLogin", lambda folder: accounts.end_login(folder, login), of=login)
            await self.sessions.end_all(login)

        return await self.once(question, body, work)

    async def change_password(self, question: Question, body: bytes) -> Answer:
        """Everybody's own, by the old one, whose wrong guesses count as those of a log-in. It ends the login's other
        sessions."""
        self.folder(question)
        given = members_of(body, old=str, new=str)
        login, old, new = question.login, given["old"], given["new"]
        self.refuse_not_own(login)
        refuse_form(new, login)
        verdict = await self.door.judged(login.encode(), old.encode("utf-8", "replace"), question)
        if verdict == TOO_MANY:
            raise Refused(error(429))
        if verdict != RIGHT:
            raise refused("wrongPassword")
        if new == old:
            raise refused("passwordForm")
        made = await asyncio.to_thread(hashed, new)
        async with self.writing:
            self.refuse_not_own(login)
            async with self.sessions.changing(login, made, token_of(question)):
                await self.act(question, "changePassword",
                               lambda folder: accounts.give_password(folder, login, made, is_first=False))
        return DONE

    # of logins

    def refuse_roots(self, login: str) -> None:
        self.accounts.both()
        if self.accounts.refusal(login) is not None:
            raise refused("rootsLogin")

    def refuse_unknown(self, login: str) -> None:
        if login not in self.accounts.own():
            raise refused("rootsLogin" if login in self.accounts.roots[1] else "unknownLogin")

    def refuse_not_own(self, login: str) -> None:
        if self.role_of(login) == NOTHING:
            raise Refused(error(403))
        if not self.accounts.is_own(login):
            raise refused("rootsLogin")


def listed(numbers: frozenset[str] | None) -> list[str] | None:
    return None if numbers is None else sorted(numbers)
