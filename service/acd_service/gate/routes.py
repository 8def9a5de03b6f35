"""The routes of the gate: what a login may, and what it gets. Unproved.

The door finds out who asks. POST /csta goes to the desk byte for byte, as its reply does to the client, where it is let
through, and is 403 else; GET /who and /session say who it is; POST /login, /logout and /session begin, end and use a
session; GET /mine is an agent's own state, calls and queues; GET /stream tells what changes, as /mine?stream does for
who has an nginx.conf that knows no other route; GET /records/ files of records for office and lead; GET /requests the
desk's own page for office and follow. GET /auth/any and /auth/reads are the proxy's own questions. `administering` has
the routes of an office's administrator, and everybody's own password.
docs/USING.md says what they answer. The proxy's own address is in X-Site: a page of another site may ask for nothing
(Origin, Sec-Fetch-Site)."""
import asyncio
import re
import string
import urllib.parse
from collections.abc import Awaitable, Callable, Mapping
from pathlib import Path

from acd_service import last_copy
from acd_service.gate import files
from acd_service.gate.accounts import Accounts
from acd_service.gate.administering import Office
from acd_service.gate.boards import TooMany, sight_of
from acd_service.gate.desk import Away, Desk
from acd_service.gate.door import Door, is_page, token_of
from acd_service.gate.exchanges import NO_DESK, Answer, Question, Refused, error
from acd_service.gate.following import Following
from acd_service.gate.health import WELL
from acd_service.gate.judging import Logins, Look, Seen, Twice, looks_at, may, once, owner
from acd_service.gate.limits import Held, Rates, Replies
from acd_service.gate.metrics import KIND, Metrics
from acd_service.gate.passwords import RIGHT, TOO_MANY, Passwords, network
from acd_service.gate.recorded import Recorded, asked_of
from acd_service.gate.roles import MEMBERS, NO_KEYS, NOTHING, Role, has_keys
from acd_service.gate.ruled import FILE as RULES
from acd_service.gate.sessions import Secrets, Session, Sessions, cookie_field
from acd_service.gate.streams import Stream
from acd_service.gate.texts import as_json
from acd_service.gate.traces import Traces
from acd_service.gate.turns import OneByOne
from acd_service.rules.reading import REQUESTER

# who asks for these needs no login, or is judged by what they ask
OPEN = {"/auth", "/auth/any", "/auth/reads", "/login", "/logout", "/health", "/metrics"}
# bytes of a body
LONGEST = 4096
# files of records that are read at a time
READ_AT_ONCE = 2
Place = Callable[[Question], Awaitable[Answer]]
Body = Callable[[Question, bytes], Awaitable[Answer]]


def is_foreign(fields: Mapping[str, str]) -> bool:
    """Whether a page of another site asks."""
    origin, site = fields.get("origin"), fields.get("sec-fetch-site")
    is_elsewhere = site is not None and site not in ("same-origin", "none")
    return is_elsewhere or (origin is not None and origin != fields.get("x-site"))


def refuse_to_show(role: Role, agent: str | None) -> None:
    """Refused where the role doesn't show this agent; or without one the whole desk."""
    if not re.fullmatch(MEMBERS["agent"], agent or "0"):
        raise Refused(error(400))
    is_own = agent is not None and agent == role.agent
    if role == NOTHING or role.reading == "none" or (role.reading != "all" and not is_own):
        raise Refused(error(403))


def form_of(body: bytes) -> tuple[str, str, str]:
    """Login, password and the page that comes next, of a form."""
    try:
        given = once(urllib.parse.parse_qsl(body.decode("ascii"), keep_blank_values=True, strict_parsing=True,
                                            errors="strict", max_num_fields=8))
        return given["login"], given["password"], given.get("next", "")
    except (ValueError, KeyError, Twice):
        raise Refused(error(400)) from None


class Gate:
    """The roles and users are files, and so are the sessions, if their file is named. `own` is the folder of the logins
    that the office gives."""

    def __init__(self, desk: Desk, roles: Path | str, users: Path | str, sessions: Path | str | None = None,
                 records: Path | str = "/var/lib/acd-records", secrets: Secrets = Secrets(),
                 copy: Path | str = last_copy.FILE, rules: Path | str = RULES, own: Path | str | None = None) -> None:
        self.desk, self.records = desk, records
        self.accounts = Accounts(roles, users, own)
        self.roles, self.users = self.accounts.roles, self.accounts.users
        self.passwords, self.sessions = Passwords(self.users), Sessions(sessions, self.users, secret=secrets.session)
        self.rates, self.replies, self.held = Rates(), Replies(), Held()
        self.following = Following(desk.ask_soon, is_rules=self.is_rules, rules=rules, shown=self.accounts.shown)
        self.reading, self.recorded = asyncio.Semaphore(READ_AT_ONCE), Recorded(records)
        self.pictures = OneByOne()
        self.traces = Traces()
        self.door = Door(self.roles, self.passwords, self.sessions, self.rates, self.traces, secrets)
        self.metrics = Metrics(self, self.following, desk, copy)
        self.gets: dict[str, Place] = {
            "/auth": self.door.judge, "/auth/any": self.door.judge, "/auth/reads": self.door.judge_reads,
            "/who": self.who, "/session": self.session, "/mine": self.mine, "/stream": self.stream,
            "/requests": self.requests, "/basic": self.basic, "/health": self.health, "/metrics": self.measured}
        self.posts: dict[str, Body] = {"/csta": self.ask_desk, "/login": self.log_in, "/logout": self.log_out,
                                       "/session": self.use_session}
        office = Office(self.accounts, self.door, self.sessions, self.traces, self.ask_desk, self.role_of,
                        self.following.nudge, desk.ask_soon)
        self.gets |= office.gets
        self.posts |= office.posts
        self.roles.now()

    async def answer(self, question: Question) -> Answer:
        """The answer of a route; Refused or Left where there is nothing more to do."""
        if question.path in OPEN:
            question = question._replace(address=question.field("x-address"))
        else:
            question = await self.door.admitted(question)
        if question.method == "POST":
            return await self.post(question)
        if question.method not in ("GET", "HEAD"):
            raise Refused(error(501))
        if question.path.startswith("/records/"):
            return await self.records_of(question, question.path.removeprefix("/records/"))
        if question.path not in self.gets:
            raise Refused(error(404))
        return await self.gets[question.path](question)

    async def post(self, question: Question) -> Answer:
        place = self.posts.get(question.path)
        if place is None:
            raise Refused(error(404))
        length = question.fields.get("content-length", "0" if question.path in ("/logout", "/session") else "")
        if not (length.isascii() and length.isdigit()):
            raise Refused(error(411))
        if len(length) > 9 or int(length) > LONGEST:
            raise Refused(error(413))
        body = await question.read()
        if is_foreign(question.fields):
            raise Refused(error(403))
        return await place(question, body)

    def role_of(self, login: str) -> Role:
        return self.roles.now().get(login, NOTHING)

    def is_rules(self, requester: str) -> bool:
        """Whether it is a requester of the office's rules, through the gate or at the desk itself."""
        login = owner(requester, self.logins())
        return requester.startswith(f"{REQUESTER}-") if login is None else self.role_of(login).name == "rules"

    # sessions

    async def who(self, question: Question) -> Answer:
        return self.said(question.login, None)

    async def session(self, question: Question) -> Answer:
        return self.said(question.login, self.sessions.of(token_of(question)))

    async def basic(self, question: Question) -> Answer:
        """Sends a screen, which has sent name and password, on to its page."""
        if not is_page(question.query):
            raise Refused(error(404))
        return Answer(302, fields=(("Location", question.query),))

    def said(self, login: str, session: Session | None, *fields: tuple[str, str]) -> Answer:
        """Who this is, and what the login may."""
        role = self.role_of(login)
        if role == NOTHING:
            raise Refused(error(403))
        found: dict[str, object] = {"login": login}
        if role.asks and not has_keys(login):
            found["why"] = NO_KEYS
        else:
            found |= {"role": role.name, "agent": role.agent, "stations": sorted(role.stations or ()),
                      "groups": sorted(role.groups or ())}
        if role.reading != "all":
            found["reads"] = role.reading
        if session and session.login == login:
            found |= {"begun": session.begun, "ends": session.ends}
        found |= {"own": self.accounts.is_own(login), "first": self.accounts.is_first(login)}
        body = as_json({name: value for name, value in found.items() if value})
        return Answer(200, "application/json", body, fields)

    async def log_in(self, question: Question, body: bytes) -> Answer:
        """A form's login and password. If the browser sends the form itself, the answer sends it on to a page; a script
        gets a status."""
        login, password, goes_to = form_of(body)
        verdict = await self.door.judged(login.encode(), password.encode(), question)
        if verdict == RIGHT and not self.rates.takes_log_in(login, network(question.address.encode())):
            self.traces.refusal(login, question.address, "too many log-ins")
            verdict = TOO_MANY
        by_form = "text/html" in question.field("accept")
        if verdict != RIGHT and by_form:
            place = "/board/login/?" + ("wait" if verdict == TOO_MANY else "wrong")
            raise Refused(Answer(303, fields=(("Location", place),)))
        if verdict != RIGHT:
            raise Refused(error(429 if verdict == TOO_MANY else 401))
        if self.door.role_of(login) == NOTHING:
            self.traces.refusal(login, question.address, "no line in the roles")
            raise Refused(error(403))
        await self.sessions.end(token_of(question))
        token = await self.sessions.begin(login)
        self.traces.log_in(login, question.address)
        if by_form:
            page = goes_to if is_page(goes_to) else "/board/"
            return Answer(303, fields=(("Location", page), cookie_field(token)))
        return self.said(login, self.sessions.of(token), cookie_field(token))

    async def log_out(self, question: Question, _: bytes) -> Answer:
        session = self.sessions.of(token_of(question))
        if session is not None:
            self.traces.log_off(session.login, question.address)
        await self.sessions.end(token_of(question))
        return Answer(204, fields=(cookie_field(None),))

    async def use_session(self, question: Question, _: bytes) -> Answer:
        # of a page behind an nginx.conf that has no line for /reasons
        if question.query == "reasons":
            return await self.post(question._replace(path="/reasons", query=""))
        return self.said(question.login, await self.sessions.use(token_of(question)))

    # what is read

    async def mine(self, question: Question) -> Answer:
        """What an agent's page shows, held until there is news."""
        if question.query.partition("&")[0] == "stream":
            return await self.stream(question)
        login = question.login
        role, asked = self.role_of(login), dict(urllib.parse.parse_qsl(question.query))
        numbers = [asked.get("after", "0"), asked.get("names", "0"), asked.get("hold", "20")]
        agent = asked.get("agent", role.agent)
        if not all(re.fullmatch(r"[0-9]{1,15}", number) for number in [*numbers, asked.get("to", "0")]):
            raise Refused(error(400))
        refuse_to_show(role, agent)
        if agent is None:
            raise Refused(error(403))
        with self.held.one(login) as has_room:
            if not has_room:
                raise Refused(error(429))
            groups = role.groups if agent == role.agent else None
            after, names, hold = map(int, numbers)
            page = await self.following.mine(agent, groups, after, names, hold, question.has_left, asked.get("to"))
        if page is None:
            raise Refused(NO_DESK)
        return Answer(200, "application/json", page)

    async def stream(self, question: Question) -> Answer:
        """What a page shows, and then what changes of it: of an agent, or of the whole desk."""
        login = question.login
        role, asked = self.role_of(login), dict(urllib.parse.parse_qsl(question.query, keep_blank_values=True))
        agent = asked.get("agent", role.agent if role.reading == "own" else None)
        refuse_to_show(role, agent)
        streams, groups = self.following.streams, role.groups if agent == role.agent else None
        try:
            sight = sight_of(asked) if agent is None else None
        except ValueError:
            raise Refused(error(400)) from None
        if question.method != "GET":
            raise Refused(error(501))
        stream = Stream(login, self.stays(login, role, self.door.token_behind(question)), sight, agent or "",
                        groups or frozenset())
        await self.following.known()
        # a first picture takes long: where many pages come at once, others are answered between
        await self.pictures.turn()
        question.stay()
        state = self.following.state
        if state is None:
            raise Refused(NO_DESK)
        try:
            streams.look(stream, state)
        except TooMany:
            raise Refused(error(429)) from None
        after = question.field("last-event-id") or asked.get("after", "")
        return Answer(200, "text/event-stream", fields=(("Cache-Control", "no-store"), ("X-Accel-Buffering", "no")),
                      goes_on=lambda pipe: streams.hold(stream, pipe, after))

    def stays(self, login: str, role: Role, token: str | None) -> Callable[[], bool]:
        """Says whether this login may still look: in this session, with this role and password."""
        hashed = self.users.now().get(login)

        def may_go_on() -> bool:
            if self.role_of(login) != role:
                return False
            # a session ends with its password, but for that in which somebody changes it
            session = self.sessions.of(token) if token is not None else None
            return self.users.now().get(login) == hashed if token is None else \
                session is not None and session.login == login

        return may_go_on

    async def requests(self, question: Question) -> Answer:
        """The page of the desk itself; the quoted query means the same to the desk."""
        if not self.role_of(question.login).reads_requests:
            raise Refused(error(403))
        question.stay()
        self.traces.requests(question.login, question.address)
        if self.role_of(question.login).name == "follow":
            self.metrics.ask(question.login, question.query)
        quoted = urllib.parse.quote(question.query, safe=string.punctuation, encoding="latin-1")
        return await self.desk.ask("GET", f"/requests?{quoted}")

    # for who looks after the machine: nginx says who may ask

    async def health(self, _: Question) -> Answer:
        word = await self.metrics.health.word()
        return Answer(200 if word == WELL else 503, body=f"{word}\n".encode())

    async def measured(self, _: Question) -> Answer:
        return Answer(200, KIND, await self.metrics.now())

    async def records_of(self, question: Question, name: str) -> Answer:
        """A file of records, or the days of which there are files."""
        role = self.role_of(question.login)
        if role.name not in ("office", "lead") or role.reading == "none":
            raise Refused(error(403))
        if name == "sums":
            return await self.sums(question, role)
        async with self.reading:
            question.stay()
            if not name:
                days = await asyncio.to_thread(files.days, self.records)
                return Answer(200, "application/json", as_json(dict(days)))
            content = await asyncio.to_thread(files.content, self.records, name, role.groups)
        if content is None or content is False:
            raise Refused(error(404 if content is None else 403))
        if question.method == "GET":
            self.traces.download(question.login, question.address, name)
        given = f'attachment; filename="{name.replace("/", "-")}"'
        return Answer(200, "text/csv; charset=utf-8", content, (("Content-Disposition", given),))

    async def sums(self, question: Question, role: Role) -> Answer:
        """Files of records of several days, added up."""
        asked = asked_of(question.query, role.groups)
        async with self.reading:
            question.stay()
            answer = await self.recorded.answer(question, asked)
        if question.method == "GET":
            what = f"sums of {asked.kind}, {asked.since} to {asked.until},"
            self.traces.download(question.login, question.address, what)
        return answer

    # services

    async def ask_desk(self, question: Question, body: bytes) -> Answer:
        """The reply to a body of this login. It is sent to the desk even if its client has left: who sent it may count
        on that, as a page does that is closed."""
        login = question.login
        leads = self.role_of(login).name == "lead"
        reply = self.replies.of(login, body) if leads else None
        if reply is not None:
            return reply
        try:
            seen = await self.seen(login, body)
        except Away:
            raise Refused(NO_DESK) from None
        if not may(self.role_of(login), login, self.logins(), body, seen):
            raise Refused(error(403))
        reply = await self.desk.ask("POST", "/csta", body)
        if leads and reply.status in (200, 409):
            self.replies.keep(login, body, reply)
        self.following.nudge(body, reply.body, login if leads else "")
        return reply

    def logins(self) -> Logins:
        """All that have a line or a password."""
        return Logins(self.roles.now(), self.users.now())

    async def seen(self, login: str, body: bytes) -> Seen:
        """What the login's rule looks at, as the desk is now; Away where it doesn't answer."""
        role = self.role_of(login)
        look = looks_at(role, login, self.logins(), body)
        if look is Look.STATE:
            self.following.want()
            return Seen(state=await self.following.catch_up())
        if look is Look.STATION and role.agent is not None:
            return Seen(agent=role.agent, station=await self.desk.station_of(role.agent))
        return Seen()
