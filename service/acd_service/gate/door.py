"""Who asks: the login of a request, by the cookie of a session or by name and password, or as the proxy names it.
Unproved.

nginx asks once: it sends a request on with what the client says of itself, and with a secret of this machine in the
field X-Proxy, and the gate judges it. One of before 1.16 has no such field. It asks GET /auth first, and names the
login in X-Login."""
import base64
import hmac
import re

from acd_service.command import report
from acd_service.gate.exchanges import Answer, Question, Refused, error
from acd_service.gate.limits import Rates
from acd_service.gate.passwords import RIGHT, TOO_MANY, WRONG, Passwords, text
from acd_service.gate.accounts import Below
from acd_service.gate.roles import NOTHING, Role, Watched
from acd_service.gate.sessions import Secrets, Sessions, cookie_of
from acd_service.gate.traces import Traces

# the field of the proxy's secret; that by which one of 1.15 says that it has looked at the signature of a session's
# cookie; and what the journal is told where there is neither
PROXY, SIGNED = "x-proxy", "x-signed"
OLD_PROXY = ("nginx asks for everybody, strangers too: its configuration is of before 1.15. Take "
             "/usr/share/doc/acd/examples/nginx.conf, or add its lines to yours: the include of nginx-secret.conf and "
             "its maps, secure_link, if ($stranger), X-Proxy and @heavy")
OTHER_SECRET = "nginx has another secret than this gate: restart the gate, and reload nginx"
# where a proxy that asks first has pages ask for streams: the question that it sends on has no cookie. Of so many the
# gate knows by which session it let them in
STREAMS, MOST_LET_IN = "/mine?stream", 4000
REFUSALS = {WRONG: "wrong password", TOO_MANY: "too many passwords"}
BY_PASSWORD = (("WWW-Authenticate", 'Basic realm="desk", charset="UTF-8"'),)


class Shut(Exception):
    """Who asks isn't let in: the status says why, 401, 403 or 429."""

    def __init__(self, status: int) -> None:
        super().__init__(status)
        self.status = status


def credentials(field: str) -> tuple[bytes, bytes] | None:
    """Login and password of a field Authorization, as bytes; None where it has none."""
    scheme, _, given = field.partition(" ")
    try:
        login, colon, password = base64.b64decode(given.strip(" "), validate=True).partition(b":")
    except ValueError:
        return None
    return (login, password) if scheme.lower() == "basic" and colon else None


def is_page(address: str) -> bool:
    """Whether it is the address of a page here, and of no other site."""
    return re.fullmatch(r"/board/[!-\[\]-~]*", address) is not None


def token_of(question: Question) -> str | None:
    return cookie_of(question.field("cookie"))


def asks_password(question: Question) -> bool:
    """Whether a 401 asks for a password: a program, and a browser at /basic alone."""
    return "sec-fetch-site" not in question.fields or question.field("x-path").startswith("/basic?")


def refusal(question: Question, shut: Shut) -> Answer:
    """What the client is told."""
    fields = BY_PASSWORD if shut.status == 401 and asks_password(question) else ()
    return error(shut.status)._replace(fields=fields)


def verdict(question: Question, shut: Shut) -> Answer:
    """What a proxy is told that asks first, and tells the client. It has no body, which nginx would leave unread, and
    so close the connection; and it knows nothing of a 429."""
    if shut.status != 401:
        return Answer(403) if shut.status == 403 else Answer(401, fields=(("X-Why", "429"),))
    if asks_password(question):
        return Answer(401, fields=BY_PASSWORD)
    leads = question.field("sec-fetch-mode") == "navigate" and is_page(question.field("x-path"))
    return Answer(401, fields=(("X-Why", "login"),) if leads else ())


class Door:
    """`secrets` are what the gate and the proxy know."""

    def __init__(self, roles: Watched[Role] | Below[Role], passwords: Passwords, sessions: Sessions, rates: Rates,
                 traces: Traces, secrets: Secrets) -> None:
        self.roles, self.passwords, self.sessions, self.rates = roles, passwords, sessions, rates
        self.traces, self.told = traces, set[str]()
        # an nginx.conf of 1.16 sends the secret of sessions in the place of its own
        self.secrets = [secret.encode() for secret in secrets if secret]
        # by login and address
        self.let_in: dict[int, str | None] = {}

    async def admitted(self, question: Question) -> Question:
        """The question with its login; Refused where nobody asks who may."""
        if not self.is_proxys(question):
            if PROXY in question.fields and "x-login" not in question.fields:
                self.tell_once(OTHER_SECRET)
            return question._replace(login=text(question.raw("x-login")))
        try:
            login, _ = await self.enter(question)
        except Shut as shut:
            raise Refused(refusal(question, shut)) from None
        return question._replace(login=login, address=question.field("x-address"))

    async def judge(self, question: Question) -> Answer:
        """The answer to the proxy's own question: the login, or why there is none."""
        return await self.told_of(question, reads=False)

    async def judge_reads(self, question: Question) -> Answer:
        """The same, for logins that read all of the desk."""
        return await self.told_of(question, reads=True)

    async def told_of(self, question: Question, reads: bool) -> Answer:
        if SIGNED not in question.fields and not self.is_proxys(question):
            self.tell_once(OLD_PROXY)
        try:
            login, role = await self.enter(question)
            if reads and role.reading != "all":
                raise Shut(403)
        except Shut as shut:
            raise Refused(verdict(question, shut)) from None
        if question.field("x-path").startswith(STREAMS):
            self.keep(hash((login, question.field("x-path"))), token_of(question))
        return Answer(204, fields=(("X-Login", login),))

    def keep(self, asked: int, token: str | None) -> None:
        self.let_in.pop(asked, None)
        self.let_in[asked] = token
        if len(self.let_in) > MOST_LET_IN:
            del self.let_in[next(iter(self.let_in))]

    def token_behind(self, question: Question) -> str | None:
        """That of the session by which somebody asks, if there is one; a proxy that asks first has shown it then."""
        return token_of(question) or self.let_in.get(hash((question.login, f"{question.path}?{question.query}")))

    def is_proxys(self, question: Question) -> bool:
        """Whether nginx has sent it on unasked: no client knows the secret, and what nginx sends is in place of what a
        client wrote."""
        return any(hmac.compare_digest(question.raw(PROXY), secret) for secret in self.secrets)

    async def enter(self, question: Question) -> tuple[str, Role]:
        """The login and its role."""
        judged, login = await self.who_asks(question)
        role = self.role_of(login) if judged == RIGHT else NOTHING
        if role != NOTHING and not self.rates.takes_request(login, role, question.field("x-path")):
            judged = TOO_MANY
        if judged != RIGHT:
            raise Shut(429 if judged == TOO_MANY else 401)
        if role == NOTHING:
            raise Shut(403)
        return login, role

    async def who_asks(self, question: Question) -> tuple[str, str]:
        """The verdict, and the login. If there is a session's cookie, it alone counts."""
        token = token_of(question)
        if token is not None:
            session = self.sessions.of(token)
            return (RIGHT, session.login) if session else (WRONG, "")
        given = credentials(question.field("authorization"))
        if given is None:
            return WRONG, ""
        return await self.judged(*given, question), text(given[0])

    async def judged(self, login: bytes, password: bytes, question: Question) -> str:
        """The verdict on a password; a refusal is told in the journal."""
        found = await self.passwords.judge(question.raw("x-address"), login, password, question.has_left)
        if found != RIGHT:
            self.traces.refusal(text(login), question.field("x-address"), REFUSALS[found])
        return found

    def role_of(self, login: str) -> Role:
        """The role of one whose password or session is right; the journal is told once of each who has no line."""
        roles = self.roles.now()
        if login not in roles:
            self.tell_once(f"{login} gets nothing: it has no line in {self.roles.file}")
        return roles.get(login, NOTHING)

    def tell_once(self, line: str) -> None:
        if line not in self.told:
            self.told.add(line)
            report(line)
