"""An office that keeps its nginx.conf of 1.14: nginx asks the gate for everybody, strangers too, and names the login to it. What clients are told is the same."""
from pathlib import Path

from answers import ASKS, Answers, refusal
from executed import Executed
from leads import Leads
from place import CLICK, PAGE, Place, token_of
from sessions import UNAUTHORIZED, Sessions, strangers
from trial import free_port

OF_1_14 = Path(__file__).with_name("nginx-1.14.conf")


class Older(Place):
    NGINX = OF_1_14


class OneSecret(Place):
    """An office of 1.16: its nginx.conf tells the gate the secret that signs sessions, the only one that there is."""

    ROLES, SECRETS = {"ana": "agent agent=7 reads=all"}, ("session",)

    @classmethod
    def start_nginx(cls):
        cls.NGINX = cls.folder / "1.16.conf"
        cls.NGINX.write_text(Place.NGINX.read_text().replace("acd_proxy_secret", "acd_session_secret"))
        super().start_nginx()

    def try_upgrade(self):
        """A session goes on as a second secret is drawn, and as nginx.conf says that one."""
        token = token_of(self.log_in("ana")[1])
        self.goes_on("before", token)
        with self.without_gate():
            type(self).SECRETS = Place.SECRETS
            self.write_secret()
        self.goes_on("behind nginx of before", token)
        type(self).port = free_port()
        self.run_nginx(Place.NGINX, self.port)
        self.goes_on("behind nginx of now", token)
        self.expect("the gate says nothing", (self.folder / "gate-errors").read_text().count("nginx"), 0)

    def goes_on(self, what, token):
        told = [(self.ask("GET", path, cookie=token).status, self.ask("GET", path, login="ana").status, self.ask("GET", path, X_Login="ana").status) for path in ("/who", "/snapshot")]
        self.expect(f"{what}: a session, a password, and nobody", told, [(200, 200, 401)] * 2)


class OlderSessions(Older, Sessions):
    def try_strangers(self):
        """The gate refuses all of them, and is needed for it."""
        everybody = strangers(token_of(self.log_in("sup")[1]))
        for stranger in everybody:
            self.expect(f"a stranger: {stranger}", self.told(stranger), [(401, UNAUTHORIZED, 'Basic realm="desk", charset="UTF-8"'), (401, UNAUTHORIZED, None)])
            self.expect("a browser's page of one", self.ask("GET", "/board/?since=0", **stranger, **CLICK).fields["location"].partition("/board/")[2], "login/?next=/board/?since=0")
        with self.without_gate():
            self.expect("without a gate", [[status for status, _, _ in self.told(stranger)] for stranger in everybody], [[502, 502]] * len(everybody))

    def told(self, stranger):
        replies = [self.ask("GET", "/snapshot", **stranger, **how) for how in ({}, PAGE)]
        return [(reply.status, reply.body, reply.fields.get("www-authenticate")) for reply in replies]

    def try_an_older_nginx(self):
        """The gate's journal has a line of each start."""
        for _ in range(3):
            self.ask("GET", "/who", login="sup")
        starts = (self.folder / "gate-errors").read_text().count("X-Proxy")
        with self.without_gate():
            pass
        self.expect("nobody has asked the new gate", (self.folder / "gate-errors").read_text().count("X-Proxy"), starts)
        for _ in range(3):
            self.expect("it goes on", self.ask("GET", "/who", login="sup").status, 200)
        self.expect("it is told once", (self.folder / "gate-errors").read_text().count("X-Proxy"), starts + 1)


class OlderAnswers(Older, Answers):
    STREAM = "/mine?stream"

    def stranger(self, path, how):
        """The gate's verdict too."""
        return self.nobody(path, how, refusal(401, before=ASKS))

    def try_pushed(self):
        """At another address: it has no line for that of now, so that the desk is asked, which knows no such read."""
        self.expect("nothing is pushed", [self.ask("GET", "/stream", login=login).status for login in ("sup", "ana")], [404, 403])
        super().try_pushed()


class OlderExecuted(Older, Executed):
    pass


class OlderLeads(Older, Leads):
    pass
