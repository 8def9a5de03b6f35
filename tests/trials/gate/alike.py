"""Two nginx before one gate and one desk, by the configuration of now and by that of 1.14: what a client gets of either has the same bytes."""
import re
from base64 import b64encode

from answers import GETS, HOWS
from older import OF_1_14
from place import ELSEWHERE, Place, signed, token_of
from trial import ANY, bytes_back, free_port

# where that of 1.14 has no line, it isn't asked, and what is pushed has no end
PATHS = (*(path for path in GETS if "stream" not in path), "/mine?stream&agent=x", "/csta", "/login", "/board/login/", "/board/board.css", "/", "/auth/any", "/auth/known", "/requests/", "/agents/7")
TICK = b'{"requester":"pbx","invoke":1,"service":"tick"}'
# what is sent behind the head, and the fields that say so
BODIES = {"nothing": ("Content-Length: 0", b""), "a request": (f"Content-Length: {len(TICK)}", TICK), "too much": ("Content-Length: 4097", b" " * 4097), "no length": (None, b""),
          "pieces": ("Transfer-Encoding: chunked", b"2\r\n{}\r\n0\r\n\r\n")}


def basic(login, password="secret"):
    return {"Authorization": f"Basic {b64encode(f'{login}:{password}'.encode()).decode()}"}


class Alike(Place):
    ROLES = {"sup": "supervisor", "ana": "agent agent=7", "lea": "lead groups=100", "blind": "office reads=none", "planner": "office", "copy": "follow", "pbx": "exchange", "lineless": None,
             "odd": "office agent=7", "tried": "supervisor"}

    @classmethod
    def setUpClass(cls):
        super().setUpClass()
        cls.older_port, cls.guesses = free_port(), 0
        cls.run_nginx(OF_1_14, cls.older_port)
        cls.persons = {"nobody": {}, "another way": {"Authorization": "Bearer x"}, "a made-up cookie": {"Cookie": f"__Host-acd={'A' * 43}.{'B' * 22}"},
                       "no session's cookie": {"Cookie": f"a=b; __Host-acd={signed('A' * 43)}"}, "two cookies": {"Cookie": f"__Host-acd={signed('A' * 43)}; __Host-acd={signed('B' * 43)}"},
                       "two fields of cookies": {"Cookie": f"a=b\r\nCookie: __Host-acd={signed('A' * 43)}"}, "two passwords": {"Authorization": "{Authorization}\r\nAuthorization: {Authorization}".format(**basic("ana"))},
                       "a forged login": {"X-Login": "sup", "X-Proxy": cls.proxys[:-1]}, **{login: basic(login) for login in cls.ROLES if login != "tried"}}

    def got(self, port, method, path, fields, body):
        """What comes back, line by line: nginx and the gate put their fields in another order. Neither the date is compared nor numbers that are new each time."""
        said, after = BODIES[body] if method == "POST" else (None, b"")
        head = [f"{method} {path} HTTP/1.1", f"Host: 127.0.0.1:{port}", *(f"{name}: {value}" for name, value in fields.items()), *([said] if said else []), "Connection: close", "", ""]
        came = bytes_back(port, "\r\n".join(head).encode() + after, ANY, seconds=120).replace(str(port).encode(), b"PORT")
        lines, _, content = came.partition(b"\r\n\r\n")
        if path.startswith("/mine") or path == "/session":
            content = re.sub(rb"[0-9]{10,}", b"N", content)
        # nginx answers a stranger's log-off by itself since 1.15, and gives what is empty no type
        told = b"Content-Type: text/plain" if b" 204 " in lines else None
        return sorted(line for line in lines.split(b"\r\n") if line != told and not line.startswith(b"Date: ")), content

    def alike(self, who, method, path, fields, body="nothing"):
        now, before = (self.got(port, method, path, fields, body) for port in (self.port, self.older_port))
        self.see(f"{who}, {method} {path}, {body}, {list(fields)}", now == before and now[0], (now, before))

    def try_reads(self):
        for who, fields in self.persons.items():
            for path in PATHS:
                for how in (*HOWS.values(), ELSEWHERE, {"Accept-Encoding": "gzip"}):
                    self.alike(who, "GET", path, {**how, **fields})
                self.alike(who, "HEAD", path, fields)

    def try_requests(self):
        for who, fields in self.persons.items():
            for path in PATHS:
                for how in ({}, ELSEWHERE):
                    self.alike(who, "POST", path, {**how, **fields})
            for body in BODIES:
                for path in ("/csta", "/session", "/logout", "/login", "/snapshot", "/who"):
                    self.alike(who, "POST", path, fields, body)
            for method in ("PUT", "DELETE", "OPTIONS", "get"):
                for path in ("/csta", "/who", "/session", "/mine", "/requests", "/records/", "/login", "/snapshot", "/board/"):
                    self.alike(who, method, path, fields)

    def try_sessions(self):
        for login in ("sup", "ana", "planner"):
            cookie = {"Cookie": f"__Host-acd={token_of(self.log_in(login)[1])}"}
            for path in PATHS:
                for how in HOWS.values():
                    self.alike(f"a session of {login}", "GET", path, {**how, **cookie})
            in_two = {"Cookie": "a=b\r\nCookie: {Cookie}".format(**cookie)}
            self.alike(f"a session of {login}", "GET", "/session", in_two)
            self.see("in two fields too", b" 200 " in self.got(self.port, "GET", "/session", in_two, None)[0][-1] or self.got(self.port, "GET", "/session", in_two, None), login)
            for path in ("/csta", "/session"):
                for body in BODIES:
                    self.alike(f"a session of {login}", "POST", path, cookie, body)

    def try_wrong_passwords(self):
        """Of names that nobody has, each tried by both; and of one that is tried too often."""
        for number, path in enumerate(PATHS):
            for name, how in HOWS.items():
                self.alike("a guess", "GET", path, {**how, **basic(f"x{number}{name[2]}", "guess")})
            self.alike("a guess", "POST", path, basic(f"y{number}", "guess"), "a request")
        for _ in range(10):
            self.ask("GET", "/who", **basic("tried", "guess"))
        for path in PATHS:
            for how in HOWS.values():
                self.alike("one too often", "GET", path, {**how, **basic("tried")})
            self.alike("one too often", "POST", path, basic("tried"), "a request")
