"""Log-in by form and cookie: what makes a session, what ends it, and what is none."""
import hashlib
import json
import time
from base64 import b64encode

from place import CLICK, ELSEWHERE, PAGE, Place, signed, token_of
from trial import Connection

BAD_GATEWAY = b'{"error":{"code":44,"name":"badGateway"}}'
UNAUTHORIZED = b'{"error":{"code":42,"name":"unauthorized"}}'


class Sessions(Place):
    ROLES = {"sup": "supervisor", "ana": "agent agent=7", "eve": "office agent=7", "pbx": "exchange"}

    def try_log_in_and_out(self):
        before = time.time()
        status, fields, told = self.log_in("ana", **PAGE)
        self.expect("log-in", (status, {name: value for name, value in json.loads(told).items() if name not in ("begun", "ends")}),
                    (200, {"agent": "7", "login": "ana", "reads": "own", "role": "agent"}))
        session = json.loads(told)
        self.see("it ends in 12 hours, unless somebody clicks", session["ends"] - session["begun"] == 12 * 3600 and before - 1 <= session["begun"] <= time.time(), session)
        cookie = fields["set-cookie"].split("; ")
        self.expect("the cookie", sorted(cookie[1:]), ["HttpOnly", "Max-Age=86400", "Path=/", "SameSite=Strict", "Secure"])
        token = token_of(fields)
        self.see("it is long, and not the login", len(token) >= 43 and "ana" not in fields["set-cookie"].replace(token, ""), fields["set-cookie"])
        self.see("nor in the file", token not in (self.folder / "sessions").read_text() and "ana" in (self.folder / "sessions").read_text())
        self.expect("the file is the gate's alone", (self.folder / "sessions").stat().st_mode & 0o777, 0o600)
        self.expect("who it is", self.ask("GET", "/who", cookie=token, **PAGE).value["login"], "ana")
        self.expect("its session", self.ask("GET", "/session", cookie=token, **PAGE).value, session)
        self.expect("it is used", self.ask("POST", "/session", cookie=token, **PAGE).status, 200)
        body = json.dumps({"requester": "ana", "invoke": 1, "service": "setAgentState", "agent": "7", "requested": "ready"})
        self.expect("it asks for a service", self.ask("POST", "/csta", body, cookie=token, **PAGE).status, 409)
        self.expect("the cookie alone counts", self.ask("GET", "/who", cookie=token, login="sup").value["login"], "ana")
        other = token_of(self.log_in("ana")[1])
        status, fields, _ = self.ask("POST", "/logout", cookie=token, **PAGE)
        self.expect("log-off", (status, "Max-Age=0" in fields["set-cookie"], token_of(fields)), (204, True, ""))
        self.expect("behind the log-off", self.ask("GET", "/who", cookie=token, **PAGE).status, 401)
        self.expect("a request too", self.ask("POST", "/csta", body, cookie=token, **PAGE).status, 401)
        self.expect("another session of the login goes on", self.ask("GET", "/who", cookie=other).status, 200)
        self.expect("log-off of nobody", self.ask("POST", "/logout", **PAGE).status, 204)

    def try_fixation(self):
        """Nobody's cookie becomes a session by a log-in with it, and a log-in ends the session that came with it."""
        chosen = signed("A" * 43)
        first = token_of(self.log_in("ana", cookie=chosen)[1])
        self.see("a chosen cookie isn't taken", first != chosen and self.ask("GET", "/who", cookie=chosen).status == 401)
        second = token_of(self.log_in("sup", cookie=first)[1])
        self.expect("the one before has ended", (self.ask("GET", "/who", cookie=first).status, self.ask("GET", "/who", cookie=second).value["login"]), (401, "sup"))
        for odd in ("", "x", second + "x", second[:-1], second.swapcase(), f"__Host-acd={second}; __Host-acd={chosen}", f"__Host-acd={chosen}; __Host-acd={second}", "__Host-acd=", '__Host-acd="' + second + '"'):
            self.expect(f"no session: {odd[:30]}", self.ask("GET", "/who", cookie=odd, login="sup").status, 401)
        for other in (f"acd={second}", f"__host-acd={second}", f"x__Host-acd={second}"):
            self.expect(f"another cookie is nobody: {other[:12]}", self.ask("GET", "/who", cookie=other).status, 401)

    def try_strangers(self):
        """nginx itself refuses who can't be anybody, as the gate does: also while there is none, which all others notice."""
        token = token_of(self.log_in("sup")[1])
        with self.without_gate():
            for stranger in strangers(token):
                told = [self.ask("GET", path, **stranger, **how) for path in ("/snapshot", "/who") for how in ({}, PAGE)]
                self.expect(f"a stranger: {stranger}", [(reply.status, reply.body, reply.fields.get("www-authenticate")) for reply in told],
                            [(401, UNAUTHORIZED, 'Basic realm="desk", charset="UTF-8"'), (401, UNAUTHORIZED, None)] * 2)
                to_page = self.ask("GET", "/board/?since=0", **stranger, **CLICK)
                self.expect("a browser's page of one", (to_page.status, to_page.fields["location"].partition("/board/")[2], to_page.fields.get("www-authenticate")), (302, "login/?next=/board/?since=0", None))
                self.expect("a click elsewhere", self.ask("GET", "/snapshot", **stranger, **CLICK).status, 401)
                self.see("a screen", self.ask("GET", "/basic?/board/", **stranger, **CLICK).fields.get("www-authenticate", "").startswith("Basic "))
                gone = self.ask("POST", "/logout", **stranger)
                self.expect("log-off", (gone.status, gone.fields.get("set-cookie")), (204, "__Host-acd=; Path=/; Max-Age=0; HttpOnly; Secure; SameSite=Strict"))
            for other in ({"cookie": token}, {"cookie": f"a=b; __Host-acd={token}; c=d"}, {"cookie": signed("A" * 43)}, {"login": "sup"}, {"login": "nobody"}):
                self.expect(f"the gate judges {other}", [self.ask("GET", path, **other)[::2] for path in ("/snapshot", "/who", "/mine", "/requests")], [(502, BAD_GATEWAY)] * 4)
        self.expect("the gate's own", [self.ask("GET", "/snapshot", **other).status for other in ({"cookie": token}, {"login": "sup"}, {"cookie": signed("A" * 43)}, {"login": "nobody"})], [200, 200, 401, 401])
        self.expect("a file that everybody may load has no question", self.ask("GET", "/board/login/").fields.get("www-authenticate"), None)

    def try_an_older_nginx(self):
        """One that checks no signature goes on, and is told in the gate's journal, once."""
        self.expect("this one isn't told", "X-Proxy" in (self.folder / "gate-errors").read_text(), False)
        with Connection(self.gate_port) as connection:
            told = [connection.ask("GET", "/auth/any", fields=[("X-Address", "192.0.2.1"), ("Authorization", f"Basic {b64encode(b'sup:secret').decode()}")]).status for _ in range(3)]
        self.expect("another's question", (told, (self.folder / "gate-errors").read_text().count("X-Proxy")), ([204] * 3, 1))

    def try_other_sites(self):
        token = token_of(self.log_in("pbx")[1])
        body = json.dumps({"requester": "pbx", "invoke": 1, "service": "tick"})
        for path, sent in (("/csta", body), ("/logout", None), ("/session", None)):
            for fields in (ELSEWHERE, {"Sec_Fetch_Site": "same-site"}, {"Origin": "null"}, {"Origin": f"https://127.0.0.1:{self.port + 1}"}):
                self.expect(f"another site's {path} {fields}", self.ask("POST", path, sent, cookie=token, **{name.replace("-", "_"): value for name, value in fields.items()}).status, 403)
        self.expect("the session stands", self.ask("POST", "/csta", body, cookie=token, Origin=f"https://127.0.0.1:{self.port}", **PAGE).status, 200)
        status, fields, _ = self.log_in("sup", **ELSEWHERE)
        self.expect("another site's log-in", (status, fields.get("set-cookie")), (403, None))

    def try_old_ones(self):
        """12 hours without a click, 24 in all, another password, nobody's any more."""
        self.stop_gate()
        file, now, lines = self.folder / "sessions", int(time.time()), []
        line = (self.folder / "users").read_text().splitlines()[0].partition(":")[2]
        bound, hour = hashlib.sha256(f"sup:{line}".encode()).hexdigest(), 3600
        cases = {"fresh": (0, 0, 200), "eleven hours unused": (11 * hour, 11 * hour, 200), "twelve hours unused": (12 * hour + 5, 12 * hour + 5, 401), "23 hours, used": (23 * hour, 60, 200),
                 "24 hours, used": (24 * hour + 5, 0, 401), "begun tomorrow": (-24 * hour, -24 * hour, 401)}
        tokens = {what: signed(chr(ord("a") + number) * 43) for number, what in enumerate(cases)}
        for what, (begun, used, _) in cases.items():
            lines.append(json.dumps({"digest": hashlib.sha256(tokens[what].encode()).hexdigest(), "login": "sup", "bound": bound, "begun": now - begun, "used": now - used}))
        file.write_text("\n".join([*lines, "no session", '{"digest":7}', ""]))
        self.start_gate()
        for what, (_, _, wanted) in cases.items():
            self.expect(f"a session: {what}", self.ask("GET", "/who", cookie=tokens[what]).status, wanted)
        ends = [self.ask("POST", "/session", cookie=tokens["23 hours, used"]).value["ends"] - now, self.ask("GET", "/session", cookie=tokens["eleven hours unused"]).value["ends"] - now]
        self.see("24 hours in all, 12 without use", abs(ends[0] - hour) < 5 and abs(ends[1] - hour) < 5, ends)
        for _ in range(3):
            self.ask("GET", "/snapshot", cookie=tokens["eleven hours unused"])
        self.expect("reading isn't use", self.ask("GET", "/session", cookie=tokens["eleven hours unused"]).value["ends"] - now, ends[1])
        used = self.ask("POST", "/session", cookie=tokens["eleven hours unused"]).value["ends"] - now
        self.see("a click is", 12 * hour - 1 <= used <= 12 * hour + time.time() - now, used)
        users = (self.folder / "users").read_text()
        (self.folder / "users").write_text(users.replace(f"sup:{line}", "sup:{SHA}QL0AFWMIX8NRZTKeof9cXsvbvu8="))
        self.expect("another password ends sessions", self.ask("GET", "/who", cookie=tokens["fresh"]).status, 401)
        (self.folder / "users").write_text(users.replace(f"sup:{line}\n", ""))
        self.expect("so does none", self.ask("GET", "/who", cookie=tokens["fresh"]).status, 401)
        (self.folder / "users").write_text(users)

    def try_browser(self):
        """Where a browser is sent, and who is asked for a password."""
        site = f"https://127.0.0.1:{self.port}"
        status, fields, _ = self.ask("GET", "/board/?since=0&limit=30", **CLICK)
        self.expect("a page without a session", (status, fields["location"], fields.get("www-authenticate")), (302, f"{site}/board/login/?next=/board/?since=0&limit=30", None))
        status, fields, _ = self.ask("GET", "/snapshot", **PAGE)
        self.expect("a script without a session", (status, fields.get("www-authenticate")), (401, None))
        status, fields, _ = self.ask("GET", "/snapshot")
        self.see("a program is asked", status == 401 and fields["www-authenticate"].startswith("Basic "), fields.get("www-authenticate"))
        status, fields, _ = self.ask("GET", "/basic?/board/?since=0", **CLICK)
        self.see("a screen is asked", status == 401 and fields["www-authenticate"].startswith("Basic "), (status, fields.get("www-authenticate")))
        status, fields, _ = self.ask("GET", "/basic?/board/?since=0", login="sup", **CLICK)
        self.expect("and goes on", (status, fields["location"].removeprefix(site)), (302, "/board/?since=0"))
        for odd in ("//elsewhere.example/board/", "https://elsewhere.example/", "/board\\@elsewhere", "/csta", ""):
            self.expect(f"not to {odd}", self.ask("GET", f"/basic?{odd}", login="sup", **CLICK).status, 404)
        for path in ("/board/login/", "/board/login/login.js", "/board/board.css", "/board/words.js"):
            self.expect(f"open to everybody: {path}", self.ask("GET", path, **CLICK).status, 200)
        for path in ("/board/", "/board/index.html", "/board/agent/"):
            self.expect(f"not open: {path}", self.ask("GET", path, **PAGE).status, 401)
        self.expect("no board.json says nothing", self.ask("GET", "/board/board.json", login="sup")[::2], (200, b"{}"))
        (self.folder / "board.json").write_text('{"zone":"Europe/Berlin"}')
        self.expect("what the office says", self.ask("GET", "/board/board.json", login="sup")[::2], (200, b'{"zone":"Europe/Berlin"}'))
        self.expect("but to nobody", self.ask("GET", "/board/board.json", **PAGE).status, 401)
        for path in ("/mine", "/who", "/session", "/requests", "/events", "/auth/any", "/auth/reads"):
            self.expect(f"nobody at {path}", self.ask("GET", path).status, 404 if path.startswith("/auth") else 401)
        status, fields, _ = self.log_in("sup", next_page="/board/?since=0", **CLICK | {"Sec-Fetch-Site": "same-origin"})
        self.expect("a form that the browser sends", (status, fields["location"].removeprefix(site), len(token_of(fields))), (303, "/board/?since=0", 66))
        for odd in ("//elsewhere.example/", "https://elsewhere.example/board/", "/board\\..", "/logout", "/board/\r\nX: y"):
            self.expect(f"nobody is sent to {odd!r}", self.log_in("sup", next_page=odd, **CLICK)[1]["location"].removeprefix(site), "/board/")
        self.expect("a wrong one", self.log_in("sup", "guess", **CLICK)[1]["location"].removeprefix(site), "/board/login/?wrong")
        for body in ("", "login=sup", "login=sup&login=ana&password=secret", "{}", "login=sup&password=%ff", "x" * 4097):
            self.expect(f"no form: {body[:30]}", self.ask("POST", "/login", body).status, 413 if len(body) > 4096 else 400)

    def try_restarted(self):
        token, ended = (token_of(self.log_in("sup")[1]) for _ in range(2))
        self.ask("POST", "/logout", cookie=ended)
        with self.without_gate():
            self.expect("without a gate", self.ask("GET", "/who", cookie=token).status, 502)
        self.expect("a session outlives the gate", self.ask("GET", "/who", cookie=token).status, 200)
        self.expect("one that was ended doesn't come back", self.ask("GET", "/who", cookie=ended).status, 401)

    def try_wrong_ones(self):
        self.expect("who gets nothing", self.log_in("eve").status, 403)
        self.expect("nobody", self.log_in("nobody").status, 401)
        self.expect("wrong ones", [self.log_in("ana", "guess").status for _ in range(11)], [401] * 10 + [429])
        self.expect("the right one too", self.log_in("ana").status, 429)
        self.expect("and by Basic", self.ask("GET", "/who", login="ana").status, 429)
        self.expect("others go on", self.log_in("sup").status, 200)
        token = token_of(self.log_in("pbx")[1])
        self.expect("a session has no password to be wrong", self.ask("GET", "/who", cookie=token).status, 200)


def strangers(token):
    """What is sent by those who can't be anybody; the token is that of a session."""
    wrong = f"{token[:-1]}{'A' if token[-1] != 'A' else 'Q'}"
    return [{}, *({"cookie": odd} for odd in ("A" * 43, wrong, token.partition(".")[0], signed("A" * 43).swapcase(), f"{token}x", "__Host-acd=", "__Host-acd", "a=b", f"b=c; __Host-acd={wrong}; d=e")),
            *({"Authorization": odd} for odd in ("Basic", "Bearer c3VwOnNlY3JldA==", "x")), {"cookie": wrong, "login": "sup"}]
