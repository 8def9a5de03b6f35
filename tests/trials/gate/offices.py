"""What an office's administrator does, behind nginx: who may, a login that is forged, spellings of the routes; behind the nginx.conf of 1.14 none of it; and what a broken gate may write."""
import json
import os
import re
import stat
import subprocess
import unittest
from base64 import b64encode

from older import OF_1_14
from place import ELSEWHERE, PAGE, Place, token_of
from trial import ANY, TOP, bytes_back, running, until

PASSWORD = "kofa-tuli-73"
ANNA = {"login": "anna", "role": "agent", "agent": "9", "groups": ["100"], "password": PASSWORD}
ACTS = ("/office/plan", "/office/login", "/office/password", "/office/end")
# what nginx takes for the route, and what it doesn't
SPELLED = ["/office/login", "//office/login", "/%6fffice/login", "/x/../office/login", "/./office/login", "/board/../office/login", "/board/login/../../office/login", "/auth/any/../../office/login", "/csta/../office/login"]
SUPERVISOR = b64encode(b"sup:secret").decode()
# the gate's user, and its group, which reads root's files
USER, GROUP = 61001, 61011


class Office(Place):
    ROLES = {"chef": "admin", "ana": "agent agent=7", "sup": "supervisor", "lea": "lead groups=100", "planner": "office", "pbx": "exchange", "copy": "follow", "nobody": None}

    def by(self, login, path, body, **more):
        return self.ask("POST", path, json.dumps(body), login, **more)


class Offices(Office):
    def try_a_day(self):
        """A name in any script, a login, its first password, its own one, its end."""
        reply = self.by("chef", "/office/plan", {"requester": "chef-1", "invoke": 1, "service": "changeAgent", "agent": "9", "name": "Jürgen Müller"})
        self.expect("the desk's own reply", (reply.status, reply.value), (200, {"invoke": 1, "requester": "chef-1", "result": {}}))
        self.expect("its own name", [one["name"] for one in self.direct("GET", "/snapshot").value["agents"] if one["agent"] == "9"], ["Juergen Mueller"])
        self.expect("the login", self.by("chef", "/office/login", ANNA).status, 200)
        told = self.ask("POST", "/login", f"login=anna&password={PASSWORD}", Content_Type="application/x-www-form-urlencoded", Accept="application/json", **PAGE)
        token = token_of(told.fields)
        self.expect("who it is", told.value["first"] and told.value["own"], True)
        page = self.ask("GET", "/mine?hold=0", cookie=token, **PAGE).value
        self.expect("the page has the name", page["agent"]["name"], "Jürgen Müller")
        change = json.dumps({"old": PASSWORD, "new": "another-one-1"})
        self.expect("not by another site", self.ask("POST", "/password", change, cookie=token, **ELSEWHERE).status, 403)
        self.expect("the own password", self.ask("POST", "/password", change, cookie=token, **PAGE).status, 200)
        self.expect("the session goes on", self.ask("GET", "/who", cookie=token).status, 200)
        self.expect("its end", self.by("chef", "/office/end", {"login": "anna"}).status, 200)
        self.expect("and the session's", self.ask("GET", "/who", cookie=token).status, 401)
        files = {name: (self.folder / "own" / name).read_text() for name in ("users", "roles", "names.json", "acts")}
        self.expect("what is left", (files["users"], files["roles"]), ("", ""))
        self.expect("no password", [name for name, text in files.items() if PASSWORD in text or "another-one-1" in text], [])
        self.expect("the acts", re.findall('"act": "([a-zA-Z]+)"', files["acts"]), ["giveName", "giveLogin", "changePassword", "endLogin"])
        self.expect("modes", {stat.S_IMODE((self.folder / "own" / name).stat().st_mode) for name in files}, {0o600})
        self.see("nothing secret in the journal", not re.search(f"{PASSWORD}|another-one-1", (self.folder / "gate-errors").read_text()))

    def try_by_role(self):
        for login in self.ROLES:
            wanted = 200 if login == "chef" else 403
            self.expect(f"{login} at /office", self.ask("GET", "/office", login=login).status, wanted)
            for path in ACTS:
                body = {**ANNA, "login": "nobodys", "requester": login, "invoke": 1, "service": "addStation", "device": "999"}
                if login != "chef":
                    self.expect(f"{login} at {path}", self.by(login, path, body).status, 403)
            self.expect(f"{login} at /acts", self.ask("GET", "/acts", login=login).status, 200 if login in ("chef", "planner", "copy") else 403)
        self.expect("nobody", [self.ask(method, path, "{}" if method == "POST" else None).status for method, path in (("GET", "/office"), ("GET", "/acts"), *(("POST", path) for path in (*ACTS, "/password")))], [401] * 7)
        self.expect("the plan is as before", len(self.direct("GET", "/snapshot").value["stations"]), 4)
        self.expect("a program of the role admin plans, and does nothing else", [self.request("chef", "addStation", device="500")[0], self.request("chef", "tick")[0], self.request("chef", "setGroupPriority", device="100", priority=2)[0]], [200, 403, 200])
        self.expect("it doesn't read requests", self.ask("GET", "/requests", login="chef").status, 403)

    def try_a_forged_login(self):
        """What a client says of itself in the proxy's fields never reaches the gate."""
        for fields in ({"X-Login": "chef"}, {"X-Login": "chef", "X-Proxy": self.secret}, {"X-Login": "chef", "X-Proxy": self.proxys}, {"x_login": "chef"}):
            named = "".join(f"{name}: {value}\r\n" for name, value in fields.items())
            for login, wanted in ((None, b"401"), ("sup", b"403")):
                word = f"Authorization: Basic {SUPERVISOR}\r\n" if login else ""
                for path in (*ACTS, "/password"):
                    body = json.dumps(ANNA if path != "/password" else {"old": "secret", "new": "something-else"})
                    came = bytes_back(self.port, f"POST {path} HTTP/1.1\r\nHost: desk\r\n{word}{named}Content-Length: {len(body)}\r\nConnection: close\r\n\r\n{body}".encode(), ANY, seconds=120)
                    # a supervisor's own password is root's
                    self.expect(f"{path} of {login} by {sorted(fields)}", came.split()[1], b"409" if login and path == "/password" else wanted)
        self.expect("no login was made", "anna" in (self.folder / "own/users").read_text() if (self.folder / "own/users").exists() else False, False)

    def try_spellings(self):
        for target in SPELLED:
            word = f"Authorization: Basic {SUPERVISOR}\r\n"
            body = json.dumps({**ANNA, "login": "spelled"})
            came = bytes_back(self.port, f"POST {target} HTTP/1.1\r\nHost: desk\r\n{word}Content-Length: {len(body)}\r\nConnection: close\r\n\r\n{body}".encode(), ANY, seconds=120)
            self.see(f"{target} by a supervisor", came.split()[1] in (b"403", b"404", b"400"), came[:200])

    def try_guesses(self):
        """Ten wrong passwords of a minute, by the log-in and by the change of a password together."""
        self.by("chef", "/office/login", {**ANNA, "login": "guessed"})
        told = self.ask("POST", "/login", f"login=guessed&password={PASSWORD}", Content_Type="application/x-www-form-urlencoded", Accept="application/json")
        token, statuses = token_of(told.fields), []
        for number in range(12):
            body = json.dumps({"old": f"guess {number}", "new": "something-else"})
            reply = self.ask("POST", "/password", body, cookie=token) if number % 2 else self.log_in("guessed", f"guess-{number}")
            statuses.append(reply.status)
        self.expect("ten are judged", statuses, [401, 403] * 5 + [429, 429])


class OlderOffices(Office):
    """Behind the nginx.conf of 1.14 all goes on as it did, and the new routes are none."""
    NGINX = OF_1_14

    def try_routes(self):
        self.expect("reads go to the desk, which knows none", [self.ask("GET", path, login="chef").status for path in ("/office", "/acts")], [404, 404])
        self.expect("and acts nowhere", [self.by("chef", path, ANNA).status for path in (*ACTS, "/password")], [403] * 5)
        self.expect("plans are taken by /csta", [self.request("chef", "addStation", device="501")[0], self.request("chef", "tick")[0]], [200, 403])
        self.expect("the page itself is there", self.ask("GET", "/board/office/", login="chef").status, 200)
        self.expect("all others go on", [self.ask("GET", "/who", login=login).status for login in ("chef", "sup", "ana", "pbx")], [200] * 4)
        self.expect("nothing was written", os.listdir(self.folder / "own"), [])


@unittest.skipUnless(os.geteuid() == 0, "only root starts a gate as another user")
class BrokenGate(Office):
    """The gate as a user of its own, and then whatever this user might write into its folder."""

    @classmethod
    def start_gate(cls):
        cls.folder.chmod(0o755)
        own = cls.folder / "own"
        os.chown(own, USER, GROUP)
        own.chmod(0o700)
        for name in ("roles", "users", "nginx-secret.conf"):
            os.chown(cls.folder / name, 0, GROUP)
            (cls.folder / name).chmod(0o640)
        words = ["setpriv", f"--reuid={USER}", f"--regid={GROUP}", "--clear-groups", "/usr/bin/python3", "-B", TOP / "service/bin/acd-gate", "--port", cls.gate_port, "--desk", cls.desk_port,
                 "--roles", cls.folder / "roles", "--users", cls.folder / "users", "--own", own, "--sessions", own / "sessions", "--secret", cls.folder / "nginx-secret.conf"]
        with (cls.folder / "gate-errors").open("a") as errors:
            cls.gate = cls.enterClassContext(running(*words, port=cls.gate_port, stderr=errors))

    def as_gate(self, script):
        return subprocess.run(["setpriv", f"--reuid={USER}", f"--regid={GROUP}", "--clear-groups", "sh", "-c", script], cwd=self.folder, capture_output=True, text=True)

    def try_the_page(self):
        """As its user it does what it is for."""
        self.expect("a login", self.by("chef", "/office/login", {**ANNA, "login": "given"}).status, 200)
        self.expect("is one", self.ask("GET", "/who", Authorization="Basic " + b64encode(f"given:{PASSWORD}".encode()).decode()).status, 200)
        self.expect("whose files", {(one.stat().st_uid, stat.S_IMODE(one.stat().st_mode)) for one in (self.folder / "own").iterdir()}, {(USER, 0o600)})

    def try_roots_files(self):
        before = {name: (self.folder / name).read_bytes() for name in ("roles", "users", "nginx-secret.conf")}
        for name in before:
            for script in (f"echo 'eve exchange' >> {name}", f"echo x > {name}", f"mv {name} {name}.away", f"rm -f {name}", f"ln -sf own/x {name}", f"chmod 666 {name}"):
                done = self.as_gate(script)
                self.see(f"refused: {script}", done.returncode != 0, done.stderr)
        self.expect("root's files are as before", {name: (self.folder / name).read_bytes() for name in before}, before)

    def try_no_role_but_three(self):
        """No login, old or new, has another right by whatever stands in the gate's own files, at once and after a start."""
        secret = "{SHA}5en6G6MezRroT3XKqkdPOmY/BfQ="
        wrong = {"eve": "admin", "exe": "exchange", "off": "office", "fol": "follow", "rul": "rules", "sup": "exchange", "ana": "lead groups=100,110,120", "nobody": "supervisor", "pbx-1": "supervisor", "clock": "agent agent=7"}
        good = {"anna": "agent agent=9", "lena": "lead groups=110", "sven": "supervisor"}
        for name, text in (("roles", "".join(f"{login} {role}\n" for login, role in (wrong | good).items())), ("users", "".join(f"{login}:{secret}\n" for login in wrong | good))):
            done = self.as_gate(f"cat > own/{name}.new <<'END'\n{text}END\nmv own/{name}.new own/{name}")
            self.expect(f"{name} is written", (done.returncode, done.stderr), (0, ""))
        for when in ("at once", "after a start"):
            if when == "after a start":
                with self.without_gate():
                    pass
            roles = {login: self.ask("GET", "/who", login=login) for login in wrong | good}
            self.expect(f"{when}: the good ones", [roles[login].value.get("role") for login in good], ["agent", "lead", "supervisor"])
            self.expect(f"{when}: root's own", [(roles[login].status, roles[login].value.get("role")) for login in ("sup", "ana", "nobody")], [(200, "supervisor"), (200, "agent"), (403, None)])
            self.expect(f"{when}: the others", {login: roles[login].status for login in ("eve", "exe", "off", "fol", "rul", "pbx-1", "clock")}, {**dict.fromkeys(("eve", "exe", "off", "fol", "rul"), 403), "pbx-1": 401, "clock": 401})
            self.expect(f"{when}: no service", [self.request(login, "tick")[0] for login in ("eve", "exe", "sup")], [403] * 3)
            self.expect(f"{when}: no page of the office", self.ask("GET", "/office", login="eve").status, 403)
        told = (self.folder / "gate-errors").read_text()
        for login in wrong:
            self.see(f"the journal names {login}, with its line", re.search(rf"own/roles, line \d+: {login} is refused: ", told) is not None, told[-2000:])
        self.see("root's are root's in the users too", until(lambda: re.search(r"own/users, line \d+: sup is refused: sup is a login of ", told), 5))
