"""Who reads /requests, by each spelling of the path that nginx knows, and by many that it doesn't: past the gate nobody."""
import json
import random
import re
from base64 import b64encode

from place import PAGE, Place, token_of
from trial import ANY, bytes_back

READERS = {"planner", "copy", "Copy.2"}
FORBIDDEN = 403, b'{"error":{"code":41,"name":"forbidden"}}'
# what nginx takes for /requests, and what it doesn't
SAME = ["/requests", "/requests?", "/requests?after=2", "/requests?x=/&after=2", "/requests?after=x", "/requests?after=1&after=2",
        "/requests?after=9999999999999999", "/requests#x", "/%72equests", "/%72%65%71%75%65%73%74%73?after=2", "//requests", "///requests", "/%2frequests",
        "/./requests", "/%2e/requests", "/x/../requests", "/x/%2e%2e/requests", "/x/.%2E/requests", "/snapshot/../requests", "/csta/../requests",
        "/board/login/../../requests", "/board/x.js/../../requests", "/auth/any/../../requests", "/records/../requests", "/x/y/../../%72equests",
        "http://desk/requests", "HTTPS://127.0.0.1:9/requests?after=2", "http://desk//x/../requests"]
OTHERS = ["/requests/", "/requests/.", "/requests/x/..", "/requests/?after=0", "/Requests", "/REQUESTS", "/requests;x", "/requests%3fafter=0", "/requests%23",
          "/requests%2f", "/requests%20", "/requests%0a", "/requests%00", "/%00/../requests%00", "/%2572equests", "/%252frequests", "/requests\\",
          "/\\requests", "/x\\..\\requests", "/requests.", "/requests/../snapshot/", "/http://desk/requests", "/events/?/requests", "/../requests", "requests",
          "*", "http:/requests", "/%7/requests", "/board/requests", "/auth/requests", "/requests/after=0", "/r%65quests/%2e"]


class Executed(Place):
    ROLES = {"ana": "agent agent=7 reads=all", "sup": "supervisor", "lea": "lead groups=100", "planner": "office", "blind": "office reads=none", "pbx": "exchange",
             "nobody": None, "copy": "follow", "Copy.2": "follow", "odd": "follow reads=all"}

    @classmethod
    def setUpClass(cls):
        super().setUpClass()
        cls.service("try", "arriveCall", caller="0301234567", called="100")

    def said(self, target, login):
        """Status and body, where the target goes to nginx as it stands."""
        word = f"Authorization: Basic {b64encode(f'{login}:secret'.encode()).decode()}\r\n" if login else ""
        head, _, body = bytes_back(self.port, f"GET {target} HTTP/1.1\r\nHost: desk\r\n{word}Connection: close\r\n\r\n".encode("latin-1"), ANY, seconds=120).partition(b"\r\n\r\n")
        return int(head.split()[1]), body

    def try_by_role(self):
        page = self.direct("GET", "/requests?after=2").body
        self.see("the desk tells its requests", [one["stamp"] for one in json.loads(page)["requests"]][:2] == [3, 4] and b"0301234567" in page, page[:300])
        for login in self.ROLES:
            self.expect(f"{login} at /requests", self.ask("GET", "/requests?after=2", login=login)[::2], (200, page) if login in READERS else FORBIDDEN)
            status, fields, body = self.ask("HEAD", "/requests?after=2", login=login)
            wanted = (200, len(page), b"") if login in READERS else (403, len(FORBIDDEN[1]), b"")
            self.expect(f"{login}, HEAD", (status, int(fields["content-length"]), body), wanted)
            for method in ("POST", "PUT", "DELETE", "OPTIONS"):
                self.expect(f"{login}, {method}", self.ask(method, "/requests", "", login=login).status, 403)
        self.see("no copy of a page is kept", self.ask("GET", "/requests", login="copy").fields["cache-control"] == "no-store")
        self.expect("nobody", [self.ask(method, "/requests").status for method in ("GET", "HEAD")], [401, 401])
        self.expect("a wrong password", self.ask("GET", "/requests", Authorization="Basic " + b64encode(b"copy:guess").decode()).status, 401)
        for login in ("copy", "planner", "sup"):
            token = token_of(self.log_in(login)[1])
            self.expect(f"a session of {login}", self.ask("GET", "/requests?after=2", cookie=token, **PAGE).status, 200 if login in READERS else 403)
        for path in ("/snapshot", "/history", "/events", "/agents/7", "/calls/1", "/devices/100", "/queues/100", "/monitors/1/events", "/reports/queues", "/mine",
                     "/mine?agent=7", "/records/", "/records/calls"):
            self.expect(f"a follow at {path}", self.ask("GET", path, login="copy").status, 403)
        asked = [self.request("copy", service, agent="7", device="100")[0] for service in ("tick", "addStation", "setAgentState", "arriveCall", "holdCall")]
        self.expect("a follow's services", asked, [403] * 5)
        for login in ("copy", "Copy.2"):
            self.expect(f"{login} is told who it is", self.ask("GET", "/who", login=login).value, {"login": login, "reads": "none", "role": "follow"})

    def try_spelt(self):
        for target in SAME:
            # the desk is asked by the plain path, and by the query that a client wrote
            query = re.sub(r"#.*", "", target.partition("?")[2])
            self.expect(f"planner at {target}", self.said(target, "planner"), self.direct("GET", f"/requests?{query}")[::2])
            self.expect(f"sup at {target}", self.said(target, "sup"), FORBIDDEN)
            self.expect(f"nobody at {target}", self.said(target, None)[0], 401)
        for target in OTHERS:
            for login in ("planner", "sup"):
                status, told = self.said(target, login)
                self.see(f"{login} at {target}", status in (400, 404) and b'"requests"' not in told, (status, told[:200]))

    def try_drawn(self):
        """Spellings drawn at random: who may not read gets nothing by any of them; who may is told what the desk tells."""
        chance, told = random.Random(6), 0
        for _ in range(self.options.pages // 2):
            target = spelling(chance)
            (may, page), (may_not, nothing) = self.said(target, "copy"), self.said(target, "sup")
            is_one = (may, may_not) in ((200, 403), (403, 404), (403, 400), (400, 400), (302, 302))
            good = is_one and b'"requests"' not in nothing and (may != 200 or page == self.direct("GET", "/requests").body)
            self.see(f"drawn: {target}", good, (may, may_not, page[:100], nothing[:100]))
            told += may == 200
        self.see("many of them were /requests", told > self.options.pages // 20, told)
        print(f"    {told} of {self.options.pages // 2} spellings were /requests")

    def try_journal(self):
        self.see("the gate's journal names the line that can't be read", "odd is refused" in (self.folder / "gate-errors").read_text())


def spelling(chance):
    text = "/requests"
    for _ in range(chance.randrange(1, 5)):
        at = chance.randrange(len(text) + 1)
        more = chance.choice(["/", "/.", "/x/..", "/%2e%2E", "//", "%", "%2f", ".", "#", ";", "\\", "\xe4"])
        if chance.random() < 0.6:
            at, more = chance.choice([0, 0, len(text)]), chance.choice(["/", "/.", "/x/..", "/x/%2e.", "/%2E", "//", "/board/..", "/csta/%2e%2e"])
        letter = chance.randrange(len(text))
        if text[letter].isalpha() and "%" not in text[max(letter - 2, 0):letter] and chance.random() < 0.7:
            text = f"{text[:letter]}%{ord(text[letter]):02{chance.choice('xX')}}{text[letter + 1:]}"
        elif at == 0 or text[at - 2:at - 1] != "%" != text[at - 1:at]:
            text = text[:at] + more + text[at:]
    return chance.choice(["", "", "", "http://desk"]) + text
