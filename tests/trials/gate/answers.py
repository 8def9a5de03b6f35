"""Each refusal at each route, as a client gets it: all bytes of 401, 403, 429 and 302, for programs, for a page's own script and for a browser that opens an
address; who is asked for a password, who is sent to the page of log-in, who waits; and how a page is pushed what it shows."""
import re
import time
import zlib
from base64 import b64encode

from place import CLICK, ELSEWHERE, PAGE, PATIENCE, Place, signed, token_of
from trial import ANY, Connection, bytes_back

# a route of each kind: of the gate, of the desk by way of nginx, and files
GETS = ("/who", "/session", "/mine", "/stream", "/mine?stream", "/requests", "/records/", "/records/sums?kind=groups", "/records/calls/2026-11-27.csv", "/basic?/board/?since=0", "/snapshot", "/events?after=0", "/calls/1", "/none", "/board/",
        "/board/?since=0&limit=30", "/board/agent/", "/board/board.json")
POSTS = ("/csta", "/session")
HOWS = {"a program": {}, "a script": PAGE, "a click": CLICK}
ERRORS = {401: ("Unauthorized", '{"error":{"code":42,"name":"unauthorized"}}'), 403: ("Forbidden", '{"error":{"code":41,"name":"forbidden"}}'),
          429: ("Too Many Requests", '{"error":{"code":43,"name":"tooManyRequests"}}')}
# what nginx says with each answer, in its order
SECURITY = """Strict-Transport-Security: max-age=31536000
Cache-Control: {kept}
Content-Security-Policy: default-src 'self'; img-src 'self' data:; object-src 'none'; base-uri 'none'; form-action 'self'; frame-ancestors 'none'
X-Content-Type-Options: nosniff
Referrer-Policy: no-referrer
"""
ASKS = 'WWW-Authenticate: Basic realm="desk", charset="UTF-8"\n'


def refusal(status, more="", before=""):
    """All bytes of an answer in the desk's form, but for its date."""
    reason, body = ERRORS[status]
    head = (f"HTTP/1.1 {status} {reason}\nServer: nginx\nContent-Type: application/json\nContent-Length: {len(body)}\nConnection: close\n{before}"
            f"{SECURITY.format(kept='no-store')}{more}\n")
    return head.replace("\n", "\r\n") + body


class Answers(Place):
    # where pages are pushed what changes
    STREAM = "/stream"
    # `ana` reads own, `blind` nothing, `follow` /requests alone; `lineless` and `odd` have no line that can be read
    ROLES = {"sup": "supervisor", "ana": "agent agent=7", "blind": "office reads=none", "copy": "follow", "pbx": "exchange", "lineless": None, "odd": "office agent=7", "tried": "supervisor"}

    def said(self, method, path, fields):
        """All bytes that come back, but the date's line."""
        named = "".join(f"{name}: {value}\r\n" for name, value in fields.items())
        length = "Content-Length: 0\r\n" if method == "POST" else ""
        sent = f"{method} {path} HTTP/1.1\r\nHost: 127.0.0.1:{self.port}\r\n{named}{length}Connection: close\r\n\r\n"
        got, dates = re.subn(r"\r\nDate: [^\r]*", "", bytes_back(self.port, sent.encode("latin-1"), ANY).decode("latin-1"), count=1)
        self.expect(f"a date: {path}", dates, 1)
        return got

    def everywhere(self, who, fields, wanted):
        """`wanted` says what is answered for a path and how it is asked."""
        for method, paths in (("GET", GETS), ("POST", POSTS)):
            for path in paths:
                for how, named in HOWS.items():
                    self.expect(f"{who}, {how}, {method} {path}", self.said(method, path, {**named, **fields}), wanted(path, how))

    def stranger(self, path, how):
        """What nginx answers by itself: it asks for a password, and a page below /board/ leads to the log-in."""
        return self.nobody(path, how, refusal(401, ASKS))

    def judged(self, path, how):
        """What it answers by the gate's verdict: the same, with the gate's field in another place."""
        return self.nobody(path, how, refusal(401, before=ASKS))

    def nobody(self, path, how, asked):
        if how == "a program" or path.startswith("/basic?"):
            return asked
        if how == "a click" and path.startswith("/board/"):
            return self.to_log_in(path)
        return refusal(401)

    def to_log_in(self, path):
        page = "<html>\n<head><title>302 Found</title></head>\n<body>\n<center><h1>302 Found</h1></center>\n<hr><center>nginx</center>\n</body>\n</html>\n".replace("\n", "\r\n")
        head = (f"HTTP/1.1 302 Moved Temporarily\nServer: nginx\nContent-Type: text/html\nContent-Length: {len(page)}\n"
                f"Location: https://127.0.0.1:{self.port}/board/login/?next={path}\nConnection: close\n{SECURITY.format(kept='no-store')}\n")
        return head.replace("\n", "\r\n") + page

    def try_nobody(self):
        """nginx answers for a stranger, the gate for a cookie that it signed and for a wrong password."""
        for who, fields in (("nobody", {}), ("a made-up cookie", {"Cookie": f"__Host-acd={'A' * 43}.{'B' * 22}"}), ("another way", {"Authorization": "Bearer x"})):
            self.everywhere(who, fields, self.stranger)
        self.everywhere("no session's cookie", {"Cookie": f"__Host-acd={signed('A' * 43)}"}, self.judged)
        for path in (*GETS, *POSTS):
            for number, (how, named) in enumerate(HOWS.items()):
                # of names that nobody has, so that none is tried ten times
                fields = {**named, "Authorization": f"Basic {b64encode(f'x{path}{number}:guess'.encode()).decode()}"}
                self.expect(f"a wrong password, {how}, {path}", self.said("POST" if path == "/csta" else "GET", path, fields), self.judged(path, how))

    def try_forged(self):
        """What only nginx may say: a client that says it gets what it gets without."""
        forged = {"X-Login": "sup", "X-Proxy": "yes", "X-Signed": "yes", "X-Address": "127.0.0.1", "X-Path": "/board/", "X-Why": "429"}
        self.everywhere("a forged login", forged, self.stranger)
        self.everywhere("one with a made-up cookie", {**forged, "Cookie": f"__Host-acd={'A' * 43}.{'B' * 22}"}, self.stranger)
        self.everywhere("one with no session's", {**forged, "Cookie": f"__Host-acd={signed('A' * 43)}"}, self.judged)
        told = [self.ask(method, path, body, "ana", X_Login="pbx").status
                for method, path, body in (("GET", "/requests", None), ("GET", "/snapshot", None), ("POST", "/csta", '{"requester":"pbx","invoke":1,"service":"tick"}'))]
        self.expect("who has a password has no other's rights", (told, self.ask("GET", "/who", login="ana", X_Login="pbx").value["login"]), ([403] * 3, "ana"))

    def try_too_many(self):
        fields = {"Authorization": f"Basic {b64encode(b'tried:guess').decode()}"}
        for _ in range(10):
            self.expect("a wrong one", self.said("GET", "/who", fields)[9:12], "401")
        self.everywhere("the eleventh", fields, lambda *_: refusal(429))
        self.everywhere("the right one too", {"Authorization": f"Basic {b64encode(b'tried:secret').decode()}"}, lambda *_: refusal(429))

    def try_no_right(self):
        """Who has a password, and no line that gives a right; and who may not what is asked for."""
        for login in ("lineless", "odd"):
            self.everywhere(login, self.password(login), lambda *_: refusal(403))
        for login, paths in (("ana", ("/requests", "/records/", "/records/sums", "/snapshot", "/events?after=0", "/calls/1", "/none", "/mine?agent=8", "/stream?agent=8", "/mine?stream&agent=8")),
                             ("copy", ("/mine", "/stream", "/mine?stream", "/records/", "/records/sums", "/snapshot", "/calls/1")), ("blind", ("/mine?agent=7", "/stream", "/mine?stream", "/requests", "/records/", "/records/sums", "/snapshot")), ("sup", ("/mine", "/requests", "/records/", "/records/sums")), ("pbx", ("/requests", "/records/", "/records/sums"))):
            for path in paths:
                for how, named in HOWS.items():
                    self.expect(f"{login}, {how}, {path}", self.said("GET", path, {**named, **self.password(login)}), refusal(403))
        for path in ("/snapshot", "/events", "/who", "/mine", "/stream", "/requests", "/records/", "/records/sums"):
            self.expect(f"a request at {path}", self.said("POST", path, self.password("ana"))[9:12], "403")

    def try_another_site(self):
        token = token_of(self.log_in("pbx")[1])
        for path in ("/csta", "/session", "/logout"):
            self.expect(f"another site's {path}", self.said("POST", path, {**ELSEWHERE, "Cookie": f"__Host-acd={token}"}), refusal(403))

    def try_pushed(self):
        """A picture at once, in few bytes for who takes that, then signs of life; and an end soon after the session's."""
        for login, member, packed in (("sup", "sums", "gzip"), ("ana", "doing", "identity")):
            with Pushed(self.port, self.STREAM, {**self.password(login), "Accept-Encoding": packed}) as pushed:
                self.expect(f"{login}, {packed}", (pushed.status, pushed.kind, pushed.packed), (200, "text/event-stream", packed))
                told = pushed.until("\nevent: beat\n")
                self.see(f"{login} has a picture", told.startswith("event: picture\n") and f'"{member}":' in told, told)
                self.see(f"{login} hears that it lives", "\nevent: beat\n" in told, told)
        token = token_of(self.log_in("sup")[1])
        with Pushed(self.port, self.STREAM, {**PAGE, "Cookie": f"__Host-acd={token}"}) as pushed:
            self.see("a session's", pushed.until("\n\n").startswith("event: picture\n"), pushed.status)
            self.expect("log-off", self.ask("POST", "/logout", cookie=token).status, 204)
            began = time.monotonic()
            self.see("it ends", pushed.until(None).endswith('event: end\ndata: {"why":"rights"}\n\n'), token)
            self.figure("seconds until a stream ends after its session", time.monotonic() - began, 5)

    def password(self, login):
        return {"Authorization": f"Basic {b64encode(f'{login}:secret'.encode()).decode()}"}


class Pushed(Connection):
    """A stream of events as a page gets it."""

    def __init__(self, port, path, fields):
        super().__init__(port, ANY, PATIENCE)
        self.connection.request("GET", path, headers=fields)
        self.reply = self.connection.getresponse()
        self.status, self.kind, self.packed = self.reply.status, self.reply.getheader("Content-Type"), self.reply.getheader("Content-Encoding", "identity")
        self.unpacked = zlib.decompressobj(zlib.MAX_WBITS | 16).decompress if self.packed == "gzip" else bytes

    def until(self, awaited):
        """What it says until that comes, or all until it ends."""
        told = ""
        while (awaited is None or awaited not in told) and (part := self.reply.read1()):
            told += self.unpacked(part).decode()
        return told
