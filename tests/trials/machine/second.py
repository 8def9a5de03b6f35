"""Cases of a second help line on the same machine, made by the lines of REFERENCE.md as they are there, behind nginx, and of its standby."""
import re
import subprocess

from edges import Edges
from sections import section, typed

PAGE = "/usr/share/doc/acd/REFERENCE.md"
# as htpasswd makes it, of the word `sesame`
HASH = "import passlib.hash; print(passlib.hash.bcrypt.using(rounds=5).hash('sesame'))"


class Second(Edges):
    places = {**Edges.places, "north": ("--unix-socket", "/run/acd/north.sock", "http://desk")}

    def lines(self, heading):
        """The lines that are to be typed under a heading."""
        return typed(section(self.container.inside(PAGE).read_text(), heading))

    def asked(self, port, login, path):
        """The status of a read through nginx."""
        return self.curl(f"https://127.0.0.1:{port}{path}", "-k", "-u", f"{login}:sesame")

    def may_read(self, line, login):
        """A login of a line, by its two files."""
        hashed = self.done("python3", "-c", HASH).strip()
        for file, text in ((f"{line}users", f"{login}:{hashed}"), (f"{line}roles", f"{login} supervisor")):
            place = self.container.inside(f"/etc/acd/{file}")
            place.write_text(f"{place.read_text()}{text}\n")

    def try_first_line(self):
        folder = self.container.inside("/etc/acd")
        subprocess.run(["openssl", "req", "-x509", "-newkey", "rsa:2048", "-nodes", "-subj", "/CN=desk", "-keyout", folder / "desk.key",
                        "-out", folder / "desk.crt"], stderr=subprocess.DEVNULL, check=True)
        self.done("cp", "/usr/share/doc/acd/examples/nginx.conf", "/etc/nginx/conf.d/desk.conf")
        self.done("systemctl", "restart", "nginx")
        self.may_read("", "sup")
        self.expect("it reads", self.eventually(lambda: self.asked(8443, "sup", "/queues/100"), 404), 404)

    def try_second_line(self):
        """Both lines serve, each with its own desk, logins and copies."""
        status, said = self.container.shell(f"set -e\n{self.lines('A second help line')}")
        self.expect(f"its lines ({said[-400:]})", status, 0)
        self.expect("its desk answers", self.eventually(lambda: self.curl(self.at("/", "north")), 404), 404)
        self.service("plan", 1, "addGroup", of="north", device="500", name="North", ring=20, wrap=0)
        self.may_read("north-", "nora")
        for status, port, login in ((200, 8453, "nora"), (404, 8443, "sup"), (401, 8453, "sup"), (401, 8443, "nora")):
            self.expect(f"{login} at {port}", self.eventually(lambda: self.asked(port, login, "/queues/500"), status), status)
        self.done("systemctl", "start", "acd-copy-north")
        self.expect_in("its own copy", self.journal("acd-copy-north"), "sound: /var/lib/acd/north/copies/")
        self.expect("nothing has failed", self.ran("systemctl", "--failed", "--quiet"), (0, ""))
        self.expect("other users are kept from it", self.curl(self.at("/", "north"), user="ben"), 0)

    def try_session(self):
        """A session of one line is none of the other's."""
        said = self.ran("curl", "-ski", "-H", "Origin: https://127.0.0.1:8453", "-d", "login=nora&password=sesame", "https://127.0.0.1:8453/login")[1]
        cookie = re.search(r"(?im)^set-cookie: (__Host-acd=[^;]*)", said)
        self.expect(f"nora logs in ({said[:300]})", bool(cookie))
        with_it = ("-k", "-H", f"Cookie: {cookie[1] if cookie else ''}")
        self.expect("her session at both lines", [self.curl(f"https://127.0.0.1:{port}/queues/500", *with_it) for port in (8453, 8443)], [200, 401])

    def try_standby(self):
        """A standby of the second line alone, by a unit that the page's words make: the first line's desk serves all the while."""
        page = section(self.container.inside(PAGE).read_text(), "A second help line")
        words = re.search(r"`(sed '[^`]*' /lib/systemd/system/acd-follow\.service)`", page)[1]
        self.done("sh", "-c", f"{words} >/etc/systemd/system/acd-follow-north.service && systemctl daemon-reload")
        began = self.done("systemctl", "show", "--value", "-p", "MainPID", "acd")
        self.stand_by("acd-north", "acd-follow-north", "/etc/acd/north-follow.env", "/var/lib/acd/north", "north")
        self.serve_by_order("acd-north", "acd-follow-north", "/var/lib/acd/north/desk.db", "north")
        self.expect("both lines serve", [self.asked(port, login, path) for port, login, path in ((8443, "sup", "/queues/300"), (8453, "nora", "/queues/300"))], [404, 200])
        self.expect("the first one's desk is the same", self.done("systemctl", "show", "--value", "-p", "MainPID", "acd"), began)
