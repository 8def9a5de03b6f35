"""Cases of a machine's users, where desk and gate have the ports of before: who reaches these, by curl and by a browser."""
import contextlib
import os
import re
import subprocess
import tempfile

from edges import Edges

DESK, GATE, ETCD = "http://127.0.0.1:8080/", "http://127.0.0.1:8081/who", "http://127.0.0.1:2379/version"
TABLE = ("nft", "list", "table", "inet", "acd")
OTHERS = "table inet other {\n\tchain input {\n\t\ttype filter hook input priority filter; policy accept;\n\t\tip saddr 192.0.2.1 drop\n\t}\n}\n"

# what a page of another site does in a browser on the desk's machine
PAGE = """<!doctype html><title>elsewhere</title><p id=told>asks</p><script>
const tell = (name, promise) => promise.then(() => name + ' reached', () => name + ' refused');
Promise.all([
  tell('desk', fetch('http://127.0.0.1:8080/csta', {method: 'POST', mode: 'no-cors', body: JSON.stringify(
    {requester: 'page' + STATION, invoke: 1, service: 'addStation', device: STATION})})),
  tell('gate', fetch('http://127.0.0.1:8081/who', {mode: 'no-cors'})),
  tell('etcd', fetch('http://127.0.0.1:2379/version', {mode: 'no-cors'})),
]).then(told => { document.querySelector('#told').textContent = told.join(', '); });
</script>"""
REACHED = "desk reached, gate reached, etcd reached"
REFUSED = "desk refused, gate refused, etcd refused"

# connects to the desk, and asks it once it is told to
LATE = """import pathlib, socket, time
with socket.create_connection(("127.0.0.1", 8080)) as desk:
    print("connected", flush=True)
    while not pathlib.Path("/srv/ask").exists():
        time.sleep(0.1)
    desk.sendall(b"GET /none HTTP/1.1\\r\\nHost: desk\\r\\n\\r\\n")
    print(desk.recv(12).decode(), flush=True)
"""


class Users(Edges):
    @classmethod
    def prepare(cls):
        super().prepare()
        cls.keep_ports()

    def try_group(self):
        self.done("useradd", "--create-home", "ana")
        self.done("adduser", "--quiet", "ana", "acd-local")
        self.container.put("/srv/page/index.html", "a page")

    def refused(self, *users):
        return [(user, port) for user in users for port in (DESK, GATE, ETCD) if self.curl(port, user=user) == 0]

    def try_services(self):
        """The users of the services, root, a member of the group, and nobody else."""
        allowed = ("root", "acd", "acd-gate", "acd-exchange", "www-data", "etcd", "ana")
        self.eventually(lambda: self.refused("ana"), [])
        self.expect("refused of the services' users", self.refused(*allowed), [])
        self.expect("how often others are refused, the edge of the telephone exchange too", len(self.refused("ben", "nobody", "games", "acd-edge")), 12)
        self.expect("an etcd asks itself", self.ran("env", "ETCDCTL_API=3", "etcdctl", "put", "desk/none", "0", user="etcd"), (0, "OK\n"))
        for port in (8080, 8081, 2379, 2380):
            said = self.ran("curl", "-sv", "--max-time", "3", f"http://127.0.0.1:{port}/", user="ben")[1]
            self.expect_in(f"port {port} is reset at once", said, "Connection refused")

    @contextlib.contextmanager
    def site(self, user, port, address="127.0.0.1"):
        """Somebody who listens at a port, and has pages."""
        self.done("systemd-run", "--quiet", "--collect", "--unit=site", f"--uid={user}", "python3", "-m", "http.server", port, "--bind", address, "--directory", "/srv/page")
        try:
            yield
        finally:
            self.done("systemctl", "stop", "site")

    def try_members(self):
        """Who comes into the group reaches the desk within seconds, by the group itself at once, and who leaves it, or the machine, doesn't any more."""
        self.done("useradd", "--create-home", "cem")
        self.expect("not yet in the group", self.curl(DESK, user="cem"), 0)
        self.expect("by the group itself", self.curl(DESK, user="cem", group="acd-local"), 404)
        self.done("adduser", "--quiet", "cem", "acd-local")
        self.expect("in the group", self.eventually(lambda: self.curl(DESK, user="cem"), 404), 404)
        self.done("deluser", "--quiet", "cem", "acd-local")
        self.expect("out of the group", self.eventually(lambda: self.curl(DESK, user="cem"), 0), 0)
        self.done("adduser", "--quiet", "cem", "acd-local")
        self.expect("in it again", self.eventually(lambda: self.curl(DESK, user="cem"), 404), 404)
        number = self.number("cem")
        self.done("userdel", "--remove", "cem")
        self.expect("out of the machine", self.eventually(lambda: self.is_let_in(number), False), False)

    def number(self, user):
        return self.done("id", "-u", user).strip()

    def is_let_in(self, number):
        """Whether the table names the user of this number."""
        return bool(re.search(rf"skuid != {{[^}}]*\b{number}\b", self.ran(*TABLE)[1]))

    def try_open_connection(self):
        """Who leaves the group within a connection is answered there, and nowhere else. Cut off on one side alone, it would hold the desk without an end."""
        self.done("useradd", "dan")
        self.done("adduser", "--quiet", "dan", "acd-local")
        number = self.number("dan")
        self.expect("in the group", self.eventually(lambda: self.is_let_in(number), True), True)
        self.container.put("/srv/late.py", LATE)
        self.done("systemd-run", "--quiet", "--collect", "--unit=late", "--uid=dan", "python3", "/srv/late.py")
        self.expect("it is connected", self.eventually(lambda: "connected" in self.journal("late"), True), True)
        self.done("deluser", "--quiet", "dan", "acd-local")
        self.expect("out of the group", self.eventually(lambda: self.is_let_in(number), False), False)
        self.container.put("/srv/ask", "")
        self.expect("the open connection is answered", self.eventually(lambda: "HTTP/1.1 404" in self.journal("late"), True), True)
        self.expect("the desk goes on, and no other one is let in", (self.eventually(lambda: self.curl(DESK), 404), self.curl(DESK, user="dan")), (404, 0))
        self.done("userdel", "dan")

    def try_addresses(self):
        """The other addresses of this machine: those of IPv6, and one of a network."""
        self.done("ip", "address", "replace", "10.9.9.1/32", "dev", "lo")
        for address, shown in (("::1", "[::1]"), ("10.9.9.1", "10.9.9.1")):
            with self.site("etcd", 2380, address):
                self.expect(f"{address} by root", self.eventually(lambda: self.curl(f"http://{shown}:2380/"), 200), 200)
                self.expect(f"{address} by another user", self.curl(f"http://{shown}:2380/", user="ben"), 0)

    def try_impostor(self):
        """Another user who takes a port while its service is away answers nobody."""
        self.done("systemctl", "stop", "acd-gate")
        with self.site("ben", 8081):
            self.expect("it listens", self.eventually(lambda: "8081" in self.ran("ss", "-Hltn", "sport", "=", "8081")[1], True), True)
            for user in ("root", "www-data", "ben"):
                self.expect(f"it answers {user}", self.curl("http://127.0.0.1:8081/", user=user), 0)
        self.done("systemctl", "start", "acd-gate")
        self.expect("the gate answers", self.eventually(lambda: self.curl(GATE, "-H", "X-Login: pbx"), 200), 200)

    def try_other_tables(self):
        """Loaded again, taken away, and behind nftables' own service: one table is ours, and no other is touched."""
        self.container.put("/etc/nftables.conf", f"flush ruleset\n{OTHERS}")
        self.done("systemctl", "start", "nftables")
        self.expect("behind nftables' start", self.eventually(lambda: self.curl(DESK, user="ben"), 0), 0)
        other, both = self.done("nft", "list", "table", "inet", "other"), "table inet other\ntable inet acd\n"

        def are(when, tables):
            self.expect(f"the tables behind {when}", self.eventually(lambda: sorted(self.done("nft", "list", "tables").splitlines()), sorted(tables.splitlines())), sorted(tables.splitlines()))
            self.expect(f"the other one behind {when}", self.done("nft", "list", "table", "inet", "other"), other)

        self.expect("as it was written", other, OTHERS)
        for act in ("reload", "restart", "reload"):
            self.done("systemctl", act, "acd-local")
            are(f"a {act}", both)
        for act in ("reload", "restart", "stop", "start"):
            self.done("systemctl", act, "nftables")
            self.container.shell("nft list table inet other || nft -f /etc/nftables.conf")
            are(f"nftables' {act}", both)
        self.done("systemctl", "stop", "acd-local")
        are("a stop", "table inet other\n")
        self.expect("another user, without the table", self.curl(DESK, user="ben"), 404)
        self.done("systemctl", "start", "acd-local")
        are("a start", both)
        self.expect("another user, with it", self.curl(DESK, user="ben"), 0)

    def try_ports(self):
        """The ports are those of acd.env, also behind a change of it; one that is none leaves the table as it was, and the unit has failed."""
        settings = self.container.inside("/etc/acd/acd.env")
        before = settings.read_text()
        # written as the unit starts, with the ports of before
        self.done("systemctl", "restart", "acd-local")
        settings.write_text(before.replace("ACD_PORT=8080", "ACD_PORT=8090"))
        self.expect("the new port is kept", self.eventually(lambda: "8090" in self.done(*TABLE), True), True)
        self.done("systemctl", "restart", "acd")
        self.expect("the desk is there", self.eventually(lambda: self.curl("http://127.0.0.1:8090/"), 404), 404)
        self.expect("for root alone", self.curl("http://127.0.0.1:8090/", user="ben"), 0)
        settings.write_text(before.replace("ACD_PORT=8080", "ACD_PORT=80x"))
        self.expect("a port that is none", self.eventually(lambda: "acd-local.service" in self.ran("systemctl", "--failed", "--quiet", "--no-legend")[1], True), True)
        self.expect("leaves the table as it was", "8090" in self.done(*TABLE), True)
        settings.write_text(before)
        self.done("systemctl", "restart", "acd-local", "acd")
        self.expect("and back", (self.eventually(lambda: self.curl(DESK), 404), self.curl(DESK, user="ben")), (404, 0))
        for words in (["--ports", "0"], ["--ports", "65536"], ["--ports", ""], ["--ports"], ["--ports", "8080;"], ["--other"]):
            status, said = self.ran("acd-local", *words)
            self.expect(f"acd-local {words}", (status, said.count("\n"), said.startswith("acd-local: ")), (2, 1, True))

    def try_without_nft(self):
        """A machine without nft: a line in the journal at each start, and all goes on."""
        nft = self.container.inside("/usr/sbin/nft")
        self.done("systemctl", "stop", "acd-local")
        nft.rename(nft.with_suffix(".away"))
        said = "every user of this machine reaches the desk's ports"
        for count in (1, 2):
            self.done("systemctl", "restart", "acd")
            self.expect("the desk goes on", self.eventually(lambda: self.curl(DESK), 404), 404)
            self.expect(f"lines at start {count}", self.eventually(lambda: self.journal("acd-local").count(said), count), count)
        self.expect("nothing has failed", self.ran("systemctl", "--failed", "--quiet"), (0, ""))
        nft.with_suffix(".away").rename(nft)
        self.done("systemctl", "restart", "acd")
        self.expect("with nft again", self.eventually(lambda: self.curl(DESK, user="ben"), 0), 0)

    # a browser, of this machine and in the container's network, since Chromium is a large package

    def browse(self, user, address):
        """What a user's browser makes of a page: its text, once its scripts have had their time. One that hangs, as on a busy machine, is started again."""
        number = int(self.number(user))
        with tempfile.TemporaryDirectory() as home:
            os.chown(home, number, number)
            words = ["nsenter", "--target", str(self.container.leader), "--net", "setpriv", "--reuid", str(number), "--regid", str(number), "--clear-groups",
                     "env", "-i", "PATH=/usr/bin:/bin", f"HOME={home}", "chromium", "--headless=new", "--no-sandbox", "--disable-gpu", "--disable-dev-shm-usage",
                     "--disable-background-networking", "--no-first-run", f"--user-data-dir={home}/profile", "--host-resolver-rules=MAP elsewhere.example 127.0.0.1",
                     "--timeout=8000", "--virtual-time-budget=5000", "--dump-dom", address]
            for _ in range(3):
                with contextlib.suppress(subprocess.TimeoutExpired):
                    return subprocess.run(words, stdin=subprocess.DEVNULL, stdout=subprocess.PIPE, stderr=subprocess.DEVNULL, text=True, timeout=60).stdout
        return "the browser hangs"

    def try_browser(self):
        """A page of another site in the browser of a user who isn't allowed reaches nothing: neither by asking, nor as a site whose name turns to this machine."""
        for user, station, reached, turned in (("ben", "777", REFUSED, r"\A\Z"), ("ana", "778", REACHED, '"stations"')):
            self.container.put("/srv/page/index.html", PAGE.replace("STATION", f"'{station}'"))
            with self.site("www-data", 9100):
                self.expect("the site is there", self.eventually(lambda: self.curl("http://127.0.0.1:9100/"), 200), 200)
                self.expect_in(f"a page in the browser of {user}", self.browse(user, "http://elsewhere.example:9100/"), reached)
            self.expect(f"what it asked for stands at the desk, of {user}", f'"{station}"' in self.read("/snapshot"), user == "ana")
            self.expect_in(f"a name that turns, of {user}", self.browse(user, "http://elsewhere.example:8080/snapshot"), turned)
