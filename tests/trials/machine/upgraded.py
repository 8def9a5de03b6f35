"""Cases of an upgrade from 1.14, as its last commit makes its packages: an office with an nginx.conf of its own and a second help line goes on at the ports of before, and moves to the sockets by
the lines that the upgrade prints."""
import re
import subprocess
import tempfile
from pathlib import Path

from booted import AT_PORTS, AT_SOCKETS, Booted
from edges import Edges
from second import HASH
from sections import section, typed
from trial import TOP

OLDER = "release/ of 1.14"
CONF, OWN_CONF, OWN_SITE = "/etc/nginx/conf.d/desk.conf", "/etc/nginx/conf.d/own.conf", "http://127.0.0.1:8088"
# what an office has of its own beside it: a page of figures for its own network
OWN = """
server {
    listen 127.0.0.1:8088;
    location = /figures {
        proxy_pass http://127.0.0.1:8080/reports/queues;
    }
    location = /queues/100 {
        proxy_pass http://127.0.0.1:8080;
    }
}
"""


def older_packages(folder):
    """The packages of 1.14, made out of the history, and kept for the next run."""
    made = folder / "of-1.14"
    if not list(made.glob("acd_1.14_*.deb")):
        commit = subprocess.run(["git", "-C", TOP, "log", "-1", "--format=%H", f"--grep=^{OLDER}$"], stdout=subprocess.PIPE, text=True, check=True).stdout.strip()
        if not commit:
            raise ValueError(f"the history has no commit '{OLDER}'")
        with tempfile.TemporaryDirectory(dir=folder) as tree:
            archive = subprocess.run(["git", "-C", TOP, "archive", commit], stdout=subprocess.PIPE, check=True).stdout
            subprocess.run(["tar", "-x", "-C", tree], input=archive, check=True)
            subprocess.run([f"{tree}/tools/package", "--out", made], stdout=subprocess.DEVNULL, check=True)
    return tuple(sorted(made.glob("acd_1.14_*.deb")) + sorted(made.glob("acd-exchange_1.14_*.deb")))


class Upgraded(Edges):
    places = AT_PORTS

    @classmethod
    def setUpClass(cls):
        cls.newer, cls.packages = Booted.packages, older_packages(cls.options.folder)
        super().setUpClass()

    @classmethod
    def prepare(cls):
        super().prepare()
        cls.container.run("systemctl", "restart", "acd-tick")
        folder = cls.container.inside("/etc/acd")
        subprocess.run(["openssl", "req", "-x509", "-newkey", "rsa:2048", "-nodes", "-subj", "/CN=desk", "-keyout", folder / "desk.key", "-out", folder / "desk.crt"],
                       stderr=subprocess.DEVNULL, check=True)
        hashed = cls.container.run("python3", "-c", HASH)[1].strip()
        (folder / "users").write_text(f"sup:{hashed}\nmax:{hashed}\n")
        (folder / "roles").write_text((folder / "roles").read_text() + "sup supervisor\nmax exchange\n")
        own = cls.container.inside("/usr/share/doc/acd/examples/nginx.conf").read_text()
        cls.container.inside(CONF).write_text(own.replace("gzip_proxied any;", "gzip_proxied any;\n    gzip_vary on;") + "# ours\n")
        cls.container.inside(OWN_CONF).write_text(OWN)
        cls.container.run("systemctl", "restart", "nginx")
        exchange = cls.container.inside("/etc/acd/exchange.env")
        exchange.write_text(re.sub("(?m)^EXCHANGE_DESK=.*\n", "", exchange.read_text()))

    def asked(self, path, port=8443, login="sup", *more):
        """The status of what somebody asks through nginx."""
        return self.curl(f"https://127.0.0.1:{port}{path}", "-k", "-u", f"{login}:sesame", *more)

    def through(self, invoke):
        """What nginx is answered: a read, a service by the gate, who is logged in, a stranger, and the office's own two pages."""
        body = f'{{"requester":"max","invoke":{invoke},"service":"tick"}}'
        return [self.asked("/queues/100"), self.asked("/csta", 8443, "max", "-d", body), self.asked("/who"), self.curl("https://127.0.0.1:8443/queues/100", "-k"),
                self.curl(f"{OWN_SITE}/figures"), self.curl(f"{OWN_SITE}/queues/100")]

    def serves(self, when, invoke, wanted=(200, 200, 200, 401, 200, 200)):
        self.expect(f"{when} nginx is answered", self.eventually(lambda: self.through(invoke), list(wanted)), list(wanted))

    def offers(self, requester):
        """A call is offered for three seconds; whether a tick takes it back."""
        for invoke, (service, members) in enumerate([("setAgentState", {"agent": "7", "requested": "ready"}), ("arriveCall", {"caller": "0301234", "called": "100"})], 1):
            self.service(requester, invoke, service, **members)
        count = self.read("/events?after=0").count('"noAnswer"')
        is_back = self.eventually(lambda: self.read("/events?after=0").count('"noAnswer"') > count, True, 12)
        for call in range(1, 9):
            self.service(requester, 10 + call, "clearConnection", call=call, device="0301234")
        return is_back

    def try_before(self):
        """The office as it was: a plan, two help lines by the page of 1.14, ticks by acd-tick."""
        for invoke, (service, members) in enumerate([("addGroup", {"device": "100", "name": "Billing", "ring": 3, "wrap": 0}), ("addStation", {"device": "201"}), ("addAgent", {"agent": "7", "name": "Ana"}),
                                                     ("setAgentState", {"agent": "7", "requested": "loggedOn", "device": "201", "group": "100"})], 1):
            self.expect(f"{service} is taken", "result" in self.service("plan", invoke, service, **members))
        self.serves("before", 1)
        page = self.container.inside("/usr/share/doc/acd/OPERATING.md").read_text().partition("\n## A second help line\n")[2]
        lines = re.sub("^    ", "", re.search(r"^    .*\n(?:    .*\n)*", page, re.MULTILINE)[0], flags=re.MULTILINE)
        status, said = self.container.shell(f"set -e\n{lines}")
        self.expect(f"a second line by its page ({said[-400:]})", status, 0)
        self.expect("its desk answers", self.eventually(lambda: self.curl("http://127.0.0.1:8090/"), 404), 404)

    def try_upgrade(self):
        """Nothing is asked, nothing that the office wrote is changed, and all goes on."""
        files = (CONF, OWN_CONF, "/etc/nginx/conf.d/north.conf", "/etc/acd/north.env", "/etc/acd/acd.env", "/etc/systemd/system/acd-north.service")
        before = [self.container.inside(file).read_bytes() for file in files]
        for package in self.newer:
            self.container.inside(f"/root/{package.name}").write_bytes(Path(package).read_bytes())
            status, said = self.ran("dpkg", "--install", f"/root/{package.name}")
            self.expect(f"dpkg --install ({said[-400:]})", status, 0)
            type(self).told = self.told + said if package != self.newer[0] else said
        self.expect("its files", [file for file, text in zip(files, before) if self.container.inside(file).read_bytes() != text], [])
        self.expect_in("the exchange keeps the desk's address", self.done("cat", "/etc/acd/exchange.env"), r"\nEXCHANGE_DESK=http://127\.0\.0\.1:8080\n\Z")
        self.done("systemctl", "restart", "acd-north", "acd-tick-north", "acd-gate-north")
        self.expect("the second line by its own units", self.eventually(lambda: (self.curl("http://127.0.0.1:8090/"), self.curl("http://127.0.0.1:8091/") != 0), (404, True)), (404, True))
        self.serves("behind the upgrade", 2)
        for port in (8080, 8081, 8090, 8091):
            self.expect(f"port {port} is there, for root alone", (self.curl(f"http://127.0.0.1:{port}/") != 0, self.curl(f"http://127.0.0.1:{port}/", user="ben")), (True, 0))
        self.expect("a cron line", self.ran("curl", "-sf", "http://127.0.0.1:8080/reports/queues")[0], 0)
        self.expect("the ticks of the first line are off, and those of the second on", [self.ran("systemctl", "is-active", unit)[1] for unit in ("acd-tick", "acd-tick-north", "acd-local")], ["inactive\n", "active\n", "active\n"])
        self.expect("for good", self.ran("systemctl", "is-enabled", "acd-tick")[1], "disabled\n")
        self.expect("the desk ticks by itself", self.offers("behind"), True)
        self.expect_in("by its own requester", self.read("/requests?after=0"), r'"requester":"clock-\d{10}"')
        self.expect("nothing has failed", self.ran("systemctl", "--failed", "--quiet"), (0, ""))

    def try_move(self):
        """By the lines that it printed, and for the office's own server by the page."""
        lines = [line.removeprefix("acd:   ") for line in self.told.splitlines() if line.startswith("acd:   ")]
        self.expect("it printed three lines", len(lines), 3)
        status, said = self.container.shell("set -e\n" + "\n".join(lines))
        self.expect(f"they run ({said[-400:]})", status, 0)
        type(self).places = AT_SOCKETS
        self.serves("at the sockets", 3, (200, 200, 200, 401, 502, 502))
        conf = self.container.inside(OWN_CONF)
        conf.write_text(conf.read_text().replace("http://127.0.0.1:8080;", "http://unix:/run/acd/desk.sock;").replace("http://127.0.0.1:8080/", "http://unix:/run/acd/desk.sock:/"))
        self.done("nginx", "-s", "reload")
        self.serves("with its own server", 4)
        self.expect("nobody listens at the ports of the first line", [self.curl(f"http://127.0.0.1:{port}/") for port in (8080, 8081)], [0, 0])
        self.expect("a stranger isn't let in", [self.curl(self.at("/", what), user="ben") for what in ("desk", "gate")], [0, 0])
        self.expect("the second line's ports are kept all the same", [self.curl("http://127.0.0.1:8090/"), self.eventually(lambda: self.curl("http://127.0.0.1:8090/", user="ben"), 0)], [404, 0])
        self.expect("the desk ticks", self.offers("moved"), True)
        self.expect("acd-local", self.ran("systemctl", "is-active", "acd-local")[1], "active\n")
        self.expect("nothing has failed", self.ran("systemctl", "--failed", "--quiet"), (0, ""))

    def try_second_line(self):
        """The second line is made anew by the page, and has sockets too: then there is nothing to keep."""
        self.done("systemctl", "disable", "--now", "acd-north", "acd-tick-north", "acd-gate-north")
        self.done("rm", "/etc/systemd/system/acd-tick-north.service")
        page = self.container.inside("/usr/share/doc/acd/REFERENCE.md").read_text()
        lines = typed(section(page, "A second help line"))
        lines = "".join(line for line in lines.splitlines(True) if "/dev/null /etc/acd/north-roles" not in line)
        status, said = self.container.shell(f"set -e\n{lines}")
        self.expect(f"its lines ({said[-400:]})", status, 0)
        there = ["--unix-socket", "/run/acd/north.sock", "http://desk/"]
        self.expect("its desk, for root alone", (self.eventually(lambda: self.curl(there), 404), self.curl(there, user="ben")), (404, 0))
        settings = self.container.inside("/etc/acd/acd.env")
        settings.write_text(re.sub("(?m)^ACD_LOCAL_PORTS=", "#&", settings.read_text()))
        self.expect("the table goes", self.eventually(lambda: self.ran("nft", "list", "table", "inet", "acd")[0], 1), 1)
        self.serves("with both at sockets", 5)
        self.expect("nothing has failed", self.ran("systemctl", "--failed", "--quiet"), (0, ""))
