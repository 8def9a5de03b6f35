"""Cases of the packages' units: each does its whole work under systemd, and whoever took its program over could do nothing else."""
import json
import subprocess
import sys
from pathlib import Path

from edges import FIRST, Edges

HIGHEST = 2.0
PROBE = "/usr/local/bin/probe"
# what a unit's probe goes without: it ends, prints to a file, has no settings, and takes no folder from the unit
LEFT_OUT = {"Type", "NotifyAccess", "TimeoutStartSec", "Restart", "RestartSec", "RestartPreventExitStatus", "WatchdogSec", "WatchdogSignal", "Environment", "EnvironmentFile", "RuntimeDirectory",
            "ExecStart", "ExecStartPre", "ExecStop", "ExecStopPost", "ExecReload", "ExecCondition", "RemainAfterExit"}
AS_ROOT = {"User", "Group", "DynamicUser", "AmbientCapabilities", "StateDirectory"}

LOOPBACK = {"connect to loopback"}
INTERNET = LOOPBACK | {"connect elsewhere", "AF_INET6"}
NETWORK = INTERNET | {"AF_UNIX"}
DESK = {"read the desk's file", "write the desk's folder", "signal the desk", "see what the desk has open"}
# root owns these files, and needs no right to read what is its own; processes are hidden from all but root's group
OF_ROOT = {"read the roles", "read the users", "read the accounts", "see another user's process"}
# what a program that took over the unit could do, as the unit's own user and, were it root there, as root
MAY = {
    "acd.service": (LOOPBACK | DESK | {"AF_UNIX"}, LOOPBACK | OF_ROOT | {"AF_UNIX"}),
    "acd-tick.service": (LOOPBACK | {"signal the desk", "see what the desk has open"}, LOOPBACK | OF_ROOT),
    "acd-gate.service": (LOOPBACK | {"AF_UNIX", "read the roles", "read the users"}, LOOPBACK | OF_ROOT | {"AF_UNIX"}),
    "acd-copy.service": (DESK | {"priority"}, OF_ROOT | {"priority"}),
    "acd-prune.service": (DESK | {"priority"}, OF_ROOT | {"priority"}),
    "acd-local.service": ({"AF_UNIX", "AF_NETLINK", "load a table"}, OF_ROOT | {"AF_UNIX", "AF_NETLINK", "load a table"}),
    "acd-node.service": (INTERNET | DESK - {"see what the desk has open"}, INTERNET | OF_ROOT),
    "acd-follow.service": (NETWORK | DESK, NETWORK | OF_ROOT),
    "acd-node-upkeep.service": (INTERNET, INTERNET | OF_ROOT),
    "acd-exchange.service": (NETWORK | {"write the exchange's folder"}, NETWORK | OF_ROOT - {"read the accounts"}),
    "acd-edge.service": (NETWORK | {"read the accounts", "AF_NETLINK"}, NETWORK | OF_ROOT | {"AF_NETLINK"}),
    "acd-rules.service": (INTERNET, INTERNET | OF_ROOT),
    "acd-webhook.service": (INTERNET, INTERNET | OF_ROOT),
    "acd-certificate.service": (LOOPBACK, LOOPBACK | OF_ROOT),
    # it is root's, who gains nothing by a program of root's
    "acd-edge-limit.service": (OF_ROOT | {"gain", "AF_UNIX", "AF_NETLINK", "load a table"}, OF_ROOT | {"AF_UNIX", "AF_NETLINK", "load a table"}),
    "acd-records.service": ({"read the desk's file", "signal the desk"}, {"read the accounts", "see another user's process"}),
}
LIMITS = {
    "acd": {"CPUWeight": "400", "TasksMax": "64", "MemoryMax": "infinity", "OOMScoreAdjust": "-500"},
    "acd-gate": {"CPUWeight": "200", "TasksMax": "64", "MemoryMax": str(400 << 20), "OOMScoreAdjust": "0"},
    "acd-copy": {"CPUWeight": "20", "TasksMax": "64"},
    "acd-records": {"CPUWeight": "20", "TasksMax": "64"},
    "acd-exchange": {"CPUWeight": "400", "TasksMax": "64", "MemoryMax": str(256 << 20)},
    "acd-edge": {"TasksMax": "128", "MemoryMax": str(1536 << 20)},
    "acd-node": {"CPUWeight": "400", "TasksMax": "64", "MemoryMax": str(6 << 30), "OOMScoreAdjust": "-500"},
    "acd-node-upkeep": {"CPUWeight": "20", "TasksMax": "16", "MemoryMax": str(256 << 20)},
    "acd-tick": {"TasksMax": "64"}, "acd-local": {"TasksMax": "64"}, "acd-follow": {"TasksMax": "64"}, "acd-prune": {"TasksMax": "64"},
    "acd-certificate": {"TasksMax": "64"}, "acd-rules": {"TasksMax": "64"}, "acd-webhook": {"TasksMax": "64"}, "acd-edge-limit": {"TasksMax": "16"},
}
FOLDER = "/usr/lib/systemd/system"
# shows a certificate where nginx would
SHOWS = """import socket, ssl
context = ssl.SSLContext(ssl.PROTOCOL_TLS_SERVER)
context.load_cert_chain("desk.crt", "desk.key")
with socket.create_server(("127.0.0.1", 8443)) as port:
    while True:
        try:
            context.wrap_socket(port.accept()[0], server_side=True).close()
        except OSError:
            pass
"""
# ticks for a desk that is followed, one after the other
LOAD = f"""while :; do number=$((number + 1)); curl -s -d '{{"requester":"load","invoke":'$number',"service":"tick"}}' {FIRST}/csta; done"""


class Units(Edges):
    def units(self):
        return sorted(file.name for file in self.container.inside(FOLDER).glob("acd*.service"))

    def try_scores(self):
        self.expect("units that are no cases here", [unit for unit in self.units() if unit not in MAY], [])
        for unit in self.units():
            said = self.ran("systemd-analyze", "security", "--offline=true", "--no-pager", f"{FOLDER}/{unit}")[1].splitlines()[-1]
            score = float(said.split(":")[1].split()[0])
            self.expect(f"{unit} at {score}", score <= HIGHEST)

    def process(self, unit):
        return self.done("systemctl", "show", "--value", "-p", "MainPID", unit).strip()

    def try_limits(self):
        """The desk comes first where the processor or memory lacks, and no unit that a stranger reaches takes the machine."""
        self.expect("units that have no limits here", [unit for unit in self.units() if unit.removesuffix(".service") not in LIMITS], [])
        for unit, limits in LIMITS.items():
            said = self.done("systemctl", "show", unit, *(f"--property={name}" for name in limits))
            self.expect(f"limits of {unit}", dict(line.split("=", 1) for line in said.splitlines()), limits)
        # on a machine that lets nobody name who is ended last, systemd passes over it
        lets = self.container.shell("echo -500 >/proc/self/oom_score_adj")[0] == 0
        self.expect("the kernel ends the desk last", self.done("cat", f"/proc/{self.process('acd')}/oom_score_adj"), "-500\n" if lets else "0\n")

    # their work

    def try_desk(self):
        """The desk answers, and its ticks take an offer back."""
        wanted = [("plan", 1, "addGroup", {"device": "100", "name": "Billing", "ring": 3, "wrap": 0}), ("plan", 2, "addStation", {"device": "201"}),
                  ("plan", 3, "addAgent", {"agent": "7", "name": "Ana"}),
                  ("pbx", 1, "setAgentState", {"agent": "7", "requested": "loggedOn", "device": "201", "group": "100"}),
                  ("pbx", 2, "setAgentState", {"agent": "7", "requested": "ready"}), ("pbx", 3, "arriveCall", {"caller": "0301234", "called": "100"})]
        for requester, invoke, service, members in wanted:
            self.expect(f"{service} is taken", "result" in self.service(requester, invoke, service, **members))
        self.expect("a tick takes the offer back", self.eventually(lambda: '"noAnswer"' in self.read("/events?after=0"), True), True)
        self.done("kill", "-KILL", self.process("acd"))
        self.expect("behind a kill it is there again", self.eventually(lambda: '"Billing"' in self.read("/snapshot"), True), True)
        self.expect("its file is nobody else's", self.done("stat", "-c", "%U %a", "/var/lib/acd/desk.db"), "acd 600\n")

    def try_gate(self):
        """The gate judges, by the roles that it alone reads."""
        for login, service, wanted in (("pbx", "tick", "result"), ("nobody", "tick", "error")):
            reply = self.service(login, 60, service, "gate", ("-H", f"X-Login: {login}"))
            self.expect(f"{service} by {login}", wanted in reply)

    def try_copy(self):
        self.done("systemctl", "start", "acd-copy")
        said = self.journal("acd-copy")
        self.expect_in("the desk is halted, and the copy sound", said, r"the desk was halted for \d+ ms\nsound: /var/lib/acd/copies/")
        self.expect_in("the desk goes on", self.read("/queues/100"), '"group":"100"')
        self.expect("nothing else is told of it", [line for line in said.splitlines() if line.startswith(("cp:", "nice:", "find:", "stat:", "mv:"))], [])

    def try_restore(self):
        """Root puts the copy back, and takes that back: beside the desk it is refused, and says what stops it."""
        moment = [name for name in self.done("ls", "/var/lib/acd/copies").split() if name.endswith("Z")][-1]
        for words in (("--restore", moment), ("--undo",)):
            refused = self.ran("acd-copy", *words)
            self.expect_in(f"acd-copy {words} beside the desk, {refused[0]}", refused[1], r"^acd-copy: /var/lib/acd/desk.db is open in process \d+ \(acd serve .*\): systemctl stop acd; nothing was touched\n$")
            self.done("systemctl", "stop", "acd")
            self.done("acd-copy", *words)
            self.done("systemctl", "start", "acd")
            self.expect("the desk answers of it", self.eventually(lambda: '"Billing"' in self.read("/snapshot"), True), True)
            self.expect("it is nobody else's", self.done("stat", "-c", "%U %G %a", "/var/lib/acd/desk.db"), "acd acd 600\n")

    def try_standby(self):
        """A standby at the desk's socket, by the desk's file; a copy of what it is fed under load halts it, as it does a desk."""
        self.stand_by("acd", "acd-follow", "/etc/acd/follow.env", "/var/lib/acd")
        self.done("systemd-run", "--quiet", "--unit=load", "sh", "-c", LOAD)
        halted = self.journal("acd-copy").count("the desk was halted for ")
        self.done("systemctl", "start", "acd-copy")
        self.expect("it was halted for the copy", self.journal("acd-copy").count("the desk was halted for "), halted + 1)
        self.done("systemctl", "stop", "load")
        self.serve_by_order("acd", "acd-follow", "/var/lib/acd/desk.db")

    def try_exchange(self):
        """A phone registers, its agent logs off, a caller waits, and somebody speaks TLS; none of it by a second start."""
        edge = self.container.inside("/etc/acd/edge")
        subprocess.run(["openssl", "req", "-x509", "-newkey", "rsa:2048", "-nodes", "-subj", "/CN=edge", "-keyout", edge / "edge.key", "-out", edge / "edge.crt"],
                       stderr=subprocess.DEVNULL, check=True)
        self.done("chgrp", "acd-edge", "/etc/acd/edge/edge.key")
        self.done("chmod", "640", "/etc/acd/edge/edge.key")
        for name in ("201", "trunk"):
            self.expect(f"the account {name}", self.container.shell(f"echo open-sesame | acd-account {name}"), (0, ""))
        self.ran("systemctl", "disable", "--now", "kamailio")
        self.done("systemctl", "enable", "--now", "acd-exchange", "acd-edge")
        self.expect("the edge listens", self.eventually(lambda: "5060" in self.ran("ss", "-Hlun", "sport", "=", "5060")[1], True), True)
        self.expect("a phone by its password, by another, the log-off of its agent, a caller's call, TLS", self.phones(), [200, 401, 200, 182, "SIP/2.0"])
        self.expect("the agent at the desk", self.eventually(lambda: '"device":"201"' in self.read("/agents/7"), False), False)
        self.expect("the caller at the desk", self.eventually(lambda: '"caller":"0409876"' in self.read("/snapshot"), True), True)
        self.expect("the limit of connections comes with the edge", self.ran("nft", "list", "table", "inet", "acd_edge")[0], 0)
        for unit in ("acd-exchange", "acd-edge"):
            self.expect(f"{unit} was started once", self.done("systemctl", "show", "--value", "-p", "NRestarts", unit), "0\n")

    def phones(self):
        """What phones are answered, from within the container's network."""
        words = ["nsenter", "--target", str(self.container.leader), "--net", sys.executable, Path(__file__).with_name("phones.py")]
        return json.loads(subprocess.run(words, stdout=subprocess.PIPE, check=True, text=True).stdout)

    def try_records(self):
        """Behind a copy the days that are over are written, for the gate to read and for nobody else. Here the last copy is named as one of the day after tomorrow."""
        self.done("systemctl", "start", "acd-copy")
        self.expect("the records come behind the copy", self.eventually(lambda: "0 files written" in self.journal("acd-records"), True), True)
        later = self.done("date", "-u", "-d", "2 days", "+%Y-%m-%dT%H%M%SZ").strip()
        copies = "/var/lib/acd/copies"
        self.done("mv", f"{copies}/{[name for name in self.done('ls', copies).split() if name.endswith('Z')][-1]}", f"{copies}/{later}")
        self.done("systemctl", "start", "acd-records")
        lines = self.done("sh", "-c", "stat -c '%U %G %a %n' /var/lib/acd-records /var/lib/acd-records/records /var/lib/acd-records/records/*.csv").splitlines()
        self.expect_in("whose they are", "\n".join(lines), r"\A(acd acd-gate 750 \S+\n){2}acd acd-gate 640 \S+\.csv\nacd acd-gate 640 \S+\.csv\Z")
        # the second is of tomorrow, on which nothing was
        today = lines[2].split()[-1]
        for user, may in (("acd-gate", True), ("ben", False)):
            self.expect(f"{user} reads them", self.ran("test", "-r", today, user=user)[0] == 0, may)
        self.expect_in("the call", self.done("cat", today), r"'?0301234,100,")
        self.done("rm", "-r", f"{copies}/{later}")

    def try_certificate(self):
        """Where nobody shows a certificate there is none to look at; one that ends in a week is told, and one that lasts isn't."""
        self.expect("its timer", self.done("systemctl", "is-enabled", "acd-certificate.timer"), "enabled\n")
        self.done("systemctl", "start", "acd-certificate")
        self.expect_in("nobody listens", self.journal("acd-certificate"), "acdctl certificate: nobody listens at 127.0.0.1:8443")
        root = self.container.inside("/root")
        (root / "show.py").write_text(SHOWS)
        for days, told in ((7, "ends in 6 days, on "), (30, "ends on ")):
            words = f"req -x509 -newkey rsa:2048 -nodes -subj /CN=desk -days {days} -keyout {root}/desk.key -out {root}/desk.crt".split()
            subprocess.run(["openssl", *words], stderr=subprocess.DEVNULL, check=True)
            self.done("systemd-run", "--quiet", "--unit=shows", "--working-directory=/root", "python3", "show.py")
            self.expect("it listens", self.eventually(lambda: "8443" in self.ran("ss", "-Hltn", "sport", "=", "8443")[1], True), True)
            self.expect(f"of {days} days", self.ran("systemctl", "start", "acd-certificate")[0] != 0, days == 7)
            self.expect(f"of {days} days, told", f"the certificate at 127.0.0.1:8443 {told}" in self.journal("acd-certificate"), True)
            self.expect(f"of {days} days, as failed", "acd-certificate" in self.done("systemctl", "--failed", "--no-legend"), days == 7)
            self.done("systemctl", "stop", "shows")

    # what they may not

    def try_two_users(self):
        """Gate and desk: neither reads what is the other's, and neither touches the other's process."""
        for unit, user, other, files in (("acd", "acd", "acd-gate", ["/etc/acd/users", "/etc/acd/roles"]),
                                         ("acd-gate", "acd-gate", "acd", ["/var/lib/acd/desk.db", "/var/lib/acd/copies/."])):
            process = self.process(unit)
            self.expect(f"the user of {unit}", self.done("stat", "-c", "%U", f"/proc/{process}"), f"{user}\n")
            self.expect(f"{other} signals it", self.ran("kill", "-0", process, user=other)[0] != 0)
            for file in files:
                self.expect(f"{user} reads {file}", self.ran("test", "-r", file, user=user)[0], 1)
                self.expect(f"{other} reads {file}", self.ran("test", "-r", file, user=other)[0], 0)

    def try_refusals(self):
        """A probe in each unit's place. Unconfined it can do all that it tries, which shows that each attempt is one."""
        self.lay_probe()
        self.expect("what root, unconfined, can't", sorted(set(self.attempts()) - self.probed(["User=root"])), [])
        self.expect("what acd, unconfined, can't", sorted({"gain", "new namespace", "executable memory", "read a home"} - self.probed(["User=acd"])), [])
        for unit in self.units():
            own, root = MAY[unit]
            settings = [line for line in self.settings(unit) if name_of(line) not in LEFT_OUT]
            self.expect(f"{unit} may", sorted(self.probed(settings)), sorted(own))
            as_root = [line for line in settings if name_of(line) not in AS_ROOT]
            self.expect(f"{unit}, were it root's, may", sorted(self.probed(as_root) - {"gain"}), sorted(root))

    def settings(self, unit):
        """The lines of its part Service."""
        text = self.container.inside(f"{FOLDER}/{unit}").read_text()
        return [line for line in text.partition("[Service]")[2].partition("\n[")[0].splitlines() if line and not line.startswith("#")]

    def attempts(self):
        return self.probed([], "--list")

    def lay_probe(self):
        """What the probe tries to read, to see and to reach."""
        self.container.put(PROBE, (Path(__file__).parent / "probe").read_text(), 0o755)
        for note in ("/home/ben/note", "/root/note"):
            self.container.put(note, "a note\n")
        self.done("chmod", "755", "/home/ben")
        self.done("touch", "/tmp/note")
        self.done("install", "-m", "4755", "/usr/bin/id", "/usr/local/bin/gain")
        self.done("ip", "address", "replace", "10.9.9.1/32", "dev", "lo")
        self.done("systemd-run", "--quiet", "--collect", "--unit=elsewhere", "--uid=www-data", "python3", "-m", "http.server", "9000", "--bind", "0.0.0.0", "--directory", "/srv")
        self.done("systemd-run", "--quiet", "--collect", "--unit=another", "--uid=ben", "sleep", "infinity")

    def probed(self, settings, *words):
        """What the probe could do under these settings."""
        others = [self.process(unit) for unit in ("another", "acd")]
        command = " ".join([PROBE, *(words or others)])
        text = "\n".join(["[Service]", *settings, "Type=oneshot", f"ExecStart={command}", "StandardOutput=truncate:/run/probe.json", "StandardError=journal"])
        self.done("sh", "-c", 'rm -f /run/probe.json; printf "%s\\n" "$0" >/run/systemd/system/probe.service && systemctl daemon-reload', text)
        self.done("systemctl", "start", "probe")
        status, said = self.ran("cat", "/run/probe.json")
        return set(json.loads(said)) if status == 0 else set()


def name_of(line):
    return line.partition("=")[0]
