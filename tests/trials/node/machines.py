"""Three members of etcd and three nodes on loopback, in a folder of their own, and who asks them."""
import base64
import http.client
import json
import os
import re
import shutil
import signal
import ssl
import subprocess
import time
from collections import namedtuple
from pathlib import Path

from trial import Connection, Trial, free_ports, until

COMMANDS = Path(__file__).resolve().parents[3] / "service/bin"
LINE = base64.b64encode(b"desk/line").decode()
NAMES = "m1,m2,m3"
USERS = [*NAMES.split(","), "upkeep", "root"]
# An entry, as docs/MACHINES.md says: written anew here, so that a node that reads it otherwise is found. As many may be in a value, of so many bytes.
ENTRY = re.compile(rb"[0-9a-fA-F]{32} ([0-9]{1,10} [^\r\n]{1,4096})", re.DOTALL)
MOST, LONGEST_VALUE = 100, 262144
# Seconds: until a request has its answer, and what waits for the machines ends; and for a program that ends by itself.
PATIENCE, LONGEST = 120, 600
# A request that was answered: when it was first sent, how long it took, and how often it was sent.
Answered = namedtuple("Answered", "body status reply start seconds tries machine")


def is_entry(entry):
    found = ENTRY.fullmatch(entry)
    return bool(found) and not found.group(1).split(b" ", 1)[1].startswith((b"GET", b"HEAD"))


def entries_in(value):
    """What counts one each: the entries of a value, or what is no value."""
    lines = value[2:].split(b"\n") if value.startswith(b"*\n") else [value]
    good = all(map(is_entry, lines)) and len(lines) <= MOST and len(value) <= LONGEST_VALUE
    return lines if good else [value]


def run(words, **more):
    """A program that ends by itself, and in time."""
    return subprocess.run(list(map(str, words)), stdout=subprocess.PIPE, timeout=LONGEST, **more)


def wait_until(so, seconds=PATIENCE, step=1.0):
    """Whether it became so in time."""
    return until(so, seconds, step)


def set_up_network():
    """An address beside loopback."""
    for words in ("link add eth0 type veth peer name eth1", "address add 10.0.0.1/24 dev eth0", "link set eth0 up", "link set eth1 up"):
        run(["ip", *words.split()], check=True)


class NoAnswer(Exception):
    """A request that had only 503 for so long that what comes after it means nothing."""


class Machines:
    """With names each machine puts its place into etcd, and the log is shortened; a quota is etcd's. With users each machine and the upkeep has one at etcd, which asks for
    them from `ask_for_users` on."""

    def __init__(self, program, folder, encrypted, see, names=False, quota=0, gone=72.0, users=False, commands=COMMANDS):
        self.program, self.folder, self.see, self.etcd, self.nodes, self.commands = program, Path(folder), see, {}, {}, commands
        self.names, self.quota, self.gone = names, quota, gone
        self.passwords = {user: os.urandom(8).hex() for user in USERS} if users else {}
        self.user, self.tokens = None, {}                  # as whom this trial asks etcd
        ports = free_ports(9)
        self.ports, self.clients, self.peers = ([0, *ports[at:at + 3]] for at in (0, 3, 6))
        self.ends = ",".join(f"127.0.0.1:{port}" for port in self.clients[1:])
        self.context = self.certify() if encrypted else None
        for user, password in self.passwords.items():
            (self.folder / f"{user}.password").write_text(f"{password}\n")
            (self.folder / f"{user}.password").chmod(0o640)

    def certify(self):
        """One certificate for all, which a new authority of ours has signed. It has no CN, since etcd refuses one where it asks for users."""
        ca, key = [self.folder / "ca.crt", "-CAkey", self.folder / "ca.key"], ["req", "-newkey", "rsa:2048", "-nodes", "-subj"]
        (self.folder / "names").write_text("subjectAltName=IP:127.0.0.1\nextendedKeyUsage=serverAuth,clientAuth\n")
        for words in [[*key, "/CN=desks", "-x509", "-days", "2", "-keyout", self.folder / "ca.key", "-out", self.folder / "ca.crt"],
                      [*key, "/O=desk", "-keyout", self.folder / "m.key", "-out", self.folder / "m.csr"],
                      ["x509", "-req", "-in", self.folder / "m.csr", "-CA", *ca, "-CAcreateserial", "-days", "2", "-extfile", self.folder / "names", "-out", self.folder / "m.crt"]]:
            run(["openssl", *words], check=True, stderr=subprocess.DEVNULL)
        context = ssl.create_default_context(cafile=self.folder / "ca.crt")
        context.load_cert_chain(self.folder / "m.crt", self.folder / "m.key")
        return context

    def start(self):
        for n in (1, 2, 3):
            self.start_etcd(n)
        time.sleep(3)
        for n in (1, 2, 3):
            self.start_node(n)
        time.sleep(1)

    def stop(self):
        for n in self.nodes:
            if self.nodes[n].poll() is None:
                self.kill_node(n)
        for member in self.etcd.values():
            member.kill()
            member.wait()

    def ask(self, machine, body, wait=15, target="/csta"):
        """The status and the body, or 503 where the machine doesn't answer. What has no body is a read."""
        try:
            with Connection(self.ports[machine], self.context, wait) as connection:
                reply = connection.ask("GET" if body is None else "POST", target, body)
            return reply.status, reply.body
        except (OSError, http.client.HTTPException):
            return 503, b""

    def start_etcd(self, n):
        web = "https" if self.context else "http"
        peers = ",".join(f"e{k}={web}://127.0.0.1:{self.peers[k]}" for k in (1, 2, 3))
        client, peer = f"{web}://127.0.0.1:{self.clients[n]}", f"{web}://127.0.0.1:{self.peers[n]}"
        words = ["etcd", "--name", f"e{n}", "--data-dir", self.folder / f"etcd{n}", "--log-level", "error", "--listen-client-urls", client, "--advertise-client-urls", client,
                 "--listen-peer-urls", peer, "--initial-advertise-peer-urls", peer, "--initial-cluster", peers, "--initial-cluster-token", "desk", "--initial-cluster-state", "new"]
        words += ["--quota-backend-bytes", self.quota] if self.quota else []
        for to in ["", "peer-"] if self.context else []:
            words += [f"--{to}cert-file", self.folder / "m.crt", f"--{to}key-file", self.folder / "m.key", f"--{to}client-cert-auth", f"--{to}trusted-ca-file", self.folder / "ca.crt"]
        self.etcd[n] = subprocess.Popen(list(map(str, words)), stdout=subprocess.DEVNULL, stderr=subprocess.DEVNULL)

    def etcd_options(self, user):
        words = ["--etcd", self.ends, *(["--etcd-ca", self.folder / "ca.crt", "--etcd-cert", self.folder / "m.crt", "--etcd-key", self.folder / "m.key"] if self.context else [])]
        return words + (["--etcd-user", user, "--etcd-password", self.folder / f"{user}.password"] if self.passwords else [])

    def ask_for_users(self):
        """As docs/MACHINES.md has it: a machine may write the log and what is below its own name."""
        grant, may = ["role", "grant-permission"], "--prefix=true"
        commands = [["role", "add", "node"], [*grant, "node", "read", may, "desk/line"], [*grant, "node", "readwrite", "desk/line"]]
        for user in USERS:
            commands.append(["user", "add", user, "--interactive=false"])
            if user in NAMES:
                commands += [["role", "add", user], [*grant, user, "readwrite", f"desk/line/place/{user}"], [*grant, user, "readwrite", may, f"desk/line/digest/{user}/"]]
            commands += [["user", "grant-role", user, role] for role in (["node", user] if user in NAMES else ["root"])]
        for words in [*commands, ["auth", "enable"]]:
            self.see(f"etcdctl {' '.join(words)}", self.etcdctl(*words, value=f"{self.passwords.get(words[2], '')}\n".encode() if "add" in words else None))
        self.user = "root"

    def start_node(self, n):
        words = [self.commands / "acd-node", "--name", f"m{n}", "--folder", self.folder / f"m{n}", "--port", self.ports[n], "--desk", self.program, *self.etcd_options(f"m{n}")]
        words += ["--machines", NAMES, "--gone", self.gone] if self.names else []
        if self.context:
            words += ["--cert", self.folder / "m.crt", "--key", self.folder / "m.key", "--client-ca", self.folder / "ca.crt"]
        with open(self.folder / f"node{n}.log", "a") as log:
            self.nodes[n] = subprocess.Popen(list(map(str, words)), stdout=log, stderr=log, start_new_session=True)

    def upkeep(self):
        """What the timer does, done now: its status and its lines."""
        done = run([COMMANDS / "acd-node", "--upkeep", "now", "--name", "m1", "--machines", NAMES, *self.etcd_options("upkeep")], stderr=subprocess.STDOUT, text=True)
        return done.returncode, done.stdout

    def said(self, n):
        return (self.folder / f"node{n}.log").read_text()

    def kill_node(self, n):
        if self.nodes[n].poll() is None:
            os.killpg(self.nodes[n].pid, signal.SIGKILL)
            self.nodes[n].wait()

    def restart_nodes(self, names):
        """All of them, with the machines' names or without: then none shortens the log."""
        for n in (1, 2, 3):
            self.kill_node(n)
        self.names = names
        for n in (1, 2, 3):
            self.start_node(n)

    def refuses(self, n, words):
        """Whether the node goes on and says this, and answers 503 to requests and reads."""
        body = '{"requester":"refused","invoke":1,"service":"tick"}'
        return wait_until(lambda: words in self.said(n) and self.ask(n, body)[0] == self.ask(n, None, 5, "/snapshot")[0] == 503 and self.nodes[n].poll() is None, 60)

    def kill_desk(self, n):
        """Whether the node had one."""
        children = [int(child) for thread in Path(f"/proc/{self.nodes[n].pid}/task").iterdir() for child in (thread / "children").read_text().split()]
        for child in children:
            os.kill(child, signal.SIGKILL)
        return bool(children)

    def leads(self, n):
        try:
            status = self.etcd_call(n, "/v3/maintenance/status", {})
            return status["leader"] == status["header"]["member_id"]
        except (OSError, http.client.HTTPException, KeyError, ValueError):
            return False

    def kill(self, kind, chance):
        """One process, and it again after a second."""
        members = [n for n in (1, 2, 3) if self.leads(n) == (kind == "leader")] or [1]
        n = chance.choice(members if kind in ("leader", "follower") else [1, 2, 3])
        if kind in ("leader", "follower"):
            self.etcd[n].kill()
            self.etcd[n].wait()
            time.sleep(1)
            self.start_etcd(n)
        elif kind == "desk":
            self.see("a desk is killed", wait_until(lambda: self.kill_desk(n), step=0.1))   # a node that has just started has none yet
        else:
            self.kill_node(n)
            time.sleep(1)
            self.start_node(n)

    def fields(self, n, user=None, anew=False):
        """With a token, where etcd asks for users."""
        user = user or self.user
        if user and (anew or (n, user) not in self.tokens):
            with Connection(self.clients[n], self.context, 20) as connection:
                body = json.dumps({"name": user, "password": self.passwords[user]})
                self.tokens[n, user] = connection.ask("POST", "/v3/auth/authenticate", body).value["token"]
        return [("Authorization", self.tokens[n, user])] if user else []

    def etcd_call(self, n, path, body, user=None):
        for anew in (False, True):                         # a token ends where nobody uses it
            with Connection(self.clients[n], self.context, 20) as connection:
                found = connection.ask("POST", path, json.dumps(body), self.fields(n, user, anew)).value
            if "invalid auth token" not in str(found.get("error")):
                break
        return found

    def etcdctl(self, *words, value=None, user=None):
        """Whether etcdctl did it; the value is its standard input."""
        ends, user = [f"https://{end}" if self.context else end for end in self.ends.split(",")], user or self.user
        files = [f"--cacert={self.folder}/ca.crt", f"--cert={self.folder}/m.crt", f"--key={self.folder}/m.key"] if self.context else []
        files += [f"--user={user}:{self.passwords[user]}"] if user else []
        done = run(["etcdctl", f"--endpoints={','.join(ends)}", *files, *words], input=value, stderr=subprocess.STDOUT, env={**os.environ, "ETCDCTL_API": "3"})
        return done.returncode == 0

    def everything(self, begin=1):
        """All that was put from this revision on, as etcd keeps it: entries, each by itself, and what is no value; what was deleted is empty."""
        last = max([int(kv["mod_revision"]) for kv in self.etcd_call(1, "/v3/kv/range", {"key": LINE}).get("kvs", [])], default=0)
        place, found = begin - 1, []
        with Connection(self.clients[1], self.context) as watch:
            watch.connection.request("POST", "/v3/watch", json.dumps({"create_request": {"key": LINE, "start_revision": str(begin)}}), dict(self.fields(1)))
            answer = watch.connection.getresponse()
            while place < last:
                for event in json.loads(answer.readline())["result"].get("events", []):
                    place = int(event["kv"]["mod_revision"])
                    found += entries_in(base64.b64decode(event["kv"].get("value", "")))
        return found

    def log(self, begin=1):
        """The entries of the log from this revision on, without their tokens."""
        return [entry.split(b" ", 1)[1] for entry in self.everything(begin) if is_entry(entry)]

    def compact(self, place):
        """Whether the log forgets its entries up to this place."""
        return "header" in self.etcd_call(1, "/v3/kv/compaction", {"revision": str(place), "physical": True})

    def places(self):
        """The place, the count and the digest of each machine; what follows them in `at` may differ."""
        return [(self.folder / f"m{n}/at").read_text().split()[:3] if (self.folder / f"m{n}/at").exists() else None for n in (1, 2, 3)]

    def are_equal(self):
        places = self.places()
        if places[0] and places[0] == places[1] == places[2]:
            time.sleep(1)
            return places == self.places()
        return False

    def wait_until_equal(self, seconds=PATIENCE):
        return wait_until(self.are_equal, seconds, 0.3)

    def ask_until_answered(self, body, chance, answered, machines=(1, 2, 3)):
        start, tries = time.time(), 0
        while True:
            machine = chance.choice(machines)
            status, reply = self.ask(machine, body)
            tries += 1
            if status != 503:
                answered.append(Answered(body, status, reply, start, time.time() - start, tries, machine))
                return
            if time.time() > start + PATIENCE:
                self.see(f"a request has its answer within {PATIENCE} s", False, body.strip())
                raise NoAnswer(body.strip())
            time.sleep(0.05)

    def arrive(self, requester, caller, many, chance, machines=(1, 2, 3)):
        """So many new requests, each answered."""
        for invoke in range(1, many + 1):
            body = {"requester": requester, "invoke": invoke, "service": "arriveCall", "caller": f"{caller}{invoke:04}", "called": "100"}
            self.ask_until_answered(json.dumps(body), chance, [], machines)

    def copy_folder(self, to, source):
        """As docs/MACHINES.md has it: both are stopped, and the machine that is copied from is so until the other one has started."""
        for n in (to, source):
            self.kill_node(n)
        run(["rm", "-rf", self.folder / f"m{to}"], check=True)
        run(["cp", "-a", self.folder / f"m{source}", self.folder / f"m{to}"], check=True)
        self.start_node(to)
        time.sleep(3)
        self.start_node(source)

    def put_older_file(self, n, many, chance):
        """The machine goes on with its desk's file of before so many calls, below its newer place."""
        self.kill_node(n)
        shutil.copytree(self.folder / f"m{n}", self.folder / "older")
        self.start_node(n)
        self.arrive("newer", "0500", many, chance)
        self.wait_until_equal()
        self.kill_node(n)
        shutil.copy(self.folder / "older/desk.db", self.folder / f"m{n}/desk.db")
        (self.folder / f"m{n}/desk.db-wal").unlink(missing_ok=True)
        self.start_node(n)


class OfMachines(Trial):
    """A part of the trial. `chance` is one for all parts."""

    chance = None

    def begin(self, program=None, encrypted=None, folder=None, **how):
        """Three machines, which are stopped with the method."""
        machines = Machines(program or self.program, folder or self.folder, encrypted or self.options.tls, self.see, **how)
        self.addCleanup(machines.stop)
        machines.start()
        return machines
