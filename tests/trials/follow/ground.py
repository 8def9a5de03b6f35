"""What try-follow stands on: desks that serve, the script that follows them, what stands between, and what files hold by an independent reader."""
import contextlib
import functools
import itertools
import json
import re
import shutil
import signal
import socket
import ssl
import subprocess
import tempfile
import threading
import time
from http.client import HTTPException
from pathlib import Path

from shipped import shipped
from trial import Connection, Desk, Trial, forked, ran, until
from trial.files import copied, held

import limits
import office
import switch
import tables

# that of Debian, which the scripts are run by
PYTHON = "/usr/bin/python3"
STATE = re.compile(r" has the requests up to (\d+); (?:the desk hasn't answered yet|the last that the desk told of is (\d+), at ([-0-9: ]+ UTC))\n$")
PATIENCE = 120
# all that is tried is alone in its network, and below these nobody is given a port
PORTS = itertools.count(18001)


class Ground(Trial):
    """A class has the program as `acd`, and the scripts under trial, of which acd-follow may have another text."""

    another = None

    @classmethod
    def setUpClass(cls):
        super().setUpClass()
        program = cls.folder / "bin/acd"
        program.parent.mkdir()
        cls.program = Path(shutil.copy(Trial.program, program))
        cls.scripts = shipped(cls.folder / "scripts", {"follow.py": cls.another} if cls.another else {})

    @classmethod
    def settings(cls, more=()):
        return {"PATH": f"{cls.program.parent}:/usr/sbin:/usr/bin:/sbin:/bin", "LC_ALL": "C.UTF-8", **dict(more)}

    @classmethod
    def ran(cls, *words, more=()):
        return ran(*words, seconds=600, env=cls.settings(more))

    @classmethod
    def script(cls, name, *words, more=()):
        return forked(cls.scripts / name, *words, env=cls.settings(more))

    @classmethod
    def once(cls, address, file, *words, **how):
        """acd-follow until it has caught up: its status, what it said of the copy, and what it told."""
        return cls.script("acd-follow", address, "--file", file, "--once", *words, **how)

    @classmethod
    def feed(cls, file, lines):
        done = cls.acd("lines", "--file", file, given="".join(f"{line}\n" for line in lines))
        cls.expect(f"acd lines: {done.faults}", done.status, 0)

    def new_file(self, of=None):
        """The name of a new copy, or one that has what the desk has."""
        file = Path(tempfile.mkdtemp(dir=self.folder)) / "copy.db"
        if of:
            copied(of, file.parent)
            for path in list(file.parent.iterdir()):
                path.rename(path.with_name(path.name.replace(of.name, file.name)))
        return file

    def judge(self, what, file, desk, is_whole=True):
        """The copy is what the first of the desk's requests make; and all that the desk has."""
        has, wanted = held(file), desk.rows()
        self.expect(f"{what}: its requests are a beginning of the desk's", is_beginning(has["kept"], wanted["kept"]))
        self.expect(f"{what}: its rows are foreseen", [table for table, rows in foreseen(has["kept"]).items() if rows != has[table]], [])
        if is_whole:
            differing = [table for table in wanted if has[table] != wanted[table]]
            self.expect(f"{what}: {len(has['kept'])} requests are {len(wanted['kept'])}, row for row", differing, [])
        return len(has["kept"])


# Desks, and who follows them

class Served:
    """A desk over a file, at one port, however often it is killed. It ends with the trial's method, or with its class."""

    def __init__(self, trial, file):
        self.trial, self.file, self.port, self.desk = trial, file, next(PORTS), None
        self.address = f"http://127.0.0.1:{self.port}"

    def start(self):
        self.desk = Desk(self.trial.program, self.file, port=self.port)
        (self.trial.addClassCleanup if isinstance(self.trial, type) else self.trial.addCleanup)(self.desk.kill)
        return self

    def kill(self):
        """It served until now: a desk that ended by itself said why on standard error."""
        self.trial.expect(f"{self.address} still served: {self.desk.said()}", self.desk.process.poll(), None)
        self.desk.kill()

    def rows(self):
        """What its file holds just now; it is halted for that."""
        process = self.desk and self.desk.process
        runs = process and process.poll() is None
        if runs:
            process.send_signal(signal.SIGSTOP)
            until(lambda: "\nState:\tT" in Path(f"/proc/{process.pid}/status").read_text(), PATIENCE, 0.01)
        try:
            return held(self.file)
        finally:
            if runs:
                process.send_signal(signal.SIGCONT)


class Follower:
    """acd-follow over a file, and what it said."""

    def __init__(self, trial, address, file, *words, more=(), **how):
        # a file takes what it says, since nobody reads a pipe meanwhile
        self.said = tempfile.NamedTemporaryFile("w+", dir=trial.folder)
        words = [PYTHON, trial.scripts / "acd-follow", address, "--file", file, *words]
        self.process = subprocess.Popen([*map(str, words)], stdout=self.said, stderr=subprocess.STDOUT, env=trial.settings(more), **how)
        trial.addCleanup(self.kill)

    def has_ended(self):
        return self.process.poll() is not None

    def text(self):
        return Path(self.said.name).read_text()

    def end(self, by=signal.SIGTERM):
        """Its status, and what it said."""
        if not self.has_ended():
            self.process.send_signal(by)
        self.process.wait(PATIENCE)
        return self.process.returncode, self.text()

    def kill(self):
        self.process.kill()
        self.process.wait()

    def desk(self):
        """The process of its desk."""
        told = subprocess.run(["ps", "-o", "pid=", "--ppid", str(self.process.pid)], capture_output=True, text=True).stdout.split()
        return int(told[0]) if told else None


def state_in(said):
    """What it said of the copy at its end: how many requests it has, and how many the desk told of."""
    found = STATE.search(said)
    return (int(found[1]), int(found[2]) if found[2] else None) if found else None


class Between:
    """Stands between a desk and who follows it: passes each exchange on, and what `alter` makes of its answer back; that gets the number of the exchange,
    the path, the status and the body. Where it makes nothing the connection is closed without an answer."""

    def __init__(self, desk, alter=lambda number, path, status, body: (status, body), context=None, needs=None):
        self.desk, self.alter, self.context, self.needs, self.asked = desk, alter, context, needs, []
        self.listener = socket.create_server(("127.0.0.1", next(PORTS)))
        self.address = f"{'https' if context else 'http'}://127.0.0.1:{self.listener.getsockname()[1]}"
        threading.Thread(target=self.serve, daemon=True).start()

    def serve(self):
        while True:
            connection, _ = self.listener.accept()
            try:
                with self.context.wrap_socket(connection, server_side=True) if self.context else connection as peer:
                    peer.settimeout(10)
                    self.exchange(peer)
            except OSError:
                pass

    def exchange(self, peer):
        head = b""
        while b"\r\n\r\n" not in head:
            more = peer.recv(65536)
            if not more:
                return
            head += more
        path = head.split(b" ")[1].decode()
        number = len(self.asked)
        self.asked.append([path, time.monotonic(), None])
        if self.needs and f"authorization: basic {self.needs}".lower() not in head.decode().lower():
            told = 401, b'{"error":{"code":42,"name":"unauthorized"}}'
        else:
            told = self.alter(number, path, *ask(self.desk.port, path))
        if told:
            status, body = told
            fields = f"Content-Type: application/json\r\nContent-Length: {len(body)}\r\nConnection: close"
            peer.sendall(f"HTTP/1.1 {status} Said\r\n{fields}\r\n\r\n".encode() + body)
        self.asked[number][2] = time.monotonic()


def ask(port, path, body=None):
    """The status of an answer, and its bytes."""
    with Connection(port, seconds=10) as connection:
        return connection.ask("POST" if body else "GET", path, body)[::2]


def certificate(folder):
    """A certificate of the loopback address, and a server's context with it."""
    subject = ["-subj", "/CN=desk", "-addext", "subjectAltName=IP:127.0.0.1", "-days", "2"]
    words = ["openssl", "req", "-x509", "-newkey", "rsa:2048", "-nodes", *subject, "-keyout", folder / "key", "-out", folder / "crt"]
    subprocess.run(words, check=True, capture_output=True)
    context = ssl.SSLContext(ssl.PROTOCOL_TLS_SERVER)
    context.load_cert_chain(folder / "crt", folder / "key")
    return folder / "crt", context


# An office's day

def day(seed, requests, repeats=0):
    """The lines of an office's day, refusals among them; at its end are repeats, and other requests under keys that are used."""
    size = office.DAY._replace(seed=seed, requests=requests, repeats=repeats, reused=repeats // 10, wanted={}, named=set())
    return office.Office(size, limits.Noting()).day().given


def endless_day(seed):
    """Such lines, as many as are asked for."""
    busy, told = office.Office(office.DAY._replace(seed=seed), limits.Noting()), 0
    busy.open()
    while True:
        yield from busy.given[told:]
        told = len(busy.given)
        busy.work()


class Load:
    """Requests one after the other, each once more at times; each is sent until it is answered."""

    def __init__(self, port, lines, chance, pause=0.005):
        self.port, self.lines, self.chance, self.pause = port, lines, chance, pause
        self.goes_on, self.sent = True, 0
        self.thread = threading.Thread(target=self.work, daemon=True)
        self.thread.start()

    def work(self):
        requests = []
        for line in self.lines:
            requests.append(line.partition(" ")[2])
            self.insist(requests[-1])
            if self.chance.random() < 0.05:
                self.insist(self.chance.choice(requests))
            if not self.goes_on:
                return

    def insist(self, request):
        while self.goes_on:
            status = None
            with contextlib.suppress(OSError, HTTPException):
                status, _ = ask(self.port, "/csta", request)
            if status not in (None, 503):
                self.sent += 1
                time.sleep(self.pause)
                return
            time.sleep(0.01)

    def stop(self):
        self.goes_on = False
        self.thread.join()


# What a file holds

def last_of(file):
    """The number of the last request that it has."""
    has = held(file)["kept"]
    return has[-1][0] if has else 0


def foreseen(kept):
    """The rows of a file that has executed these requests, as the switch in Python has them."""
    return rows_of(tuple(row[1:5] for row in kept))


@functools.cache
def rows_of(requests):
    """Each with its requester, invoke, moment and text. Most copies of a trial have the same ones."""
    desk = switch.Desk()
    for requester, invoke, moment, request in requests:
        members = {name: value for name, value in json.loads(request).items() if name not in ("requester", "invoke")}
        desk.take(moment, requester, invoke, members.pop("service"), **members)
    desk.moments = [moment for _, _, moment, _ in requests]
    return tables.rows(desk)


def is_beginning(some, all_of_them):
    return some == all_of_them[:len(some)]
