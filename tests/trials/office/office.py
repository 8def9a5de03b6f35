"""What the cases of an office share: its desk as a service, with an agent, a station and a group, under load, and what the journal has of it."""
import contextlib
import json
import os
import re
import shutil
import sqlite3
import tempfile
import time
from pathlib import Path

from booted import Booted
from sections import section
from trial import Plan

HOME, STATE, FILE, SETTINGS = "/root", "/var/lib/acd", "/var/lib/acd/desk.db", "/etc/acd/acd.env"
PLANNED = Plan([("100", "Billing", 3, 2)], ["201"], [("7", "Ana")])
PLAN = PLANNED.text()
LOAD = "/usr/local/bin/load"

# asks for ticks, one after the other, each until it is answered, and writes down those that were
LOADING = """#!/usr/bin/python3
import http.client, json, socket, sys, time
class Desk(http.client.HTTPConnection):
    def connect(self):
        self.sock = socket.socket(socket.AF_UNIX)
        self.sock.settimeout(5)
        self.sock.connect("/run/acd/desk.sock")
requester, path, number = sys.argv[1], sys.argv[2], 0
with open(path, "a", buffering=1) as answered:
    while True:
        number += 1
        body, status = json.dumps({"requester": requester, "invoke": number, "service": "tick"}), 0
        while status != 200:
            try:
                desk = Desk("desk")
                desk.request("POST", "/csta", body)
                status = desk.getresponse().status
                desk.close()
            except (OSError, http.client.HTTPException):
                pass
            if status != 200:
                time.sleep(0.02)
        answered.write(f"{number}\\n")
"""


class Office(Booted):
    """Over the package, as apt leaves it, with a plan and a load in files."""

    included = ("strace",)

    @classmethod
    def prepare(cls):
        cls.container.put(LOAD, LOADING, 0o755)
        cls.container.put("/plan.csv", PLAN)

    # the desk and its files

    def inside(self, path=FILE):
        """A path of the container, with what is mounted there."""
        return Path("/proc", str(self.container.leader), "root", str(path).lstrip("/"))

    def held(self, *paths):
        """What these files have; nothing where there is none."""
        return [self.inside(path).read_bytes() if self.inside(path).exists() else None for path in paths or (FILE, f"{FILE}-wal")]

    def names(self, folder=STATE):
        return sorted(path.name for path in self.inside(folder).iterdir())

    def page(self, heading):
        """The part of the package's pages that has this heading."""
        parts = [section(page.read_text(), heading) for page in self.inside("/usr/share/doc/acd").glob("*.md")]
        return "".join(parts)

    def recipe(self, heading, begin, changed=None):
        """The lines of a part that are to be typed, from the one that begins so up to the next that aren't; `changed` has what stands for a word of the page."""
        found = re.search(rf"^    ({re.escape(begin)}.*\n(?:    .*\n)*)", self.page(heading), re.MULTILINE)
        self.expect(f"{heading} has lines from '{begin}' on", bool(found))
        lines = re.sub("^    ", "", found[1], flags=re.MULTILINE) if found else ""
        for old, new in (changed or {}).items():
            lines = lines.replace(old, new)
        return lines

    def typed(self, lines, user=None, at=HOME):
        """What somebody types in a folder, up to the first line that fails."""
        return self.container.shell(f"set -e; cd {at}\n{lines}", user=user)

    def set(self, name, value):
        """A line of acd.env; without a value there is none."""
        settings = self.inside(SETTINGS)
        text = re.sub(f"^{name}=.*\n", "", settings.read_text(), flags=re.MULTILINE)
        settings.write_text(text if value is None else f"{text}{name}={value}\n")

    def plan(self):
        self.done("systemctl", "stop", "acd")
        self.expect("a plan is taken", self.ran("acd", "import", "--file", FILE, "--plan", "/plan.csv", user="acd")[1].count("200 "), 3)
        self.done("systemctl", "start", "acd")
        self.serves("with a plan")

    def serves(self, when, port=None):
        place = f"http://127.0.0.1:{port}/snapshot" if port else self.at("/snapshot")
        self.expect(f"{when} the desk serves", self.eventually(lambda: self.curl(place), 200, 20), 200)

    def kill(self):
        """The desk is ended by SIGKILL, and stays down."""
        self.done("sh", "-c", 'kill -KILL "$(systemctl show --value --property=MainPID acd)" && systemctl stop acd')

    def sent(self, requester, count):
        """So many ticks, one after the other."""
        return [self.service(requester, number, "tick").get("result") for number in range(1, count + 1)]

    def kept(self, requester, folder=STATE):
        """The invoke numbers of a requester in a folder's desk, which is looked at in a copy, by SQLite."""
        with tempfile.TemporaryDirectory() as scratch:
            for part in ("desk.db", "desk.db-wal"):
                if self.inside(f"{folder}/{part}").exists():
                    shutil.copy(self.inside(f"{folder}/{part}"), scratch)
            with contextlib.closing(sqlite3.connect(Path(scratch) / "desk.db")) as book:
                return [row[0] for row in book.execute("SELECT invoke FROM kept WHERE requester = ? ORDER BY invoke", (requester,))]

    @contextlib.contextmanager
    def loaded(self, requester):
        """Under load; at its end `self.answered` has what was answered."""
        path = f"{HOME}/{requester}"
        self.done("systemd-run", "--quiet", "--collect", f"--unit=load-{requester}", LOAD, requester, path)
        try:
            self.eventually(lambda: self.inside(path).exists() and len(self.inside(path).read_text()) > 20, True)
            yield
        finally:
            self.done("systemctl", "stop", f"load-{requester}")
            self.answered = [int(line) for line in self.inside(path).read_text().splitlines()]

    # what systemd says

    def show(self, *what, unit="acd"):
        said = self.done("systemctl", "show", unit, *(f"--property={name}" for name in what))
        found = dict(line.split("=", 1) for line in said.splitlines())
        return [found[name] for name in what]

    def mark(self):
        """A place in the journal."""
        return json.loads(self.done("journalctl", "--no-pager", "--lines=1", "--output=json"))["__CURSOR"]

    def said_since(self, mark, name="ready"):
        """What a unit's command has said since that place."""
        # journalctl passes over what is behind a place where only some of the journal is asked for
        said = self.done("journalctl", "--no-pager", "--quiet", "--output=cat", f"--after-cursor={mark}")
        return [line for line in said.splitlines() if line.startswith(f"acdctl {name}: ")]

    def fails(self, what, *words, status="64", before=()):
        """The desk is started again: it has failed within two seconds, by one line with these words, isn't started again, and is named; the files are as they were."""
        # a clean stop writes the log into the file
        self.done("systemctl", "stop", "acd")
        were, mark = self.held(*before), self.mark()
        self.expect(f"{what}: the command says so", self.ran("systemctl", "restart", "acd")[0], 1)
        self.expect(f"{what}: it has failed", self.eventually(lambda: self.show("ActiveState")[0], "failed", 10), "failed")
        began, ended, used = map(int, self.show("ExecMainStartTimestampMonotonic", "ExecMainExitTimestampMonotonic", "CPUUsageNSec"))
        took = (ended - began) / 1e6
        # a busy machine keeps it waiting: there it may take a second of a processor
        self.expect(f"{what}: within two seconds ({took:.1f}, {used / 1e9:.1f} of a processor)", 0 < took < 2 or (took > 0 and used < 1e9 and os.getloadavg()[0] > os.cpu_count()))
        lines = self.said_since(mark)
        self.expect(f"{what}: {lines}", (len(lines), [word for word in words if not any(word in line for line in lines)]), (1, []))
        self.expect(f"{what}: its status", self.show("ExecMainStatus"), [status])
        self.expect_in(f"{what}: it is named", self.ran("systemctl", "--failed", "--no-legend", "--plain")[1], "acd.service")
        time.sleep(3)
        self.expect(f"{what}: it isn't started again", (self.show("ActiveState", "NRestarts"), len(self.said_since(mark))), (["failed", "0"], 1))
        self.expect(f"{what}: the files are as they were", self.held(*before) == were)

    def restarts(self, what):
        """It is started again, answers as soon as the command returns, and says nothing of faults."""
        mark = self.mark()
        self.done("systemctl", "restart", "acd")
        self.expect(f"{what}: it answers", self.curl(self.at("/snapshot")), 200)
        self.expect(f"{what}: what it says", self.said_since(mark), [])


class Planned(Office):
    """With the plan, which the desk takes first."""

    def try_plan(self):
        self.plan()
