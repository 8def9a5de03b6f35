"""What the trials of acd-copy stand on: a desk's file in a folder of its own, what it holds by an independent reader, and what is said of it."""
import contextlib
import hashlib
import http.client
import os
import shutil
import sqlite3
import struct
import subprocess
import tempfile
import threading
import time
from pathlib import Path

from shipped import SERVICE, shipped
from trial import Connection, Desk, Lines, Plan, Requests, Trial, compact, forked, line, ran
from trial.files import log_of

# that of Debian, which the scripts are run by
PYTHON = "/usr/bin/python3"
PLAN = Plan([("100", "Billing", 20, 30)], ["201"], [("7", "Ana")]).text()
PLANNED = 3
# another user, who owns a file
OTHER = "daemon"


def call(number, requester="x"):
    """A caller who waits, by the request of this number; it brings one event, and one more who waits."""
    return Requests(**{requester: number - 1})("arriveCall", requester, caller=f"0301{number}", called="100")


def sums(*paths):
    """What lies there, to the byte."""
    return [hashlib.sha256(path.read_bytes()).hexdigest() if path.is_file() else None for path in paths]


def kept(file):
    """The keys of the executed requests, in their order, as SQLite reads them; of a copy, which it may change."""
    with tempfile.TemporaryDirectory() as scratch:
        for part in (file, log_of(file)):
            if part.exists():
                shutil.copy(part, Path(scratch) / part.name)
        with contextlib.suppress(sqlite3.Error), contextlib.closing(sqlite3.connect(Path(scratch) / file.name)) as book:
            return [f"{requester} {invoke}" for requester, invoke in book.execute("SELECT requester, invoke FROM kept ORDER BY stamp")]
    return []


def frames(log):
    """The offsets of a log's frames, by its head."""
    head = log.read_bytes()[:32]
    page = struct.unpack_from(">I", head, 8)[0]
    return [offset for offset in range(32, log.stat().st_size - 24 - page + 1, 24 + page) if log.read_bytes()[offset + 8:offset + 16] == head[16:24]]


def spoil(path, offset):
    """Turns one bit."""
    with open(path, "rb+") as file:
        file.seek(offset)
        byte = file.read(1)
        file.seek(offset)
        file.write(bytes([byte[0] ^ 1]))


class Office:
    """A folder with the file of a desk and its copies."""

    def __init__(self, folder, program, script):
        self.folder, self.program, self.script = Path(folder), program, script
        self.file, self.copies, self.started = self.folder / "desk.db", self.folder / "copies", []

    def settings(self):
        return {"PATH": f"{self.program.parent}:/usr/sbin:/usr/bin:/sbin:/bin", "LC_ALL": "C.UTF-8"}

    def run(self, *words, given="", cwd=None, user=None):
        as_user = ["setpriv", "--reuid", user, "--regid", user, "--clear-groups", "--"] if user else []
        return ran(*as_user, *words, given=given, cwd=cwd or self.folder, env=self.settings())

    def words(self, *words):
        return [PYTHON, self.script, "--file", self.file, "--folder", self.copies, *words]

    def copy(self, *words, given="", cwd=None, user=None):
        """acd-copy over this file."""
        if user:
            return self.run(*self.words(*words), given=given, cwd=cwd, user=user)
        return self.command(*self.words(*words)[1:], given=given, cwd=cwd)

    def command(self, *words, given="", cwd=None):
        """A program that stands beside the script that is tried, or that script."""
        return forked(*words, given=given, cwd=cwd or self.folder, env=self.settings())

    # the desk

    def plan(self):
        (self.folder / "plan.csv").write_text(PLAN)
        status, said, faults = self.run("acd", "import", "--file", self.file, "--plan", self.folder / "plan.csv")
        if (status, said.count("200 "), faults) != (0, PLANNED, ""):
            raise ValueError(f"no plan is taken: {said}{faults}")

    def feed(self, requests, kills=False):
        """The requests are answered; the desk is closed then, or killed, which leaves the last of them in the log."""
        with Lines(self.program, self.file) as desk:
            for request in requests:
                if not desk.say(line(5, request)).startswith("200 "):
                    raise ValueError(f"{request} isn't answered")
            if not kills:
                desk.ends()

    def serve(self):
        """A desk that serves, until the office's end."""
        self.started.append(Desk("acd", self.file, variables=self.settings(), cwd=self.folder))
        return self.started[-1]

    def end(self):
        for desk in self.started:
            desk.kill()
        self.started = []

    def copy_now(self):
        """The moment of a copy that is sound."""
        status, said, faults = self.copy()
        name = said.rpartition("sound: ")[2].strip().rpartition("/")[2]
        if status or not name:
            raise ValueError(f"no copy is made: {said}{faults}")
        return name

    def folders(self, pattern, where=None):
        return sorted((where or self.folder).glob(pattern))


def ask(port, request):
    """The status and the body of an answer."""
    with Connection(port, seconds=5) as desk:
        reply = desk.ask("POST", "/csta", compact(request))
    return reply.status, reply.text


class Load:
    """Callers without an end, one request after the other; what was answered is noted."""

    def __init__(self, port, pause=0.002):
        self.port, self.pause, self.answered, self.goes_on = port, pause, {}, True
        self.thread = threading.Thread(target=self.work, daemon=True)
        self.thread.start()

    def work(self):
        number = 0
        while self.goes_on:
            number += 1
            try:
                status, said = ask(self.port, call(number, "load"))
            except (OSError, http.client.HTTPException):
                time.sleep(0.01)
                continue
            # a refusal is kept too, as that behind the greatest number of callers is
            if status in (200, 409):
                self.answered[number] = status, said
            time.sleep(self.pause)

    def until(self, count):
        """Waits for so many more answers."""
        wanted, end = len(self.answered) + count, time.monotonic() + 120
        while len(self.answered) < wanted and time.monotonic() < end:
            time.sleep(0.01)
        return len(self.answered) >= wanted

    def stop(self):
        self.goes_on = False
        self.thread.join()


def lost(load, port):
    """The answered requests that a desk knows nothing of: sent again, they don't bring their answer."""
    return [number for number, said in load.answered.items() if ask(port, call(number, "load")) != said]


def listing(folder):
    """All that lies in a folder, with modes, links and bytes."""
    found = {}
    for path in sorted(folder.rglob("*")):
        about = os.lstat(path)
        content = os.readlink(path) if path.is_symlink() else (hashlib.sha256(path.read_bytes()).hexdigest() if path.is_file() else "")
        found[str(path.relative_to(folder))] = (about.st_mode, about.st_uid, content)
    return found


class Part(Trial):
    """Over desks in folders of their own, by a script that may have a fault."""

    script = SERVICE / "bin/acd-copy"

    @classmethod
    def setUpClass(cls):
        super().setUpClass()
        cls.folder.chmod(0o755)

    def copied_script(self):
        """A copy of the script that is tried, in a folder of its own, and the folder of its modules, which may get another text there."""
        folder = Path(tempfile.mkdtemp(dir=self.folder))
        folder.chmod(0o755)
        script = shipped(folder / "operating", of=self.script.parents[1]) / "acd-copy"
        return script, folder / "operating/acd_service"

    def office(self, owner=None, folder=None):
        """A desk with a plan and two callers."""
        office = Office(folder or tempfile.mkdtemp(dir=self.folder), self.program, self.script)
        self.addCleanup(office.end)
        office.plan()
        office.feed([call(1), call(2)])
        if owner:
            subprocess.run(["chown", "-R", f"{owner}:{owner}", office.folder], check=True)
        return office

    @contextlib.contextmanager
    def ext4(self, gigabytes):
        """A disk of this size in a file of this machine's disk, with a file system that copies no file by reference."""
        with tempfile.TemporaryDirectory(dir="/var/tmp") as scratch:
            image, folder = Path(scratch) / "image", Path(scratch) / "disk"
            folder.mkdir()
            subprocess.run(["truncate", "--size", f"{gigabytes}G", image], check=True)
            subprocess.run(["mkfs.ext4", "-q", "-m", "0", image], check=True)
            subprocess.run(["mount", "-o", "loop", image, folder], check=True)
            try:
                (folder / "desk").mkdir()
                yield folder / "desk"
            finally:
                subprocess.run(["umount", folder], check=True)

    @contextlib.contextmanager
    def disk(self, size):
        """A disk of this size."""
        folder = Path(tempfile.mkdtemp(dir=self.folder))
        subprocess.run(["mount", "-t", "tmpfs", "-o", f"mode=755,size={size}", "full", folder], check=True)
        try:
            yield folder
        finally:
            subprocess.run(["umount", "--lazy", folder], check=True)
