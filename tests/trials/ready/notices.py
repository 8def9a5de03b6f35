"""Cases of what systemd is told: that a desk has started, once it answers at its port."""
import contextlib
import os
import socket
import subprocess
import sys
import time
from pathlib import Path

from ground import MEND, Ready
from trial import TOP, free_port, running, until

# a desk that is played: it listens behind so many seconds, or ends then
PLAYED = """#!{python}
import os, socket, sys, time
time.sleep({seconds})
if {listens}:
    listener = socket.create_server(("127.0.0.1", int(sys.argv[sys.argv.index("--port") + 1])))
    while True:
        asks = listener.accept()[0]
        asks.recv(4096)
        asks.sendall(b"HTTP/1.1 404 Not Found\\r\\n\\r\\n")
        asks.close()
"""


class Notices(Ready):
    opening = 2

    @contextlib.contextmanager
    def noticed(self, address=None):
        """What systemd would hear, and the address that it gives."""
        with socket.socket(socket.AF_UNIX, socket.SOCK_DGRAM) as hears:
            name = address or str(self.folder / "notify")
            Path(name).unlink(missing_ok=True)
            hears.bind("\0" + name[1:] if name.startswith("@") else name)
            yield hears, {"NOTIFY_SOCKET": name}

    def begun(self, seconds, listens, variables):
        folder = self.folder / "played"
        folder.mkdir(exist_ok=True)
        (folder / "acd").write_text(PLAYED.format(python=sys.executable, seconds=seconds, listens=listens))
        (folder / "acd").chmod(0o755)
        port = free_port()
        return subprocess.Popen(list(map(str, self.words("--serve", "--file", self.new(), "--port", port))), env={**self.finding(folder), **variables}), port

    def asking(self, port):
        """The processes that ask whether the desk at this port answers."""
        found = []
        for words in Path("/proc").glob("[0-9]*/cmdline"):
            with contextlib.suppress(OSError):
                said = words.read_bytes().split(b"\0")
                found += [words.parent.name] if str(port).encode() in said and any(word.endswith(b"acd-ready") for word in said) else []
        return found

    def held(self, process):
        """What a process has open besides its first three, by its name or its kind."""
        return sorted(os.readlink(one).partition(":")[0] for one in Path(f"/proc/{process}/fd").iterdir() if int(one.name) > 2)

    def heard(self, hears, seconds):
        hears.settimeout(seconds)
        try:
            return hears.recv(100)
        except TimeoutError:
            return None

    def try_slow_opening(self):
        """However long the desk reads its file, it has started once it answers, and not before."""
        for name in (None, f"@ready-{os.getpid()}"):
            with self.noticed(name) as (hears, variables):
                began, (desk, port) = time.monotonic(), self.begun(self.opening, True, variables)
                try:
                    self.expect("it is told, and nothing else", (self.heard(hears, self.opening + 60), self.heard(hears, 1)), (b"READY=1", None))
                    self.expect("not before the desk listens", time.monotonic() - began > self.opening)
                    self.expect("the desk has its process, and the other one has ended", (Path(f"/proc/{desk.pid}/cmdline").read_bytes().split(b"\0")[1].rsplit(b"/")[-1], self.asking(port)), (b"acd", []))
                    children = subprocess.run(["ps", "--ppid", str(desk.pid), "-o", "pid="], stdout=subprocess.PIPE).stdout
                    self.expect("it is no child of the desk", children, b"")
                finally:
                    desk.kill()
                    desk.wait()

    def try_early_end(self):
        """A desk that ends before it listens has not started, and nobody goes on asking."""
        with self.noticed() as (hears, variables):
            desk, port = self.begun(1.5, False, variables)
            self.expect("somebody asks meanwhile", bool(until(lambda: len(self.asking(port)) > 0)))
            desk.wait()
            self.expect("behind its end nobody does", (until(lambda: not self.asking(port)), self.heard(hears, 1)), (True, None))

    def try_refused(self):
        """What keeps a desk from being served is told before anybody asks its port."""
        with self.noticed() as (hears, variables), socket.create_server(("127.0.0.1", 0)) as other:
            port = other.getsockname()[1]
            status, _, _ = self.ready("--serve", "--file", self.new(), "--port", port, variables={**self.variables, **variables})
            self.expect("a port that is taken", (status, self.heard(hears, 1), self.asking(port)), (MEND, None, []))

    def try_services(self):
        """The gate and the exchange tell it by themselves."""
        for file in ("roles", "users"):
            (self.folder / file).touch()
        port = free_port()
        for what, *words in (("the gate", "/usr/bin/python3", "-B", TOP / "service/bin/acd-gate", "--port", port, "--roles", self.folder / "roles", "--users", self.folder / "users"),
                             ("the exchange", "/usr/bin/python3", "-B", TOP / "exchange/bin/acd-exchange", "--edge", "127.0.0.1:5060", "--listen", f"127.0.0.1:{port}", "--file", self.folder / "exchange.db")):
            with self.noticed() as (hears, variables), running(*words, env={**os.environ, **variables}, stdout=subprocess.DEVNULL):
                self.expect(f"{what} tells it", self.heard(hears, 60), b"READY=1")

    def try_desk(self):
        """The program answers what it is asked, and says nothing of it."""
        with self.noticed() as (hears, variables):
            self.variables, whole = {**self.variables, **variables}, self.variables
            try:
                file = self.new()
                with self.served(file) as desk:
                    self.expect("it is told", (self.heard(hears, 60), self.ask(desk, 1)), (b"READY=1", 200))
                    wanted = sorted([str(file), f"{file}-wal", "anon_inode", "socket"])     # the third one is that by which it waits
                    self.expect("nothing is left open", until(lambda: self.held(desk.process.pid) == wanted, 20))
            finally:
                self.variables = whole
            self.expect("nothing is said", desk.said(), "")
