"""Cases of the watch over a desk: it is ended and started again if it hangs for good, and neither by a halt nor by clients that say nothing; what is told of it."""
import time

from edges import Edges

DROP_IN = "/etc/systemd/system/acd.service.d/short.conf"
# so many clients connect, one after the other, and say nothing until they are given up; each prints how long that took
SILENT = """import socket, time
for _ in range(3):
    begun, client = time.monotonic(), socket.socket(socket.AF_UNIX)
    client.connect("/run/acd/desk.sock")
    client.recv(1)
    print(round(time.monotonic() - begun), flush=True)
"""
HALT, PATIENCE, STEP = 20, 30, 2


class Watched(Edges):
    def shown(self, *names):
        said = self.done("systemctl", "show", "acd", *(f"--property={name}" for name in names))
        found = dict(line.split("=", 1) for line in said.splitlines())
        return [found[name] for name in names]

    def halt(self, signal):
        self.done("kill", f"-{signal}", self.shown("MainPID")[0])

    def try_as_it_is_installed(self):
        """A halt as long as a copy's, and three clients in a row that say nothing: nobody's desk is started again, and it answers as soon as they are given up."""
        process, = self.shown("MainPID")
        self.expect("the unit's words", self.shown("WatchdogUSec", "NotifyAccess", "Type"), ["5min", "all", "notify"])
        self.container.put("/srv/silent.py", SILENT)
        self.halt("STOP")
        time.sleep(HALT)
        self.halt("CONT")
        begun = time.monotonic()
        status, said = self.ran("python3", "/srv/silent.py")
        spent = time.monotonic() - begun
        self.expect(f"each is given up in its time ({said!r}, {spent:.0f} s)", (status, all(PATIENCE - 1 <= int(word) <= 2 * PATIENCE + STEP for word in said.split()), len(said.split())), (0, True, 3))
        self.expect("it answers", self.curl(self.at("/snapshot")), 200)
        self.expect("it is the same process", self.shown("MainPID", "NRestarts", "ActiveState"), [process, "0", "active"])
        self.expect("nothing is told by the watch", [line for line in self.journal("acd").splitlines() if line.startswith("acdctl ready: ")], [])

    def try_hanging(self):
        """A desk that hangs is ended behind the time that the unit says, a shorter one here; the next one has all that was answered."""
        self.container.put(DROP_IN, "[Service]\nWatchdogSec=8\n")
        self.done("systemctl", "daemon-reload")
        self.done("systemctl", "restart", "acd")
        self.service("plan", 900, "addStation", device="900")
        time.sleep(3 * STEP)
        process, = self.shown("MainPID")
        self.halt("STOP")
        begun = time.monotonic()
        self.expect("another one is there", self.eventually(lambda: self.curl(self.at("/snapshot")), 200, 60), 200)
        spent = time.monotonic() - begun
        self.expect(f"in its time ({spent:.0f} s)", 4 <= spent <= 40)
        # it answers a moment before systemd is told so
        is_active = self.eventually(lambda: self.shown("NRestarts", "ActiveState"), ["1", "active"])
        self.expect("it is another process, started again once", (self.shown("MainPID")[0] != process, is_active), (True, ["1", "active"]))
        self.expect("with what was answered", '"900"' in self.read("/snapshot"), True)
        self.expect_in("systemd says why", self.journal("acd"), "Watchdog timeout")
        time.sleep(20)
        self.expect("it goes on", self.shown("NRestarts", "ActiveState"), ["1", "active"])
        self.container.inside(DROP_IN).unlink()
        self.done("systemctl", "daemon-reload")
        self.done("systemctl", "restart", "acd")

    def try_what_is_told(self):
        """A file that is moved from under the desk, within a minute or so; the watch ends with the desk."""
        self.done("systemctl", "restart", "acd")
        self.done("mv", "/var/lib/acd/desk.db", "/var/lib/acd/x")
        process, = self.shown("MainPID")
        wanted = f"acdctl ready: the file /var/lib/acd/desk.db was moved to /var/lib/acd/x under the desk, process {process}: what it answers goes there"
        self.expect("it is told", self.eventually(lambda: wanted in self.journal("acd"), True, 75), True)
        self.done("mv", "/var/lib/acd/x", "/var/lib/acd/desk.db")
        self.done("systemctl", "stop", "acd")
        self.expect("nobody watches", self.ran("pgrep", "-f", "acdctl ready --serve")[0], 1)
        self.done("systemctl", "start", "acd")
