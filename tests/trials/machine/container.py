"""A Debian that is booted with a systemd of its own, by systemd-nspawn, in a network of its own that has the loopback interface alone.

One at a time: all of a machine have the same control groups, so that of two at once each ends processes of the other's units."""
import os
import signal
import subprocess
import time
from pathlib import Path

# seconds for what comes at once, unless the machine is busy
PATIENCE = 600
# a unit's IPAddressDeny is a program of bpf, and its tables are nftables'
MAY = ("--capability=all", "--system-call-filter=bpf")
PATH = "PATH=/usr/local/sbin:/usr/local/bin:/usr/sbin:/usr/bin:/sbin:/bin"


class Container:
    def __init__(self, root, log):
        self.root, self.log = Path(root), Path(log)
        self.log.write_bytes(b"")
        (self.root / "etc/hosts").write_text("127.0.0.1 localhost\n::1 localhost\n")
        self.boot()

    def boot(self):
        words = ["systemd-nspawn", "--quiet", "--boot", "--directory", self.root, "--private-network", "--register=no", "--keep-unit", f"--machine=acd-{os.getpid()}", *MAY]
        with open(self.log, "ab") as log:
            self.process = subprocess.Popen(words, stdin=subprocess.DEVNULL, stdout=log, stderr=log, env={**os.environ, "UNIFIED_CGROUP_HIERARCHY": "1"})
        self.leader = None
        self.leader = self.found(self.its_systemd, "a systemd in the container")
        self.found(lambda: self.run("systemctl", "is-system-running")[1] in ("running\n", "degraded\n"), "the end of its start")

    def found(self, look, what):
        """What looking tells, as soon as it tells something."""
        end = time.monotonic() + PATIENCE
        while time.monotonic() < end and self.process.poll() is None:
            seen = look()
            if seen:
                return seen
            time.sleep(0.1)
        self.end()
        raise ValueError(f"there isn't {what}")

    def its_systemd(self):
        for status in Path("/proc").glob("[0-9]*/status"):
            try:
                words = status.read_text().split()
            except OSError:
                continue
            if words[1] == "systemd" and words[words.index("PPid:") + 1] == str(self.process.pid):
                return int(status.parent.name)
        return None

    def words(self, words, user=None):
        entered = ["nsenter", "--target", str(self.leader), "--all", "env", "-i", PATH, "LC_ALL=C.UTF-8", "HOME=/root", "DEBIAN_FRONTEND=noninteractive"]
        return [*entered, *(("runuser", "-u", user, "--") if user else ()), *map(str, words)]

    def run(self, *words, user=None, wait=PATIENCE):
        """The status, and all that was printed."""
        done = subprocess.run(self.words(words, user), stdin=subprocess.DEVNULL, stdout=subprocess.PIPE, stderr=subprocess.STDOUT, text=True, timeout=wait)
        return done.returncode, done.stdout

    def shell(self, text, user=None):
        return self.run("sh", "-c", text, user=user)

    def inside(self, path):
        return self.root / str(path).lstrip("/")

    def put(self, path, text, mode=0o644):
        file = self.inside(path)
        file.parent.mkdir(parents=True, exist_ok=True)
        file.write_text(text)
        file.chmod(mode)

    def end(self):
        """Ends it with all that runs in it: nspawn waits for the last of them."""
        if self.process.poll() is None:
            os.kill(self.leader or self.process.pid, signal.SIGKILL)
        self.process.wait()
