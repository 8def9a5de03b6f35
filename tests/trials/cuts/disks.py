"""A file system in an image, mounted by a loop device, and what a power cut leaves of it: copies of the image, made at each sync of a command and the moment it has ended."""
import contextlib
import os
import re
import signal
import subprocess
import threading
from pathlib import Path
from typing import NamedTuple

SYNCS = "?fsync,?fdatasync,?syncfs,?sync,?sync_file_range"
# behind each sync its process stops, until the image is copied
STRACE = ("strace", "-f", "-qq", "-e", f"trace={SYNCS}", "-e", f"inject={SYNCS}:signal=STOP", "-o")
STOPPED = re.compile(r"^(\d+) +--- stopped by SIGSTOP ---$", re.MULTILINE)
STEP = 0.01     # seconds after which a stopped process is seen


class Kind(NamedTuple):
    """What makes a file system, its size in MB, and the options of its mount: nothing that nobody asks for goes to the disk meanwhile."""
    made_by: tuple[str, ...]
    size: int
    options: tuple[str, ...]


KINDS = {"ext4": Kind(("mkfs.ext4", "-q"), 32, ("commit=900",)), "xfs": Kind(("mkfs.xfs", "-q"), 320, ())}


class Disk:
    """One in a folder that is empty. What lies in its `folder` lies there by the same path behind each cut."""

    def __init__(self, kind, scratch):
        self.kind, self.image, self.folder, self.trace = KINDS[kind], Path(scratch) / "image", Path(scratch) / "disk", Path(scratch) / "trace"
        self.cuts = []
        self.folder.mkdir()
        with open(self.image, "wb") as image:
            image.truncate(self.kind.size << 20)
        subprocess.run([*self.kind.made_by, self.image], check=True, stdout=subprocess.DEVNULL)

    @contextlib.contextmanager
    def mounted(self, image=None):
        subprocess.run(["mount", "-o", ",".join(("loop", *self.kind.options)), image or self.image, self.folder], check=True)
        try:
            yield self.folder
        finally:
            subprocess.run(["umount", self.folder], check=True)

    def sync(self):
        """What was laid there is on the disk."""
        subprocess.run(["sync", "-f", self.folder], check=True)

    def cut(self):
        """As the disk is now."""
        copy = self.image.with_name(f"cut-{len(self.cuts)}")
        subprocess.run(["cp", "--sparse=always", self.image, copy], check=True)
        self.cuts.append(copy)

    def run(self, office, *words):
        """Runs a command of an office, with cuts; its status and what it says."""
        self.trace.unlink(missing_ok=True)
        is_over = threading.Event()
        cutting = threading.Thread(target=self.cut_at_syncs, args=(is_over,))
        cutting.start()
        try:
            done = office.run(*STRACE, self.trace, *words)
        finally:
            is_over.set()
            cutting.join()
        self.cut()
        return done

    def cut_at_syncs(self, is_over):
        seen = 0
        while not is_over.wait(STEP):
            stopped = STOPPED.findall(self.trace.read_text()) if self.trace.exists() else []
            for process in stopped[seen:]:
                self.cut()
                os.kill(int(process), signal.SIGCONT)
            seen = len(stopped)
