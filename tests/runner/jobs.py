"""Jobs: commands that run four at a time, each counted and timed, and ended with all that they started."""
from __future__ import annotations

import os
import signal
import subprocess
import sys
import tempfile
import threading
import time
from collections.abc import Callable, Iterable, Iterator
from concurrent.futures import FIRST_COMPLETED, ThreadPoolExecutor, wait
from dataclasses import dataclass, field
from pathlib import Path

TOP = Path(__file__).resolve().parents[2]
PYTHON = "/usr/bin/python3"
LEASH = (PYTHON, str(TOP / "tests/trials/trial/leash.py"))
AT_ONCE = 4
LONGEST = 3600  # seconds that a job may take: only one that hangs takes an hour, on a slow machine too
LOOK = 0.3      # seconds after which a signal is seen
ENDING = 90     # seconds after which a job that was told to end, and ends what it started, is killed by itself


class Stop:
    """A signal that came. It is obeyed where that breaks nothing off, since an exception out of a signal may fall between any two steps."""

    number = 0

    def listen(self) -> None:
        for number in (signal.SIGTERM, signal.SIGINT, signal.SIGHUP):
            signal.signal(number, self.note)

    def note(self, number: int, _frame: object) -> None:
        self.number = number

    def obey(self) -> None:
        if self.number:
            sys.exit(128 + self.number)


STOP = Stop()


@dataclass(frozen=True)
class Count:
    """How many cases passed, and what failed, by name."""
    passed: int
    failed: tuple[str, ...] = ()
    skipped: tuple[str, ...] = ()


@dataclass(frozen=True)
class Job:
    """A command; `count` says what its status and its output, or the file that its place is for, come to."""
    name: str
    words: tuple[str, ...]
    count: Callable[[int, str, Path], Count]
    packages: tuple[str, ...] = ()
    cases: Callable[[], int] = lambda: 1    # how many are left out where it can't run
    longest: int = LONGEST
    variables: dict[str, str] = field(default_factory=dict)
    is_shown: bool = False      # it prints as it goes on


@dataclass(frozen=True)
class Outcome:
    """What became of a job: its count, seconds by the clock and of a processor, and what it printed."""
    job: Job
    count: Count
    seconds: float
    processor: float
    output: str


class Jobs:
    """Runs so many jobs at a time, and ends those that still run when the block ends."""

    def __init__(self, at_once: int = AT_ONCE) -> None:
        self.at_once = at_once
        self.running: set[subprocess.Popen[bytes]] = set()
        self.lock = threading.Lock()
        self.has_ended = False
        self.scratch = tempfile.TemporaryDirectory(prefix="acd-test-")

    def __enter__(self) -> Jobs:
        return self

    def __exit__(self, *_: object) -> None:
        self.end_all()
        self.scratch.cleanup()

    def run_all(self, jobs: Iterable[Job]) -> Iterator[Outcome]:
        """Each outcome as soon as it is there. After a signal all end."""
        with ThreadPoolExecutor(self.at_once) as pool:
            waiting = {pool.submit(self.run, job) for job in jobs}
            try:
                while waiting:
                    done, waiting = wait(waiting, LOOK, FIRST_COMPLETED)
                    for each in done:
                        yield each.result()
                    STOP.obey()
            finally:
                for each in waiting:
                    each.cancel()
                self.end_all()

    def run(self, job: Job) -> Outcome:
        folder = Path(tempfile.mkdtemp(dir=self.scratch.name))
        place, output = folder / "count", folder / "output"
        began = time.monotonic()
        status, processor = self.wait(job, place, output)
        seconds = time.monotonic() - began
        text = output.read_text(errors="replace") if output.exists() else ""
        if status is None:
            count = Count(0, (f"it took longer than {job.longest} seconds",))
        else:
            count = job.count(status, text, place)
        return Outcome(job, count, seconds, processor, text)

    def wait(self, job: Job, place: Path, output: Path) -> tuple[int | None, float]:
        """The job's status, if it came to an end in time, and the seconds of processor that it used."""
        words = [*LEASH, *(word.replace("{place}", str(place)) for word in job.words)]
        with open(os.devnull if job.is_shown else output, "wb") as out:
            with self.lock:
                if self.has_ended:
                    return None, 0.0
                process = subprocess.Popen(words, cwd=TOP, env={**os.environ, **job.variables}, stdin=subprocess.DEVNULL,
                                           stdout=None if job.is_shown else out, stderr=None if job.is_shown else subprocess.STDOUT)
                self.running.add(process)
        used = self.ended(process, time.monotonic() + job.longest)
        is_late = used is None
        if used is None:
            used = self.stop(process)
        with self.lock:
            self.running.discard(process)
        return None if is_late else process.returncode, used

    @staticmethod
    def ended(process: subprocess.Popen[bytes], end: float) -> float | None:
        """The processor seconds of a process and all that it waited for, once it has ended by itself before this moment."""
        while True:
            pid, status, usage = os.wait4(process.pid, os.WNOHANG)
            if pid:
                process.returncode = os.waitstatus_to_exitcode(status)
                return float(usage.ru_utime + usage.ru_stime)
            if time.monotonic() > end:
                return None
            time.sleep(0.05)

    def stop(self, process: subprocess.Popen[bytes]) -> float:
        """Ends a process, which ends what it started."""
        process.send_signal(signal.SIGTERM)
        used = self.ended(process, time.monotonic() + ENDING)
        if used is None:
            process.kill()
            used = self.ended(process, time.monotonic() + ENDING)
        return used or 0.0

    def end_all(self) -> None:
        """Those who wait for the processes see them end."""
        with self.lock:
            self.has_ended = True
            for process in self.running:
                process.send_signal(signal.SIGTERM)
