"""What a prune and an opening cost, in seconds of processor time, in memory and in room of the log: of files that are pruned each night, and at the first time of a million. With
--beside also what acd-carry of another tree, of before 1.16, takes for the same files. What it has to keep to is meant for a machine that has nothing else to do."""
import json
import shutil
import subprocess
from collections import namedtuple

from cuts import LAID, lay_history
from ground import DAY, PYTHON, Ground
from trial.files import log_of
from kills import PLAN

# of the opened file: what is kept, and at most so many seconds and bytes
OPENINGS = {"two days of 2,000 calls": (0.2, 25e6), "three days of 20,000 calls": (2.5, 140e6), "the last 40,000": (0.5, 40e6)}


def requests(count, days, begin=DAY):
    """A caller comes, and hangs up: two events a request."""
    for number in range(count):
        service = {"service": "clearConnection", "call": number // 2 + 1, "device": "0301"} if number % 2 else {"service": "arriveCall", "caller": "0301", "called": "100"}
        yield f"{begin + number * days * DAY // count} " + json.dumps({"requester": "office", "invoke": number + 1, **service})


# a process has its parent's greatest memory as it begins, so it is begun by a small one, which also looks how long a file gets meanwhile
MEASURE = """import os, subprocess, sys, time
child, greatest, ended = subprocess.Popen(sys.argv[2:], stdout=subprocess.PIPE), 0, 0
while not ended:
    ended, status, used = os.wait4(child.pid, os.WNOHANG)
    greatest = max(greatest, os.stat(sys.argv[1]).st_size if os.path.exists(sys.argv[1]) else 0)
    time.sleep(0.002)
*_, last = [b"", *child.stdout]
print(used.ru_utime + used.ru_stime, used.ru_maxrss * 1024, greatest, os.waitstatus_to_exitcode(status), last.decode().strip(), flush=True)
os._exit(0)"""
# of it and of what it began: seconds of processor time, and the most memory in bytes; how many bytes the log had at most; the status, and the last line
Measured = namedtuple("Measured", "seconds memory log status said")


def measured(words, log=""):
    done = subprocess.run([PYTHON, "-c", MEASURE, *map(str, (log, *words))], capture_output=True, text=True)
    seconds, memory, length, status, said = done.stdout.rstrip("\n").split(" ", 4)
    return Measured(float(seconds), int(memory), int(length), int(status), said)


class Figures:
    def __init__(self, ground, folder):
        self.ground, self.folder, self.other = ground, folder, ground.options.beside

    def opened(self, what, file):
        # what else runs makes it slower, and never quicker
        found = min(measured([self.ground.program, "report", "--file", file]) for _ in range(3))
        self.ground.expect(f"{what}: opened", found.status, 0)
        most = OPENINGS.get(what, (found.seconds + 1, found.memory + 1))
        self.ground.expect(f"{what}: opened in {found.seconds} s with {found.memory} bytes", found.seconds < most[0] and found.memory < most[1])
        print(f"{what}: opened in {found.seconds:.2f} s, {found.memory / 1e6:.0f} MB", flush=True)

    def taken(self, what, left, file, *words):
        """A prune of the file and, with another tree, a carry-over: and what an opening of the file that is left takes, which has the same name."""
        self.opened(what, file)
        self.opened(left, self.pruned(what, file, *words))
        if self.other:
            self.opened(f"{left}, carried over", self.carried(what, file, *words))

    def pruned(self, what, file, *words):
        """A copy of the file, by the program alone."""
        made, archive = self.folder / "pruned.db", self.folder / "archive.db"
        for part in (made, archive):
            log_of(part).unlink(missing_ok=True)
            shutil.copyfile(file, part)
        steps = []
        while not steps or steps[-1].said.endswith(", more to go"):
            found = measured([self.ground.program, "prune", "--file", made, "--archive", archive, *(words or ("--days", 2))], log_of(made))
            self.ground.expect(f"{what}: {found.said}", (found.status, found.said.startswith("pruned up to request ")), (0, True))
            steps.append(found)
        print(f"{what}: pruned in {sum(step.seconds for step in steps):.2f} s, {max(step.memory for step in steps) / 1e6:.0f} MB at most, with {max(step.log for step in steps) / 1e6:.1f} MB of log "
              f"at most, in {len(steps)} steps; the file keeps its {made.stat().st_size / 1e6:.1f} MB", flush=True)
        return made

    def carried(self, what, file, *words):
        """By the other tree's commands."""
        new = self.folder / "new.db"
        for part in (new, log_of(new)):
            part.unlink(missing_ok=True)
        found = measured([PYTHON, self.other / "service/acdctl", "carry", "--from", file, "--to", new, "--desk", self.ground.program, *words])
        self.ground.expect(f"{what}: carried over", found.status, 0)
        print(f"{what}: carried over in {found.seconds:.2f} s, {found.memory / 1e6:.0f} MB at most; the new file has {new.stat().st_size / 1e6:.1f} MB", flush=True)
        return new


class OfFigures(Ground):
    def try_nights(self):
        with self.scratch() as folder:
            figures, small, great = Figures(self, folder), folder / "small.db", folder / "great.db"
            for file, count in ((small, 24000), (great, 232500)):
                self.feed(file, [*PLAN, *requests(count, 3)])
            figures.taken("three days of 2,000 calls", "two days of 2,000 calls", small)
            figures.taken("three days of 20,000 calls", "two days of 20,000 calls", great)
            figures.taken("three days of 20,000 calls", "the last 40,000", great, "--keep", 40000)

    def try_first_one(self):
        with self.scratch() as folder:
            file = folder / "million.db"
            lay_history(self, file, LAID, DAY)
            self.feed(file, [*PLAN, *requests(24000, 3)])
            Figures(self, folder).taken("a million", "two days of 2,000 calls", file)
