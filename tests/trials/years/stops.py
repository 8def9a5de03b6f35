"""How long nobody is answered while acd-prune.service prunes a desk's file, by the clock: each night, and at the first time. Beside it stands what the openings of file and archive
and their audit take alone; with --beside also how long nobody is answered while acd-carry.service of another tree carries such files over, by the trial of that tree. And what is
left to the next nights where one has no time for it."""
import os
import shutil
import subprocess
import threading
import time

from chains import note_of
from cuts import LAID, lay_history
from figures import requests
from ground import DAY, Ground, firsts, goes_of
from kills import PLAN
from service import Service, body, try_service
from trial.files import held, log_of

NIGHTS = {"three days of 2,000 calls": 24000, "three days of 20,000 calls": 232500}
DAYS = 3
# what scripts take besides, in seconds, and how much slower it may be beside other work
BESIDES, SLOWER = 3, 2
# what goes at once; more than two steps take out; and so many seconds more that each step takes, which leave no time for another one
STEP, LAID_FOR_STEPS, DELAY = 100000, 205000, 6
REST = "more to go: the next run goes on, since nobody is answered meanwhile"


class Stops(Service):
    def make(self):
        """Each trial has a file of its own."""

    def file_of(self, count, laid=0):
        for part in (self.first, log_of(self.first)):
            part.unlink(missing_ok=True)
        begin = int(time.time()) - DAYS * DAY
        if laid:
            lay_history(self.ground, self.first, laid, begin)
        self.ground.feed(self.first, [*(f"{begin} {line.partition(' ')[2]}" for line in PLAN), *requests(count, DAYS, begin)])
        shutil.rmtree(self.copies, ignore_errors=True)
        self.copy()

    def seconds(self, *words):
        """By the clock, the least of two: what else runs makes it slower."""
        took = []
        for _ in range(2):
            begun = time.monotonic()
            self.ground.expect(f"{words[0]}", self.ground.ran(self.program, *words)[0], 0)
            took.append(time.monotonic() - begun)
        return min(took)

    def stopped(self):
        """The longest time without an answer, while the unit does its work."""
        longest, is_over = [0.0], threading.Event()

        def ask():
            last = time.monotonic()
            while not is_over.is_set():
                if self.ask("GET", "/queues/100"):
                    longest[0], last = max(longest[0], time.monotonic() - last), time.monotonic()
                time.sleep(0.005)

        asking = threading.Thread(target=ask)
        asking.start()
        self.pruned("pruned")
        self.ground.expect("the desk is back", self.is_there(300))
        time.sleep(0.2)
        is_over.set()
        asking.join()
        return longest[0]

    def measure(self, what):
        self.laid(seconds=300)
        took = self.stopped()
        self.desk.stop()
        archive, = (path for path in self.place.glob("desk.db-????-??-??-*") if not path.name.endswith((".archive", "-wal")))
        old, new = self.seconds("report", "--file", archive), self.seconds("report", "--file", self.file)
        audit = self.seconds("audit", "--file", self.file, "--archive", archive)
        steps = self.unit.said.count("pruned up to request")
        # each step opens both, the file as it was then, and audits them; then the desk opens what is left
        alone = steps * (2 * old + audit) + new
        self.ground.expect(f"{what}: {took:.2f} s, and its openings and audits {alone:.2f} s", took < SLOWER * alone + BESIDES)
        print(f"{what}: nobody is answered for {took:.2f} s, in {steps} steps. An opening of the archive takes {old:.2f} s, of the pruned file {new:.2f} s, their audit {audit:.2f} s",
              flush=True)
        shutil.rmtree(self.place)


class SeveralNights(Stops):
    """More goes than a night has time for, since each step takes long."""

    def archives(self):
        return [path for path in self.place.glob("desk.db-????-??-??-*") if not path.name.endswith((".archive", "-wal"))]

    def night(self, what, up_to, archives, *rest):
        """One step is taken, and the desk is back."""
        self.pruned(what)
        lines = [line for line in self.unit.said.splitlines() if "pruned up" in line or "more to go" in line]
        self.ground.expect(f"{what}: what it says", lines, [f"pruned up to request {up_to}{', more to go' if rest else ''}", *rest])
        self.ground.expect(f"{what}: the desk is there", self.is_there(300))
        self.ground.expect(f"{what}: archives, and the first request that is left", (len(self.archives()), firsts(self.file)[0]), (archives, up_to + 1))

    def goes_on(self):
        """Somebody calls, and a copy is made."""
        self.ground.expect("a call", self.ask("POST", "/csta", body("pbx", 1, "arriveCall", caller="0307", called="100"))[0], 200)
        status, printed, faults = self.ground.acdctl("copy", "--file", self.file, "--folder", self.copies)
        self.ground.expect(f"a copy: {printed}{faults}", status, 0)

    def each(self):
        """The second night has the archive of the first one, though there is a later copy. The third one begins before the next copy, and has an archive of its own. Each audits file and
        archive before it writes, and the last one's are audited afterwards."""
        self.file_of(NIGHTS["three days of 2,000 calls"] // 10, LAID_FOR_STEPS)
        self.laid(seconds=300)
        with self.another_program(f'case "$*" in "prune --file {self.file} "*) sleep {DELAY};; esac'):
            self.night("the first night", STEP, 1, REST)
            self.goes_on()
            rows = held(self.file)
            self.night("the second night", 2 * STEP, 1, REST)
            self.night("the third night", goes_of(rows, rows["meta"][0][8], days=2)[0], 2)
            self.pruned("nothing is left", "passed over")
            self.desk.stop()
        audit = self.ground.audit(self.file, "--archive", self.place / note_of(self.file)["archive"])
        self.ground.expect("the audit", (audit[0], audit[1].partition("\n")[0]), (0, "sound"))


def try_nights(ground, folder):
    nights = SeveralNights(ground, folder)
    try:
        nights.each()
    finally:
        nights.desk.stop()


def measure_all(ground, folder):
    stops = Stops(ground, folder)
    try:
        for what, count in NIGHTS.items():
            stops.file_of(count)
            stops.measure(what)
        stops.file_of(NIGHTS["three days of 2,000 calls"], LAID)
        stops.measure("the first time, of a million")
    finally:
        stops.desk.stop()


def measure_beside(ground, tree):
    """In name spaces of its own."""
    others = {name: value for name, value in os.environ.items() if name != "TRIAL_ALONE"}
    done = subprocess.run([tree / "tests/trials/try-years", ground.program, "--only", "service.stops"], stdout=subprocess.PIPE, text=True, env=others)
    ground.expect(f"the other tree: {done.stdout}", done.returncode, 0)
    print("".join(f"the other tree: {line}\n" for line in done.stdout.splitlines() if "nobody is answered" in line), end="", flush=True)


class OfService(Ground):
    def try_service(self):
        with self.scratch() as folder:
            # the name space's own
            subprocess.run(["mount", "-t", "tmpfs", "run", "/run"], check=True)
            try:
                if self.case not in ("stops", "nights"):
                    (folder / "service").mkdir()
                    try_service(self, folder / "service", self.case)
                if self.case in (None, "nights"):
                    (folder / "nights").mkdir()
                    try_nights(self, folder / "nights")
                if self.case in (None, "stops"):
                    (folder / "stops").mkdir()
                    measure_all(self, folder / "stops")
                if self.case == "stops" and self.options.beside:
                    measure_beside(self, self.options.beside)
            finally:
                subprocess.run(["umount", "--lazy", "/run"], check=True)
