"""What try-ticks stands on: acd-tick by a clock of the trial's own, and desks that are played."""
import json
import os
import shutil
from pathlib import Path

from shipped import PACKAGE, shipped
from trial import TOP, Trial, played, ran

CLOCK = "clock-abcdefghijkl"
HOUR, STEP, BEGIN = 3600, 600, 1800000000
# in the place of the module that looks for what was moved: it says what stands in a file, and writes down when it is asked, and for what
HELD = """import os
def desks(file):
    with open(os.environ.get("LOOKS", os.devnull), "a") as looks:
        looks.write(f"{file}\\n")
    with open(os.environ.get("HELD", os.devnull)) as held:
        return held.read().splitlines()
def moved(line, file):
    return line
"""


def snapshot(moment=5, state="ready", offered=None, ring=20, wrap=30, groups=("100",), since=5):
    """What a desk shows of an agent in some groups, and of a call that rings at this agent's station. The first group's wrap counts, and the last one's ring."""
    agent = {"agent": "7", "device": "201", **({"group": groups[0]} if len(groups) == 1 else {"groups": list(groups)}), "name": f'A \\ "moment":{"9" * 10},"monitors":[',
             "since": since, "stamp": 3, "state": state}
    connection = {"device": "201", "state": "alerting", **({"group": groups[-1], "offered": offered, "place": 4, "queued": 5} if offered is not None else {})}
    shown = [{"device": each, "kind": "group", "ring": ring if each == groups[-1] else 1, "wrap": wrap if each == groups[0] else 1} for each in groups]
    return json.dumps({"agents": [agent], "calls": [{"call": 1, "connections": [{"device": "0301", "state": "connected"}, connection]}], "groups": shown,
                       "last": 7, "moment": moment, "monitors": [], "stations": []}, separators=(",", ":"))


RINGS = snapshot(offered=5)


def granted(request):
    return 200, {"invoke": request["invoke"], "requester": request["requester"], "result": {}}


def words_of_all():
    """The command lines of all processes of this machine."""
    found = []
    for process in Path("/proc").glob("[0-9]*/cmdline"):
        try:
            found.append(process.read_bytes().replace(b"\0", b" ").decode(errors="replace"))
        except OSError:
            pass  # it has ended
    return found


class Played(played.Played):
    """A desk that is played: it answers each read with the same snapshot and status, and each tick by a function of it and of the place that it came at."""

    def __init__(self, answer=lambda request, _: granted(request), snapshot=RINGS, status=200):
        super().__init__(OfPlayed)
        self.answer, self.snapshot, self.status, self.asked, self.words, self.reads = answer, snapshot, status, [], [], 0

    def read(self):
        self.reads += 1
        self.words += words_of_all()
        return self.status, self.snapshot

    def take(self, request):
        self.words += words_of_all()
        self.asked.append(request)
        status, told = self.answer(request, len(self.asked))
        return status, json.dumps(told, separators=(",", ":"))


class OfPlayed(played.Handler):
    def do_GET(self):
        self.answer(*self.server.read())

    def do_POST(self):
        self.answer(*self.server.take(json.loads(self.rfile.read(int(self.headers["Content-Length"])))))


class Ground(Trial):
    """A copy of acd-tick, with what it stands on beside it. `sources` are the modules, of which one may have a fault."""

    sources = PACKAGE / "tick.py", PACKAGE / "watch.py", TOP / "client/acd_due.py"

    @classmethod
    def setUpClass(cls):
        super().setUpClass()
        tick, watch, due = cls.sources
        cls.ticks = shipped(cls.folder / "service", {"tick.py": tick.read_text(), "watch.py": watch.read_text(), "held.py": HELD}) / "acd-tick"
        shutil.copy(due, cls.folder / "service")

    def by_its_own_clock(self, desk, hours, clock=CLOCK, begin=BEGIN, moved="", words=(), step=STEP, jumps=(), patience=None):
        """What it tells in so many hours, which pass as fast as the desk is asked."""
        moment, held, looks = (self.folder / name for name in ("moment", "held", "looks"))
        moment.write_text(str(begin))
        held.write_text(moved)
        looks.write_text("")
        environment = {**os.environ, "PYTHONPATH": str(Path(__file__).parent / "clock"), "PYTHONDONTWRITEBYTECODE": "1", "ACD_CLOCK": clock, "HELD": str(held), "LOOKS": str(looks),
                       "MOMENT": str(moment), "LASTS": str(round(hours * HOUR)), "JUMPS": " ".join(f"{at}:{seconds}" for at, seconds in jumps), **({"PATIENCE": str(patience)} if patience else {})}
        done = ran(self.ticks, "--port", desk.server_port, "--step", step, *words, env=environment, seconds=3600)
        return done.output + done.faults
