"""The standby takes over: from a machine that was cut off, and from an older version whose clients wait. What the clients were answered is held against both
files, which SQLite reads."""
import json
import shutil
import statistics
import subprocess
import time

from trial.files import copied, held
from machines import CLIENT, DAY, NOTING, OPERATING, PORT, PYTHON, Machine, Office, grown, run
from trial import until


def percentile(values, share):
    ordered = sorted(values)
    return ordered[min(len(ordered) - 1, int(share * len(ordered)))]


class Takeover:
    """Two machines and an office under load, the second one up to date."""

    def __init__(self, ground, machines, kept, rate=200):
        self.ground, self.kept = ground, kept
        self.first, self.second = (Machine(ground, name, address) for name, address in machines.items())
        grown(self.first.file, ground.program, kept)
        for part in self.first.folder.glob("desk.db*"):
            shutil.copy(part, self.second.folder)
        self.begun_with = len(held(self.second.file)["kept"])
        for machine in (self.first, self.second):
            machine.power_on()
            machine.start_proxy()
        self.first.take_address()
        self.first.start_desk()
        self.first.start_ticks()
        self.notes, noting = ground.folder / "notes", ground.folder / "noting"
        noting.write_text(NOTING.format(program=str(ground.newer), notes=str(self.notes)))
        noting.chmod(0o755)
        self.second.follow(self.first.address, noting)
        self.office = Office(ground, rate)
        ground.expect("the second machine follows", until(lambda: self.notes.exists() and self.notes.stat().st_size > 0, 120, 0.01))
        # what waited while the copy was opened has been fed by then
        self.up = time.time() + 1
        time.sleep(ground.seconds)

    def lags(self, answers):
        """How many milliseconds behind each answer the copy had its request."""
        when = {tuple(line.split()[:2]): float(line.split()[2]) for line in self.notes.read_text().splitlines()}
        some = [(when[requester, str(invoke)], answered) for requester, invoke, _, _, answered in answers if (requester, str(invoke)) in when]
        return [1000 * (had - answered) for had, answered in some if answered > self.up]

    def over_to_second(self):
        """The second one's desk opens the copy, and gets the address; how many seconds the opening took."""
        opening = self.second.start_desk(self.ground.newer)
        self.second.take_address()
        self.second.start_ticks()
        return opening

    def judge(self, answers, last, off):
        """What was answered is in the copy, to the byte, or was answered before the first machine was off and is lacking in the copy; which ones these are."""
        expect = self.ground.expect
        old, new = held(self.first.file), held(self.second.file)
        expect(f"up to {last} both have the same requests", new["kept"][:last] == old["kept"][:last])
        lacking = {row[1:3] for row in old["kept"][last:]}
        had = {row[1:3]: row[5:] for row in new["kept"]}
        lost = {(requester, invoke) for requester, invoke, status, body, _ in answers if had.get((requester, invoke)) != (status, body)}
        expect("what is lost", lost, {(requester, invoke) for requester, invoke, _, _, answered in answers if answered <= off and (requester, invoke) in lacking})
        if self.kept <= DAY:
            expect("the copy's audit", run(self.ground.newer, "audit", "--file", copied(self.second.file, self.ground.folder)), "sound\n")
        return lost


WATCHING = """import json, sys
sys.path.append(sys.argv[1])
from acd_client import AnotherHistory, Client
seen = json.loads(sys.argv[3])
try:
    Client(f"http://127.0.0.1:{sys.argv[2]}").page(seen["number"], seen)
    print("goes on")
except AnotherHistory as fault:
    print(type(fault).__name__)
"""


def try_takeover(ground, machines, kept):
    trial = Takeover(ground, machines, kept)
    fenced = time.time()
    trial.first.power_off()
    off = time.time()
    last, told, ending = trial.second.end_following()
    opening = trial.over_to_second()
    served = time.time()
    time.sleep(2)
    answers = trial.office.stop()
    trial.second.stop_desk()
    again = min((answered for *_, answered in answers if answered > served), default=None)
    ground.expect("the clients are answered again", again is not None)
    lost = trial.judge(answers, last, off)
    lags = trial.lags(answers)
    ground.expect("lags are seen", len(lags) > 0)
    watched(ground, trial)
    print(f"    {kept} kept: taken over {again - fenced:.2f} s behind the fence (acd-follow ended in {ending:.2f}, the desk opened the copy in {opening:.2f}); "
          f"the copy had {last} of the {told} requests that it was told of; {len(answers)} answers, {len(lost)} lost; "
          f"lag p50 {statistics.median(lags):.0f} ms, p99 {percentile(lags, 0.99):.0f} ms", flush=True)


def watched(ground, trial):
    """Who follows the events has another history where the last one that was seen is lost; else goes on."""
    events = held(trial.first.file)["events"]
    number = events[-1][0]
    told = run(ground.program, "lines", "--reads", "--file", trial.first.file, input=f"0 GET /events?after={number - 1}\n")
    seen = json.loads(told.partition(" ")[2])["events"][0]
    is_there = events[-1] in held(trial.second.file)["events"]
    opened = trial.second.start_desk(ground.newer)
    ground.expect(f"the standby opens its file once more ({opened:.2f} s)", opened > 0)
    done = subprocess.run(["ip", "netns", "exec", "second", PYTHON, "-c", WATCHING, CLIENT, str(PORT), json.dumps(seen)], capture_output=True, text=True)
    ground.expect(f"who follows events: {done.stdout}{done.stderr}", done.stdout.strip(), "goes on" if is_there else "AnotherHistory")
    trial.second.stop_desk()


def try_upgrade(ground, machines, kept):
    """The newer program follows the older one, and acd-copy has its copy audited; then the clients wait until the second machine has the address."""
    trial = Takeover(ground, machines, kept)
    done = subprocess.run([PYTHON, OPERATING / "acd-copy", "--file", trial.second.file, "--folder", ground.folder / "copies"], capture_output=True, text=True,
                          env=ground.settings() | {"PATH": f"{ground.newer.parent}:/usr/sbin:/usr/bin:/sbin:/bin"})
    ground.expect(f"acd-copy of the copy: {done.stdout}{done.stderr}", (done.returncode, "sound: " in done.stdout), (0, True))
    begun = time.time()
    trial.first.leave_address()
    trial.first.ticks.kill()
    had = trial.first.last()
    ground.expect("the copy comes to have all", until(lambda: trial.begun_with + len(trial.notes.read_text().splitlines()) >= had, 120, 0.01))
    last, told, _ = trial.second.end_following()
    trial.first.stop_desk()
    opening = trial.over_to_second()
    served = time.time()
    time.sleep(2)
    answers = trial.office.stop()
    trial.second.stop_desk()
    again = min((answered for *_, answered in answers if answered > served), default=None)
    ground.expect("the copy has all", (last, told), (had, had))
    ground.expect("the clients are answered again", again is not None)
    ground.expect("nothing is lost", trial.judge(answers, last, served), set())
    print(f"    {kept} kept: another version after {again - begun:.2f} s (the desk opened the copy in {opening:.2f}); {len(answers)} answers", flush=True)
