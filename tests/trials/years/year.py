"""A year of an office, by a clock that is handed in: each week its file is pruned by the commands of acd-prune.service, which are killed at times. At the end archives and file, joined by
SQLite, are sound, and so large was every file that was opened."""
import json
import os
import random
import signal
import subprocess
import sys
import time

from ground import DAY, HOUR, TOP, Ground, joined
from trial.files import held
from trial import Lines
from units import command, lines_of

sys.path.append(str(TOP / "client"))
import acd_due  # noqa: E402

WEEKS, CALLS, TALK, STEP = 52, 20, 180, 10
# requests from which on a file is pruned: some more than stay in any case
MOST = 1500
GROUPS, AGENTS = ("100", "110"), 4


class Desk(Lines):
    """Each request at its moment."""

    def line(self, moment, text):
        status, body = self.say(f"{moment} {text}").split(" ", 1)
        return int(status), json.loads(body)


class Office:
    """Callers who come by day, agents who answer most of them, and ticks where one ends something."""

    def __init__(self, chance):
        self.chance, self.desk, self.invoke, self.asked, self.moment = chance, None, 0, 0, 0

    def ask(self, moment, service, **members):
        self.invoke += 1
        self.asked += 1
        status, body = self.desk.line(int(moment), json.dumps({"requester": "office", "invoke": self.invoke, "service": service, **members}))
        return body.get("result") if status == 200 else None

    def plan(self):
        for group in GROUPS:
            self.ask(0, "addGroup", device=group, name="G", ring=20, wrap=30)
        for number in range(AGENTS):
            station, agent = str(201 + number), str(number + 1)
            self.ask(0, "addStation", device=station)
            self.ask(0, "addAgent", agent=agent, name="A")
            self.ask(0, "setAgentState", agent=agent, requested="loggedOn", device=station, group=GROUPS[number % 2])

    def snapshot(self):
        return self.desk.line(0, "GET /snapshot")[1]

    def tick(self, until):
        """The ticks that are due until a moment, at whole steps."""
        while (end := acd_due.due_at(self.snapshot())) is not None and -(-end // STEP) * STEP <= until:
            self.ask(-(-end // STEP) * STEP, "tick")

    def act(self, moment):
        """Somebody does something: a caller comes, rings are answered, talks end, agents are ready again."""
        self.tick(moment)
        shown = self.snapshot()
        for call in shown["calls"]:
            for each in call["connections"]:
                if "offered" in each and self.chance.random() < 0.7:
                    self.ask(moment, "answerCall", call=call["call"], device=each["device"])
                elif each["state"] == "connected" and each["device"] == call["caller"] and self.chance.random() < 0.3:
                    self.ask(moment, "clearConnection", call=call["call"], device=call["caller"])
        for agent in shown["agents"]:
            if agent["state"] == "notReady" and self.chance.random() < 0.8:
                self.ask(moment, "setAgentState", agent=agent["agent"], requested="ready")
        if self.chance.random() < 0.5:
            self.ask(moment, "arriveCall", caller=f"0301{self.chance.randrange(9999)}", called=self.chance.choice(GROUPS))

    def day(self, begin):
        for moment in sorted(self.chance.uniform(begin + 8 * HOUR, begin + 18 * HOUR) for _ in range(CALLS * 2)):
            self.act(int(moment))
        self.tick(begin + DAY - 1)


def archives_of(file):
    """In their order."""
    return sorted((path for path in file.parent.glob("desk.db-????-??-??-*") if not path.name.endswith((".archive", "-wal"))), key=lambda path: int(path.name.rpartition("-")[2]))


def prune(ground, program, file, count, chance):
    """By the unit's own commands, which need no desk; at times one is killed, and the same commands do the rest."""
    unit = ground.scripts / "acd-prune.service"
    values = {"ACD_FILE": str(file), "ACD_COPY_FOLDER": str(file.parent / "copies"), "ACD_CARRY_DAYS": "2"}
    prepares, prunes = ([*command(*lines_of(unit, line), ground.scripts, values), "--desk", program] for line in ("ExecCondition", "ExecStart"))
    for words in chance.choice([(), (), (prepares,), (prepares, prunes)]):
        killed = subprocess.Popen(words, stdout=subprocess.DEVNULL, stderr=subprocess.DEVNULL, start_new_session=True)
        time.sleep(chance.uniform(0, 1.2))
        # with what it had begun, as systemd does
        os.killpg(killed.pid, signal.SIGKILL)
        killed.wait()
        time.sleep(0.1)
    status, printed, faults = ground.ran(*prepares)
    # status 1: those that were killed had done all of it
    ground.expect(f"the archive: {printed}{faults}", (status in (0, 1), len(archives_of(file))), (True, count))
    if status == 0:
        status, printed, faults = ground.ran(*prunes)
        ground.expect(f"pruned: {printed}{faults}", (status, printed.startswith("pruned up to request ")), (0, True))
    ground.expect("they are sound", ground.audit(file, "--archive", archives_of(file)[-1])[1].splitlines()[:1], ["sound"])


class OfYear(Ground):
    def try_year(self, weeks=WEEKS):
        chance = random.Random(73)
        office, longest, greatest, pruned = Office(chance), 0.0, 0, 0
        with self.scratch() as folder:
            file = folder / "desk.db"
            for week in range(weeks):
                begun = time.monotonic()
                office.desk = Desk(self.program, file, words=["--reads"])
                office.snapshot()
                opened = time.monotonic() - begun
                if not week:
                    office.plan()
                for day in range(7):
                    office.day((7 * week + day + 1) * DAY)
                office.desk.ends()
                rows = held(file)["kept"]
                greatest, longest, pruned = max(greatest, len(rows)), max(longest, opened), pruned + (len(rows) > MOST)
                if len(rows) > MOST:
                    prune(self, self.program, file, pruned, chance)
            archives = archives_of(file)
            self.expect("archives and file together", self.audit(joined(archives, file, folder / "joined.db")), (0, f"sound\nexecuted {office.asked}\n", ""))
            self.expect("no file has over a week more than it keeps", greatest < MOST + office.asked / weeks + 400)
            status, printed, faults = self.export("--file", file, *(word for archive in archives for word in ("--archive", archive)))
            self.expect(f"all events of the year: {faults}", (status, printed), (0, self.ran("acd", "export", "--file", folder / "joined.db")[1]))
        print(f"{weeks} weeks: {office.asked} requests, in files of {greatest} at most, opened in {longest:.3f} s at most", flush=True)
