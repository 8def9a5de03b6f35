"""Three machines whose desks are pruned: all are stopped at one place, pruned up to one request, and go on, as docs/MACHINES.md has it."""
import base64
import json
import subprocess
import tempfile
import time
from pathlib import Path

from machines import COMMANDS, LINE, OfMachines, run

DAY = 86400
# pairs of requests of the old days, and requests of today
OLD, NEW = 1500, 400


class Carried(OfMachines):
    def try_carried(self):
        """Requests of four days; the machines are pruned; more requests: answers and events are those of a desk that keeps all."""
        machines, chance = self.begin(), self.chance
        put_old_days(machines, chance)
        answered, again = [], []
        requests_of_today(machines, "08", chance, answered)
        place, log = prune(machines, self.program)
        for it in list(answered):
            machines.ask_until_answered(it.body, chance, again)
        self.see("a repeat of these days has its first reply", [(it.status, it.reply) for it in again] == [(it.status, it.reply) for it in answered], again[:1])
        requests_of_today(machines, "09", chance, answered)
        self.see("the places and digests are one after it", machines.wait_until_equal(), machines.places())
        look(machines, self.program, answered, log + machines.log(place + 1))


def put_old_days(machines, chance):
    """A plan of four days ago, and calls that come and go for a day and a half; some of them wait yet."""
    begin, bodies = int(time.time()) - 4 * DAY, [(0, {"requester": "plan", "invoke": 1, "service": "addGroup", "device": "100", "name": "Billing", "ring": 20, "wrap": 30})]
    for number in range(1, OLD + 1):
        moment, caller = number * 3 * DAY // 2 // OLD, f"07{number:06}"
        bodies.append((moment, {"requester": "old", "invoke": 2 * number, "service": "arriveCall", "caller": caller, "called": "100"}))
        if chance.random() < 0.98:
            bodies.append((moment, {"requester": "old", "invoke": 2 * number + 1, "service": "clearConnection", "call": number, "device": caller}))
    for number, (moment, body) in enumerate(bodies):
        entry = f"{number:032x} {begin + moment} {json.dumps(body)}".encode()
        put = machines.etcd_call(1 + number % 3, "/v3/kv/put", {"key": LINE, "value": base64.b64encode(entry).decode()})
        machines.see("an entry is put", "header" in put, put)


def requests_of_today(machines, front, chance, answered):
    """Calls of which every third is cleared; no number is one of the old days."""
    for invoke in range(1, NEW + 1):
        caller = f"{front}{invoke:06}"
        body = {"requester": f"today{front}", "invoke": invoke, "service": "arriveCall", "caller": caller, "called": "100"}
        if invoke % 3 == 0:
            last = answered[-1]
            body = {"requester": f"today{front}", "invoke": invoke, "service": "clearConnection", "call": json.loads(last.reply)["result"]["call"], "device": json.loads(last.body)["caller"]}
        machines.ask_until_answered(json.dumps(body), chance, answered)


def prune(machines, program):
    """All machines at once, while the clients wait. What the log had up to that place, which it has no longer then."""
    machines.see("the places are equal", machines.wait_until_equal(180), machines.places())
    place, log, said = int(machines.places()[0][0]), machines.log(), []
    for n in (1, 2, 3):
        machines.kill_node(n)
    for n in (1, 2, 3):
        done = run([COMMANDS / "acdctl", "prune", "--file", machines.folder / f"m{n}/desk.db", "--desk", program], stderr=subprocess.STDOUT, text=True)
        machines.see(f"machine {n} is pruned", done.returncode == 0, done.stdout)
        said.append(done.stdout)
    machines.see("all up to one request", said == said[:1] * 3 and said[0].startswith("pruned up to request "), said)
    machines.see("the log is compacted up to that place", machines.compact(place))
    for n in (1, 2, 3):
        machines.start_node(n)
    return place, log


def printed_by(program, command, file):
    return run([program, command, "--file", file], stderr=subprocess.STDOUT).stdout


def look(machines, program, answered, log):
    """The stopped machines hold, file and archive together, what a desk holds that keeps all of the log."""
    for n in (1, 2, 3):
        machines.kill_node(n)
    with tempfile.TemporaryDirectory() as room:
        whole, first = Path(room) / "desk.db", {}
        answers = run([program, "lines", "--file", whole], input=b"".join(line + b"\n" for line in log)).stdout.splitlines()
        for line, answer in zip(log, answers):
            first.setdefault(line.partition(b" ")[2], answer)
        other = [it for it in answered if first.get(it.body.encode()) != b"%d " % it.status + it.reply]
        machines.see("every client had the reply of a desk that keeps all", not other and len(answers) == len(log), other[:1])
        events, report = printed_by(program, "export", whole), printed_by(program, "report", whole)
    for folder in [machines.folder / f"m{n}" for n in (1, 2, 3)]:
        file = folder / "desk.db"
        archive, = (path for path in folder.glob("desk.db-2*-*") if path.suffix != ".archive" and not path.name.endswith("-wal"))
        joined = run([COMMANDS / "acd-export", "--file", file, "--archive", archive, "--desk", program], stderr=subprocess.STDOUT)
        machines.see(f"archive and file of {folder.name} have all events", (joined.returncode, joined.stdout) == (0, events), joined.stdout[-200:])
        machines.see(f"the file of {folder.name} alone has fewer", printed_by(program, "export", file).count(b"\n") < events.count(b"\n"))
        machines.see(f"the report of {folder.name}", printed_by(program, "report", file) == report)
