"""Values of many entries, in the middle of which a desk or a node is killed: each machine executes all of them, once and in order."""
import json
import os
import shutil
import signal
import sqlite3
import tempfile
import time

from hostile import digest_over, put
from machines import OfMachines, is_entry, run, wait_until

# entries of a value, and kills in the middle of one that each machine has to have
MANY, KILLS, LONGEST = 100, 4, 300


class Values(OfMachines):
    def try_kills_within_values(self):
        machines, chance, cut = self.begin(), self.chance, {1: 0, 2: 0, 3: 0}
        machines.ask_until_answered('{"requester":"plan","invoke":1,"service":"addGroup","device":"100","name":"Billing","ring":20,"wrap":30}', chance, [])
        self.see("the places and digests are one", machines.wait_until_equal(), machines.places())
        until, turn, first = time.time() + LONGEST, 0, int(machines.places()[0][1])
        while min(cut.values()) < KILLS and time.time() < until:
            turn, n, places = turn + 1, 1 + turn % 3, machines.places()
            self.see("a value is put", "header" in put(machines, "desk/line", value_of(turn, chance)))
            time.sleep(chance.random() * 0.03)
            executed = killed_within(machines, n, turn, whole=turn % 2 == 0)
            if 0 < executed < MANY:
                cut[n] += 1
                self.see("until all of a value is answered the place is that of before it", machines.places()[n - 1] == places[n - 1], (machines.places(), places))
            go_on(machines, n)
            self.see("all have answered all values", wait_until(lambda: have_answered(machines, first + MANY * turn), step=0.1), machines.places())
        self.see(f"each machine was killed within {KILLS} values", min(cut.values()) >= KILLS, cut)
        look(machines, turn, first)


def have_answered(machines, many):
    """Whether each machine has answered so many entries, of whole values."""
    return all(place and int(place[1]) == many for place in machines.places())


def value_of(turn, chance):
    """Arrivals and ticks; the answer to an arrival has the number of its call, so it depends on all before it."""
    entries = []
    for number in range(1, MANY + 1):
        caller = f"05{turn:03}{number:03}"
        body = {"requester": f"value{turn}", "invoke": number, "service": "arriveCall", "caller": caller, "called": "100"}
        if chance.random() < 0.5:
            body = {"requester": f"value{turn}", "invoke": number, "service": "tick"}
        entries.append(b"%032x %d %s" % (chance.randrange(2 ** 128), int(time.time()), json.dumps(body).encode()))
    return b"*\n" + b"\n".join(entries)


def killed_within(machines, n, turn, whole):
    """How many entries of a value a machine's desk has executed as it, or with it the node, is killed. The node is stopped first, so that it notices nothing."""
    os.kill(machines.nodes[n].pid, signal.SIGSTOP)
    machines.see("a desk is killed", machines.kill_desk(n))
    if whole:
        machines.kill_node(n)
    time.sleep(0.05)
    return len(kept(machines, n, f"value{turn}"))


def go_on(machines, n):
    if machines.nodes[n].poll() is None:
        os.kill(machines.nodes[n].pid, signal.SIGCONT)
    else:
        machines.start_node(n)


def kept(machines, n, requester):
    """The invokes of a requester that a stopped desk has kept, in their order, of a copy of its files."""
    with tempfile.TemporaryDirectory() as folder:
        for file in machines.folder.glob(f"m{n}/desk.db*"):
            shutil.copy(file, folder)
        with sqlite3.connect(f"{folder}/desk.db") as desk:
            return [invoke for invoke, in desk.execute("SELECT invoke FROM kept WHERE requester = ? ORDER BY stamp", (requester,))]


def look(machines, turns, first):
    machines.see("the places and digests are one", machines.wait_until_equal(), machines.places())
    everything = machines.everything()
    answers = run([machines.program, "lines"], input=b"".join(entry.split(b" ", 1)[1] + b"\n" for entry in everything if is_entry(entry))).stdout.splitlines()
    machines.see("the digest is that of an undisturbed desk", machines.places()[0][1:] == [f"{len(everything):020}", digest_over(everything, answers)] and len(answers) == first + MANY * turns,
                 (machines.places(), len(answers)))
    for n in (1, 2, 3):
        machines.kill_node(n)
    exports = [run([machines.program, "export", "--file", machines.folder / f"m{n}/desk.db"]).stdout for n in (1, 2, 3)]
    machines.see("the exports are one", exports == exports[:1] * 3 and exports[0].count(b"\n") > turns)
    for n in (1, 2, 3):
        audit = run([machines.program, "audit", "--file", machines.folder / f"m{n}/desk.db"]).stdout
        machines.see(f"the audit of machine {n}", audit == b"sound\n", audit)
        machines.see("all of each value is executed once, in order", all(kept(machines, n, f"value{turn}") == list(range(1, MANY + 1)) for turn in range(1, turns + 1)), n)
