"""Strangers flood nginx and the gate, by each way; others, who have a right to, are answered all the same, and afterwards the gate is as before."""
import contextlib
import itertools
import json
import os
import subprocess
import threading
import time
from collections import Counter
from pathlib import Path
from random import uniform

from others import Others, percentile
from place import Place, token_of
from trial import ANY, TOP, Connection, ran

# requests or connections a second, of all attackers; passwords, each of which costs the gate a check, are fewer
RATES = {"nothing": 2000, "cookie": 2000, "names": 300, "name": 300, "form": 300, "idle": 1500, "heads": 1500}
PROCESSES = {"idle": 3, "heads": 3}
# of how many addresses: four send 500 made-up cookies a second each
ADDRESSES = {"cookie": (1, 4, 40)}
# seconds more of 95 % than without the flood, threads and descriptors, megabytes: of these also after all floods
LATER, MORE, MEGABYTES, SETTLES = 0.1, 2, 20, 10
# until the attackers have begun
STARTS = 3
# by how much nginx, the gate and who measures go before this machine's other work; the attackers by half of that
URGENT = -20
FIRST = [f"a{number}" for number in range(500)]


class Ground(Place):
    """The passwords' hashes are bcrypt's, as the pages have it; nginx has as many workers as Debian gives it."""
    WORKERS = "auto"
    ROLES = {"sup": "supervisor", **{login: "supervisor" for login in FIRST}}

    @classmethod
    def write_users(cls):
        line = ran("htpasswd", "-n", "-i", "-B", "-C", "8", "", given="secret").output.strip()
        (cls.folder / "users").write_text("".join(f"{login}{line}\n" for login in cls.ROLES))


class Flood(Ground):
    """`floods` of a way: of one address and of many, without and with resets, over HTTP/1.1 and, requests, HTTP/2; and the first ones again."""
    way, first = None, None

    def floods(self):
        protocols = (1,) if self.way in PROCESSES else (1, 2)
        return itertools.islice(itertools.cycle(itertools.product(protocols, ADDRESSES.get(self.way, (1, 40)), (False, True))), self.options.floods)

    def try_floods(self):
        seconds = self.options.seconds
        others = Others(self.port, token_of(self.log_in("sup")[1]), FIRST)
        others.during(3)
        others.pause()
        time.sleep(SETTLES)
        before = self.held()
        for protocol, addresses, resets in self.floods():
            what = f"{self.way}, HTTP/{protocol}, {addresses} address{'es' if addresses > 1 else ''}{', resets' if resets else ''}"
            quiet = others.during(seconds / 2)
            attackers = self.attack(protocol, addresses, resets, seconds + 2)
            time.sleep(STARTS)
            flooded = others.during(seconds)
            others.pause()
            sent = self.ended(attackers)
            for kind in others.kinds:
                self.see(f"{what}: {kind} is answered meanwhile", any(one == kind for one, _, _ in flooded))
            self.judge(what, quiet, flooded, sent)
            time.sleep(SETTLES)
            self.same_as(before, what)
        others.ended = True
        others.runs.set()

    def attack(self, protocol, addresses, resets, seconds):
        count = PROCESSES.get(self.way, 2)
        words = ["/usr/bin/python3", "-B", TOP / "tests/trials/flood/attacker.py", self.way, self.port, "--protocol", protocol, "--addresses", addresses,
                 "--rate", RATES[self.way] / count, "--seconds", seconds, *(["--resets"] if resets else [])]
        attackers = [subprocess.Popen([*map(str, words)], stdout=subprocess.PIPE, text=True, start_new_session=True) for _ in range(count)]
        for one in attackers:
            with contextlib.suppress(OSError):
                Path(f"/proc/{one.pid}/autogroup").write_text(str(URGENT // 2))
        return attackers

    def ended(self, attackers):
        told = Counter()
        for one in attackers:
            told.update(json.loads(one.communicate(timeout=120)[0] or "{}"))
        return told

    def judge(self, what, quiet, flooded, sent):
        unit = "connections" if self.way in PROCESSES else "requests"
        reached = sent[unit] / (sent["seconds"] / PROCESSES.get(self.way, 2))
        self.tell(f"{what}: {reached:.0f} {unit} a second, {dict(sent)}; load {os.getloadavg()[0]:.0f}")
        for kind in sorted({kind for kind, _, _ in flooded}):
            statuses = Counter(status for one, _, status in quiet + flooded if one == kind)
            self.expect(f"{what}: {kind} is answered", dict(statuses), {200: sum(statuses.values())})
            without, within = (percentile([took for one, took, _ in told if one == kind]) for told in (quiet, flooded))
            print(f"    {kind}: {len(flooded) // 3} times, 95 % {1000 * without:.0f} ms without, {1000 * within:.0f} ms within", flush=True)
            self.see(f"{what}: {kind} isn't later", within <= without + LATER, (without, within))

    def held(self):
        """What the gate has: threads, descriptors, megabytes."""
        status = dict(line.split(":", 1) for line in Path(f"/proc/{self.gate.pid}/status").read_text().splitlines())
        return int(status["Threads"]), len(os.listdir(f"/proc/{self.gate.pid}/fd")), int(status["VmRSS"].split()[0]) / 1024

    def same_as(self, before, what):
        now = self.held()
        print(f"    {SETTLES} s later: {now[0]} threads, {now[1]} descriptors, {now[2]:.0f} MB (before: {before[0]}, {before[1]}, {before[2]:.0f})", flush=True)
        self.see(f"{what}: threads and descriptors of before", all(now[place] <= before[place] + MORE for place in (0, 1)), (now, before))
        self.see(f"{what}: memory of before", now[2] <= before[2] + MEGABYTES, (now, before))


def flood(way):
    return type(way.capitalize(), (Flood,), {"way": way})


class Crowd(Ground):
    """500 people of one address log in at once, as the page does it: sent again where there is no room."""

    def try_crowd(self):
        ended, tries, begun = {}, Counter(), time.monotonic()

        def person(login):
            wait = 1.0
            with Connection(self.port, ANY, 60) as connection:
                while login not in ended and time.monotonic() - begun < 90:
                    status = connection.ask("POST", "/login", f"login={login}&password=secret").status
                    tries[status] += 1
                    if status != 429:
                        ended[login] = status, time.monotonic() - begun
                        return
                    time.sleep(wait * uniform(0.75, 1.25))
                    wait = min(5.0, 2 * wait)

        people = [threading.Thread(target=person, args=(login,)) for login in FIRST]
        for one in people:
            one.start()
        for one in people:
            one.join()
        self.expect("all are in", Counter(status for status, _ in ended.values()), {200: len(FIRST)})
        last = max(took for _, took in ended.values())
        half = percentile([took for _, took in ended.values()], 0.5)
        self.tell(f"500 log-ins of one address: {last:.1f} s, half within {half:.1f} s, {dict(tries)}; load {os.getloadavg()[0]:.0f}")
        self.see("within 30 s", last < 30, last)
