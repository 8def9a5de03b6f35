"""How many requests a second three machines answer, beside etcd's own puts and, if they are named, the nodes of another tree, in turns of one run; and the longest wait where etcd's
leader is killed."""
import statistics
import subprocess
import time
from collections import namedtuple
from pathlib import Path

from machines import COMMANDS, OfMachines
from trial import TOP

# of a run: answers, how many were sent again, seconds, and milliseconds
Paced = namedtuple("Paced", "answers again seconds p50 p99 most")
TICK = '{"requester":"%s-%%d","invoke":%%d,"service":"tick"}'
# as long as the value of one tick's entry
PUT = '{"key":"YmVuY2g=","value":"%s"}' % ("eHh4" * 32)


class Pace(OfMachines):
    def try_pace(self):
        """Each turn has each number of clients at each of the three."""
        options = self.options
        self.client = self.folder / "clients"
        subprocess.run(["gcc", "-O2", "-o", self.client, TOP / "bench/clients.c", "-lpthread"], check=True)
        trees = {"nodes": COMMANDS, **({"other nodes": Path(options.beside).resolve()} if options.beside else {})}
        places = {name: self.machines_of(name, commands) for name, commands in trees.items()}
        found = {}
        for turn in range(options.turns):
            for clients in (1, 8, 32):
                for name, machines in places.items():
                    tick = TICK % f"{name[0]}{turn}-{clients}"
                    found.setdefault((clients, name), []).append(self.paced(machines.ports[1], clients, "/csta", tick))
                found.setdefault((clients, "puts"), []).append(self.paced(places["nodes"].clients[1], clients, "/v3/kv/put", PUT))
        print_table(found)
        for name, machines in places.items():
            print(f"{name}: etcd's leader killed, the longest of 8 clients waits {self.killed_leader(machines):.2f} s")
            self.see("the places and digests are one", machines.wait_until_equal(), machines.places())

    def machines_of(self, name, commands):
        folder = self.folder / name.replace(" ", "-")
        folder.mkdir()
        machines = self.begin(names=True, commands=commands, folder=folder)
        machines.ask_until_answered('{"requester":"plan","invoke":1,"service":"addGroup","device":"100","name":"Billing","ring":20,"wrap":30}', self.chance, [])
        return machines

    def paced(self, port, clients, path, body, seconds=None):
        words = [self.client, port, clients, seconds or self.options.seconds, path, body]
        done = subprocess.run(list(map(str, words)), stdout=subprocess.PIPE, text=True, check=True)
        return Paced(*map(float, done.stdout.split()))

    def killed_leader(self, machines):
        """In seconds, at a node that has the leader and each other one as its members of etcd."""
        leader = next(n for n in (1, 2, 3) if machines.leads(n))
        words = [self.client, machines.ports[leader % 3 + 1], 8, 8, "/csta", TICK % "kill"]
        client = subprocess.Popen(list(map(str, words)), stdout=subprocess.PIPE, text=True)
        time.sleep(2)
        machines.etcd[leader].kill()
        machines.etcd[leader].wait()
        found = Paced(*map(float, client.communicate()[0].split()))
        machines.start_etcd(leader)
        return found.most / 1000


def print_table(found):
    print("clients, at whom: answers a second, p50 and p99 in ms (each the middle of all turns), p99 to p50; answers to etcd's puts (least to most)")
    for (clients, name), runs in sorted(found.items()):
        rates = [run.answers / run.seconds for run in runs]
        ratios = [rate / (put.answers / put.seconds) for rate, put in zip(rates, found[clients, "puts"])]
        p50, p99 = (statistics.median(getattr(run, what) for run in runs) for what in ("p50", "p99"))
        print(f"{clients:2} {name:12} {statistics.median(rates):6.0f} {p50:6.2f} {p99:7.2f} {p99 / p50:5.1f}   {statistics.median(ratios):.2f} ({min(ratios):.2f} to {max(ratios):.2f})"
              f"{f', {sum(run.again for run in runs):.0f} sent again' if sum(run.again for run in runs) else ''}")
