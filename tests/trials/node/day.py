"""Days of three machines: three tickers at once, and an etcd with room for a few thousand entries."""
import base64
import itertools
import json
import os
import random
import re
import sqlite3
import shutil
import subprocess
import tempfile
import threading
import time

from machines import COMMANDS, LINE, OfMachines, wait_until

CLOCK = "clock-abcdefghijkl"
# Bytes, and requests of a thousand bytes a second: from the moment on that nearly all of the quota is used the nodes need a second to see it.
QUOTA, RATE = 4_000_000, 250
REQUESTER = re.compile(r'"requester": ?"%s", ?"invoke": ?(\d+)' % CLOCK)


def kept_ticks(machines, n):
    """The steps of which a machine has kept a tick, of a copy of its stopped desk."""
    with tempfile.TemporaryDirectory() as folder:
        for file in machines.folder.glob(f"m{n}/desk.db*"):
            shutil.copy(file, folder)
        with sqlite3.connect(f"{folder}/desk.db") as desk:
            return [invoke for invoke, in desk.execute("SELECT invoke FROM kept WHERE requester = ? ORDER BY stamp", (CLOCK,))]


def sent_ticks(machines):
    """The step of each tick in the log."""
    return [int(found.group(1)) for entry in machines.log() if (found := REQUESTER.search(entry.decode("latin-1")))]


def three_tickers(machines, chance, many=5, step=2):
    """After-call work that is over in each step, while a ticker at each machine sends its ticks: one of a step is kept, though several are sent."""
    for invoke, service in enumerate([{"service": "addGroup", "device": "900", "name": "Ticks", "ring": 0, "wrap": 1}, {"service": "addStation", "device": "901"},
                                      {"service": "addAgent", "agent": "9", "name": "Tess"}, {"service": "setAgentState", "agent": "9", "requested": "loggedOn", "device": "901", "group": "900"}], 1):
        machines.ask_until_answered(json.dumps({"requester": "ticks", "invoke": invoke, **service}), chance, [])
    words = [COMMANDS / "acd-tick", "--step", str(step), "--port"]
    tickers = [subprocess.Popen([*words, str(machines.ports[n])], env={**os.environ, "ACD_CLOCK": CLOCK}) for n in (1, 2, 3)]
    try:
        for invoke in range(5, 5 + 20 * many):
            machines.ask_until_answered(json.dumps({"requester": "ticks", "invoke": invoke, "service": "setAgentState", "agent": "9", "requested": "workingAfterCall"}), chance, [])
            time.sleep(step)
            if len(set(sent_ticks(machines))) >= many:
                break
    finally:
        for ticker in tickers:
            ticker.kill()
            ticker.wait()
    time.sleep(step + 1)                                   # for a tick on its way
    machines.see("the places and digests are one after the ticks", machines.wait_until_equal(), machines.places())
    sent = sent_ticks(machines)
    for n in (1, 2, 3):
        machines.kill_node(n)
    kept = [kept_ticks(machines, n) for n in (1, 2, 3)]
    for n in (1, 2, 3):
        machines.start_node(n)
    machines.see("one tick of a step is kept, on all machines", kept == kept[:1] * 3 and sorted(kept[0]) == sorted(set(sent)) and len(kept[0]) >= many, (kept, sent))
    machines.see("though several were sent", len(sent) > len(kept[0]), (kept[0], sent))
    for n in (1, 2, 3):                                    # each is there again
        machines.ask_until_answered('{"requester":"ticks","invoke":999,"service":"setAgentState","agent":"9","requested":"loggedOff"}', random.Random(n), [], [n])


class Quota(OfMachines):
    def try_small_quota(self):
        """A day that would pass etcd's quota, were nothing forgotten; alarms that are ended; machines that were away, and one that was gone too long."""
        machines, chance = self.begin(names=True, quota=QUOTA), self.chance
        load(machines, "day", 2 * QUOTA // 1000, chance)
        self.see("after twice the quota etcd isn't full", not is_full(machines))
        self.see("the places and digests are one", machines.wait_until_equal(), machines.places())
        away_in_silence(machines, chance)
        nothing_forgotten(machines, chance)
        come_back(machines, chance, (3,), by_timer)
        come_back(machines, chance, (2, 3), by_hand)
        load(machines, "behind", QUOTA // 1000, chance)
        self.see("and all goes on, with one digest", not is_full(machines) and machines.wait_until_equal(), machines.places())
        gone_and_back(machines, chance)
        digests = count_of(machines, "desk/line/digest/")
        self.see("old digests are deleted", 3 <= digests <= 3 * 12, digests)


def load(machines, requester, many, chance, nodes=(1, 2, 3)):
    """So many ticks of a thousand bytes, by eight clients, no faster than the nodes look at etcd's quota, however fast this machine is."""
    def client(number):
        answered = []
        for invoke in range(1, many // 8 + 1):
            due = time.time() + 8 / RATE
            machines.ask_until_answered(json.dumps({"requester": f"{requester}{number}", "invoke": invoke, "service": "tick"}).ljust(1000), random.Random(number * many + invoke), answered, nodes)
            time.sleep(max(0, due - time.time()))
        machines.see("all are answered", all(it.status == 200 for it in answered), answered[:1])
    clients = [threading.Thread(target=client, args=(number,), daemon=True) for number in range(8)]
    for thread in clients:
        thread.start()
    for thread in clients:
        thread.join()


# What etcd holds

def is_full(machines):
    return any(alarm.get("alarm") == "NOSPACE" for alarm in machines.etcd_call(1, "/v3/maintenance/alarm", {"action": "GET"}).get("alarms", []))


def most(machines, what):
    """The most bytes that a member's file has (dbSize), or has in use (dbSizeInUse)."""
    return max(int(machines.etcd_call(n, "/v3/maintenance/status", {}).get(what, 0)) for n in (1, 2, 3))


def count_of(machines, front):
    body = {"key": base64.b64encode(front.encode()).decode(), "range_end": base64.b64encode(front[:-1].encode() + b"0").decode(), "count_only": True}
    return int(machines.etcd_call(1, "/v3/kv/range", body).get("count", 0))


def last_place(machines):
    """Of the log's last entry."""
    return int(machines.etcd_call(1, "/v3/kv/range", {"key": LINE})["kvs"][0]["mod_revision"])


def have_sent_all(machines, nodes):
    """Whether the last place that each of these has put into etcd is that of the log's last entry."""
    last = b"%d" % last_place(machines)
    keys = [base64.b64encode(b"desk/line/place/m%d" % n).decode() for n in nodes]
    places = [machines.etcd_call(1, "/v3/kv/range", {"key": key}).get("kvs", []) for key in keys]
    return all(kvs and base64.b64decode(kvs[0]["value"]) == last for kvs in places)


def is_compacted(machines, place):
    return "header" not in machines.etcd_call(1, "/v3/kv/range", {"key": LINE, "revision": str(place)})


# Alarms

def put_until(machines, requester, so):
    """Puts entries that no node took, as somebody else might, until it is so; whether it became so."""
    for number in range(2 * QUOTA // 1000):
        if number % 20 == 0 and so():
            return True
        entry = b"%032x 5 " % number + json.dumps({"requester": requester, "invoke": number + 1, "service": "tick"}).encode().ljust(1000)
        machines.etcd_call(1 + number % 3, "/v3/kv/put", {"key": LINE, "value": base64.b64encode(entry).decode()})
    return so()


def fill_up(machines, name, nodes):
    """Near the quota these nodes say so, take no more requests, and tell their places all the time; then etcd is filled on until it takes nothing more.
    A request that is 503, and the last place that was put into etcd."""
    heard = {n: len(machines.said(n)) for n in nodes}
    news = {}

    def have_said():
        news.update({n: machines.said(n)[heard[n]:] for n in nodes})
        return all("bytes of its quota" in said and "requests get 503" in said for said in news.values())

    full = json.dumps({"requester": name, "invoke": 1, "service": "tick"})
    machines.see("etcd is nearly full", put_until(machines, f"{name}-near", lambda: 16 * most(machines, "dbSizeInUse") >= 15 * QUOTA))
    machines.see("the nodes say that more than half of the quota is used, and then that it is nearly full", wait_until(have_said), news)
    machines.see("a nearly full etcd is 503", machines.ask(1, full)[0] == 503)
    machines.see("and has room for places", wait_until(lambda: have_sent_all(machines, nodes)), machines.places())
    near = last_place(machines)
    machines.see("etcd is full", put_until(machines, f"{name}-full", lambda: is_full(machines)))
    machines.see("a full etcd is 503", machines.ask(1, full)[0] == 503)
    return full, near


def by_timer(machines):
    status, said = machines.upkeep()
    machines.see("the timer's command ends the alarm", status == 0 and "takes entries again" in said and said.count("is defragmented") == 3, said)


def by_hand(machines):
    """As docs/MACHINES.md has it, by the least first number of the files that say how far each machine came. The compaction waits for one member, and none tells when it has done."""
    def defragment():
        return machines.etcdctl("--command-timeout=10m", "defrag") and 2 * most(machines, "dbSize") < QUOTA

    place = min(place for place, _, _ in machines.places())
    machines.see("etcdctl compact", machines.etcdctl("--command-timeout=10m", "compact", "--physical", place), place)
    machines.see("etcdctl defrag", wait_until(defragment), most(machines, "dbSize"))
    machines.see("these two don't end the alarm", is_full(machines))
    machines.see("etcdctl alarm disarm", machines.etcdctl("--command-timeout=10m", "alarm", "disarm"))


def see_room(machines):
    """That an alarm is over, and that it doesn't come again at once: nearly all that etcd had was forgotten, and given back."""
    size = most(machines, "dbSize")
    machines.see("etcd takes entries again, and its files are small", not is_full(machines) and 2 * size < QUOTA, (size, is_full(machines)))


def nothing_forgotten(machines, chance):
    """Nodes that know no other machine tell their places, and shorten nothing. So what is forgotten after the alarm, given back and ended is so by the timer's command alone."""
    machines.restart_nodes(names=False)
    full, _ = fill_up(machines, "unnamed", (1, 2, 3))
    by_timer(machines)
    see_room(machines)
    machines.restart_nodes(names=True)
    machines.ask_until_answered(full, chance, [])
    machines.see("and all goes on, with one digest", machines.wait_until_equal(), machines.places())


# Machines that were away

def away_in_silence(machines, chance):
    """The log was compacted up to its end, since all had told that they have all of it. Who was away from then on lacks nothing that is gone."""
    machines.restart_nodes(names=True)                     # each tells its place at once then
    place = last_place(machines)
    machines.see("the log is compacted up to its end", wait_until(lambda: is_compacted(machines, place)), place)
    machines.kill_node(3)
    load(machines, "silence", 80, chance, (1, 2))
    machines.start_node(3)
    machines.see("a machine that was away since then goes on", machines.wait_until_equal(), (machines.places(), machines.said(3)[-300:]))


def come_back(machines, chance, away, ends_alarm):
    """While machines are away the log is kept for them, until etcd is full. They come back, and can't tell their places. One makes room by its own, so that the timer's command
    is all that is needed; two don't know of each other, and it is done by hand."""
    machines.restart_nodes(names=True)
    for n in away:
        machines.kill_node(n)
    full, near = fill_up(machines, f"away{len(away)}", [n for n in (1, 2, 3) if n not in away])
    for n in away:
        machines.start_node(n)
    machines.see("they come back", machines.wait_until_equal(), machines.places())
    if len(away) == 1:
        forgotten = wait_until(lambda: is_compacted(machines, near - 1))
        machines.see("what all have told or know of themselves is forgotten, while nobody can tell anything", forgotten and is_full(machines), near)
    ends_alarm(machines)
    see_room(machines)
    machines.ask_until_answered(full, chance, [])
    machines.see("and all goes on, with one digest", machines.wait_until_equal(), machines.places())


def gone_and_back(machines, chance):
    """One machine is gone for longer than it is waited for, so the log is shortened without it; it comes back with a copy of another's folder."""
    machines.gone = 0.003
    for n in (1, 2, 3):
        machines.kill_node(n)
    for n in (1, 2):
        machines.start_node(n)
    turns = itertools.count()

    def is_named():
        load(machines, f"gone{next(turns)}-", 1600, chance, (1, 2))
        return "m3 has told no place for" in machines.said(1) + machines.said(2)

    machines.see("it is named", wait_until(is_named, step=0))
    load(machines, "without", 1600, chance, (1, 2))
    machines.start_node(3)
    machines.see("it answers nothing, and says why", machines.refuses(3, "copy the folder of another machine"), machines.said(3)[-300:])
    machines.copy_folder(3, 1)
    load(machines, "back", 800, chance)
    machines.see("with a copied folder it goes on, with one digest", machines.wait_until_equal(), machines.places())
