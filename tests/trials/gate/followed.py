"""What the gate follows of a desk, against the desk's own snapshots, over an office's day at its own moments."""
import asyncio
import functools
import json
import sys

from trial import TOP, Lines, Trial, ran

sys.path.insert(0, str(TOP / "service"))
from acd_service.gate import following  # noqa: E402
from acd_service.gate.exchanges import Answer  # noqa: E402

EACH = 20


class Followed(Trial):
    def try_followed(self):
        desk, lines = self.enterContext(Asked(self.program)), office()
        # one begins before the day, and each later one in the middle of it; all are carried on to its end
        followers, compared, waited, rang = [following.Following(desk.ask)], 0, 0, 0
        for number, line in enumerate(lines, 1):
            desk.say(line)
            if number % 400 == 0:
                followers.append(following.Following(desk.ask))
            if number % EACH == 0 or number == len(lines):
                snapshot = json.loads(desk.told("/snapshot")[1])
                wanted = shape_of_snapshot(snapshot)
                waited, rang = waited + sum(map(len, wanted["queues"].values())), rang + sum(side[1] == "alerting" for sides in wanted["calls"].values() for side in sides)
                for follower in followers:
                    # a snapshot of its own would mend what reports were taken wrongly
                    follower.renewed = float("inf") if follower.state else 0
                    asyncio.run(follower.catch_up())
                    found = shape_of_state(follower.state)
                    compared += 1
                    for what, told in wanted.items():
                        self.see(f"{what} behind request {number}", found[what] == told, differences(found[what], told))
        self.another(followers[:2], lines)
        self.see("an office's day was followed", compared > 500 and waited > 500 and rang > 100, (compared, waited, rang))
        print(f"    {len(followers)} times begun, {compared} comparisons with {waited} waiting and {rang} ringing calls")

    def another(self, followers, lines):
        """Another desk's history in place of the one that was followed: one with fewer events, and one that differs in its moments alone."""
        later = [f"{int(moment) + 7} {request}" for moment, _, request in (line.partition(" ") for line in lines)]
        for follower, others in zip(followers, (lines[:200], later)):
            desk = self.enterContext(Asked(self.program))
            for line in others:
                desk.say(line)
            follower.ask, told = desk.ask, None
            try:
                asyncio.run(follower.catch_up())
            except following.Away:
                told = follower.state
                asyncio.run(follower.catch_up())
            else:
                told = "nothing"
            self.expect("another history is seen", told, None)
            self.expect("and followed from its begin", shape_of_state(follower.state), shape_of_snapshot(json.loads(desk.told("/snapshot")[1])))


@functools.cache
def office():
    """The lines of the day of tests/office.py."""
    return ran(sys.executable, "-B", TOP / "tests/office.py", "given").output.splitlines()


class Asked(Lines):
    """A desk in memory; it is asked at its last moment."""

    def __init__(self, program):
        super().__init__(program, words=["--reads"])
        self.moment = "0"

    def say(self, line):
        self.moment = line.partition(" ")[0]
        return super().say(line)

    def told(self, path):
        """Status and body of a read."""
        status, _, body = self.say(f"{self.moment} GET {path}").partition(" ")
        return int(status), body.encode()

    async def ask(self, _, path):
        status, body = self.told(path)
        return Answer(status, "application/json", body)


def shape_of_snapshot(snapshot):
    """What a follower has to know; an external caller's side and names are left out, since no report tells them."""
    planned = {one["device"] for one in (*snapshot["stations"], *snapshot["groups"])}
    queues = {group["device"]: [] for group in snapshot["groups"]}
    for call in snapshot["calls"]:
        for side in call["connections"]:
            if side["state"] == "queued":
                queues[side["device"]].append((side["place"], call["call"]))
    return {
        "agents": {one["agent"]: (one["state"], one["since"], one["device"], one.get("groups") or [one["group"]]) for one in snapshot["agents"] if "device" in one},
        "stations": {one["device"]: one["agent"] for one in snapshot["stations"] if "agent" in one},
        "calls": {call["call"]: sorted((side["device"], side["state"], side.get("group")) for side in call["connections"] if side["device"] in planned) for call in snapshot["calls"]},
        "callers": {call["call"]: (call["caller"], call["called"]) for call in snapshot["calls"]},
        "offers": {(call["call"], side["device"]): side["offered"] for call in snapshot["calls"] for side in call["connections"] if "offered" in side},
        "queues": {group: [call for _, call in sorted(found)] for group, found in queues.items() if found},
    }


def shape_of_state(state):
    planned = state.stations.keys() | state.groups.keys()
    sides = [(call, side) for call in state.calls.values() for side in call.connections.values() if side.device in planned]
    return {
        "agents": {one.id: (one.state, one.since, one.station, sorted(one.groups, key=lambda group: (len(group), group))) for one in state.agents.values() if one.station},
        "stations": {one.id: one.agent for one in state.stations.values() if one.agent},
        "calls": {number: sorted((side.device, side.state, side.group if side.state != "queued" else None) for call, side in sides if call.number == number) for number in state.calls},
        "callers": {call.number: (call.caller, call.called) for call in state.calls.values()},
        "offers": {(call.number, side.device): side.since for call, side in sides if side.state == "alerting" and side.group},
        "queues": {group.id: [call.number for call in sorted(group.waiting, key=lambda call: call.rank)] for group in state.groups.values() if group.waiting},
    }


def differences(found, wanted):
    return [(key, found.get(key), wanted.get(key)) for key in found.keys() | wanted.keys() if found.get(key) != wanted.get(key)][:3]
