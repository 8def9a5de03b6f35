#!/usr/bin/python3
"""Carries a help line's day on in real time: callers and agents who do what the desk's events tell them to, and a tick each five seconds.

usage: live.py --desk PORT [--calls C] [--seconds S] [--seed N]     (default: 20 calls a minute, for ever, 1)

It begins with the desk's snapshot and follows its events, so that it is never out of step with the desk: an agent who is rung answers,
mostly; a call that was answered is held, transferred or hung up; who isn't ready is ready again; who waits too long gives up. It says
at its end how many requests were granted, and how many came too late. SIGUSR1 halts it between two requests, and SIGUSR2 lets it go on: one that was
halted within a request would hold the desk."""
import argparse
import heapq
import http.client
import random
import signal
import sys
import time
from collections import Counter
from itertools import count
from pathlib import Path

sys.path.append(str(Path(__file__).resolve().parents[1]))
from trial import Connection, Requests, compact  # noqa: E402

PATIENCE, TALK, TICK = 240, 150, 5


class Office:
    def __init__(self, port, calls, seed):
        self.port, self.calls, self.chance = port, calls, random.Random(seed)
        self.requester, self.request, self.told = f"live-{random.SystemRandom().randrange(10 ** 12)}", Requests(), Counter()
        self.ahead, self.serial, self.last = [], count(), 0
        self.groups, self.stations, self.outside = [], set(), {}
        self.is_halted = False
        signal.signal(signal.SIGUSR1, lambda *_: setattr(self, "is_halted", True))
        signal.signal(signal.SIGUSR2, lambda *_: setattr(self, "is_halted", False))

    def get(self, path):
        return self.answered("GET", path)[1]

    def answered(self, *request):
        """The answer of a request that is sent until it has one; a desk that is started again gets the same once more."""
        while True:
            try:
                return self.send(*request)
            except (OSError, http.client.HTTPException, ValueError):
                time.sleep(0.5)

    def send(self, method, path, body=None):
        while self.is_halted:
            time.sleep(0.02)
        with Connection(self.port, seconds=30) as connection:
            reply = connection.ask(method, path, body)
            return reply.status, reply.value

    def ask(self, service, **members):
        status, reply = self.answered("POST", "/csta", compact(self.request(service, self.requester, **members)))
        self.told["granted" if status == 200 else "too late"] += 1
        return reply.get("result", {})

    def after(self, seconds, what, *things):
        heapq.heappush(self.ahead, (time.time() + seconds, next(self.serial), what, things))

    def begin(self):
        shot = self.get("/snapshot")
        self.last = shot["last"]
        self.groups = [group["device"] for group in shot["groups"]]
        self.stations = {station["device"] for station in shot["stations"]}
        for agent in shot["agents"]:
            self.agent_is(agent["agent"], agent["state"])
        for call in shot["calls"]:
            self.outside[call["call"]] = call["caller"]
            for connection in call["connections"]:
                self.connection_is(call["call"], connection["device"], connection["state"])
        self.after(0, self.arrive)
        self.after(0, self.tick)

    def run(self, until):
        self.begin()
        while time.time() < until:
            while self.ahead and self.ahead[0][0] <= time.time() < until:
                _, _, what, things = heapq.heappop(self.ahead)
                what(*things)
            self.follow()
            time.sleep(0.05)

    def follow(self):
        for event in self.get(f"/history?after={self.last}")["events"]:
            self.last = event["number"]
            if "agent" in event:
                self.agent_is(event["agent"], {"agentLoggedOn": "notReady", "agentNotReady": "notReady", "agentWorkingAfterCall": "workingAfterCall"}.get(event["event"]))
            else:
                self.connection_is(event["call"], event.get("device"), {"queued": "queued", "delivered": "alerting", "established": "connected", "held": "hold"}.get(event["event"]))

    def agent_is(self, agent, state):
        if state == "notReady":
            self.after(self.chance.uniform(5, 240), self.set_state, agent, "ready")
        elif state == "workingAfterCall" and self.chance.random() < 0.5:
            self.after(self.chance.uniform(5, 40), self.set_state, agent, "ready")
        elif state == "ready" and self.chance.random() < 0.05:
            self.after(self.chance.uniform(60, 1200), self.set_state, agent, "notReady")

    def connection_is(self, call, device, state):
        if state == "queued":
            self.after(self.chance.expovariate(1 / PATIENCE) + 5, self.give_up, call, device)
        elif state == "alerting" and device in self.stations and self.chance.random() < 0.97:
            self.after(self.chance.uniform(2, 12), self.act, "answerCall", call, device)
        elif state == "hold":
            self.after(self.chance.uniform(10, 60), self.act, "retrieveCall", call, device)
        elif state == "connected" and device in self.stations:
            kind, talk = self.chance.random(), self.chance.lognormvariate(0, 0.6) * TALK * 0.85
            self.after(talk, self.hang_up, call, device)
            if kind < 0.12:
                self.after(talk / 2, self.act, "holdCall", call, device)
            elif kind < 0.18:
                self.after(talk / 2, self.transfer, call, device)

    # what people do; the desk refuses what comes too late, a call that has ended, say

    def arrive(self):
        self.after(self.chance.expovariate(self.calls / 60), self.arrive)
        caller = f"03{self.chance.randrange(10 ** 7):07}"
        call = self.ask("arriveCall", caller=caller, called=self.chance.choice(self.groups)).get("call")
        self.outside[call] = caller

    def tick(self):
        self.after(TICK, self.tick)
        self.ask("tick")

    def act(self, service, call, device):
        self.ask(service, call=call, device=device)

    def set_state(self, agent, requested):
        self.ask("setAgentState", agent=agent, requested=requested)

    def give_up(self, call, group):
        """The call still waits there, or it went on meanwhile."""
        if self.chance.random() < 0.08:
            self.ask("deflectCall", call=call, device=group, to=self.chance.choice(self.groups))
        elif any(connection["state"] == "queued" for connection in self.get(f"/calls/{call}").get("connections", [])):
            self.ask("clearConnection", call=call, device=group)

    def transfer(self, call, device):
        self.ask("singleStepTransfer", call=call, device=device, to=self.chance.choice(self.groups))

    def hang_up(self, call, device):
        self.ask("clearConnection", call=call, device=device)


def main():
    parser = argparse.ArgumentParser()
    parser.add_argument("--desk", type=int, required=True)
    parser.add_argument("--calls", type=float, default=20)
    parser.add_argument("--seconds", type=float, default=10 ** 9)
    parser.add_argument("--seed", type=int, default=1)
    options = parser.parse_args()
    office = Office(options.desk, options.calls, options.seed)
    try:
        office.run(time.time() + options.seconds)
    except KeyboardInterrupt:
        pass
    print(dict(office.told), flush=True)


if __name__ == "__main__":
    main()
