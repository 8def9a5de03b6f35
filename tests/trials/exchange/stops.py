"""The exchange is stopped before, and behind, the commit of each of its steps in turn, and started again: each call has to come to its end all the same."""
from __future__ import annotations

import time
from dataclasses import dataclass
from pathlib import Path

import scenarios
from ground import Ground, side_by_side

OFFER = "queued@100 diverted@100 delivered@201"
GIVEN_UP = "connectionCleared@0301234 connectionCleared@201 callCleared"
BY_202 = "connectionCleared@202 connectionCleared@0301234 callCleared"

KINDS = {
    "answered": f"{OFFER} established@201 {GIVEN_UP}",
    "music": f"{OFFER} established@201 {GIVEN_UP}",
    "given up": f"{OFFER} {GIVEN_UP}",
    "taken back": f"{OFFER} diverted@201 queued@100 diverted@100 delivered@202 established@202 {BY_202}",
    "transferred": f"{OFFER} established@201 transferred@201 delivered@202 established@202 {BY_202}"}


@dataclass
class Stopped:
    kind: str
    at: str
    reached: bool
    wrong: str
    # a course of sipp broke off at a repeat, or at a question whether it is there, that phones take at any time
    broken_off: bool


def run_one(folder: Path, program: Path, base: int, kind: str, at: str) -> Stopped:
    waiting = "music" if kind == "music" else "queued"
    ring, name = 6 if kind == "taken back" else 60, f"{kind.replace(' ', '-')}-{at}"
    with Ground(folder / name, program, base, 2, 2, ring=ring, options=("--waiting", waiting)) as ground:
        for agent in (1, 2):
            ground.ask("setAgentState", agent=str(agent), requested="loggedOn", device=ground.stations[agent - 1], group="100")
            if agent == 1 or kind == "taken back":
                ground.ask("setAgentState", agent=str(agent), requested="ready")
        ground.end(ground.exchange)
        extra = scenarios.refer("202") if kind == "transferred" else ()
        delay = scenarios.LONG if kind in ("given up", "taken back") else 400
        rung = [ground.phone("201", scenarios.phone(delay, extra=extra))]
        if kind in ("taken back", "transferred"):
            rung.append(ground.phone("202", scenarios.phone(400, talks=1500)))
        ground.exchange = ground.start_exchange(at)
        talks = {"answered": 1500, "music": 1500}.get(kind, 0)
        patience = 4000 if kind == "given up" else scenarios.LONG
        caller = ground.caller("caller", scenarios.caller(patience=patience, talks=talks, music=kind == "music"), ["0301234"])
        reached, deadline = False, time.monotonic() + 45
        while time.monotonic() < deadline and any(process.poll() is None for process in (caller, *rung)):
            time.sleep(0.1)
            if ground.exchange.poll() is not None:
                reached, ground.exchange = True, ground.start_exchange()
            if kind == "taken back":
                ground.ask("tick")
        if ground.exchange.poll() is not None:
            reached, ground.exchange = True, ground.start_exchange()
        quiet = ground.wait_until_quiet(5)
        told = ground.story()
        ends = [process.poll() for process in (caller, *rung)]
        ground.end(ground.exchange)
        wrong = "" if quiet and told == KINDS[kind] and None not in ends and "undone" not in ground.said("exchange") else f"sipp {ends}, {told}"
    return Stopped(kind, at, reached, wrong, 1 in ends)


def run(folder: Path, program: Path, base: int, kinds: list[str], jobs: int, steps: int = 40) -> list[Stopped]:
    """All stops of these kinds of call; a step that isn't reached any more is the end of its kind."""
    points = [(kind, f"{step}-{when}") for kind in kinds for step in range(2, steps) for when in ("before", "after")]

    def work(place: int) -> list[Stopped]:
        found, over = [], set[str]()
        for kind, at in points[place::jobs]:
            if kind not in over:
                found.append(run_one(folder, program, base + 1000 * place, kind, at))
                if not found[-1].reached:
                    over.add(kind)
        return found

    return [stopped for part in side_by_side(jobs, [(work, place) for place in range(jobs)]) for stopped in part]
