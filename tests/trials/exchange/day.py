"""A day of a help line in a few minutes: phones and callers by sipp, what they saw against the desk's book, and faults planted into that."""
from __future__ import annotations

import random
import re
import shutil
import signal
import subprocess
import time
from collections.abc import Callable, Iterator
from dataclasses import dataclass
from pathlib import Path

import scenarios
from check import Comparison
from ground import PASSWORD, Ground


@dataclass
class Day:
    """How a day is: of 100 calls so many give up; each phone lets a tenth of the callers ring, or none; the seconds at which programs are killed."""
    agents: int = 10
    calls: int = 200
    rate: float = 2.5
    give_up: int = 20
    silent: bool = True
    patience: int = 4000
    talks: int = 3000
    music: bool = False
    edge: bool = False
    gate: bool = False
    kill_exchange: float = 0.0
    kill_desk: float = 0.0
    down: float = 1.5


def run(folder: Path, program: Path, base: int, day: Day) -> Comparison:
    options = ("--waiting", "music" if day.music else "queued", "--trace")
    with Ground(folder, program, base, day.agents, day.agents, edge=day.edge, options=options, gate=day.gate) as ground:
        for place, station in enumerate(ground.stations):
            talks = scenarios.LONG if place % 2 else 2 * day.talks
            ground.phone(station, scenarios.phone(400 + 100 * (place % 4), str(place % 10) if day.silent else "", talks), 100000)
        ground.start_ticks()
        time.sleep(0.5)
        ground.log_on(*range(1, day.agents + 1))
        callers = start_callers(ground, day)
        live_through(ground, day, callers)
        quiet = ground.wait_until_quiet()
        for process in ground.running:
            if process is not ground.exchange:
                ground.end(process, signal.SIGKILL)
        faults = ground.said("exchange").count("a step was undone")
        ground.end(ground.exchange)
        ground.desk.stop()
        (folder / "export.csv").write_text(ground.acd("export", "--file", "desk.db"))
        (folder / "report.txt").write_text(ground.acd("report", "--file", "desk.db"))
        audit = ground.acd("audit", "--file", "desk.db").strip()
    found = Comparison(folder, day.music)
    found.must("the audit, and no step undone", (audit, faults, quiet) == ("sound", 0, True), f"{audit}, {faults} undone, quiet: {quiet}")
    return found


def start_callers(ground: Ground, day: Day) -> list[subprocess.Popen[bytes]]:
    account = f"trunk:{PASSWORD}" if day.edge else ""
    gives = day.calls * day.give_up // 100
    numbers = [f"03{each:05d}" for each in range(1, day.calls + 1)]
    parts = [("calls-talk", numbers[gives:], scenarios.LONG), ("calls-give-up", numbers[:gives], day.patience)]
    return [ground.caller(name, scenarios.caller("100", patience, day.talks, day.music, account), part, day.rate * len(part) / day.calls)
            for name, part, patience in parts if part]


def live_through(ground: Ground, day: Day, callers: list[subprocess.Popen[bytes]]) -> None:
    """Until all callers are done: agents who let it ring press ready again; programs are killed, and started again."""
    began, kills = time.monotonic(), {"exchange": day.kill_exchange, "desk": day.kill_desk}
    while any(caller.poll() is None for caller in callers) and time.monotonic() - began < 60 + 4 * day.calls / day.rate:
        time.sleep(0.3)
        for name, at in kills.items():
            if at and time.monotonic() - began > at:
                kills[name] = 0.0
                ground.end(ground.exchange if name == "exchange" else ground.desk.process, signal.SIGKILL)
                time.sleep(day.down)
                setattr(ground, name, getattr(ground, f"start_{name}")())
        for place, station in enumerate(ground.stations):
            shown = ground.client.read(f"/agents/{place + 1}")
            if shown and shown["state"] == "notReady":
                ground.key(station, "*24")


# faults that are planted into the files of a day, each with the rule that has to tell it

def change_line(text: str, wanted: str, change: Callable[[list[str]], list[str] | None], which: int = 0) -> str:
    """Changes the fields of one line of those that have a text in them, or leaves the line out."""
    lines = text.split("\n")
    places = [place for place, line in enumerate(lines) if wanted in line]
    fields = change(lines[places[which]].split(","))
    lines[places[which]:places[which] + 1] = [",".join(fields)] if fields else []
    return "\n".join(lines)


def with_field(place: int, value: str) -> Callable[[list[str]], list[str]]:
    return lambda fields: [*fields[:place], value, *fields[place + 1:]]


def other_station(fields: list[str]) -> list[str]:
    return with_field(4, "201" if fields[4] != "201" else "202")(fields)


def abandoned(text: str) -> str:
    """The line of an abandoned call."""
    return next(line for line in text.split("\n") if ",callCleared," in line and line.split(",")[6])


PLANTS: list[tuple[str, str, Callable[[str], str], str]] = [
    ("an established at another station", "export.csv", lambda text: change_line(text, ",established,", other_station),
     "the phone that answered is the desk's"),
    ("an established left out", "export.csv", lambda text: change_line(text, ",established,", lambda fields: None),
     "answered at sipp = established at the desk"),
    ("an abandoned call told as answered", "export.csv", lambda text: change_line(text, abandoned(text), with_field(6, "")),
     "given up at sipp = cleared in the queue or ringing"),
    ("a noAnswer left out", "export.csv", lambda text: change_line(text, ",noAnswer,", lambda fields: None if fields[2] == "queued" else fields, next(
        place for place, line in enumerate([line for line in text.split("\n") if ",noAnswer," in line]) if ",queued," in line)), "rings taken back = noAnswer"),
    ("a delivery at another phone", "export.csv", lambda text: change_line(text, ",delivered,", other_station, 20), "phones rung, in order = delivered"),
    ("two callers change places", "calls-talk.msg", lambda text: swap(text, *sorted(set(re.findall(r"sip:(03\d{5})@", text)))[30:70:39]),
     "each ring is for who has waited longest"),
    ("an answered call more in the report", "report.txt", lambda text: re.sub(r"(?m)^(100 +\d+ +\d+ +\d+ +)(\d+)", one_more, text),
     "the report's figures are sipp's")]


def one_more(found: re.Match[str]) -> str:
    return found[1] + str(int(found[2]) + 1)


def swap(text: str, one: str, other: str) -> str:
    return text.replace(f"sip:{one}@", "sip:\0@").replace(f"sip:{other}@", f"sip:{one}@").replace("sip:\0@", f"sip:{other}@")


def planted(folder: Path) -> Iterator[tuple[str, bool]]:
    """Each plant, and whether it is told in the files of a day."""
    for name, file, change, rule in PLANTS:
        copy = folder.with_name(folder.name + "-planted")
        shutil.rmtree(copy, ignore_errors=True)
        shutil.copytree(folder, copy)
        (copy / file).write_text(change((copy / file).read_text(errors="replace")))
        yield name, Comparison(copy, music=False).differ[rule] > 0
        shutil.rmtree(copy)


def random_kills(seed: int) -> Day:
    """A short day in which bridge and desk are killed at random moments; with music or without."""
    chance = random.Random(seed)
    return Day(agents=6, calls=40, rate=3.0, silent=False, music=bool(seed % 2), kill_exchange=chance.uniform(2, 12), kill_desk=chance.uniform(2, 12))
