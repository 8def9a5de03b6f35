"""Compares sipp's message traces (what phones and callers saw on the wire) with the desk's export and report. The exchange's own words aren't read.

A folder has calls*.msg of callers, phone-*.msg of phones, desk.db, export.csv and report.txt. Callers are told apart by their number."""
from __future__ import annotations

import csv
import datetime
import json
import re
import sqlite3
from collections import Counter, defaultdict
from collections.abc import Iterator
from dataclasses import dataclass, field
from pathlib import Path

NEVER = float("inf")
# seconds: two events of the wire that are nearer to each other may be seen in either order
NEAR = 0.3


@dataclass
class Caller:
    """What a caller saw: its INVITE was sent, and surely heard."""
    invited: float
    heard: float = NEVER
    answered: float = NEVER
    moved: float = NEVER
    cancelled: float = NEVER
    ended: float = NEVER
    statuses: list[int] = field(default_factory=list)


@dataclass
class Ring:
    """What a phone saw of one INVITE."""
    station: str
    caller: str
    at: float
    answered: float = NEVER
    cancelled: float = NEVER
    acked: float = NEVER


@dataclass
class Booked:
    """What the desk's events say of a call."""
    established: str = ""
    abandoned: bool = False
    delivered: list[str] = field(default_factory=list)
    unanswered: int = 0
    cleared: int = 0


def messages(file: Path) -> Iterator[tuple[float, bool, str, dict[str, str]]]:
    """Of each message in a trace: the moment, whether it was sent, its first line, its fields."""
    for part in re.split(r"-{40,} ", file.read_text(errors="replace"))[1:]:
        stamp, _, rest = part.partition("\n")
        if not re.match(r"UDP message", rest):
            continue
        moment = datetime.datetime.strptime(stamp.strip()[:26], "%Y-%m-%d %H:%M:%S.%f").timestamp()
        first, *lines = rest.partition("\n\n")[2].split("\n")
        fields = {line.partition(":")[0].strip().lower(): line.partition(":")[2].strip() for line in lines if ":" in line}
        yield moment, " sent " in rest.split("\n")[0], first.strip(), fields


def number(address: str) -> str:
    found = re.search(r"sip:(\d+)@", address)
    return found[1] if found else ""


def callers_of(folder: Path) -> dict[str, Caller]:
    found: dict[str, Caller] = {}
    for file in folder.glob("calls*.msg"):
        names: dict[str, str] = {}
        for at, sent, first, fields in messages(file):
            key = fields.get("call-id", "")
            if sent and first.startswith("INVITE") and key not in names:
                names[key] = number(fields["from"])
                found[names[key]] = Caller(at)
            if key in names:
                see_caller(found[names[key]], at, sent, first, fields)
    return found


def see_caller(caller: Caller, at: float, sent: bool, first: str, fields: dict[str, str]) -> None:
    if not sent and first.startswith("SIP/2.0") and fields["cseq"].endswith("INVITE"):
        caller.statuses.append(int(first.split()[1]))
        caller.heard = min(caller.heard, at)
        if caller.statuses[-1] == 200:
            caller.answered = min(caller.answered, at)
        elif caller.statuses[-1] >= 300:
            caller.ended = min(caller.ended, at)
    if not sent and first.startswith("INVITE"):
        caller.moved = min(caller.moved, at)
    if sent and first.startswith("CANCEL"):
        caller.cancelled = min(caller.cancelled, at)
    if first.startswith("BYE"):
        caller.ended = min(caller.ended, at)


def rings_of(folder: Path) -> dict[str, list[Ring]]:
    """The rings of each caller, in their order."""
    found: dict[str, list[Ring]] = defaultdict(list)
    for file in folder.glob("phone-*.msg"):
        rings: dict[str, Ring] = {}
        for at, sent, first, fields in messages(file):
            key = fields.get("call-id", "")
            if not sent and first.startswith("INVITE") and key not in rings:
                rings[key] = Ring(file.stem[6:], number(fields["from"]), at)
                found[rings[key].caller].append(rings[key])
            if key in rings:
                see_ring(rings[key], at, sent, first, fields)
    return defaultdict(list, {caller: sorted(rung, key=lambda ring: ring.at) for caller, rung in found.items()})


def see_ring(ring: Ring, at: float, sent: bool, first: str, fields: dict[str, str]) -> None:
    if sent and first.startswith("SIP/2.0 200") and fields["cseq"].endswith("INVITE"):
        ring.answered = min(ring.answered, at)
    if not sent and first.startswith("ACK"):
        ring.acked = min(ring.acked, at)
    if not sent and first.startswith("CANCEL"):
        ring.cancelled = min(ring.cancelled, at)


def booked_of(folder: Path) -> dict[str, Booked]:
    """The desk's events of each caller; no event has the caller, the kept requests do."""
    base = sqlite3.connect(folder / "desk.db")
    arrived = [(json.loads(request), json.loads(body)) for body, request in base.execute("SELECT body, request FROM kept WHERE status = 200")]
    base.close()
    callers = {body["result"]["call"]: request["caller"] for request, body in arrived if request["service"] == "arriveCall"}
    found: dict[str, Booked] = defaultdict(Booked)
    for event in csv.DictReader((folder / "export.csv").open()):
        if not event["call"]:
            continue
        booked = found[callers[int(event["call"])]]
        if event["event"] == "established" and event["group"]:
            booked.established = event["device"]
        elif event["event"] == "delivered":
            booked.delivered.append(event["device"])
        elif event["event"] == "queued" and event["cause"] == "noAnswer":
            booked.unanswered += 1
        elif event["event"] == "callCleared":
            booked.cleared += 1
            booked.abandoned |= bool(event["group"])
    return found


class Comparison:
    def __init__(self, folder: Path, music: bool):
        self.folder, self.music = folder, music
        self.callers, self.rings, self.booked = callers_of(folder), rings_of(folder), booked_of(folder)
        self.differ: Counter[str] = Counter()
        self.notes: list[str] = []
        for name, caller in self.callers.items():
            self.compare(name, caller, self.rings[name], self.booked.get(name, Booked()))
        self.must("no call but sipp's", set(self.booked) <= set(self.callers), str(set(self.booked) - set(self.callers)))
        self.compare_order()
        self.compare_report()

    def must(self, rule: str, holds: bool, note: str) -> None:
        self.differ[rule] += not holds
        if not holds:
            self.notes.append(f"{rule}: {note}")

    def compare(self, name: str, caller: Caller, rings: list[Ring], booked: Booked) -> None:
        note = f"{name} {caller} {rings} {booked}"
        reached = (caller.moved if self.music else caller.answered) < NEVER
        talked = [ring.station for ring in rings if ring.answered < ring.cancelled]
        self.must("answered at sipp = established at the desk", reached == bool(booked.established), note)
        self.must("the phone that answered is the desk's", not booked.established or booked.established in talked, note)
        self.must("given up at sipp = cleared in the queue or ringing", reached != booked.abandoned, note)
        self.must("phones rung, in order = delivered", [ring.station for ring in rings] == booked.delivered, note)
        ended_by_caller = booked.abandoned and len(booked.delivered) > booked.unanswered
        # a phone that answers too late, or just as the caller gives up, is told so by a BYE
        taken_back = sum(ring.cancelled < NEVER or ring.answered < NEVER and not (reached and ring is rings[-1]) for ring in rings)
        self.must("rings taken back = noAnswer", taken_back == booked.unanswered + ended_by_caller, note)
        self.must("each call is cleared once", booked.cleared == 1, note)

    def waits(self, name: str, at: float) -> bool:
        """Whether a caller surely waits, and rings nowhere, at a moment."""
        caller = self.callers[name]
        rung = any(abs(ring.at - at) < NEAR or ring.at < at and ring.cancelled > at - NEAR for ring in self.rings[name])
        return caller.heard < at - NEAR and min(caller.cancelled, caller.ended) > at + NEAR and not rung

    def compare_order(self) -> None:
        """From the wire alone: nobody has waited longer than the caller that a phone rings for."""
        for name, rings in self.rings.items():
            for ring in rings:
                before = [other for other in self.callers if name in self.callers and other != name
                          and self.callers[other].heard < self.callers[name].invited and self.waits(other, ring.at)]
                self.must("each ring is for who has waited longest", not before, f"at {ring.at:.3f} {name} rang before {before}")

    def compare_report(self) -> None:
        """The report's figures of the group against what sipp saw."""
        columns = (self.folder / "report.txt").read_text().split("\n")[1].split()
        reached = sum((caller.moved if self.music else caller.answered) < NEVER for caller in self.callers.values())
        wanted = ["0", "0", str(len(self.callers)), str(reached), str(len(self.callers) - reached), "0"]
        self.must("the report's figures are sipp's", columns[1:7] == wanted, f"{columns} and not {wanted}")

    def summary(self) -> str:
        reached = sum(bool(booked.established) for booked in self.booked.values())
        rings = sum(map(len, self.rings.values()))
        queued = sum(182 in caller.statuses for caller in self.callers.values())
        return (f"{len(self.callers)} callers, {reached} answered, {sum(booked.abandoned for booked in self.booked.values())} gave up, {rings} rings, "
                f"{sum(booked.unanswered for booked in self.booked.values())} taken back, {queued} saw 182; {sum(self.differ.values())} differ")

    def delays(self) -> list[float]:
        """Milliseconds from a phone's 200 to its caller's 200."""
        return sorted(1000 * (self.callers[name].answered - ring.answered) for name, rings in self.rings.items() if name in self.callers
                      for ring in rings if ring.answered < ring.cancelled and ring.acked < NEVER and ring.answered < self.callers[name].answered < NEVER)
