"""Prints how a desk is, and what is around it: a line for each thing that an operator asks first, or JSON. Tested, not
proved.

It only reads: it asks the desk where it listens, looks at names, sizes and notes beside the file, and asks systemd. It
opens the desk's file only where no desk answers and its log holds nothing, and then as a file that nobody changes. What
it can't ask, it says, and why."""
import argparse
import contextlib
import datetime
import json
import os
import re
import shutil
import sqlite3
import subprocess
import time
from collections import Counter
from collections.abc import Callable
from dataclasses import dataclass
from pathlib import Path
from typing import Any, NamedTuple

from acd_client import Client

from acd_service import VERSION, certificate, chain, command, held, pair, reach, settings, watch
from acd_service.command import Fault
from acd_service.follow import note_of as followed_note

# seconds for an answer, and for a program
WAIT = 5
# after each request that a desk may have
BEYOND = 999_999_999_999_999
GOOD_COPY = "%Y-%m-%dT%H%M%SZ"
FOLLOWED = re.compile(r"has the requests up to (\d+); the last that the desk told of is (\d+), at (\S+ \S+) UTC")
UNITS = ("acd*", "nginx.service")
# seconds that a kept request adds to a start, as PERFORMANCE.md has them, where no start has told; one that read fewer
# requests tells how long a program takes to begin
OPENING, MEASURED = 9e-6, 50_000
LOGGED_OFF = "null"
SPANS = ((86400, "day"), (3600, "hour"), (60, "minute"), (1, "second"))


class Found(NamedTuple):
    """What was found: a member of the JSON, and a line of the table."""
    value: Any
    text: str


class Answer(NamedTuple):
    """The answer to one question, or why there is none."""
    member: str
    about: str
    found: Found | None
    why: str


def span(seconds: float) -> str:
    """A time in its two greatest units."""
    left, parts = max(int(seconds), 0), []
    for size, name in SPANS:
        count, left = divmod(left, size)
        if count:
            parts.append(f"{count} {name}{'s' if count > 1 else ''}")
    return " ".join(parts[:2]) or "0 seconds"


def moment_text(moment: float) -> str:
    return datetime.datetime.fromtimestamp(moment).strftime("%Y-%m-%d %H:%M:%S")


def told(*words: str) -> str:
    """What a program prints."""
    try:
        done = subprocess.run(words, stdin=subprocess.DEVNULL, capture_output=True, text=True, timeout=WAIT)
    except (OSError, subprocess.TimeoutExpired) as fault:
        raise Fault(f"{words[0]}: {getattr(fault, 'strerror', None) or 'it takes too long'}") from None
    if done.returncode:
        raise Fault(f"{words[0]}: {' '.join(done.stderr.split()) or f'status {done.returncode}'}")
    return done.stdout.strip()


@dataclass
class Desk:
    """A desk by its file and its address, and what is around it. `place` is where it listens, in words."""
    file: Path
    address: str
    place: str
    copies: Path
    certificate_at: tuple[str, int]
    now: float
    # the desk's answers by their paths, or why there is none: it is asked for each once
    answers: dict[str, Any]

    def read(self, path: str) -> Any:
        if path not in self.answers:
            client = Client(self.address, wait=WAIT)
            try:
                answer = reach.insisted(client, lambda: client.attempt("GET", path), 0)
                self.answers[path] = (answer.body if answer.status == 200
                                      else Fault(f"the desk answered {answer.status}"))
            except Fault as fault:
                self.answers[path] = Fault(f"{self.place}: {fault}")
        if isinstance(self.answers[path], Fault):
            raise self.answers[path]
        return self.answers[path]

    # Each question gives what was found, or a Fault or an OSError that says why nothing was

    def version(self) -> Found:
        program = shutil.which("acd")
        says = told(program, "--version") if program else None
        return Found({"service": VERSION, "program": says},
                     f"{says or 'there is no program acd in the PATH'}; acdctl {VERSION}")

    def which(self) -> Found:
        try:
            size = self.file.stat().st_size
        except PermissionError as fault:
            return Found({"path": str(self.file), "bytes": None}, f"{self.file} ({fault.strerror})")
        return Found({"path": str(self.file), "bytes": size}, f"{self.file}, {size} bytes")

    def last_request(self) -> Found:
        try:
            moment, stamp = self.read("/snapshot")["moment"], self.read(f"/requests?after={BEYOND}")["last"]
        except Fault as fault:
            with contextlib.suppress(OSError, sqlite3.Error, TypeError), self.idle() as book:
                moment, stamp = book.execute("SELECT last_moment, last_stamp FROM meta").fetchone()
                return self.dated(moment, stamp, f"; no desk answers ({fault})")
            raise
        return self.dated(moment, stamp, "")

    def idle(self) -> contextlib.closing[sqlite3.Connection]:
        """The file, if nobody has it open, and its log holds nothing."""
        if held.holders(self.file) or pair.holds_something(pair.log_of(self.file)):
            raise TypeError
        return contextlib.closing(sqlite3.connect(f"{chain.immutable(self.file)}&mode=ro", uri=True))

    def dated(self, moment: int, stamp: int, more: str) -> Found:
        # a plan of before the first call, and a desk without a clock, have the moment 0
        if not moment:
            return Found({"stamp": stamp, "moment": None, "age": None}, f"number {stamp}, of no known time{more}")
        age = max(int(self.now) - moment, 0)
        return Found({"stamp": stamp, "moment": moment, "age": age},
                     f"number {stamp}, {span(age)} ago ({moment_text(moment)}){more}")

    def kept(self) -> Found:
        """How many requests the file has, whose numbers follow one another, and what a start takes for them."""
        try:
            count = watch.kept_by(self.read("/requests?after=0"))
        except Fault:
            with contextlib.suppress(OSError, sqlite3.Error, TypeError), self.idle() as book:
                return self.opened(*book.execute("SELECT count(*) FROM kept").fetchone())
            raise
        return self.opened(count)

    def opened(self, count: int) -> Found:
        last = pair.last_opening(self.file)
        each = last.seconds / last.kept if last and last.kept >= MEASURED else OPENING
        seconds = round(count * each, 1)
        said = f"; the last start took {last.seconds:.1f} s with {last.kept}" if last else ""
        before = {"count": last.kept, "seconds": last.seconds} if last else None
        return Found({"count": count, "opening": seconds, "lastStart": before},
                     f"{count}, which take some {seconds} s of the next start{said}")

    def waiting(self) -> Found:
        since = [one["queued"] for call in self.read("/snapshot")["calls"] for one in call["connections"]
                 if one["state"] == "queued"]
        longest = max((int(self.now) - moment for moment in since), default=None)
        return Found({"count": len(since), "longest": longest}, f"{len(since)}, the longest for {span(longest)}"
                     if longest is not None else "none")

    def agents(self) -> Found:
        states = Counter(agent["state"] for agent in self.read("/snapshot")["agents"])
        planned, off = states.total(), states.pop(LOGGED_OFF, 0)
        said = ", ".join(f"{count} {state}" for state, count in sorted(states.items()))
        return Found({"planned": planned, "loggedOn": planned - off, "states": dict(sorted(states.items()))},
                     f"{planned - off} of {planned} logged on{f': {said}' if said else ''}")

    def copy(self) -> Found:
        found = []
        for name in os.listdir(self.copies) if self.copies.exists() else ():
            with contextlib.suppress(ValueError):
                made = datetime.datetime.strptime(name, GOOD_COPY).replace(tzinfo=datetime.timezone.utc).timestamp()
                if (self.copies / name / self.file.name).is_file():
                    found.append((made, name))
        if not found:
            return Found(None, f"none in {self.copies}")
        made, name = max(found)
        is_whole = not any((self.copies / name).glob("*.again"))
        return Found({"moment": name, "age": int(self.now - made), "isWhollySound": is_whole},
                     f"{name}, {span(self.now - made)} "
                     f"ago{'' if is_whole else ', good up to a request that was sent again'}")

    def standby(self) -> Found:
        """Of a machine that keeps a copy of another one's desk."""
        try:
            said = FOLLOWED.search(followed_note(self.file).read_text())
        except FileNotFoundError:
            return Found(None, "no copy of another desk is kept here")
        if not said:
            raise Fault("the other desk hasn't answered yet")
        has, desk = int(said[1]), int(said[2])
        when = datetime.datetime.fromisoformat(said[3]).replace(tzinfo=datetime.timezone.utc).timestamp()
        return Found({"has": has, "desk": desk, "lag": desk - has, "age": int(self.now - when)},
                     f"has {has} of {desk} requests, lacks {desk - has}; the other desk answered "
                     f"{span(self.now - when)} ago")

    def archive(self) -> Found:
        note = chain.read_note(self.file)
        if note is None:
            return Found(None, "none: the file wasn't pruned")
        is_there = (self.file.parent / note.name).is_file()
        return Found({"name": note.name, "last": note.last, "isThere": is_there},
                     f"{note.name}, with the requests up to "
                     f"{note.last}{'' if is_there else '; it is not beside the file'}")

    def certificate(self) -> Found:
        shown = certificate.shown_at(*self.certificate_at)
        where = ":".join(map(str, self.certificate_at))
        if shown is None:
            raise Fault(f"nobody listens at {where}")
        ends = certificate.end_of(shown)
        days = int((ends.timestamp() - self.now) // 86400)
        says = f"ends in {days} days" if days >= 0 else "has ended"
        return Found({"ends": ends.strftime("%Y-%m-%dT%H:%M:%SZ"), "days": days},
                     f"{says} ({ends:%Y-%m-%d %H:%M} UTC), at {where}")

    def failed(self) -> Found:
        words = ("systemctl", "list-units", "--all", "--state=failed", "--plain", "--no-legend", "--no-pager", *UNITS)
        units = sorted(line.split()[0] for line in told(*words).splitlines() if line.strip())
        return Found(units, ", ".join(units) or "none")


QUESTIONS: tuple[tuple[str, str, Callable[[Desk], Found]], ...] = (
    ("version", "version", Desk.version), ("file", "file", Desk.which),
    ("lastRequest", "last request", Desk.last_request), ("kept", "kept requests", Desk.kept),
    ("callsWaiting", "calls waiting", Desk.waiting), ("agents", "agents", Desk.agents),
    ("lastGoodCopy", "last good copy", Desk.copy),
    ("standby", "standby", Desk.standby), ("archive", "archive", Desk.archive),
    ("certificate", "certificate", Desk.certificate), ("failedUnits", "failed units", Desk.failed))


def asked(desk: Desk) -> list[Answer]:
    """The answers to all questions. A desk that answers otherwise than one does is none."""
    found = []
    for member, about, ask in QUESTIONS:
        try:
            found.append(Answer(member, about, ask(desk), ""))
        except Fault as fault:
            found.append(Answer(member, about, None, str(fault)))
        except OSError as fault:
            found.append(Answer(member, about, None, command.fault_text(fault)))
        except (LookupError, TypeError, ValueError, AttributeError):
            found.append(Answer(member, about, None, f"who listens at {desk.place} is no desk"))
    return found


def table(answers: list[Answer]) -> str:
    width = max(len(answer.about) for answer in answers)
    return "\n".join(f"{answer.about:{width}}  "
                     f"{answer.found.text if answer.found else f'not known: {answer.why}'}" for answer in answers)


def as_json(answers: list[Answer]) -> str:
    found = {answer.member: answer.found.value if answer.found else None for answer in answers}
    return json.dumps({**found, "unknown": {answer.member: answer.why for answer in answers if not answer.found}},
                      indent=2)


def desk_of(options: argparse.Namespace) -> Desk:
    """The desk that the options name, else that of the settings; another file than that has its copies beside it."""
    has = settings.current()
    file = held.place(options.file or has["ACD_FILE"])
    copies = None if options.file else has.get("ACD_COPY_FOLDER")
    try:
        port = options.port or has["ACD_PORT"] and command.whole_number(1, 65535)(has["ACD_PORT"])
        certificate_at = has["ACD_TLS_HOST"], command.whole_number(1, 65535)(has["ACD_TLS_PORT"])
    except argparse.ArgumentTypeError as fault:
        raise Fault(f"{settings.FILE}: {fault}", status=command.REFUSED) from None
    where = None if options.socket else port, options.socket or has["ACD_SOCKET"]
    return Desk(file, settings.address(*where), settings.place(*where), Path(copies or file.parent / "copies"),
                certificate_at, time.time(), {})


def parser() -> command.Parser:
    found = command.Parser("Prints how the desk is, and what is around it. It changes nothing, and halts nothing.")
    found.add_argument("--file", metavar="F", help="the desk's file; that of ACD_FILE, "
                                                   f"else {settings.DEFAULTS['ACD_FILE']}")
    found.add_argument("--port", metavar="P", type=command.whole_number(1, 65535),
                       help="the desk's port of the loopback address; ACD_PORT, if that is set")
    found.add_argument("--socket", metavar="PATH", help="the desk's socket; ACD_SOCKET, else "
                                                        f"{settings.DEFAULTS['ACD_SOCKET']}")
    found.add_argument("--json", action="store_true", help="print JSON in place of a table")
    return found


def do(options: argparse.Namespace) -> None:
    answers = asked(desk_of(options))
    command.say(as_json(answers) if options.json else table(answers))


def main(words: list[str]) -> None:
    command.run(lambda given: parser().parse_args(given), do, words)
