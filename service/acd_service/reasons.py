"""Why agents weren't ready, and what calls were about: the gate's files of what agents chose of the office's lists.
Tested, not proved.

There is a part for each day of Universal Time, to which lines are appended, and which is on the disk before the gate
answers. None of this is the desk's. A line names an agent, a key of a list and what it is of: the moment since which
the agent isn't ready, none where that comes after a call; or a call, by its number, the first day of the file in which
that number was given, and the moment at which this agent began to talk. No line has a caller's number."""
import datetime
import json
import os
import re
import stat
from collections import defaultdict
from collections.abc import Callable, Iterator
from dataclasses import dataclass, field
from pathlib import Path
from typing import Any, NamedTuple

from acd_service.events import Event
from acd_service.put import alone, sync_folder

# bytes of a part and of a line at most
MOST, LONGEST = 1 << 26, 300
NAME = r"[0-9]{4}-[0-9]{2}-[0-9]{2}"
# a key of a list: it may not look like a caller's number. The pages have the same
KEY = r"(?!.*[0-9]{6})[a-z][a-z0-9-]{0,14}"
# their folder in that of the gate's own files, and among the copies; and beside the parts the first day of the desk's
# file
FOLDER, FILE = "reasons", "file"
SECOND = 1 << 32


class Reason(NamedTuple):
    """Why an agent isn't ready; an empty one takes back what was said. `by` is the login."""
    at: int
    agent: str
    by: str
    reason: str
    since: int | None = None


class Code(NamedTuple):
    """What a call was about; an empty one takes back what was said."""
    at: int
    agent: str
    by: str
    call: int
    talk: int
    file: str
    code: str


Line = Reason | Code


class Full(Exception):
    """The part of this day takes no more."""


def day_of(moment: float) -> str:
    """The name of a moment's part."""
    return datetime.datetime.fromtimestamp(moment, datetime.UTC).strftime("%Y-%m-%d")


# Lines

def text_of(line: Line) -> bytes:
    members = {name: value for name, value in line._asdict().items() if value is not None}
    return json.dumps(members, separators=(",", ":"), sort_keys=True).encode() + b"\n"


def is_moment(value: object) -> bool:
    return type(value) is int and 0 <= value < SECOND


def is_text(form: str) -> Callable[[object], bool]:
    return lambda value: isinstance(value, str) and re.fullmatch(form, value) is not None


FORMS: dict[str, Callable[[object], bool]] = {
    "at": is_moment, "since": is_moment, "call": is_moment, "talk": is_moment, "reason": is_text(f"({KEY})?"),
    "code": is_text(f"({KEY})?"), "agent": is_text("[0-9]{1,9}"), "by": is_text("[a-z0-9-]{1,15}"),
    "file": is_text(NAME)}


def read_line(text: bytes) -> Line | None:
    """None where it is no such line: one that a power cut tore, say."""
    try:
        has = json.loads(text)
        if not all(FORMS[name](value) for name, value in has.items()):
            return None
        return Code(**has) if "code" in has else Reason(**has)
    except (ValueError, TypeError, KeyError, AttributeError, RecursionError):
        return None


def lines_of(part: Path) -> Iterator[Line]:
    """The lines of a part that can be read."""
    with open(part, "rb") as file:
        for text in file:
            found = read_line(text) if len(text) <= LONGEST else None
            if found is not None:
                yield found


def parts(folder: Path, since: str = "") -> list[Path]:
    """Those of a day and of later ones, in their order."""
    found = folder.iterdir() if folder.is_dir() else ()
    return sorted(part for part in found if re.fullmatch(NAME, part.name) and part.name >= since)


def given(folder: Path, since: str = "") -> Iterator[Line]:
    """All lines from a day on."""
    for part in parts(folder, since):
        yield from lines_of(part)


# Appending

def made_folder(folder: Path) -> None:
    if not folder.is_dir():
        folder.mkdir(0o700)
        sync_folder(folder.parent)


def append(folder: Path, line: Line) -> None:
    """The line is on the disk once this returns; Full where its part has no room. What a power cut left of a line gets
    an end, and of one that the disk has no room for nothing stays."""
    text, part = text_of(line), folder / day_of(line.at)
    made_folder(folder)
    with alone(folder):
        is_new = not part.exists()
        opened = os.open(part, os.O_RDWR | os.O_APPEND | os.O_CREAT | os.O_NOFOLLOW, 0o600)
        try:
            size = os.fstat(opened).st_size
            if size and os.pread(opened, 1, size - 1) != b"\n":
                text = b"\n" + text
            if size + len(text) > MOST:
                raise Full
            try:
                if os.write(opened, text) < len(text):
                    raise OSError(28, os.strerror(28), str(part))
                os.fsync(opened)
            except OSError:
                os.ftruncate(opened, size)
                raise
        finally:
            os.close(opened)
        if is_new:
            sync_folder(folder)


# Copies

def whole(part: Path) -> bytes:
    """The bytes of a part; OSError where it is no ordinary file of its size: its folder may be somebody else's."""
    opened = os.open(part, os.O_RDONLY | os.O_NOFOLLOW | os.O_NONBLOCK)
    with open(opened, "rb") as file:
        found = os.fstat(opened)
        if not stat.S_ISREG(found.st_mode) or found.st_size > MOST:
            raise OSError(22, "is no part", str(part))
        return file.read(MOST)


def joined(ours: bytes, theirs: bytes) -> bytes:
    """The lines of both, each once, by their moments. Where one goes on from the other it is that one, to the byte."""
    if theirs.startswith(ours):
        return theirs
    if ours.startswith(theirs):
        return ours
    found = {text: line for text in (ours + b"\n" + theirs).split(b"\n") if (line := read_line(text))}
    return b"".join(text + b"\n" for text, _ in sorted(found.items(), key=lambda one: one[1].at))


# What was given, by agents and calls

@dataclass
class Spell:
    """A time in which an agent isn't ready: since when, and which reason counts from which moment on."""
    since: int
    marks: list[tuple[int, str]] = field(default_factory=list)


class Given:
    """What agents gave, beside the events of their desk. `codes` are by call, talk and agent, the last one of each;
    `spent` are seconds by agent, day and reason."""

    def __init__(self, lines: Iterator[Line] = iter(())) -> None:
        self.codes: dict[tuple[int, int, str], str] = {}
        self.reasons: defaultdict[str, list[Reason]] = defaultdict(list)
        self.spells: dict[str, Spell] = {}
        self.spent: defaultdict[tuple[Any, str], defaultdict[str, int]] = defaultdict(lambda: defaultdict(int))
        for line in lines:
            if isinstance(line, Code):
                self.codes[line.call, line.talk, line.agent] = line.code
            else:
                self.reasons[line.agent].append(line)

    def codes_of(self, call: int, talks: list[tuple[int, str]]) -> list[str]:
        """The codes of a call, by the moments of its talks and who talked, each once."""
        found = (self.codes.get((call, moment, agent), "") for moment, agent in talks)
        return list(dict.fromkeys(filter(None, found)))

    def take(self, event: Event) -> None:
        """The next event: where an agent's not ready begins, what was said of it before or is said later."""
        agent = event.agent
        if agent is None or event.kind == "agentBusy":
            return
        self.spells.pop(agent, None)
        if event.kind in ("agentNotReady", "agentLoggedOn"):
            self.spells[agent] = Spell(event.moment, self.marks(agent, event))
        # what was said of a not ready that never came
        has = self.reasons[agent]
        self.reasons[agent] = [one for one in has if one.since is not None or one.at > event.moment]

    def marks(self, agent: str, event: Event) -> list[tuple[int, str]]:
        """From when on which reason counts. The first one counts from the beginning."""
        before = [one for one in self.reasons[agent] if one.since is None and one.at <= event.moment]
        if event.kind == "agentLoggedOn":
            before = []
        within = [one for one in self.reasons[agent] if one.since == event.moment]
        found = [(one.at, one.reason) for one in [*before[-1:], *within]]
        return [(event.moment, reason) for _, reason in found[:1]] + found[1:]

    def spend(self, agent: str, day: object, begin: int, end: int) -> None:
        """The agent wasn't ready in these seconds, all of one day."""
        spell = self.spells.get(agent)
        marks = spell.marks if spell is not None else []
        for (since, reason), until in zip(marks, [mark for mark, _ in marks[1:]] + [end]):
            seconds = min(end, until) - max(begin, since)
            if reason and seconds > 0:
                self.spent[day, agent][reason] += seconds
