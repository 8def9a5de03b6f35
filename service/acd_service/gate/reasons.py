"""Reasons of not ready and codes of calls: what the gate takes from an agent's page, and tells of it. Unproved.

A login gives them for its own agent alone, as the desk is when it asks: a reason while that agent isn't ready, or will
not be after the present call, and a code of one of the last calls in which that agent has talked. What it takes is on
the disk before it answers (acd_service/reasons), and the desk knows nothing of it."""
import asyncio
import datetime
import json
import re
import time
from collections import Counter
from collections.abc import Awaitable, Callable
from pathlib import Path
from typing import TYPE_CHECKING, Any

from acd_service import office, put
from acd_service.command import report
from acd_service.gate.desk import Away
from acd_service.gate.exchanges import Answer, Question, Refused, error
from acd_service.gate.judging import Twice, once
from acd_service.gate.parts import Agent, Text
from acd_service.gate.roles import MEMBERS, Role, has_keys
from acd_service.gate.state import State
from acd_service.reasons import FILE, Code, Full, Line, Reason, append, day_of, given, made_folder

if TYPE_CHECKING:
    from acd_service.gate.routes import Gate

# lines of a login: so many a second, and saved up; and of an agent in a day
EACH_SECOND, AT_ONCE, MOST_OF_DAY = 0.5, 30, 2000
# codes that are remembered, and seconds between two lines of the journal about a fault
MOST_KNOWN, HOUR = 200_000, 3600
# who gives them for any agent
ALL = "exchange"
WRONG_STATE, NO_CALL = '"code":6,"name":"wrongAgentState"', '"code":3,"name":"unknownCall"'
NOT_KEPT = '"code":54,"name":"notKept"'


def refused(status: int, members: str) -> Refused:
    return Refused(Answer(status, "application/json", f'{{"error":{{{members}}}}}'.encode()))


def malformed(member: str) -> Refused:
    return refused(400, f'"code":30,"member":"{member}","name":"malformed"')


class Lists:
    """The office's lists in board.json, read again when that changes. Without the file there is none."""

    def __init__(self, file: Path | str = office.FILE) -> None:
        self.file, self.found = Path(file), office.Office()
        self.stamp: tuple[int, int, int] | None = None

    def now(self) -> office.Office:
        try:
            found = self.file.stat()
            stamp = found.st_mtime_ns, found.st_size, found.st_ino
            if stamp != self.stamp:
                self.stamp, self.found = stamp, office.office(self.file, report)
        except OSError:
            self.stamp, self.found = None, office.Office()
        return self.found


class Given:
    """What was given, of today and the day before. Without a folder nothing is kept, and pages ask for nothing. Of
    agents it knows the reason that was given last, and of a call what each agent said; `count` counts a day's lines by
    agents."""

    def __init__(self, folder: Path | str | None = None, clock: Callable[[], float] = time.time) -> None:
        self.folder, self.clock, self.writing = Path(folder) if folder else None, clock, asyncio.Lock()
        self.reasons: dict[str, Reason] = {}
        self.codes: dict[tuple[int, int, str], str] = {}
        self.day, self.count = "", Counter[str]()
        self.told: dict[str, float] = {}
        if self.folder is None:
            return
        try:
            for line in given(self.folder, day_of(clock() - 86400)):
                self.know(line)
        except OSError as fault:
            report(f"{self.folder}: {fault.strerror}")

    def know(self, line: Line) -> None:
        day = day_of(line.at)
        if day != self.day:
            self.day, self.count = day, Counter()
        self.count[line.agent] += 1
        if isinstance(line, Reason):
            self.reasons[line.agent] = line
            return
        key = line.call, line.talk, line.agent
        self.codes.pop(key, None)
        self.codes[key] = line.code
        if len(self.codes) > MOST_KNOWN:
            del self.codes[next(iter(self.codes))]

    async def keep(self, line: Line) -> None:
        """Refused where it can't be kept."""
        if self.folder is None:
            raise Refused(error(404))
        if self.day == day_of(line.at) and self.count[line.agent] >= MOST_OF_DAY:
            self.tell_hourly(f"agent {line.agent} gave {MOST_OF_DAY} reasons and codes today: no more are taken")
            raise Refused(error(429))
        async with self.writing:
            try:
                await asyncio.to_thread(append, self.folder, line)
            except Full:
                self.tell_hourly(f"{self.folder / day_of(line.at)} is full: it takes no more reasons and codes")
                raise refused(507, NOT_KEPT) from None
            except OSError as fault:
                self.tell_hourly(f"{fault.filename or self.folder}: {fault.strerror}: reasons and codes aren't kept")
                raise refused(507, NOT_KEPT) from None
        self.know(line)

    def tell_hourly(self, text: str) -> None:
        now = time.monotonic()
        if now - self.told.get(text, -HOUR) >= HOUR:
            self.told = {text: now}
            report(text)

    def take(self, told: Text) -> None:
        """The next event: what was said of the time after a call counts from its beginning on, if it comes."""
        found = self.reasons.get(told.get("agent", ""))
        if found is None or found.since is not None or told["moment"] < found.at or told["event"] == "agentBusy":
            return
        if told["event"] == "agentNotReady":
            self.reasons[found.agent] = found._replace(since=told["moment"])
        else:
            del self.reasons[found.agent]

    def reason_of(self, agent: Agent) -> str:
        """Why the agent isn't ready; empty where nobody said so, or the agent is."""
        found = self.reasons.get(agent.id)
        is_now = agent.state == "notReady" and found is not None and found.since == agent.since
        return found.reason if found is not None and is_now else ""

    def lines(self, state: State) -> dict[str, str]:
        """For boards: by agents why they aren't ready."""
        found = ((number, self.reason_of(state.agents[number])) for number in self.reasons if number in state.agents)
        return {number: f'{{"reason":"{reason}"}}' for number, reason in found if reason}

    def text(self, state: State, number: str, calls: list[Text]) -> Text:
        """For an agent's page: the reason of now, or of the time after the present call, and what the last calls were
        about."""
        agent = state.agents.get(number)
        if self.folder is None or agent is None:
            return {}
        found = self.reasons.get(number)
        will_be = found is not None and found.since is None and agent.pending == "notReady"
        reason = found.reason if found is not None and will_be else self.reason_of(agent)
        told = [call | {"code": self.codes.get((call["call"], call["moment"], number), "")} for call in calls]
        return {"given": {"reason": reason, "calls": told}}


class FirstDay:
    """The first day of the desk's file, by its first event. Over a file that was pruned it is what is written beside
    the parts, as long as its events go on from those of which that was written."""

    def __init__(self, given: Given, events: Callable[[str], Awaitable[list[Text]]]) -> None:
        self.given, self.events = given, events
        self.of_what, self.day = (-1, ""), ""

    async def of(self, epoch: int, last: int, today: str) -> str:
        """Of the desk that is followed, whose last event has this number; Away where it doesn't answer."""
        if self.of_what != (epoch, today):
            first = next(iter(await self.events("/events?after=0")), None)
            if first is None:
                return today
            self.day = await asyncio.to_thread(self.known, first, last)
            self.of_what = epoch, today
        return self.day

    def known(self, first: Text, last: int) -> str:
        """The day, which is written down."""
        day = day_of(first["moment"])
        if self.given.folder is None:
            return day
        file = self.given.folder / FILE
        if first["number"] > 1:
            day = self.written(file, first["number"], last) or day
        try:
            made_folder(self.given.folder)
            members = {"day": day, "first": first["number"], "last": last}
            put.put(file, json.dumps(members) + "\n")
        except OSError as fault:
            report(f"{file}: {fault.strerror}")
        return day

    @staticmethod
    def written(file: Path, first: int, last: int) -> str | None:
        """What is written, where it may be of this file."""
        try:
            has = json.loads(file.read_text())
            is_same = has["first"] <= first and has["last"] <= last
            return datetime.date.fromisoformat(has["day"]).isoformat() if is_same else None
        except (OSError, ValueError, KeyError, TypeError):
            return None


# What is asked

def asked(body: bytes) -> Text:
    """The members of a body, each of its form."""
    try:
        found = json.loads(body.decode("utf-8"), object_pairs_hook=once)
    except (ValueError, RecursionError, Twice):
        raise malformed("json") from None
    if not isinstance(found, dict):
        raise malformed("json")
    wanted = {"agent", "call", "talk", "code"} if "code" in found else {"agent", "reason"}
    for member in sorted(wanted ^ found.keys()):
        raise malformed(member if member in wanted else "json")
    for member in sorted(wanted):
        if not FORMS[member](found[member]):
            raise malformed(member)
    return found


def is_number(value: Any) -> bool:
    return type(value) is int and 0 <= value < 1 << 32


FORMS: dict[str, Callable[[Any], bool]] = {
    "agent": lambda value: isinstance(value, str) and re.fullmatch(MEMBERS["agent"], value) is not None,
    "call": is_number, "talk": is_number, "code": lambda value: isinstance(value, str),
    "reason": lambda value: isinstance(value, str)}


def may_give(role: Role, login: str, agent: str) -> bool:
    """Whether a login may give them for this agent: the agent's own, and one that may ask for everything."""
    return has_keys(login) and (role.name == ALL or role.name == "agent" and role.agent == agent)


def reason_for(state: State, found: Text, login: str, moment: int) -> Reason:
    """The line of a reason, as the desk is; Refused where the agent is ready, or is working."""
    agent = state.agents.get(found["agent"])
    if agent is None or "notReady" not in (agent.state, agent.pending):
        raise refused(409, WRONG_STATE)
    since = agent.since if agent.state == "notReady" else None
    return Reason(moment, agent.id, login, found["reason"], since)


def code_for(calls: list[Text], found: Text, login: str, moment: int, file: str) -> Code:
    """The line of a code; Refused where the agent didn't talk in that call, or has had five calls since."""
    if not any((call["call"], call["moment"]) == (found["call"], found["talk"]) for call in calls):
        raise refused(409, NO_CALL)
    return Code(moment, found["agent"], login, found["call"], found["talk"], file, found["code"])


class Giving:
    """POST /reasons of a gate, which keeps reasons and codes from now on."""

    def __init__(self, gate: "Gate", folder: Path | str, file: Path | str,
                 clock: Callable[[], float] = time.time) -> None:
        self.gate, self.following, self.lists = gate, gate.following, Lists(file)
        self.following.given = Given(folder, clock)
        self.first = FirstDay(self.following.given, self.following.events)
        gate.posts["/reasons"] = self.take

    async def take(self, question: Question, body: bytes) -> Answer:
        """All that is asked of the desk is fetched first; then it is judged by the roles as they are by then."""
        login, has = question.login, self.following.given
        found = asked(body)
        self.refuse(login, found)
        if not self.gate.rates.takes(("given", login), EACH_SECOND, AT_ONCE):
            raise Refused(error(429))
        self.following.want()
        try:
            state = await self.following.catch_up()
            if "code" in found:
                await self.read_day()
            file = await self.first.of(self.following.epoch, state.last, day_of(has.clock()))
        except Away:
            raise Refused(error(502)) from None
        self.refuse(login, found)
        line = self.line_for(state, found, login, file)
        if not self.is_known(line):
            await has.keep(line)
            self.following.streams.tell([line.agent])
        return Answer(200, "application/json", b"{}")

    async def read_day(self) -> None:
        """Whose calls were which is known once the day has been read."""
        while not self.following.days.whole:
            if self.following.state is None:
                raise Away
            await self.following.read_day()

    def refuse(self, login: str, found: Text) -> None:
        """What no look at the desk is needed for: another's agent, and a key of no list."""
        if not may_give(self.gate.role_of(login), login, found["agent"]):
            raise Refused(error(403))
        kind, lists = "code" if "code" in found else "reason", self.lists.now()
        if found[kind] and found[kind] not in (lists.codes if kind == "code" else lists.reasons):
            raise malformed(kind)

    def line_for(self, state: State, found: Text, login: str, file: str) -> Line:
        moment = max(state.moment, int(self.following.given.clock()))
        if "reason" in found:
            return reason_for(state, found, login, moment)
        return code_for(self.following.days.done(found["agent"]), found, login, moment, file)

    def is_known(self, line: Line) -> bool:
        """Whether it says what was said last: a page that had no answer says it again."""
        has = self.following.given
        if isinstance(line, Code):
            return has.codes.get((line.call, line.talk, line.agent)) == line.code
        last = has.reasons.get(line.agent)
        return last is not None and (last.since, last.reason) == (line.since, line.reason)
