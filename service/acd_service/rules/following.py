"""Follows a desk by its event reports, and asks it to move the calls of which a rule holds. Tested, not proved."""
import time
from collections.abc import Callable, Iterator, Sequence
from itertools import islice
from typing import Any, NoReturn, Protocol

from acd_client import AnotherHistory, Answer, Event, Missed, Page, Request, Unanswered

from acd_service.command import INFO, NOTICE, report
from acd_service.rules.judging import Move, Tried, judged, unfit
from acd_service.rules.picture import Picture, groups_of
from acd_service.rules.reading import Rules, When
from acd_service.watch import MINUTE, Journal

# seconds: between two looks, until the next one where there was no answer or the login may not ask, between two looks
# at the plan, of which no event tells, and of one attempt
LOOK, PAUSE, DENIED, RENEW, PATIENCE = 0.25, 1, 10, 60, 5
# so many are moved together before it looks anew, since meanwhile others may have left
AT_ONCE = 10
# the look without an answer at which that is told
TOLD = 3
# events of a page of /events
FEW = 100


class Source(Protocol):
    """Where a desk's state is read: acd_client.Client does it over HTTP."""

    def attempt(self, method: str, path: str) -> Answer: ...


class Desk(Source, Protocol):
    """What is asked of a desk: sending.Several does it over HTTP."""

    def page(self, after: int, known: Event | None = None) -> Page: ...

    def send_all(self, requests: Sequence[Request]) -> list[Answer | Unanswered]: ...


class Denied(Unanswered):
    """The desk, or the gate before it, refuses what every look needs."""

    def __init__(self, what: str, answer: Answer) -> None:
        why = ": the login needs the role rules, and the right password" if answer.status in (401, 403) else ""
        super().__init__(f"{what} is answered {answer.status} {answer.error}".rstrip() + why)


def read(desk: Source, path: str) -> dict[str, Any]:
    answer = desk.attempt("GET", path)
    if answer.status != 200:
        raise Denied(path, answer)
    return answer.body


# The beginning

def begin(desk: Source, rules: Rules, clock: float) -> tuple[Picture, Event | None]:
    """The picture of the present state, and its last event where there is one."""
    snapshot = read(desk, "/snapshot")
    if not {"agents", "calls", "groups", "last", "moment", "stations"} <= snapshot.keys():
        raise Unanswered("the reply is no snapshot")
    longest = max((rule.limit for has in rules.values() for rule in has.rules if rule.when is When.NOBODY), default=0)
    since = min([int(clock) - longest, snapshot["moment"], *(call["since"] for call in snapshot["calls"])])
    events = list(history(desk, since, snapshot["last"]))
    known = events[-1] if events and events[-1]["number"] == snapshot["last"] else None
    return Picture.of(snapshot, events), known


def history(desk: Source, since: int, last: int) -> Iterator[Event]:
    """The events from a moment on, up to the one of this number, and not many earlier ones. Of a file that was pruned
    those that it still has."""
    low, high = 0, last
    while high - low > FEW:
        middle = (low + high) // 2
        first = next(iter(read(desk, f"/events?after={middle}")["events"]), None)
        if first and first["moment"] < since:
            low = first["number"]
        else:
            high = middle
    while low < last:
        events: list[Event] = read(desk, f"/history?after={low}")["events"]
        yield from (event for event in events if event["number"] <= last)
        low = events[-1]["number"] if events else last


# Without an end

class Following:
    """One instance. Others beside it, on other machines, send the same keys, so each try acts once."""

    def __init__(self, desk: Desk, rules: Rules, login: str, clock: Callable[[], float] = time.time) -> None:
        self.desk, self.rules, self.login, self.clock = desk, rules, login, clock
        self.journal = Journal()
        self.picture: Picture | None = None
        self.known: Event | None = None
        self.tried: dict[tuple[str, int], Tried] = {}
        self.silent, self.has_begun = 0, False
        self.renewed = float("-inf")

    def run(self) -> NoReturn:
        while True:
            time.sleep(self.turn())

    def turn(self) -> float:
        """Looks once, and asks for what the rules say; after how many seconds to look again."""
        try:
            picture = self.catch_up()
            moves = list(islice(judged(self.rules, picture, self.tried, self.now(picture)), AT_ONCE))
            self.send(moves, self.now(picture))
        except AnotherHistory as fault:
            self.picture = None
            # what was pruned has the same keys; an older copy hasn't
            if not isinstance(fault, Missed):
                self.tried.clear()
            report(f"the desk is read anew: {fault}", NOTICE)
            return LOOK
        except Denied as fault:
            self.picture = None
            self.journal.report(str(fault))
            return DENIED
        except Unanswered as fault:
            self.is_silent(fault)
            return PAUSE
        if self.silent >= TOLD:
            report("the desk answers again", NOTICE)
        self.silent = 0
        # what was refused is judged anew at once
        return 0 if moves else LOOK

    def is_silent(self, fault: Unanswered) -> None:
        self.silent += 1
        if self.silent == TOLD:
            report(f"no answer ({fault.__cause__ or fault}), retrying; nobody is moved meanwhile")
        # it may have become one that is denied: a snapshot says so
        if not fault.__cause__:
            self.picture = None

    # the picture

    def catch_up(self) -> Picture:
        """The picture of all that the desk has told by now."""
        now = time.monotonic()
        if self.picture is None or now - self.renewed >= RENEW and self.look_at_plan(self.picture):
            self.picture, self.known = begin(self.desk, self.rules, self.clock())
            self.tell_begin()
            self.look_at_plan(self.picture)
        picture = self.picture
        self.take_pages(picture)
        asked = {agent: (log_on, groups_of(read(self.desk, f"/agents/{agent}")))
                 for agent, log_on in picture.unknown.items()}
        if asked:
            self.take_pages(picture)
        for agent, (log_on, groups) in asked.items():
            # one that has logged off since is told by an event that is still to come
            if groups and picture.unknown.get(agent) == log_on:
                picture.assign(agent, groups)
        return picture

    def tell_begin(self) -> None:
        """Once, so that whoever started it sees that the desk answers."""
        if not self.has_begun:
            self.has_begun = True
            count = sum(len(has.rules) for has in self.rules.values())
            report(f"follows the desk, by {count} rule{'s' * (count != 1)} of {len(self.rules)} "
                   f"group{'s' * (len(self.rules) != 1)}", INFO)

    def look_at_plan(self, picture: Picture) -> bool:
        """Whether the plan doesn't allow a rule, which is told, once an hour."""
        self.renewed = time.monotonic()
        found = list(unfit(self.rules, picture.groups, picture.stations))
        for group, number, why in found:
            name = f"group {group}" if number is None else self.rules[group].rules[number].name
            self.journal.report(f"{name}: {why}; until then it moves nobody there")
        return bool(found)

    def take_pages(self, picture: Picture) -> None:
        last = None
        while last != picture.last:
            page = self.desk.page(picture.last, self.known)
            for event in page["events"]:
                picture.apply(event)
                self.known = event
            last = page["last"]
        self.tried = {key: tried for key, tried in self.tried.items() if key[1] in picture.calls}

    def now(self, picture: Picture) -> int:
        """The later of the clock and of the desk's moment, which stays as it is while nobody asks the desk for
        anything."""
        clock = int(self.clock())
        if picture.moment > clock + MINUTE:
            until = time.strftime("%Y-%m-%d %H:%M:%S UTC", time.gmtime(picture.moment))
            self.journal.report("the desk's time is over a minute ahead of this machine's clock: "
                                f"until {until} waits and hours are judged by it")
        return max(clock, picture.moment)

    # what is asked

    def send(self, moves: list[Move], now: int) -> None:
        """Sends tries, each of another call, together. One without an answer is sent again at the next look, if the
        rule still holds."""
        answers = self.desk.send_all([move.request(self.login) for move in moves]) if moves else []
        faults = []
        for move, answer in zip(moves, answers):
            if isinstance(answer, Unanswered):
                faults.append(answer)
            elif not self.takes(move, answer, now):
                faults.append(Denied(move.request(self.login)["service"], answer))
        for fault in sorted(faults, key=lambda fault: not isinstance(fault, Denied)):
            raise fault

    def takes(self, move: Move, answer: Answer, now: int) -> bool:
        """Notes what became of a try; whether it was one."""
        tried = self.tried.setdefault((move.rule.name, move.call), Tried())
        said = f"call {move.call} in {move.rule.group}, {move.rule.name}"
        if answer.status == 200:
            tried.is_over = True
            report(f"{said}: {move.rule.does()}", INFO)
        elif answer.status == 409:
            tried.is_refused(now, answer.error)
            report(f"{said}: refused, {answer.error} (try {move.number})", INFO)
        elif answer.status == 422:
            tried.is_over = True
            report(f"{said}: another instance, with other rules, has used the key {move.requester(self.login)}; "
                   "nobody is moved by it")
        return answer.status in (200, 409, 422)
