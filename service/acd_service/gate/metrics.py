"""What a monitor reads of desk and gate, in the text of OpenMetrics. Unproved.

Waiting callers and agents are those of the picture that the gate follows. The figures of groups are the desk's own
report, which counts since its file began, and requests and ticks are of its page of executed requests. The desk is
asked once for all who ask within a second."""
import asyncio
import json
import re
import time
from collections import Counter
from collections.abc import Callable, Mapping, Sequence
from pathlib import Path
from typing import TYPE_CHECKING, Any, NamedTuple

from acd_service import last_copy
from acd_service.gate.desk import Desk
from acd_service.gate.following import Following
from acd_service.gate.health import WELL, Health, overdue
from acd_service.gate.state import State

if TYPE_CHECKING:
    from acd_service.gate.routes import Gate

KIND = "application/openmetrics-text; version=1.0.0; charset=utf-8"
# seconds for which a text counts; requests that are looked through for the last tick at first; pages of requests that
# are read for one text; and a stamp after all others
KEPT, FIRST, PAGES, BEYOND = 1, 1000, 20, 999_999_999_999_999
# columns of the desk's report of queues
COLUMNS = ("waiting", "ringing", "entered", "answered", "abandoned", "moved")
TOTALS = {"entered": "Calls that came into a queue.", "answered": "Calls of a queue that were answered.",
          "abandoned": "Calls that ended while they waited.", "moved": "Calls that left a queue for another place."}
Labels = Mapping[str, str]


class Family(NamedTuple):
    """A metric with its samples: labels and a value each."""
    name: str
    kind: str
    about: str
    samples: Sequence[tuple[Labels, float]]


def escaped(text: str) -> str:
    return text.replace("\\", "\\\\").replace('"', '\\"').replace("\n", "\\n")


def exposed(families: Sequence[Family]) -> bytes:
    """Families in the text of OpenMetrics; those without samples are left out."""
    lines = []
    for name, kind, about, samples in families:
        lines += [f"# TYPE {name} {kind}", f"# HELP {name} {escaped(about)}"] if samples else []
        suffix = {"counter": "_total", "info": "_info"}.get(kind, "")
        for labels, value in samples:
            shown = ",".join(f'{label}="{escaped(said)}"' for label, said in labels.items())
            lines.append(f"{name}{suffix}{f'{{{shown}}}' if shown else ''} {value:.15g}")
    return "\n".join([*lines, "# EOF", ""]).encode()


def one(name: str, kind: str, about: str, value: float | None) -> Family:
    return Family(name, kind, about, [] if value is None else [({}, value)])


def of_state(state: State, clock: float) -> list[Family]:
    """Who waits, and what agents do."""
    waits = {group.id: [call.queued for call in group.waiting if call.queued is not None]
             for group in state.groups.values()}
    states = Counter("loggedOff" if agent.state == "null" else agent.state for agent in state.agents.values())
    return [
        Family("acd_waiting_calls", "gauge", "Calls that wait in a group.",
               [({"group": group}, len(state.groups[group].waiting)) for group in waits]),
        Family("acd_longest_wait_seconds", "gauge", "For how long the first of them has waited.",
               [({"group": group}, max(0.0, clock - min(since, default=clock))) for group, since in waits.items()]),
        Family("acd_agents", "gauge", "Agents by their state.",
               [({"state": name}, count) for name, count in sorted(states.items())]),
        Family("acd_group", "info", "The name of a group.",
               [({"group": group.id, "name": group.name}, 1) for group in state.groups.values()]),
        one("acd_calls", "gauge", "Calls that are live.", len(state.calls)),
        one("acd_tick_overdue_seconds", "gauge", "For how long a tick has been due.", overdue(state, clock)),
    ]


def of_report(text: str) -> list[Family]:
    """The desk's report of queues: a line for each group, below one of headings."""
    rows = [line.split() for line in text.splitlines()[1:]]
    found = [(row[0], dict(zip(COLUMNS, map(int, row[1:])))) for row in rows]
    return [Family(f"acd_calls_{name}", "counter", about, [({"group": group}, row[name]) for group, row in found])
            for name, about in TOTALS.items()]


def of_copy(last: last_copy.LastCopy | None) -> list[Family]:
    if last is None:
        return []
    return [
        one("acd_copy_timestamp_seconds", "gauge", "When a copy was last made, or tried.", last.moment),
        one("acd_good_copy_timestamp_seconds", "gauge", "When the last good copy was made.", last.good),
        Family("acd_copy_verdict", "gauge", "How the last copy went: 1 for one verdict, 0 for all others.",
               [({"verdict": verdict}, verdict == last.verdict) for verdict in last_copy.VERDICTS]),
    ]


class Requests:
    """How many requests the desk has executed, and when the last tick was: by pages, each read once."""

    def __init__(self, desk: Desk) -> None:
        self.desk = desk
        self.after: int | None = None
        self.last: int | None = None
        self.tick: int | None = None

    async def look(self) -> None:
        for _ in range(PAGES):
            page = await self.page(BEYOND if self.after is None else self.after)
            if page is None:
                return
            self.last = page["last"]
            if self.after is None or page["last"] < self.after:
                # at first, and over another file
                self.after, self.tick = max(0, page["last"] - FIRST), None
                continue
            for record in page["requests"]:
                self.after = record["stamp"]
                if record["request"].get("service") == "tick":
                    self.tick = record["moment"]
            if self.after >= page["last"]:
                return

    async def page(self, after: int) -> Any:
        answer = await self.desk.ask_soon("GET", f"/requests?after={after}")
        return json.loads(answer.body) if answer.status == 200 else None


class Metrics:
    """Of a gate; `copy` is the file of a line about the last copy."""

    def __init__(self, gate: "Gate", following: Following, desk: Desk, copy: Path | str,
                 clock: Callable[[], float] = time.time) -> None:
        self.gate, self.following, self.desk, self.copy, self.clock = gate, following, desk, Path(copy), clock
        self.health, self.requests = Health(following, clock), Requests(desk)
        self.making, self.made, self.text = asyncio.Lock(), 0.0, b""
        # of each login that follows the request from which on it last asked
        self.followed: dict[str, int] = {}

    def ask(self, login: str, query: str) -> None:
        """A follower asks from a request on, which is the last one that it has."""
        found = re.fullmatch("after=([0-9]{1,15})", query)
        if found and int(found[1]) < BEYOND:
            self.followed[login] = int(found[1]) + 1

    async def now(self) -> bytes:
        async with self.making:
            if not self.text or time.monotonic() - self.made >= KEPT:
                self.text, self.made = exposed(await self.families()), time.monotonic()
            return self.text

    async def families(self) -> list[Family]:
        word, state = await self.health.word(), self.following.state
        found = [one("acd_healthy", "gauge", "Whether /health says that all is well.", word == WELL), *self.of_gate(),
                 *of_copy(last_copy.read(self.copy))]
        if word == "desk" or state is None:
            return found
        await self.requests.look()
        report = await self.desk.ask_soon("GET", "/reports/queues")
        figures = of_report(report.body.decode()) if report.status == 200 else []
        return [*found, *of_state(state, self.clock()), *figures,
                one("acd_requests", "counter", "Requests that the desk has executed.", self.requests.last),
                one("acd_last_tick_timestamp_seconds", "gauge", "When the last tick was executed.", self.requests.tick)]

    def of_gate(self) -> list[Family]:
        gate = self.gate
        follows = [(login, asked) for login, asked in sorted(self.followed.items())
                   if gate.role_of(login).name == "follow"]
        return [
            one("acd_gate_passwords_waiting", "gauge", "Passwords that wait to be checked.",
                gate.passwords.turns.count),
            one("acd_gate_questions_held", "gauge", "Questions for an agent's news that wait.",
                gate.held.count.total()),
            one("acd_gate_streams", "gauge", "Open streams of boards and agents' pages.",
                len(self.following.streams.all)),
            one("acd_gate_log_ins", "counter", "Sessions that began.", gate.traces.log_ins),
            one("acd_gate_refusals", "counter", "Passwords that were refused.", gate.traces.refusals),
            Family("acd_follow_request", "gauge", "The request from which on a follower last asked.",
                   [({"login": login}, asked) for login, asked in follows]),
        ]
