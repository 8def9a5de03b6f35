"""The gate's picture of a desk: a snapshot, kept up to date by the desk's event reports. Unproved.

It asks the desk once for all readers, and holds each reader's question until there is news for it."""
import asyncio
import contextlib
import json
import time
from collections.abc import Awaitable, Callable
from pathlib import Path

from acd_service import command
from acd_service.gate import lines
from acd_service.gate.asked import Asked
from acd_service.gate.days import EARLIER, Days, beginning
from acd_service.gate.desk import Away
from acd_service.gate.exchanges import Answer, Left
from acd_service.gate.parts import Text
from acd_service.gate.reasons import Given
from acd_service.gate.ruled import FILE as RULES, Ruled
from acd_service.gate.state import State
from acd_service.gate.streams import Streams
from acd_service.gate.texts import agent_text, as_json, groups_of, names_text, place_text, without_nothing
from acd_service.gate.waiter import TURNS, Waiter

# seconds: between two looks at the desk, at least and without a request in between, two snapshots, two tries of a desk
# that is away; until pages learn that the desk is away, until the gate answers a question without news, and for how
# long it follows the desk after the last question
LEAST, EVERY, RENEW, AGAIN = 0.075, 0.2, 30, 1
# the same after a request that changes what no event tells, and what such a request has in its text
SOON, PLANS = 2, (b"setGroupPriority", b"changeGroup", b"changeAgent", b"addGroup", b"addAgent", b"addStation")
AWAY, HELD, WANTED = 2, 20, 60
# the gate sends the names, which are long, to all pages once in this time at most
NAMES_EVERY = 10
MOST_CALLERS = 50


class Another(Exception):
    """It is another desk's history."""


def begun(snapshot: Text, before: State | None, has_boards: bool) -> tuple[State, dict[str, dict[str, str]]]:
    """The state that a snapshot shows, and with boards all of their lines."""
    state = State(snapshot, before)
    return state, lines.all_of(state) if has_boards else {}


class Following:
    """Follows the desk while somebody wants to know. `ask` is the desk's: a method and a path; `is_rules` says whether
    a requester is that of an office's rules, `rules` is their file, and `shown` puts names into a snapshot."""

    def __init__(self, ask: Callable[[str, str], Awaitable[Answer]], clock: Callable[[], float] = time.time,
                 is_rules: Callable[[str], bool] = lambda requester: False, rules: Path | str = RULES,
                 shown: Callable[[Text], Text] = lambda snapshot: snapshot) -> None:
        self.ask, self.clock, self.asking, self.shown = ask, clock, asyncio.Lock(), shown
        self.is_rules, self.rules = is_rules, rules
        # `answered` is by the clock; `renewed`, `began` and `heard`, when it began to catch up and had caught up last,
        # and `spoke`, when the desk last answered a question, are by one that is never set back
        self.answered, self.renewed, self.began, self.heard, self.live = 0.0, 0.0, 0.0, 0.0, False
        self.spoke = 0.0
        self.state: State | None = None
        # the last report; whether the desk that answered last is another one, which is there and is read at once; and
        # whether something was asked for that no report tells
        self.seen: Text | None = None
        self.is_other = self.is_stale = False
        self.days, self.asked, self.given = Days(clock()), Asked(), Given()
        # numbers that no earlier gate gave, unless the clock was set back; the epoch is another one for another desk
        self.number = self.epoch = int(clock() * 1000)
        self.all_changed = self.names_changed = self.number
        self.changed: dict[str, int] = {}
        self.groups_changed: dict[str, int] = {}
        self.named, self.names = 0.0, (0, b"")
        self.waiters: set[Waiter] = set()
        self.streams = Streams(self)
        self.turn, self.turned, self.wanted = 0, 0.0, 0.0
        self.task: asyncio.Task[None] | None = None
        self.nudged = asyncio.Event()

    # asking the desk

    async def read(self, path: str) -> Text | None:
        answer = await self.ask("GET", path)
        if answer.status != 502:
            self.spoke = time.monotonic()
        if answer.status != 200:
            if answer.status == 404:
                return None
            raise Away
        try:
            found: Text = json.loads(answer.body)
        except ValueError:
            raise Away from None
        return found

    async def page(self, path: str) -> Text:
        found = await self.read(path)
        if found is None:
            raise Away
        return found

    async def events(self, path: str) -> list[Text]:
        found: list[Text] = (await self.page(path))["events"]
        return found

    def ruled(self) -> Ruled:
        """What the office's rules do, by the requests that the desk executes from now on, or has executed."""
        return Ruled(lambda after: self.page(f"/requests?after={after}"), self.is_rules, self.rules, self.clock)

    async def catch_up(self) -> State:
        """The desk with all that it has executed by now; Away where it doesn't answer. Those who come while the desk is
        asked share the next question."""
        came = time.monotonic()
        async with self.asking:
            if self.state is not None and self.began > came:
                return self.state
            began = time.monotonic()
            try:
                state = await self.renewed_state()
                while await self.take_page(state):
                    pass
                await self.ask_for_more(state)
            except Another:
                self.forget()
                self.is_other = True
                raise Away from None
            except Away:
                # meanwhile its file may have taken what no report tells
                self.renewed = -RENEW
                raise
            self.began, self.answered, self.heard = began, self.clock(), time.monotonic()
            self.settle(True)
            return state

    async def renewed_state(self) -> State:
        """The state, by a new snapshot where the last one is too old."""
        before = self.state
        if before is not None and time.monotonic() - self.renewed < (SOON if self.is_stale else RENEW):
            return before
        self.is_stale = False
        while before is not None and await self.take_page(before):
            pass
        snapshot = self.shown(await self.page("/snapshot"))
        if before is not None and snapshot["last"] < before.last:
            raise Another
        # what the desk did meanwhile: no report is left out
        while before is not None and before.last < snapshot["last"]:
            await self.take_page(before)
        # in a thread: it takes long at the greatest plan, and others are answered meanwhile
        has_boards = self.streams.boards is not None
        state, found = await asyncio.to_thread(begun, snapshot, before, has_boards)
        self.state, self.renewed = state, time.monotonic()
        if before is None or before.last != state.last:
            self.change_all()
            self.seen = None
        else:
            state.touched, state.dirty, state.renamed = before.touched, before.dirty, before.renamed
            state.moved, state.unknown, state.leaving = before.moved, before.unknown, before.leaving
            state.differs(before)
        if self.streams.boards is not None and has_boards:
            self.number += 1
            self.streams.boards.renew(state, found, self.number)
        return state

    async def take_page(self, state: State) -> bool:
        """Reads a page of events after the last one, and that one again. True if there may be more."""
        last = state.last
        page = await self.page(f"/history?after={max(0, last - 1)}")
        events: list[Text] = page["events"]
        if last > 0:
            # over a file that was pruned it may be that the last one isn't there any more
            again = events.pop(0) if events and events[0]["number"] == last else None
            is_other = self.seen is not None and again != self.seen
            if page["last"] < last or is_other or (events and events[0]["number"] > last + 1):
                raise Another
            self.seen = again
        if events:
            self.seen = events[-1]
            for report in events:
                if self.days.whole and report["number"] == (self.days.last or 0) + 1:
                    self.days.take(report, state)
                    self.given.take(report)
                if self.streams.boards is not None:
                    self.streams.boards.take(report)
                state.apply(report)
        return bool(page["last"] > state.last)

    async def ask_for_more(self, state: State) -> None:
        """Asks for members that no report names: an agent's groups, a call's caller."""
        for agent in list(state.unknown):
            text = await self.read(f"/agents/{agent}")
            if text is None:
                state.unknown.discard(agent)
            else:
                state.learn(text)
        for number in state.callers_unknown()[-MOST_CALLERS:]:
            text, call = await self.read(f"/calls/{number}"), state.calls.get(number)
            if text is not None and call is not None:
                call.caller, call.called = text["caller"], text["called"]
                state.mark(call)

    async def read_day(self) -> None:
        """A page of the reports of today that the agents' days don't have yet."""
        async with self.asking:
            days, state = self.days, self.state
            if state is None:
                return
            if days.last is None:
                days.last, _ = await beginning(lambda after: self.events(f"/events?after={after}"), state.last,
                                               days.begins - EARLIER)
                days.waits.at = state.logged_on()
            for report in await self.events(f"/history?after={days.last}") if days.last < state.last else []:
                days.take(report, state)
                self.given.take(report)
            is_new = days.last >= state.last and not days.whole
            days.whole |= is_new
            if is_new:
                state.learn_waits(days.waits)
            if days.roll(self.clock()) or is_new:
                self.change_all(names=False)

    def forget(self) -> None:
        self.state, self.seen, self.days, self.asked = None, None, Days(self.clock()), Asked()
        self.epoch += 1
        self.streams.forget()
        self.change_all()

    # answers to those who wait

    def change_all(self, names: bool = True) -> None:
        """Every page gets everything anew; names, which are long, only if they may have changed."""
        self.number += 1
        self.all_changed = self.number
        self.names_changed = self.number if names else self.names_changed
        self.changed.clear()
        self.groups_changed.clear()

    def settle(self, live: bool) -> None:
        """Numbers what changed, and wakes whom it concerns at once."""
        if live != self.live:
            self.live = live
            self.change_all(names=False)
        state, touched = self.state, set[str]()
        if state is not None and (state.touched or state.dirty or state.renamed or state.moved):
            self.number += 1
            self.changed.update(dict.fromkeys(state.touched, self.number))
            self.groups_changed.update(dict.fromkeys(state.dirty, self.number))
            if self.streams.boards is not None:
                self.streams.boards.mark(state)
            touched, state.touched, state.dirty, state.moved = state.touched, set(), set(), set()
            if state.renamed and time.monotonic() - self.named >= NAMES_EVERY:
                self.names_changed, self.named, state.renamed = self.number, time.monotonic(), False
        for waiter in self.waiters:
            if self.has_agent_news(waiter):
                waiter.wake()
        self.streams.tell(touched)

    def has_agent_news(self, waiter: Waiter) -> bool:
        last = max(self.changed.get(waiter.agent, 0), self.all_changed)
        return last > waiter.after or waiter.after > self.number

    def has_news(self, waiter: Waiter) -> bool:
        """Whether queues or names have news."""
        queues = groups_of(self.state, waiter.agent, waiter.groups) if self.state else ()
        last = max((self.groups_changed.get(queue, 0) for queue in queues), default=0)
        return self.names_changed > waiter.names or last > waiter.after

    def take_turn(self) -> None:
        """Wakes those of this turn for whose queues there is something new; nobody while the desk is read anew."""
        if self.state is None or time.monotonic() - self.turned < EVERY:
            return
        self.turn, self.turned = (self.turn + 1) % TURNS, time.monotonic()
        for waiter in self.waiters:
            if waiter.turn == self.turn and self.has_news(waiter):
                waiter.wake()

    def want(self) -> None:
        """Somebody asks: the gate follows the desk from now on."""
        self.wanted = time.monotonic()
        if self.task is None:
            self.task = asyncio.get_running_loop().create_task(self.run())

    def nudge(self, body: bytes, reply: bytes, by: str = "") -> None:
        """The desk has answered a request, which may have done what no event tells. `by` as for Asked."""
        if self.task is None:
            return
        # names, priorities and new groups have no event
        self.is_stale |= any(service in body for service in PLANS) and b'"error"' not in reply
        if self.state is not None:
            self.asked.take(self.state, body, reply, by, int(self.clock()))
        self.nudged.set()

    async def run(self) -> None:
        while not await self.ends():
            began = time.monotonic()
            self.nudged.clear()
            pause = await self.look()
            self.take_turn()
            with contextlib.suppress(TimeoutError):
                async with asyncio.timeout(began + pause - time.monotonic()):
                    await self.nudged.wait()
            await asyncio.sleep(max(0.01, began + LEAST - time.monotonic()))

    async def ends(self) -> bool:
        """Whether nobody has asked for long: then it forgets the desk."""
        async with self.asking:
            if time.monotonic() - self.wanted <= WANTED or self.waiters or self.streams.all:
                return False
            self.forget()
            self.task, self.live = None, False
            return True

    async def look(self) -> float:
        """One look at the desk; in how many seconds the next one comes, if nobody asks for something before."""
        try:
            await self.catch_up()
            await self.read_day()
            return EVERY
        except Away:
            if self.is_other:
                self.is_other = False
                return EVERY
            if time.monotonic() - self.heard >= AWAY:
                self.settle(False)
        except Exception as fault:  # what nobody foresaw: begin anew
            command.report(f"the desk is read anew: {fault!r}")
            self.forget()
        return AGAIN

    async def mine(self, agent: str, groups: frozenset[str] | None, after: int, names: int, hold: float = HELD,
                   has_left: Callable[[], bool] = lambda: False, to: str | None = None) -> bytes | None:
        """An agent's page as JSON, as soon as it has news; None if the gate never reached the desk. Left where nobody
        waits for it any more. `to` is a place for a call, of which it says who is there."""
        waiter = Waiter(agent, groups or frozenset(), after, names)
        self.want()
        if self.state is None or (after and not self.has_agent_news(waiter)):
            await self.wait(waiter, AWAY if self.state is None else min(hold, HELD))
        if has_left():
            raise Left
        if self.state is None:
            return None
        place = {} if to is None else {"place": place_text(self.state, to)}
        body = as_json(self.text_of(self.state, waiter) | place)
        if not (self.names_changed > names or names > self.number):
            return body
        return body[:-1] + b',"names":' + self.names_now(self.state) + b"}"

    async def known(self) -> State | None:
        """The state, as soon as there is one; None if the gate never reached the desk."""
        self.want()
        if self.state is None:
            await self.wait(Waiter("", frozenset(), 0, 0), AWAY)
        return self.state

    async def wait(self, waiter: Waiter, patience: float) -> None:
        self.waiters.add(waiter)
        try:
            async with asyncio.timeout(patience):
                await waiter.woken
        except TimeoutError:
            pass
        finally:
            self.waiters.discard(waiter)

    def is_live(self) -> bool:
        """Also where a question is out to a desk that hangs."""
        return self.live and time.monotonic() - self.heard < AWAY

    def text_of(self, state: State, waiter: Waiter) -> Text:
        text = agent_text(state, waiter.agent, waiter.groups)
        text |= {"live": self.is_live(), "moment": int(self.answered), "number": self.number}
        return text | without_nothing(day=self.days.text(waiter.agent), missed=self.days.missed_offer(waiter.agent),
                                      changed=self.asked.changed.get(waiter.agent))

    def names_now(self, state: State) -> bytes:
        """The names as JSON, made once for all pages."""
        if self.names[0] != self.names_changed:
            self.names = self.names_changed, as_json(names_text(state) | {"number": self.names_changed})
        return self.names[1]
