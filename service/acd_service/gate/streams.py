"""The streams by which pages are told what changes, as server-sent events. Unproved.

A stream begins with a picture, or goes on from the number of its last event where all since then is known. Each event
has all that changed: who has taken them one after the other has what a new picture has. What is written goes to the
connection at once, and nobody waits for a page that doesn't read."""
import asyncio
import re
import time
from collections import defaultdict
from collections.abc import Callable, Iterable, Iterator
from dataclasses import dataclass, field
from typing import TYPE_CHECKING

from acd_service import command
from acd_service.gate.boards import Boards, Sight, TooMany, View
from acd_service.gate.exchanges import Pipe
from acd_service.gate.lines import as_text, names_text
from acd_service.gate.state import State
from acd_service.gate.tables import changes, goes_on, picture
from acd_service.gate.texts import groups_of, own_text, queue_text

if TYPE_CHECKING:
    from acd_service.gate.following import Following

# streams of a login, of which one more ends the oldest, and of all
MOST_OF_LOGIN, MOST = 8, 4000
# seconds: between two turns, two events of a board's lines or an agent's queues, two looks at the rights of a stream,
# two signs that it is alive; and for which a view is kept that nobody looks at
EVERY, QUEUES_EVERY, JUDGED_EVERY, BEAT, KEPT = 0.25, 1.0, 2.0, 5.0, 60.0
# and for which a turn goes on before others, who wait for the gate, are answered
STEP = 0.005


def gone() -> asyncio.Future[None]:
    return asyncio.get_running_loop().create_future()


def begun(kind: str, members: str, name: str = "") -> bytes:
    """The begin of an event; `name` is its number with the epoch, for those from which one may go on."""
    line = f"id: {name}\n" if name else ""
    return f"event: {kind}\n{line}data: {{{members}".encode()


@dataclass(eq=False)
class Stream:
    """Who looks: a board, which has a sight, or the page of an agent, `groups` being those of the agent's line.
    `may_go_on` says whether the login still may look. `number` is that of its last event, `names` that of its names,
    and `queues` and `live` are what the page was told of its groups and of the desk."""
    login: str
    may_go_on: Callable[[], bool]
    sight: Sight | None = None
    agent: str = ""
    groups: frozenset[str] = frozenset()
    pipe: Pipe | None = None
    number: int = 0
    names: int = 0
    queues: list[str] = field(default_factory=list)
    live: bool | None = None
    view: View | None = None
    judged: float = 0.0
    beaten: float = 0.0
    told: float = 0.0
    ended: asyncio.Future[None] = field(default_factory=gone)

    def write(self, kind: str, members: str, name: str = "", shared: bytes = b"") -> None:
        """An event; `shared` has further members that several pages are told."""
        if shared:
            self.send(begun(kind, members, name) + b",", shared, b"}\n\n")
        else:
            self.send(begun(kind, members, name) + b"}\n\n")

    def send(self, *parts: bytes) -> None:
        if self.pipe is not None:
            self.pipe.write(*parts)

    def end(self, why: str) -> None:
        if not self.ended.done():
            self.write("end", f'"why":"{why}"')
            self.ended.set_result(None)


class Streams:
    """All that are open, over what the gate follows."""

    def __init__(self, following: "Following", clock: Callable[[], float] = time.monotonic) -> None:
        self.following, self.clock = following, clock
        self.all: dict[Stream, None] = {}
        self.of_agent: defaultdict[str, set[Stream]] = defaultdict(set)
        self.boards: Boards | None = None
        self.boarded = self.rounded = 0.0
        # the pictures of views by their serial numbers, as they are at a number
        self.pictures: tuple[int, dict[int, bytes]] = 0, {}
        # and what changed of them since a number
        self.changes: tuple[int, dict[tuple[int, int], bytes]] = 0, {}
        self.queue_texts: dict[str, tuple[int, str]] = {}
        self.names = 0, b""
        # of a step whether the desk answers in it, and its events by the groups that they tell of: none is in a beat
        self.live, self.alike = False, dict[tuple[str, ...], bytes]()
        self.task: asyncio.Task[None] | None = None

    # who looks

    def look(self, stream: Stream, state: State) -> None:
        """Before an answer begins: TooMany where there is no room for one more stream, or for what it sees."""
        if len(self.all) >= MOST:
            raise TooMany
        if stream.sight is not None:
            self.see(stream.sight, state)

    def see(self, sight: Sight, state: State) -> View:
        """What a board sees."""
        if self.boards is None:
            self.boards = Boards(self.following.events, state, self.following.number, self.following.ruled(),
                                 self.following.given)
        found = self.boards.view(sight, self.following.number)
        found.seen = self.clock()
        return found

    async def hold(self, stream: Stream, pipe: Pipe, after: str) -> None:
        """Tells it what happens, until it ends."""
        stream.pipe = pipe
        of_login = [one for one in self.all if one.login == stream.login]
        for oldest in of_login[:max(0, len(of_login) + 1 - MOST_OF_LOGIN)]:
            self.leave(oldest)
            oldest.end("streams")
        self.all[stream] = None
        if stream.agent:
            self.of_agent[stream.agent].add(stream)
        stream.judged = stream.beaten = self.clock()
        try:
            self.begin(stream, after)
            if self.task is None:
                self.task = asyncio.get_running_loop().create_task(self.run())
            await stream.ended
        finally:
            self.leave(stream)

    def leave(self, stream: Stream) -> None:
        self.all.pop(stream, None)
        if stream.agent in self.of_agent:
            self.of_agent[stream.agent].discard(stream)
            if not self.of_agent[stream.agent]:
                del self.of_agent[stream.agent]

    def forget(self) -> None:
        """The desk is another one, or isn't followed any more."""
        if self.boards is not None:
            self.boards.close()
        self.boards = None
        self.queue_texts.clear()
        for stream in self.all:
            stream.view, stream.number = None, 0

    # what is told

    def head(self, stream: Stream) -> str:
        stream.live = self.following.is_live()
        return self.head_of(stream.live)

    def head_of(self, live: bool) -> str:
        """When the desk answered last, whether it still does, and what time it is."""
        said = "true" if live else "false"
        return f'"answered":{int(self.following.answered)},"clock":{time.time():.3f},"live":{said}'

    def epoch_of(self, stream: Stream) -> str:
        """What a number is of: the gate's run, the desk's file, and a board's view."""
        return f"{self.following.epoch:x}-{stream.view.serial if stream.view else 0}"

    def name(self, stream: Stream) -> str:
        return f"{self.epoch_of(stream)}-{self.following.number}"

    def number_of(self, stream: Stream, name: str) -> int | None:
        """The number that a page has, where it is one of this epoch."""
        epoch, _, number = name.rpartition("-")
        if epoch != self.epoch_of(stream) or not re.fullmatch("[0-9]{1,15}", number):
            return None
        return int(number) if int(number) <= self.following.number else None

    def begin(self, stream: Stream, after: str) -> None:
        state = self.following.state
        if state is None:
            stream.write("beat", self.head(stream))
        elif stream.sight is not None:
            self.begin_board(stream, stream.sight, state, after)
        else:
            stream.names = self.number_of(stream, after) or 0
            self.tell_agent(stream, state, is_whole=True)

    def begin_board(self, stream: Stream, sight: Sight, state: State, after: str = "") -> None:
        # while nobody looked no turn was taken
        self.turn_boards(state, self.clock())
        try:
            view = stream.view = self.see(sight, state)
        except TooMany:
            return stream.end("views")
        number = self.number_of(stream, after)
        if number is not None and goes_on(view.tables, number):
            stream.write("change", self.head(stream), self.name(stream), self.changes_of(view, number))
        else:
            stream.write("picture", self.head(stream), self.name(stream), self.picture_of(view))
        stream.number = self.following.number

    def picture_of(self, view: View) -> bytes:
        """Made once for all that come at the same time."""
        number, made = self.pictures
        if number != self.following.number:
            made = {}
            self.pictures = self.following.number, made
        if view.serial not in made:
            made[view.serial] = picture(view.tables).encode()
        return made[view.serial]

    def changes_of(self, view: View, number: int) -> bytes:
        """Made once for all that were told the same before."""
        now, made = self.changes
        if now != self.following.number:
            made = {}
            self.changes = self.following.number, made
        if (view.serial, number) not in made:
            made[view.serial, number] = changes(view.tables, number).encode()
        return made[view.serial, number]

    def tell_agent(self, stream: Stream, state: State, is_whole: bool = False) -> None:
        """The agent's own state, calls and day, at once."""
        days, queues = self.following.days, groups_of(state, stream.agent, stream.groups)
        agent = state.agents.get(stream.agent)
        text = own_text(state, stream.agent) | {"queues": queues, "day": days.text(stream.agent),
                                                "missed": days.missed_offer(stream.agent),
                                                "changed": self.following.asked.changed.get(stream.agent)}
        text |= self.following.given.text(state, stream.agent, days.done(stream.agent))
        if agent is not None:
            text["doing"] = state.doing(agent)._asdict()
        new = queues if is_whole else [queue for queue in queues if queue not in stream.queues]
        stream.queues = list(queues)
        if is_whole:
            stream.number = self.following.number
        self.write_agent(stream, state, [as_text(text)[1:-1]], new, is_whole)

    def write_agent(self, stream: Stream, state: State, parts: list[str], queues: Iterable[str],
                    is_whole: bool = False) -> None:
        told = self.queues_of(state, queues)
        if told or is_whole:
            parts.append(f'"groups":{{{told}}}')
        names = b""
        if self.following.names_changed > stream.names:
            names, stream.names = self.names_now(state), self.following.names_changed
        stream.write("picture" if is_whole else "change", ",".join([self.head(stream), *parts]), self.name(stream),
                     names)

    def names_now(self, state: State) -> bytes:
        """The names, made once for all pages."""
        if self.names[0] != self.following.names_changed:
            self.names = self.following.names_changed, f'"names":{names_text(state)}'.encode()
        return self.names[1]

    def queues_of(self, state: State, queues: Iterable[str]) -> str:
        return ",".join(f'"{queue}":{self.queue_of(state, queue)}' for queue in queues)

    def queue_of(self, state: State, queue: str) -> str:
        """A group's line, made once for all of its agents."""
        changed = max(self.following.groups_changed.get(queue, 0), self.following.all_changed)
        number, text = self.queue_texts.get(queue, (-1, ""))
        if number != changed:
            text = as_text(queue_text(state, state.groups[queue]))
            self.queue_texts[queue] = changed, text
        return text

    def tell(self, touched: Iterable[str]) -> None:
        """What these agents do, or their calls, has changed."""
        state = self.following.state
        if state is None:
            return
        for stream in [one for agent in touched for one in self.of_agent.get(agent, ())]:
            if stream.number:
                self.tell_agent(stream, state)

    # turns

    async def run(self) -> None:
        """Goes on as long as there are streams, also where the desk hangs."""
        while self.all:
            began = self.clock()
            self.following.want()
            try:
                for _ in self.take_turn(began):
                    await asyncio.sleep(0)
            except Exception as fault:  # what nobody foresaw: whoever looks begins anew
                command.report(f"streams begin anew: {fault!r}")
                for stream in list(self.all):
                    stream.end("fault")
            await asyncio.sleep(max(0.05, began + EVERY - self.clock()))
        self.task = None

    def take_turn(self, now: float) -> Iterator[None]:
        """In steps: where all pages get everything anew, others are answered between."""
        self.turn_boards(self.following.state, now)
        # all agents' pages in one turn of a second, so that many are told alike
        is_round = now - self.rounded >= QUEUES_EVERY
        self.rounded, since = now if is_round else self.rounded, self.begin_step()
        for stream in list(self.all):
            if not is_round and self.is_early(stream, now):
                continue
            if stream.pipe is None or stream.pipe.is_gone():
                stream.end("left")
            elif now - stream.judged >= JUDGED_EVERY and not self.judge(stream, now):
                stream.end("rights")
            elif not stream.ended.done():
                self.turn_stream(stream, self.following.state, now)
            if self.clock() - since >= STEP:
                yield
                since = self.begin_step()

    def send_alike(self, stream: Stream, queues: tuple[str, ...], made: Callable[[], bytes]) -> None:
        """Made once for all whom this step tells of these groups."""
        if queues not in self.alike:
            self.alike[queues] = made() + b"}\n\n"
        stream.live = self.live
        stream.send(self.alike[queues])

    def begin_step(self) -> float:
        """When it begins."""
        self.live, self.alike = self.following.is_live(), {}
        return self.clock()

    def is_early(self, stream: Stream, now: float) -> bool:
        """Whether an agent's page is told nothing between two of these turns."""
        return (now - stream.beaten < BEAT and stream.live == self.live and stream.number > 0
                and stream.sight is None)

    def judge(self, stream: Stream, now: float) -> bool:
        stream.judged = now
        return stream.may_go_on()

    def turn_boards(self, state: State | None, now: float) -> None:
        if self.boards is None or state is None or now - self.boarded < QUEUES_EVERY:
            return
        self.boarded = now
        self.following.number += 1
        self.boards.turn(self.following.number)
        self.boards.forget(lambda view: now - view.seen < KEPT)

    def turn_stream(self, stream: Stream, state: State | None, now: float) -> None:
        """Tells it what isn't urgent, and at least that it is alive."""
        if stream.live != self.live or now - stream.beaten >= BEAT:
            stream.beaten = now
            self.send_alike(stream, (), lambda: begun("beat", self.head_of(self.live)))
        if state is None:
            return
        if stream.sight is not None:
            self.turn_board(stream, stream.sight, state, now)
        elif not stream.number:
            self.tell_agent(stream, state, is_whole=True)
        elif now - stream.told >= QUEUES_EVERY:
            self.turn_agent(stream, state, now)

    def turn_board(self, stream: Stream, sight: Sight, state: State, now: float) -> None:
        view = stream.view
        if view is None:
            return self.begin_board(stream, sight, state)
        view.seen = now
        if stream.number < self.following.number and now - stream.told >= QUEUES_EVERY:
            found = self.changes_of(view, stream.number)
            stream.number = self.following.number
            if found:
                stream.told = now
                stream.write("change", self.head(stream), self.name(stream), found)

    def turn_agent(self, stream: Stream, state: State, now: float) -> None:
        """Queues and names, once in a second at most."""
        stream.told = now
        queues = groups_of(state, stream.agent, stream.groups)
        if queues != stream.queues or self.following.all_changed > stream.number:
            return self.tell_agent(stream, state, is_whole=True)
        changed = tuple(queue for queue in queues if self.following.groups_changed.get(queue, 0) > stream.number)
        stream.number = self.following.number
        if self.following.names_changed > stream.names:
            self.write_agent(stream, state, [], changed)
        elif changed:
            self.send_alike(stream, changed, lambda: begun("change", self.head_of(self.live) + ',"groups":{'
                                                           f"{self.queues_of(state, changed)}}}", self.name(stream)))
