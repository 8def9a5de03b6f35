"""Many agents' pages at once through one address: what they cost, and how soon they are told."""
import asyncio
import contextlib
import json
import multiprocessing
import random
import threading
import time
from base64 import b64encode
from collections import Counter
from pathlib import Path

from place import Place
from trial import ANY, Plan

GROUPS, PAUSE, SETTLES = [str(100 + number) for number in range(24)], 0.1, 5


class Many(Place):
    @classmethod
    def setUpClass(cls):
        cls.agents = [str(number + 1) for number in range(cls.options.pages)]
        cls.ROLES = {f"a{agent}": f"agent agent={agent}" for agent in cls.agents}
        super().setUpClass()

    @classmethod
    def planned(cls):
        """Each agent is logged on, ready and at a station of its own."""
        chance = random.Random(1)
        plan = list(cls.requests.plan(Plan([(group, f"Group {group}", 20, 30) for group in GROUPS], [], [])))
        for number, agent in enumerate(cls.agents):
            served = sorted(chance.sample(GROUPS, chance.choice((1, 1, 2, 3))))
            plan += cls.requests.plan(Plan([], [str(2000 + number)], [agent]))
            plan += [cls.requests.log_on(agent, str(2000 + number), *served), cls.requests.state(agent)]
        return plan

    def try_many(self):
        one, all_of_them = self.measure(self.agents[:1]), self.measure(self.agents)
        self.expect("answers other than 200", {status: count for status, count in all_of_them["statuses"].items() if status != 200}, {})
        told, answers = sorted(all_of_them["told"]), sum(all_of_them["statuses"].values()) / self.options.seconds
        self.see("pages are told of their own news", len(told) > 20, len(told))
        print(f"    {len(self.agents)} pages, {all_of_them['services']:.1f} services and {answers:.0f} events a second, {len(told)} of own news; with one page {one['services']:.1f} services")
        print(f"    the gate takes {1000 * all_of_them['gate'] / max(1, answers):.2f} ms of a processor for an event")
        self.figure("share of a processor: the gate", all_of_them["gate"], 0.5)
        self.figure("the desk (1.2 times what it takes with one page)", all_of_them["desk"], 1.2 * one["desk"] + 0.005)
        self.figure("from a request for a service to the page's news, 95 % in seconds", told[int(0.95 * len(told))] if told else 99, 0.25)

    def used(self, office):
        return [*map(seconds_of, (self.gate, self.desk.process)), office.done]

    def measure(self, agents):
        """What it takes while these pages ask, in a process of their own, and an office works."""
        office, (here, there) = Office(self), multiprocessing.Pipe()
        pages = multiprocessing.Process(target=ask_until_told, args=(self.port, agents, there))
        worker = threading.Thread(target=office.work)
        pages.start()
        try:
            self.assertTrue(here.poll(240), "not all pages are answered within four minutes")
            worker.start()
            time.sleep(SETTLES)
            before, began = self.used(office), time.monotonic()
            time.sleep(self.options.seconds)
            lasted = time.monotonic() - began
            used = [(now - then) / lasted for now, then in zip(self.used(office), before)]
            here.send("end")
            here.recv()
            answers = here.recv()
        finally:
            office.ended.set()
            pages.join(20)
            pages.kill()
        counted = [(agent, state, moment, status) for agent, state, moment, status in answers if began <= moment < began + lasted]
        # each news with the last request before it that brought the agent to this state
        befores = [(moment, [one for one in office.changed.get((agent, state), ()) if one <= moment]) for agent, state, moment, _ in counted if state]
        told = [moment - before[-1] for moment, before in befores if before and before[-1] >= began]
        return {"gate": used[0], "desk": used[1], "services": used[2], "told": told, "statuses": Counter(status for *_, status in counted)}


def seconds_of(process):
    words = Path(f"/proc/{process.pid}/stat").read_text().rpartition(") ")[2].split()
    return (int(words[11]) + int(words[12])) / 100


def ask_until_told(port, agents, told):
    """The pages: a word when all were answered, and the answers' times at the end."""
    answers = []

    async def run():
        pages = [asyncio.create_task(page(port, agent, answers)) for agent in agents]
        while len({agent for agent, *_, status in answers if status}) < len(agents):
            await asyncio.sleep(0.2)
        told.send("begun")
        while not told.poll():
            await asyncio.sleep(0.2)
        for one in pages:
            one.cancel()
        await asyncio.gather(*pages, return_exceptions=True)

    asyncio.run(run())
    told.send(answers)


async def page(port, agent, answers):
    """An agent's page. It connects again where its stream ends, which is an answer without a status."""
    await asyncio.sleep(random.uniform(0, 5))
    while True:
        with contextlib.suppress(OSError, EOFError):
            await page_of_connection(port, agent, answers)
        answers.append((agent, None, time.monotonic(), None))
        await asyncio.sleep(1)


async def page_of_connection(port, agent, answers):
    """Its stream: an event with another state of the agent than before is own news."""
    reader, writer = await asyncio.open_connection("127.0.0.1", port, ssl=ANY, limit=1 << 20)
    writer.write(f"GET /stream HTTP/1.1\r\nHost: desk\r\nAuthorization: Basic {b64encode(f'a{agent}:secret'.encode()).decode()}\r\n\r\n".encode())
    status, state, text = int((await reader.readuntil(b"\r\n\r\n")).split()[1]), None, b""
    if status != 200:
        return answers.append((agent, None, time.monotonic(), status))
    while part := await chunk_of(reader):
        *events, text = (text + part).split(b"\n\n")
        for event in events:
            before, state = state, json.loads(event.partition(b"data: ")[2]).get("agent", {}).get("state", state)
            answers.append((agent, state if state != before else None, time.monotonic(), status))


async def chunk_of(reader):
    """The next part of an answer that goes on; nothing at its end."""
    size = int((await reader.readuntil(b"\r\n"))[:-2], 16)
    return (await reader.readexactly(size + 2))[:-2]


class Office:
    """Callers and agents, straight at the desk: up to ten services a second, of which most change an agent's state."""

    def __init__(self, place):
        self.place, self.done, self.ended = place, 0, threading.Event()
        self.changed, self.chance = {}, random.Random(2)

    def ask(self, whose, state, service, **members):
        began = time.monotonic()
        self.place.service("office", service, **members)
        self.done += 1
        if whose and state:
            self.changed.setdefault((whose, state), []).append(began)

    def work(self):
        while not self.ended.wait(PAUSE):
            with contextlib.suppress(OSError):
                self.step()

    def look(self):
        snapshot = self.place.direct("GET", "/snapshot").value
        sides = [(call["call"], side) for call in snapshot["calls"] for side in call["connections"] if "group" in side]
        at = {agent["device"]: agent["agent"] for agent in snapshot["agents"]}
        self.calls, self.talks = ([(call, side["device"], at[side["device"]]) for call, side in sides if side["state"] == state] for state in ("alerting", "connected"))
        self.idle = [agent["agent"] for agent in snapshot["agents"] if agent["state"] == "ready" and (agent["agent"], "notReady") not in self.changed]
        self.after = [agent["agent"] for agent in snapshot["agents"] if agent["state"] == "workingAfterCall"]

    def step(self):
        """A call comes, is answered by the agent at whom it rings, or is ended, or an agent comes back or goes away."""
        if self.done % 20 == 0:
            self.look()
        what = self.chance.choice(("call", "answer", "end", "back", "away"))
        if what == "answer" and self.calls:
            call, device, agent = self.calls.pop()
            self.ask(agent, "busy", "answerCall", call=call, device=device)
        elif what == "end" and self.talks:
            call, device, agent = self.talks.pop()
            self.ask(agent, "workingAfterCall", "clearConnection", call=call, device=device)
        elif what == "back" and self.after:
            agent = self.after.pop()
            self.ask(agent, "ready", "setAgentState", agent=agent, requested="ready")
        elif what == "away" and self.idle:
            agent = self.idle.pop(self.chance.randrange(len(self.idle)))
            self.ask(agent, "notReady", "setAgentState", agent=agent, requested="notReady")
        else:
            self.ask(None, None, "arriveCall", caller=f"030{self.chance.randrange(10**7)}", called=self.chance.choice(GROUPS))
