"""Plays transcripts over a desk of the program, beside the switch of tests/switch.py.

A transcript has these lines, and any number of empty ones:

| line | what it is |
|---|---|
| `> MOMENT JSON` | a request, as the program reads it |
| `< STATUS JSON` | its answer, as the program writes it; each request has one |
| `! JSON` | an event report that the request makes, in order; none is left out |
| `! *` | all event reports that it makes: only the switch says which |
| `= TEXT` | what the rows then hold, a line of `tables.held_lines` |
| `? READ` | a read of the desk: `agent 7`, `call 1`, `device 201`, `queue 100`, `events 10`, `history 10`, `monitor 1 9`, `requests 10`, `report 40`, `snapshot all`, `export all` |
| `. TEXT` | a line of the answer; where there is no such thing there is none |
| `# TEXT` | a comment |
"""
import inspect
import json

import limits
import tables
from switch import Switch, compact
from trial import Lines, ran

READS = {"agent": "/agents/{}", "call": "/calls/{}", "device": "/devices/{}", "queue": "/queues/{}", "events": "/events?after={}", "history": "/history?after={}",
         "monitor": "/monitors/{}/events?after={}", "requests": "/requests?after={}", "snapshot": "/snapshot"}
AT_LAST = 4294967295
NOT_READ = ("400", "413")       # the statuses of what is no request


class Mismatch(Exception):
    """What isn't so."""


def expect(what, found, wanted):
    if found != wanted:
        raise Mismatch(f"{what}: {found} and not {wanted}")


def members_of(request):
    """Those that count: of a request's others nothing does."""
    names = {"requester", "invoke", "service", *inspect.signature(Switch.SERVICES[request["service"]]).parameters}
    if request.get("requested") == "loggedOn":
        names |= {"group"}
    elif request["service"] == "setAgentState":
        names -= {"device", "groups"}
    return {name: value for name, value in request.items() if name in names}


def foreseen(desk, given, answer):
    """What the switch answers to a line, and the events that it then reports; a line that is no request gets what it got."""
    known = len(desk.switch.events)
    if not answer.startswith(NOT_READ):
        moment, request = given.split(" ", 1)
        answer = desk.take(int(moment), **members_of(json.loads(request)))
    return answer, desk.switch.events[known:]


class Player:
    """Over a file, or without one in memory."""

    def __init__(self, program, file=None, bounds=None):
        self.program, self.file, self.switch, self.is_bounded = program, file, limits.Noting(bounds), bool(bounds)
        self.made, self.asked, self.has_asked = [], [], False
        self.desk = self.opened()

    def opened(self):
        return Lines(self.program, self.file, ["--reads"])

    def __enter__(self):
        return self

    def __exit__(self, *_):
        self.desk.kill()

    def closed(self):
        """The desk has ended well, and has closed its file."""
        expect("the desk's end", self.desk.ends(), (0, "", ""))

    def play(self, parts):
        for part in parts:
            self.has_asked = False
            for number, line in enumerate([*part.lines, ""], 1):
                try:
                    self.play_line(line)
                    if number > len(part.lines) and not self.has_asked:
                        raise Mismatch("no request")
                except Mismatch as fault:
                    raise Mismatch(f"{part.name}, line {number}: {fault}") from None

    def play_line(self, line):
        sign, _, said = line.partition(" ")
        if sign in ("<", "!", "."):
            return self.expect_made(line)
        if self.made:
            raise Mismatch(f"left out: {self.made[0]}")
        if sign == ">":
            self.ask(said)
        elif sign == "?":
            self.look(said)
        elif sign == "=":
            if said not in tables.held_lines(self.switch.switch):
                raise Mismatch(f"not held: {said}")
        elif sign not in ("", "#"):
            raise Mismatch(f"no line of a transcript: {line}")

    def expect_made(self, line):
        """The line is the next one that the last request or read made."""
        if line == "! *" and all(made.startswith("! ") for made in self.made):
            self.made = []
        elif not self.made:
            raise Mismatch(f"not made: {line}")
        elif line != self.made.pop(0):
            raise Mismatch(f"not made: {line}")

    def told(self, moment, target):
        """Status and text of a read."""
        return self.desk.say(f"{moment} GET {target}").rstrip("\n").split(" ", 1)

    def reported(self, after):
        """The events above a number."""
        status, text = self.told(0, f"/history?after={after}")
        page = json.loads(text)
        expect("the page of events", f"{status} {text}", f"200 {compact(page)}")
        return page["events"]

    def ask(self, given):
        """The desk answers the line, and so does the switch."""
        known = len(self.switch.switch.events)
        answer = self.desk.say(given).rstrip("\n")
        events = self.reported(known)
        expect("beside the switch", (answer, events), foreseen(self.switch, given, answer))
        self.made = [f"< {answer}", *(f"! {compact(event)}" for event in events)]
        self.asked.append((given, answer))
        self.has_asked = True

    def look(self, asked):
        self.made = [f". {line}" for line in self.read(asked).splitlines()]
        self.has_asked = True

    def read(self, asked):
        """Its text, or none where there is no such thing."""
        what, *of = asked.split(" ")
        if what == "export":
            return self.export()
        moment, target = (of[0], "/reports/queues") if what == "report" else (0, READS[what].format(*of))
        status, text = self.told(moment, target)
        if status == "404":
            return ""
        expect(f"the status of {target}", status, "200")
        return json.loads(text) if what == "report" else text

    def export(self):
        """Of a desk in memory that of the switch, since no command prints it."""
        wanted = tables.export(self.switch.switch)
        if self.file is None:
            return wanted
        self.closed()
        expect("the export", ran(self.program, "export", "--file", self.file), (0, wanted, ""))
        self.desk = self.opened()
        return wanted

    # at the end of a scene

    def end(self):
        self.send_again()
        self.compare_pages()
        self.compare_reads()
        self.export()
        self.closed()
        if self.file is not None:
            expect("the rows", tables.held(self.file), tables.rows(self.switch))
            wanted = f"sound\nexecuted {self.switch.switch.stamp}\n"
            expect("the audit", ran(self.program, "audit", "--file", self.file, "--count"), (0, wanted, ""))
        given = "".join(f"{line}\n" for line, _ in self.asked)
        if not self.is_bounded:
            expect("all as one input", ran(self.program, "lines", given=given).output.splitlines(), [answer for _, answer in self.asked])

    def send_again(self):
        """Each request that was executed gets its answer again, at its moment and at the greatest one, and nothing happens."""
        for given, answer in self.asked:
            request = given.split(" ", 1)[1]
            if not answer.startswith((*NOT_READ, "422", "507")):
                expect("sent again", [self.desk.say(given), self.desk.say(f"{AT_LAST} {request}")], [f"{answer}\n"] * 2)
        events = len(self.switch.switch.events)
        expect("events once all was sent again", self.reported(events), [])

    def compare_pages(self):
        """All events, by hundreds and by thousands."""
        switch = self.switch.switch
        for what, most in (("events", 100), ("history", 1000)):
            for after in range(0, len(switch.events) + 1, most):
                expect(f"the {what} after {after}", self.read(f"{what} {after}"), compact(tables.events_told(switch, after, most)))

    def compare_reads(self):
        """What the desk reads is what the switch has."""
        switch = self.switch.switch
        told = [(f"agent {agent}", tables.agent_told(switch, agent)) for agent in switch.agents]
        told += [(f"call {call}", tables.call_told(switch, call)) for call in switch.calls]
        told += [(f"device {device}", tables.device_told(switch, device)) for device in [*switch.groups, *switch.stations]]
        told += [(f"queue {group}", tables.queue_told(switch, group)) for group in switch.groups]
        told += [(f"monitor {monitor} 0", tables.monitor_told(switch, monitor)) for monitor in switch.monitors]
        for asked, wanted in [*told, ("snapshot all", tables.snapshot_told(switch))]:
            expect(f"the read of {asked}", self.read(asked), compact(wanted))
        expect("the queue report", self.read("report 0"), tables.report(switch))
