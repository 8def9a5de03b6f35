"""Random days at the real desk, beside one instance of the rules or two, which are killed now and then: before and after what they ask."""
import tempfile
from pathlib import Path
from unittest import mock

from acd_service.rules import following, reading
from drawn_office import AGENTS, BOXES, GROUPS, MINUTE, PLAN, STATIONS, Office, Reckoning
from played import Played
from trial import Trial, compact

STEPS = 80


class Killed(BaseException):
    """An instance ends at this point, and says nothing."""


class Watched(Played):
    """Looks at the desk after each request, and judges what the rules ask. `fuse` is how many exchanges an instance still has before it is killed."""

    def __init__(self, program, day):
        super().__init__(program)
        self.day, self.fuse, self.is_late = day, None, False

    def burn(self, is_after):
        if self.fuse is not None and self.is_late == is_after:
            self.fuse -= 1
            if self.fuse < 0:
                self.fuse = None
                raise Killed

    def attempt(self, method, path):
        self.burn(False)
        answer = self.say(f"{method} {path}")
        self.burn(True)
        return answer

    def send(self, request):
        self.burn(False)
        self.day.judge(request)
        self.day.meddle(request)
        answer = super().send(request)
        self.day.note(request, answer)
        self.burn(True)
        return answer

    def send_all(self, requests):
        """They are under way together, so the desk gets them in any order."""
        order = self.day.draw.sample(range(len(requests)), len(requests))
        answers = dict(zip(order, super().send_all([requests[place] for place in order])))
        return [answers[place] for place in range(len(requests))]

    def act(self, service, **members):
        answer = self.ask(service, **members)
        self.day.look()
        return answer


class Day:
    def __init__(self, trial, seed):
        self.trial, self.seed, self.office = trial, seed, Office(seed)
        self.draw, self.reckoning = self.office.draw, Reckoning(self.office)
        self.desk, self.instances, self.moves, self.refusals = Watched(trial.program, self), [], 0, 0
        # whether somebody gets ready between a judgement and its request, and whether somebody has since the last look
        self.meddles = self.has_meddled = False
        with tempfile.TemporaryDirectory() as folder:
            file = Path(folder) / "rules.toml"
            file.write_text(self.office.text())
            found = reading.read(file, "rules")
        self.see("its rules are read", not found.faults, found.faults)
        self.rules = found.rules

    def see(self, what, is_good, told=""):
        self.trial.see(f"day {self.seed}, at {self.desk.moment}: {what}", is_good, told)

    # what is looked at

    def look(self):
        self.reckoning.see(self.desk.say("GET /snapshot").body)

    def judge(self, request):
        self.see("a rule asks for what it may", self.reckoning.is_right(request, int(self.desk.moment), self.has_meddled), request)

    def note(self, request, answer):
        name, number = request["requester"].removeprefix("rules-").rsplit("-", 1)
        key = name, request["call"]
        refused, was_over = self.reckoning.known.get(key, (0, False))
        before = request["call"] in self.reckoning.queue(request["device"])
        self.look()
        is_moved = before and request["call"] not in self.reckoning.queue(request["device"])
        self.see("nobody is moved twice by one rule", not (is_moved and was_over), request)
        self.see("a move is told by 200", answer.status == 200 or not is_moved, (request, answer))
        self.moves += is_moved
        self.refusals += answer.status == 409
        self.reckoning.known[key] = max(refused, int(number) if answer.status == 409 else 0), was_over or answer.status == 200

    # the instances

    def begin_instance(self):
        self.instances.append((following.Following(self.desk, self.rules, "rules", lambda: self.desk.moment), self.reckoning.logged_off))

    def looks(self):
        """Each instance looks until it has nothing more to ask; one may be killed at it."""
        self.draw.shuffle(self.instances)
        for one in list(self.instances):
            if self.draw.random() < 0.03:
                self.desk.fuse, self.desk.is_late = self.draw.randrange(4), self.draw.random() < 0.5
            try:
                turns, is_more = 0, True
                while is_more and turns < 200:
                    # at the first one alone, or a call that is refused would be offered again and again
                    self.meddles, self.has_meddled, turns = not turns and self.draw.random() < 0.3, False, turns + 1
                    is_more = one[0].turn() == 0
                    self.meddles = self.has_meddled = False
                self.see("it comes to an end", turns < 200)
            except Killed:
                self.meddles = self.has_meddled = False
                self.instances.remove(one)
            self.desk.fuse = None
        if self.instances:
            since = min(begun for _, begun in self.instances)
            left = self.reckoning.forgotten(int(self.desk.moment), since)
            self.see("nobody is forgotten", not left, left)

    def wait_until(self, moment):
        """Looks at each moment at which a rule may begin to hold, at the second before, and now and then; and each minute, when a group may open or close."""
        begin, minute = int(self.desk.moment), int(self.desk.moment) // MINUTE * MINUTE
        moments = {due - early for due in self.reckoning.dues() for early in (0, 1)} | set(range(minute, moment, MINUTE))
        for one in sorted(each for each in moments if begin < each < moment):
            self.desk.moment = one
            self.looks()
        self.desk.moment = moment

    # what people do

    def calls(self, *states):
        return [(call["call"], one["device"]) for call in self.reckoning.shown["calls"] for one in call["connections"] if one["state"] in states]

    def step(self):
        agent, draw = self.draw.choice(AGENTS), self.draw
        does = draw.choice(("arrive", "arrive", "arrive", "log on", "ready", "ready", "log off", "answer", "answer", "answer", "clear", "reject", "reject", "reject", "lead", "box", "pass on", "pass on", "restart", "tick"))
        if does == "arrive":
            self.desk.act("arriveCall", caller=f"030{draw.randrange(10 ** 6)}", called=draw.choice(GROUPS))
        elif does == "log on":
            groups = draw.sample(GROUPS, draw.randint(1, 3))
            members = {"group": groups[0]} if len(groups) == 1 else {"groups": groups}
            self.desk.act("setAgentState", agent=agent, requested="loggedOn", device=draw.choice(STATIONS), **members)
        elif does in ("ready", "log off"):
            self.desk.act("setAgentState", agent=agent, requested={"ready": "ready"}.get(does, "loggedOff"))
        elif does == "tick":
            self.desk.act("tick")
        elif does == "restart":
            self.restart()
        else:
            self.change_call(does)

    def restart(self):
        if self.instances and self.draw.random() < 0.5:
            self.instances.pop()
        if len(self.instances) < 2:
            self.begin_instance()

    def change_call(self, does):
        found = {"answer": self.calls("alerting"), "reject": self.calls("alerting"), "lead": self.calls("queued"), "pass on": [one for one in self.calls("connected") if one[1] in (*STATIONS, *BOXES)],
                 "box": [one for one in self.calls("alerting", "connected") if one[1] in BOXES]}.get(does, self.calls("queued", "connected", "alerting"))
        if not found:
            return
        call, device = self.draw.choice(found)
        if does == "lead":
            self.desk.act("deflectCall", call=call, device=device, to=self.draw.choice([*GROUPS, *STATIONS]))
        elif does == "pass on":
            self.desk.act("singleStepTransfer", call=call, device=device, to=self.draw.choice(GROUPS))
        elif does == "box" and self.draw.random() < 0.5:
            self.desk.act("deflectCall", call=call, device=device, to=self.draw.choice(GROUPS))
        else:
            self.desk.act({"answer": "answerCall", "reject": "rejectCall"}.get(does, "clearConnection"), call=call, device=device)

    def meddle(self, request):
        """An agent of the group gets ready after the rules have judged, and before the desk gets what they ask."""
        there = [agent["agent"] for agent in self.reckoning.shown["agents"] if agent["state"] in ("notReady", "workingAfterCall") and
                 request["device"] in agent.get("groups", [agent.get("group")])]
        if self.meddles and there:
            self.has_meddled = True
            self.desk.act("setAgentState", agent=self.draw.choice(there), requested="ready")

    def run(self):
        self.desk.plan(PLAN)
        self.desk.moment = self.office.begin
        for device in GROUPS[:2]:
            self.desk.say(compact(self.desk.request("changeGroup", device=device, name=device, ring=20, wrap=10)))
        self.look()
        self.begin_instance()
        for _ in range(STEPS):
            self.wait_until(int(self.desk.moment) + self.draw.choice((0, 1, 3, 20, 90)))
            self.step()
            if not self.instances and self.draw.random() < 0.7:
                self.begin_instance()
            if self.draw.random() < 0.7:
                self.looks()


class Days(Trial):
    def try_days(self):
        """The journal's lines are those of the unit tests, so they are left out here."""
        moves = refusals = 0
        with mock.patch.object(following, "report"), mock.patch("acd_service.tick.command.report"), mock.patch.dict("os.environ"):
            for seed in range(self.options.first, self.options.first + self.options.days):
                day = Day(self, seed)
                with day.desk:
                    day.run()
                moves, refusals = moves + day.moves, refusals + day.refusals
        self.tell(f"{self.options.days} days, {moves} moves, {refusals} refusals")
        self.see("somebody is moved, and somebody is faster", moves > 0 and refusals > 0, (moves, refusals))
