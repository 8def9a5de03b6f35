"""Of figures of groups and agents: over an office's day those of an independent program, which goes through it call by call; and a story that was reckoned by hand."""
import csv
import io
import subprocess
import sys
import unittest
from array import array

import service_ground as ground
from acd_service.events import Event, event_of
from acd_service.figures import STEP, Figures, reached
from acd_service.waits import EVER

sys.path.append(str(ground.TOP / "tests/trials"))
from board import figures as independent  # noqa: E402
from records import moved, story  # noqa: E402

NUMBERS = ("number", "moment", "call", "waited")


def events_of(file):
    """The event reports of a file."""
    text = subprocess.run([ground.ACD, "export", "--file", file], capture_output=True, text=True, check=True, timeout=60).stdout
    return [{name: int(value) if name in NUMBERS else value for name, value in row.items() if value} for row in csv.DictReader(io.StringIO(text))]


def counted(events, begin):
    figures = Figures(begin)
    for report in events:
        figures.take(event_of(report))
    return figures


def sums(quarters, limit):
    """A group's figures, as the independent program names them."""
    found = {"entered": sum(one.entered for one in quarters), "moved": sum(one.moved for one in quarters), "handled": sum(one.handled for one in quarters), "handling": sum(one.handling for one in quarters)}
    answers, losses = [wait for one in quarters for wait in one.answers], sum(len(one.losses) for one in quarters)
    whole, by_stay = [one.reached(limit) for one in quarters], [one.reached_by_stay(limit) for one in quarters]
    found |= {"answered": len(answers), "waited": sum(answers), "longest": max(answers, default=0), "abandoned": losses, "within": sum(one.within for one in whole),
              "late": sum(one.late for one in whole), "answeredStay": sum(len(one.stays_answered) for one in quarters), "abandonedStay": sum(len(one.stays_lost) for one in quarters),
              "withinStay": sum(one.within for one in by_stay), "lateStay": sum(one.late for one in by_stay)}
    return {name: value for name, value in found.items() if value}


class OfADay(ground.Case):
    def test_an_offices_day(self):
        lines = subprocess.run([sys.executable, "-B", ground.TOP / "tests/office.py", "given"], capture_output=True, text=True, check=True, timeout=60).stdout
        self.desk(lines)
        events = events_of(self.file)
        first, last = events[0]["moment"], events[-1]["moment"]
        for begin, limit in ((0, 20), (0, 1), ((first + last) // 2, 20), (first + (last - first) // 3, 45)):
            with self.subTest(begin=begin - first, limit=limit):
                wanted, figures = independent.reckoned(events, begin, last + 1, {}, limit, set()), counted(events, begin)
                nonzero = {group: {name: value for name, value in line.items() if value} for group, line in wanted["groups"].items()}
                found = {group: sums(quarters.values(), limit) for group, quarters in figures.groups.items()}
                self.assertEqual({group: line for group, line in found.items() if line}, {group: line for group, line in nonzero.items() if line and group != "all"})
                steps = {f"{group} {number * STEP}": sums([one], limit) for group, quarters in figures.groups.items() for number, one in quarters.items()}
                wanted_steps = {key: {name: value for name, value in line.items() if value} for key, line in wanted["quarters"].items() if not key.startswith("all ")}
                self.assertEqual({key: line for key, line in steps.items() if line}, {key: line for key, line in wanted_steps.items() if line})
                self.agents(figures, wanted["agents"], last + 1)

    def agents(self, figures, wanted, end):
        found = {}
        for number, agent in figures.agents.items():
            spent = dict(agent.spent)
            if agent.does:
                spent[agent.does] = spent.get(agent.does, 0) + end - agent.since
            line = {"calls": agent.calls, "missed": agent.missed, "talk": spent.get("talk"), "work": spent.get("afterCall"), "ready": spent.get("ready"), "notReady": spent.get("notReady")}
            found[number] = {name: value for name, value in line.items() if value}
        self.assertEqual(found, {number: {name: value for name, value in line.items() if value} for number, line in wanted.items()})

    def test_a_story(self):
        """The quarters of an hour of the story's table; and what changed since it was asked last."""
        self.desk(story.LINES)
        figures = counted(events_of(self.file), 0)
        rows = list(csv.DictReader(io.StringIO(story.GROUPS)))
        steps = [step for _, step, _ in figures.steps("100", 0, 0, 86580 // STEP)]
        self.assertEqual([[step.entered, len(step.answers), len(step.losses), step.moved, sum(step.answers), step.handled, step.handling] for step in steps],
                         [[int(row[name]) for name in ("entered", "answered", "abandoned", "moved", "waited", "handled", "handling")] for row in rows])
        self.assertEqual([most for _, _, most in figures.steps("100", 0, 0, 86580 // STEP)], [int(row["most_waiting"]) for row in rows])
        self.assertEqual(figures.touched, {"7", "8"})
        self.assertEqual(figures.changed, {("100", 86320 // STEP), ("100", 86400 // STEP)})


class OfMovedCallers(ground.Case):
    def test_the_whole_wait(self):
        """Of six waits of four callers three were answered in time, whatever queues they went through; by the last stay all three that ended in a queue."""
        self.desk(moved.LINES)
        found = ground.said("calls", "--file", self.file, "--groups")
        self.assertEqual((found.status, found.out.splitlines()), (0, moved.GROUPS.splitlines()))
        rows = list(csv.DictReader(io.StringIO(found.out)))
        of = {name: sum(int(row[name]) for row in rows) for name in ("in_time", "answered", "abandoned_late", "in_time_by_stay", "answered_by_stay", "late_by_stay")}
        self.assertEqual((100 * of["in_time"] / (of["answered"] + of["abandoned_late"]), 100 * of["in_time_by_stay"] / (of["answered_by_stay"] + of["late_by_stay"])), (50, 100))
        calls = ground.said("calls", "--file", self.file)
        self.assertEqual([int(row["waited"]) for row in csv.DictReader(io.StringIO(calls.out))], moved.WAITED)


class OfOneEvent(unittest.TestCase):
    def test_who_waits_through_a_quarter(self):
        """Two waited before the first event, one of whom leaves an hour later; in each quarter between two wait, afterwards one, and none after the last."""
        figures = Figures()
        figures.take(Event(3 * STEP, "diverted", "100", 1, group="100", to="201", cause="distributed"))
        figures.take(Event(5 * STEP, "diverted", "100", 2, group="100", to="202", cause="distributed"))
        self.assertEqual([(number, most) for number, _, most in figures.steps("100", 2, 1, 7)], [(1, 2), (2, 2), (3, 2), (4, 1), (5, 1)])
        self.assertEqual([(number, most) for number, _, most in figures.steps("110", 1, 1, 2)], [(1, 1), (2, 1)])

    def test_who_came_before_all_events(self):
        figures = Figures()
        figures.take(Event(10, "callCleared", None, 1, group="100"))
        self.assertEqual((list(figures.groups["100"][0].losses), figures.groups["100"][0].reached(86400).late), ([EVER], 1))

    def test_a_call_that_goes_on_over_the_begin(self):
        """The wait of a call that entered before the begin is whole; talk that began before isn't handled then."""
        figures = Figures(100)
        for event in (Event(40, "queued", "100", 1, cause="newCall"), Event(50, "queued", "100", 2, cause="newCall"), Event(60, "established", "201", 2, group="100", waited=10),
                      Event(60, "agentBusy", "201", agent="7"), Event(100, "callCleared", None, 1, group="100"), Event(110, "agentReady", "201", agent="7")):
            figures.take(event)
        quarter = figures.groups["100"][0]
        self.assertEqual((quarter.entered, len(quarter.answers), list(quarter.losses), quarter.handled), (0, 0, [60], 0))
        self.assertEqual((figures.agents["7"].calls, figures.agents["7"].does, figures.agents["7"].since), (0, "ready", 110))

    def talks(self, *events, begin=0):
        """The figures of agent 8 at 202, who is ready from 90 on; caller 5 enters 100 at 100, and somebody sends the caller there at 150."""
        figures = Figures(begin)
        for event in (Event(80, "agentLoggedOn", "202", agent="8", group="110"), Event(90, "agentReady", "202", agent="8"), Event(100, "queued", "100", 5, cause="newCall"),
                      Event(150, "diverted", "100", 5, group="100", to="202", cause="deflected"), Event(150, "delivered", "202", 5, cause="deflected"), *events):
            figures.take(event)
        agent = figures.agents["8"]
        handled = [(group, one.handled, one.handling) for group, quarters in figures.groups.items() for one in quarters.values() if one.handled]
        return (agent.calls, agent.missed, agent.spent, agent.does, agent.since), handled

    answered, cleared = Event(160, "established", "202", 5), (Event(760, "connectionCleared", "0304", 5), Event(760, "connectionCleared", "202", 5), Event(760, "callCleared", None, 5))

    def test_a_talk_with_a_caller_who_was_sent(self):
        """600 s of talk are no 600 s of ready: ready until 160, and again from 760 on."""
        self.assertEqual(self.talks(self.answered), ((1, 0, {"notReady": 10, "ready": 70}, "talk", 160), []))
        self.assertEqual(self.talks(self.answered, *self.cleared), ((1, 0, {"notReady": 10, "ready": 70, "talk": 600}, "ready", 760), [("100", 1, 600)]))
        held = Event(300, "held", "202", 5), Event(400, "retrieved", "202", 5), Event(460, "transferred", "202", 5, to="203")
        self.assertEqual(self.talks(self.answered, *held), ((1, 0, {"notReady": 10, "ready": 70, "talk": 300}, "ready", 460), [("100", 1, 300)]))

    def test_the_state_of_who_talks(self):
        """What the agent is beside a talk counts once it is over; after-call work in which the agent is then belongs to it; a log-off ends it."""
        works = Event(700, "agentWorkingAfterCall", "202", agent="8"), *self.cleared, Event(800, "agentReady", "202", agent="8")
        self.assertEqual(self.talks(self.answered, *works), ((1, 0, {"notReady": 10, "ready": 70, "talk": 600, "afterCall": 40}, "ready", 800), [("100", 1, 640)]))
        leaves = Event(260, "agentLoggedOff", "202", agent="8"), *self.cleared
        self.assertEqual(self.talks(self.answered, *leaves), ((1, 0, {"notReady": 10, "ready": 70, "talk": 100}, "", 260), [("100", 1, 100)]))

    def test_two_talks_at_once(self):
        """One that is held beside another one makes no second of talk count twice."""
        other = Event(200, "held", "202", 5), Event(210, "delivered", "202", 6, cause="newCall"), Event(220, "established", "202", 6), Event(250, "connectionCleared", "0306", 6)
        end = Event(250, "connectionCleared", "202", 6), Event(250, "callCleared", None, 6)
        self.assertEqual(self.talks(self.answered, *other, *end, *self.cleared), ((2, 0, {"notReady": 10, "ready": 70, "talk": 600}, "ready", 760), [("100", 1, 600)]))

    def test_a_ring_that_is_hung_up(self):
        """By the agent it is missed, by the caller it isn't; in both cases the caller is lost."""
        for first, missed in (("202", 1), ("0304", 0)):
            ends = [Event(170, "connectionCleared", device, 5) for device in sorted({"202", "0304"}, key=lambda device: device != first)]
            found, _ = self.talks(*ends, Event(170, "callCleared", None, 5))
            self.assertEqual(found[:2], (0, missed))
        # it rang before the day began
        found, _ = self.talks(Event(170, "connectionCleared", "202", 5), begin=160)
        self.assertEqual(found[:2], (0, 1))

    def test_a_talk_with_a_colleague(self):
        """It is a call of the agents' own: the desk's state counts."""
        events = (Event(80, "agentLoggedOn", "202", agent="8"), Event(90, "agentReady", "202", agent="8"), Event(95, "serviceInitiated", "201", 5), Event(100, "delivered", "202", 5, cause="newCall"),
                  Event(110, "established", "202", 5), Event(150, "connectionCleared", "201", 5), Event(150, "connectionCleared", "202", 5), Event(150, "callCleared", None, 5),
                  Event(200, "agentNotReady", "202", agent="8"))
        figures = Figures()
        for event in events:
            figures.take(event)
        self.assertEqual((figures.agents["8"].calls, figures.agents["8"].spent), (0, {"notReady": 10, "ready": 110}))

    def test_the_service_level(self):
        """The first as the page's Math.round has it, of the same number."""
        for within, later, late, level in ((57, 93, 50, 28), (2, 1, 0, 67), (0, 0, 4, 0), (0, 0, 0, None)):
            self.assertEqual(reached(array("I", [20] * within + [21] * later), array("I", [20, *[21] * late]), 20), (within, late, level))


if __name__ == "__main__":
    unittest.main()
