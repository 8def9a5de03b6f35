"""Of a caller's wait, by hand: where it begins, what it goes on through, and how it ends."""
import unittest

import service_ground  # noqa: F401: where the modules are
from acd_service.events import Event
from acd_service.waits import EVER, End, Ended, Waits

ANSWERED, LOST, LEFT = End


def on(station, agent, kind="agentLoggedOn"):
    return Event(1, kind, station, agent=agent)


def queued(moment, group, cause="newCall"):
    return Event(moment, "queued", group, 5, cause=cause)


def moved(moment, device, to, group=None):
    return Event(moment, "diverted", device, 5, group=group, to=to, cause="deflected")


def rings(moment, station, cause="deflected"):
    return Event(moment, "delivered", station, 5, cause=cause)


def passed_on(moment, station, to):
    return Event(moment, "transferred", station, 5, to=to)


def answered(moment, station, group=None, waited=None):
    return Event(moment, "established", station, 5, group=group, waited=waited)


def cleared(moment, group=None):
    return Event(moment, "callCleared", None, 5, group=group)


class Of(unittest.TestCase):
    def waits(self, *events, at=None):
        waits = Waits(at or {"201": "7", "202": "8"})
        return [ended for ended in map(waits.take, events) if ended is not None]

    def test_one_who_is_moved(self):
        self.assertEqual(self.waits(queued(100, "100"), moved(700, "100", "110", "100"), queued(700, "110", "deflected"), answered(705, "202", "110", 5)), [Ended("110", ANSWERED, 605, 5)])
        self.assertEqual(self.waits(queued(100, "100"), moved(700, "100", "110", "100"), queued(700, "110", "deflected"), cleared(715, "110")), [Ended("110", LOST, 615, 15)])

    def test_one_whom_nobody_took(self):
        """It returns to its old place: neither the wait nor the stay begins anew."""
        self.assertEqual(self.waits(queued(100, "100"), queued(120, "100", "noAnswer"), cleared(150, "100")), [Ended("100", LOST, 50, 50)])

    def test_one_who_is_sent_to_an_agent(self):
        for end, how in ((answered(160, "202"), ANSWERED), (cleared(160), LOST)):
            self.assertEqual(self.waits(queued(100, "100"), moved(150, "100", "202", "100"), rings(150, "202"), end), [Ended("100", how, 60, None)])

    def test_one_who_is_passed_on(self):
        """The talk ends a wait, and another one begins behind it: for the group of before, or for another one."""
        talks = queued(100, "100"), answered(105, "201", "100", 5), passed_on(200, "201", "202")
        self.assertEqual(self.waits(*talks, rings(200, "202", "transferred"), cleared(290)), [Ended("100", ANSWERED, 5, 5), Ended("100", LOST, 90, None)])
        self.assertEqual(self.waits(*talks, queued(200, "110", "transferred"), answered(207, "202", "110", 7)), [Ended("100", ANSWERED, 5, 5), Ended("110", ANSWERED, 7, 7)])

    def test_where_nobody_is_logged_on(self):
        """An announcement answers nobody: who stays there has left, and who comes back waits on."""
        sent = queued(100, "100"), moved(130, "100", "299", "100"), rings(130, "299")
        for events in ((cleared(160),), (answered(131, "299"), cleared(160))):
            self.assertEqual(self.waits(*sent, *events), [Ended("100", LEFT, 30, None)])
        back = answered(131, "299"), passed_on(170, "299", "110"), queued(170, "110", "transferred"), cleared(200, "110")
        self.assertEqual(self.waits(*sent, *back), [Ended("110", LOST, 100, 30)])
        self.assertEqual(self.waits(*sent, moved(150, "299", "202"), rings(150, "202"), answered(155, "202")), [Ended("100", ANSWERED, 55, None)])

    def test_who_is_logged_on(self):
        sent = queued(100, "100"), moved(130, "100", "202", "100"), rings(130, "202"), cleared(160)
        self.assertEqual(self.waits(on("202", "8", "agentLoggedOff"), *sent), [Ended("100", LEFT, 30, None)])
        self.assertEqual(self.waits(on("202", "8"), *sent, at={"201": "7"}), [Ended("100", LOST, 60, None)])
        # of one who logs on while it rings the answer counts
        self.assertEqual(self.waits(*sent[:3], on("202", "8"), answered(140, "202"), at={"201": "7"}), [Ended("100", ANSWERED, 40, None)])

    def test_a_call_from_inside(self):
        """In a queue it waits as others do; it isn't followed to a station."""
        made = Event(90, "serviceInitiated", "201", 5)
        self.assertEqual(self.waits(made, queued(100, "100"), cleared(130, "100")), [Ended("100", LOST, 30, 30)])
        for end in (answered(160, "202"), cleared(160)):
            self.assertEqual(self.waits(made, queued(100, "100"), moved(130, "100", "202", "100"), rings(130, "202"), end), [Ended("100", LEFT, 30, None)])

    def test_a_call_of_no_group(self):
        self.assertEqual(self.waits(rings(100, "201", "newCall"), answered(110, "201"), cleared(120)), [])
        self.assertEqual(self.waits(rings(100, "201", "newCall"), moved(110, "201", "100"), queued(110, "100", "deflected"), cleared(120, "100")), [Ended("100", LOST, 10, 10)])

    def test_one_of_before_the_first_event(self):
        """Its wait is as long as is known; where it ends without an answer it is longer than any limit."""
        first = on("201", "7")
        self.assertEqual(self.waits(first, answered(30, "201", "100", 50)), [Ended("100", ANSWERED, 50, 50)])
        self.assertEqual(self.waits(first, moved(20, "100", "110", "100"), queued(20, "110", "deflected"), answered(30, "201", "110", 10)), [Ended("110", ANSWERED, 29, 10)])
        self.assertEqual(self.waits(first, cleared(30, "100")), [Ended("100", LOST, EVER, EVER)])
        self.assertEqual(self.waits(first, moved(20, "100", "110", "100"), queued(20, "110", "deflected"), cleared(30, "110")), [Ended("110", LOST, EVER, 10)])

    def test_how_long_it_has_been_going_on(self):
        waits = Waits({"202": "8"})
        found = []
        for event in (queued(100, "100"), moved(130, "100", "299", "100"), rings(130, "299"), moved(150, "299", "202"), rings(150, "202"), answered(160, "202")):
            waits.take(event)
            found.append((waits.so_far(5, 1000), waits.since(5)))
        self.assertEqual(found, [(900, 100), (900, 100), (30, 100), (30, 100), (900, 100), (0, None)])


if __name__ == "__main__":
    unittest.main()
