#!/usr/bin/python3
"""Of the alarms of the last half hour, by hand: what counts, until when, and since when it is so."""
import unittest

import service_ground  # noqa: F401: where the modules are
from acd_service.recent import Endings, Goals, Recent, Since
from acd_service.waits import End, Ended

ANSWERED, LOST, _ = End
NONE = Since()


class OfHalfAnHour(unittest.TestCase):
    def endings(self, *waits):
        """Of moments, ends and seconds."""
        found = Endings()
        for moment, how, seconds in waits:
            found.add(moment, Ended("100", how, seconds))
        return found

    def since(self, endings, *moments, **goals):
        recent = Recent(endings, Goals(**goals))
        return [recent.pass_to(moment) for moment in moments]

    def test_of_fewer_than_ten_a_share_says_nothing(self):
        late = [(100 + 10 * place, ANSWERED, 30) for place in range(10)]
        self.assertEqual(self.since(self.endings(*late[:9]), 1000), [NONE])
        self.assertEqual(self.since(self.endings(*late), 189, 190, 1000), [NONE, Since(190), Since(190)])

    def test_it_ends_half_an_hour_later(self):
        """Of ten late ones the first goes 1,800 s after it ended; then they are nine."""
        late = [(100 + 10 * place, ANSWERED, 30) for place in range(10)]
        self.assertEqual(self.since(self.endings(*late), 1899, 1900), [Since(190), NONE])

    def test_calls_in_time_end_it_and_it_begins_anew(self):
        """Of 20 are 13 in time, 65 %: no alarm. Of 21 late or in time 62 %: it is one again, since then."""
        late, good = [(100 + place, ANSWERED, 30) for place in range(7)], [(110 + place, ANSWERED, 5) for place in range(13)]
        endings = self.endings(*late, *good, (200, ANSWERED, 30))
        self.assertEqual(self.since(endings, 112, 122, 199, 200, 500), [Since(112), NONE, NONE, Since(200), Since(200)])

    def test_those_who_give_up(self):
        """Of ten one is 10 %, which is twice the goal and no more; two are. Who gives up soon isn't of the level, who does late is."""
        for losses, seconds, wanted in ((1, 5, NONE), (2, 5, Since(None, 90)), (2, 30, Since(None, 90)), (4, 30, Since(90, 90))):
            waits = [(place * 10, LOST if place >= 10 - losses else ANSWERED, seconds if place >= 10 - losses else 5) for place in range(10)]
            self.assertEqual(self.since(self.endings(*waits), 100), [wanted])

    def test_the_level_of_the_answered_alone(self):
        """Ten answered in time beside ten who gave up late: 50 % of all, 100 % of the answered."""
        waits = [(place, ANSWERED, 5) for place in range(10)] + [(20 + place, LOST, 30) for place in range(10)]
        # of 16 the level is 62 %, since the sixth; of 12 those who gave up are more than 10 %, since the second
        self.assertEqual(self.since(self.endings(*waits), 100), [Since(25, 21)])
        self.assertEqual(self.since(self.endings(*waits), 100, alone=True), [Since(None, 21)])
        self.assertEqual(self.since(self.endings(*waits), 100, goal=60, lost=30), [NONE])

    def test_what_holds_at_the_end_of_a_second(self):
        """In second 50 one goes and one comes, both late: it was an alarm before, and goes on."""
        late = [(place - 1750 if place == 0 else place, ANSWERED, 30) for place in range(10)]
        endings = self.endings(*late)
        recent = Recent(endings, Goals())
        self.assertEqual(recent.pass_to(49), Since(9))
        self.assertEqual(recent.pass_to(50), NONE)
        endings.add(50, Ended("100", ANSWERED, 30))
        self.assertEqual(recent.pass_to(50), Since(9))
        self.assertEqual(recent.pass_to(60), Since(9))

    def test_one_that_is_told_late(self):
        """A wait that ended before the last second that was judged counts from its own second on."""
        endings = self.endings((-1750, ANSWERED, 30), *[(place, ANSWERED, 30) for place in range(1, 10)])
        recent = Recent(endings, Goals())
        self.assertEqual(recent.pass_to(55), NONE)
        endings.add(48, Ended("100", ANSWERED, 30))
        self.assertEqual(recent.pass_to(55), Since(9))

    def test_one_whose_call_a_rule_ended(self):
        """Nobody gave up: without it they are nine, and of those who stay the others count."""
        waits = [(10 * place, LOST, 30) for place in range(10)]
        endings = self.endings(*waits)
        recent = Recent(endings, Goals())
        self.assertEqual(recent.pass_to(100), Since(90, 90))
        endings.remove(50, Ended("100", LOST, 30))
        self.assertEqual(recent.pass_to(100), NONE)
        endings.add(110, Ended("100", LOST, 30))
        self.assertEqual((recent.pass_to(120), recent.figures()), (Since(110, 110), [0, 10, 0, 10]))


if __name__ == "__main__":
    unittest.main()
