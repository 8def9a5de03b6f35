"""Rules over the real desk, whose moments a test gives: who is moved when, by which key, and what a restarted instance does."""
import unittest
from unittest import mock

import rules_ground as ground
from acd_client import AnotherHistory, Answer, Missed, Unanswered
from acd_service.rules import following
from rules_ground import HOURS, NOON, of_group

EVENING = NOON + 6 * 3600


class When(ground.Case):
    """The moments at which each rule holds."""

    def test_closed(self):
        one, call = self.following('when = "closed", to = "110"'), self.desk.arrives()
        self.assertEqual(self.turns(one, EVENING - 1), [])
        self.assertEqual(self.turns(one, EVENING), [("rules-100-closed-1", "deflectCall", call, 200)])
        self.assertEqual((self.waiting("100"), self.waiting("110")), ([], [call]))
        self.assertEqual(self.lines, [f"call {call} in 100, 100-closed: to 110"])

    def test_nobody_there(self):
        one = self.following('when = "nobody", seconds = 30, end = true')
        self.desk.logs_on("7", "201", "100", ready=False)
        call = self.desk.arrives()
        self.assertEqual(self.turns(one, NOON + 500), [])
        self.desk.moment = NOON + 600
        self.desk.ask("setAgentState", agent="7", requested="loggedOff")
        self.assertEqual(self.turns(one, NOON + 629), [])
        self.assertEqual(self.turns(one, NOON + 630), [("rules-100-nobody-1", "clearConnection", call, 200)])
        self.assertEqual(self.waiting("100"), [])

    def test_nobody_there_by_an_agent_of_several_groups(self):
        one = self.following('when = "nobody", seconds = 30, end = true')
        self.assertEqual(self.turns(one), [])
        self.desk.logs_on("7", "201", "110", "120", ready=False)
        call = self.desk.arrives()
        self.assertEqual(self.turns(one, NOON + 1), [("rules-100-nobody-1", "clearConnection", call, 200)])
        self.desk.logs_on("8", "202", "100", "120", ready=False)
        call = self.desk.arrives()
        self.assertEqual(self.turns(one, NOON + 100), [])
        self.desk.ask("setAgentState", agent="8", requested="loggedOff")
        self.assertEqual(self.turns(one, NOON + 129), [])
        self.assertEqual(self.turns(one, NOON + 130), [("rules-100-nobody-1", "clearConnection", call, 200)])

    def test_one_who_came_and_left_between_two_looks(self):
        """Of several groups nobody can ask any more which ones: it counts as having been in each."""
        one = self.following('when = "nobody", seconds = 30, end = true')
        self.turns(one)
        self.desk.moment = NOON + 50
        self.desk.logs_on("7", "201", "110", "120", ready=False)
        self.desk.ask("setAgentState", agent="7", requested="loggedOff")
        call = self.desk.arrives()
        self.assertEqual(self.turns(one, NOON + 79), [])
        self.assertEqual(self.turns(one, NOON + 80), [("rules-100-nobody-1", "clearConnection", call, 200)])

    def test_full(self):
        """More than two: those who came last."""
        one, calls = self.following('when = "full", calls = 2, to = "110"'), [self.desk.arrives() for _ in range(2)]
        self.assertEqual(self.turns(one), [])
        calls += [self.desk.arrives() for _ in range(2)]
        self.assertEqual(self.turns(one), [("rules-100-full-1", "deflectCall", call, 200) for call in calls[2:]])
        self.assertEqual(self.waiting("100"), calls[:2])

    def test_too_long_in_all(self):
        """From when the caller first entered a group, whoever moved the caller since."""
        one, call = self.following(text=of_group("110", 'when = "long", seconds = 120, end = true')), self.desk.arrives()
        self.assertEqual(self.turns(one, NOON + 200), [])
        self.desk.ask("deflectCall", call=call, device="100", to="110")
        self.assertEqual(self.turns(one, NOON + 201), [("rules-110-long-1", "clearConnection", call, 200)])

    def test_a_talk_ends_a_wait(self):
        """Who is passed on afterwards waits anew: also as an instance sees it that began meanwhile, and where an agent was reached by name."""
        text = of_group("110", 'when = "long", seconds = 120, end = true')
        self.desk.logs_on("7", "201", "100")
        for moment, talks in ((NOON, lambda call: self.desk.ask("answerCall", call=call, device="201")), (NOON + 1000, self.is_reached_by_name)):
            self.desk.moment = moment
            one, call = self.following(text=text), self.desk.arrives()
            talks(call)
            self.assertEqual(self.turns(one, moment + 100), [])
            again = self.following(text=text)
            self.assertEqual(self.turns(again), [])
            self.desk.ask("singleStepTransfer", call=call, device="201", to="110")
            for each in (one, again, self.following(text=text)):
                self.assertEqual(self.turns(each, moment + 219), [])
            for each, status in ((one, [200]), (self.following(text=text), [])):
                self.assertEqual([sent[3] for sent in self.turns(each, moment + 220)], status)
            self.assertEqual(self.waiting("110"), [])
            self.desk.ask("setAgentState", agent="7", requested="ready")

    def is_reached_by_name(self, call):
        self.desk.ask("setAgentState", agent="7", requested="notReady")
        self.desk.ask("rejectCall", call=call, device="201")
        self.desk.ask("deflectCall", call=call, device="100", to="201")
        self.desk.ask("answerCall", call=call, device="201")

    def test_an_announcement_is_no_talk(self):
        text = of_group("110", 'when = "long", seconds = 120, end = true')
        one, call = self.following(text=text), self.desk.arrives()
        self.desk.ask("deflectCall", call=call, device="100", to="299")
        self.desk.ask("answerCall", call=call, device="299")
        self.assertEqual(self.turns(one, NOON + 50), [])
        self.desk.ask("singleStepTransfer", call=call, device="299", to="110")
        for each in (one, self.following(text=text)):
            self.assertEqual(self.turns(each, NOON + 119), [])
        self.assertEqual(self.turns(self.following(text=text), NOON + 120), [("rules-110-long-1", "clearConnection", call, 200)])

    def test_a_call_of_a_station(self):
        """It enters its group as it is made; a rule doesn't send it to the station that made it."""
        one = self.following('when = "long", seconds = 10, to = "299"', 'when = "long", seconds = 60, end = true, name = "end"')
        call = self.desk.ask("makeCall", device="299", called="100").result["call"]
        self.desk.moment = NOON + 5
        self.desk.ask("phoneOffHook", call=call, device="299")
        self.assertEqual(self.turns(one, NOON + 64), [])
        self.assertEqual(self.turns(one, NOON + 65), [("rules-end-1", "clearConnection", call, 200)])

    def test_by_the_desks_moment_where_that_is_later(self):
        one, call = self.following('when = "long", seconds = 120, to = "110"'), self.desk.arrives()
        self.turns(one, NOON + 110)
        one.clock = lambda: NOON
        self.assertEqual((self.turns(one), self.lines), ([], []))
        self.desk.moment = NOON + 120
        self.desk.arrives("120")
        self.assertEqual(self.turns(one), [("rules-100-long-1", "deflectCall", call, 200)])
        self.assertEqual(self.lines[0], "the desk's time is over a minute ahead of this machine's clock: until 2027-01-04 12:02:00 UTC waits and hours are judged by it")

    def test_in_their_order(self):
        """The first rule that holds and can be carried out."""
        one = self.following('when = "long", seconds = 60, to = "299"', 'when = "long", seconds = 60, end = true, name = "end"', 'when = "closed", to = "110"')
        calls = [self.desk.arrives() for _ in range(2)]
        self.assertEqual(self.turns(one, NOON + 60), [("rules-100-long-1", "deflectCall", calls[0], 200), ("rules-end-1", "clearConnection", calls[1], 200)])

    def test_groups_without_rules_are_left_alone(self):
        one, call = self.following('when = "long", seconds = 1, end = true'), self.desk.arrives("110")
        self.assertEqual((self.turns(one, EVENING), self.waiting("110")), ([], [call]))


class Where(ground.Case):
    def test_never_back_to_a_group_that_it_has_left(self):
        one = self.following(text=HOURS + of_group("100", 'when = "long", seconds = 10, to = "110"') + of_group("110", 'when = "long", seconds = 20, to = "100"'))
        call = self.desk.arrives()
        self.assertEqual(self.turns(one, NOON + 60), [("rules-100-long-1", "deflectCall", call, 200)])
        self.assertEqual((self.turns(one, NOON + 3600), self.waiting("110")), ([], [call]))

    def test_a_restarted_one_knows_which_groups_it_has_left(self):
        text = HOURS + of_group("110", 'when = "long", seconds = 20, to = "100"')
        call = self.desk.arrives()
        for number in range(150):
            self.desk.arrives("120")
        self.desk.ask("deflectCall", call=call, device="100", to="110")
        self.assertEqual((self.turns(self.following(text=text), NOON + 3600), self.waiting("110")), ([], [call]))

    def test_a_station_that_isnt_idle_waits_for_its_turn(self):
        one, calls = self.following('when = "long", seconds = 10, to = "299"'), [self.desk.arrives() for _ in range(2)]
        self.assertEqual(self.turns(one, NOON + 10), [("rules-100-long-1", "deflectCall", calls[0], 200)])
        self.desk.ask("answerCall", call=calls[0], device="299")
        self.assertEqual(self.turns(one, NOON + 20), [])
        self.desk.ask("clearConnection", call=calls[0], device="299")
        self.assertEqual(self.turns(one, NOON + 30), [("rules-100-long-1", "deflectCall", calls[1], 200)])

    def test_a_station_of_an_agent_gets_nobody(self):
        self.desk.logs_on("7", "299", "120", ready=False)
        one, call = self.following('when = "long", seconds = 10, to = "299"'), self.desk.arrives()
        self.assertEqual(self.turns(one, NOON + 10), [])
        self.assertEqual(self.lines, ["100-long: 299 is a station at which agent 7 is logged on; a rule moves nobody to an agent; until then it moves nobody there"])
        self.desk.ask("setAgentState", agent="7", requested="loggedOff")
        self.assertEqual(self.turns(one), [("rules-100-long-1", "deflectCall", call, 200)])

    def test_a_device_that_is_planned_later(self):
        """No event tells of it: the plan is looked at each minute."""
        one, call = self.following('when = "long", seconds = 10, to = "130"'), self.desk.arrives()
        self.assertEqual(self.turns(one, NOON + 10), [])
        self.assertEqual(self.lines, ["100-long: 130 is neither a group nor a station of the plan; until then it moves nobody there"])
        self.desk.ask("addGroup", device="130", name="Late", ring=20, wrap=30)
        self.assertEqual(self.turns(one), [])
        one.renewed -= following.RENEW
        self.assertEqual(self.turns(one), [("rules-100-long-1", "deflectCall", call, 200)])

    def test_who_talks_or_rings_is_left_alone(self):
        one = self.following('when = "long", seconds = 10, end = true')
        self.desk.logs_on("7", "201", "100")
        call = self.desk.arrives()
        self.assertEqual(self.turns(one, NOON + 60), [])
        self.desk.ask("answerCall", call=call, device="201")
        self.assertEqual(self.turns(one, EVENING), [])


class Tries(ground.Case):
    """Keys, and what becomes of a try."""

    def offered_meanwhile(self, one, moment):
        """A look at which the call is offered to agent 7 after it was judged, and before the desk gets the request; then it comes back."""
        real = self.desk.send

        def send(request):
            self.desk.ask("setAgentState", agent="7", requested="ready")
            return real(request)

        with mock.patch.object(self.desk, "send", send):
            self.desk.moment = moment
            self.assertEqual(one.turn(), 0)
        self.assertEqual(self.waiting("100"), [])

    def test_one_that_was_just_offered_is_judged_anew(self):
        one = self.following('when = "long", seconds = 10, end = true')
        self.desk.logs_on("7", "201", "100", ready=False)
        call = self.desk.arrives()
        self.offered_meanwhile(one, NOON + 10)
        self.assertEqual(self.turns(one, NOON + 11), [])
        self.desk.ask("rejectCall", call=call, device="201")
        self.assertEqual(self.turns(one, NOON + 12), [("rules-100-long-2", "clearConnection", call, 200)])
        self.assertEqual(self.lines, [f"call {call} in 100, 100-long: refused, unknownConnection (try 1)", f"call {call} in 100, 100-long: ended"])

    def test_a_restarted_one_goes_through_the_same_tries(self):
        one = self.following('when = "long", seconds = 10, to = "110"')
        self.desk.logs_on("7", "201", "100", ready=False)
        call = self.desk.arrives()
        self.offered_meanwhile(one, NOON + 10)
        self.desk.ask("rejectCall", call=call, device="201")
        again = self.following('when = "long", seconds = 10, to = "110"')
        self.assertEqual(self.turns(again, NOON + 20), [("rules-100-long-1", "deflectCall", call, 409), ("rules-100-long-2", "deflectCall", call, 200)])
        # and a second one beside it finds nobody to move
        self.assertEqual(self.turns(one, NOON + 20), [])

    def test_a_kept_200_ends_it(self):
        """One whom a lead moved back isn't moved by the same rule again."""
        one = self.following('when = "long", seconds = 10, to = "299"')
        call = self.desk.arrives()
        self.assertEqual(len(self.turns(one, NOON + 10)), 1)
        self.desk.ask("deflectCall", call=call, device="299", to="100")
        self.assertEqual(self.turns(one, NOON + 20), [])
        again = self.following('when = "long", seconds = 10, to = "299"')
        self.assertEqual(self.turns(again, NOON + 30), [("rules-100-long-1", "deflectCall", call, 200)])
        self.assertEqual((self.turns(again, NOON + 40), self.waiting("100")), ([], [call]))

    def test_two_with_unlike_rules(self):
        one, other = self.following('when = "long", seconds = 10, to = "299"'), self.following('when = "long", seconds = 10, to = "120"')
        call = self.desk.arrives()
        self.turns(one, NOON + 10)
        self.desk.ask("deflectCall", call=call, device="299", to="100")
        self.assertEqual(self.turns(other, NOON + 20), [("rules-100-long-1", "deflectCall", call, 422)])
        self.assertEqual((self.turns(other, NOON + 30), self.waiting("100")), ([], [call]))
        self.assertEqual(self.lines[-1], f"call {call} in 100, 100-long: another instance, with other rules, has used the key rules-100-long-1; nobody is moved by it")

    def test_many_refusals_are_ever_farther_apart(self):
        tried, moments, now = following.Tried(), [], 0
        for _ in range(70):
            tried.is_refused(now, "destinationBusy")
            now = tried.not_before
            moments.append(now)
        self.assertEqual(moments[:8], [0, 0, 0, 0, 1, 3, 6, 10])
        self.assertEqual((moments[-1] - moments[-2], tried.is_over), (60, False))
        # one who goes through the refusals of a call that had left doesn't wait
        for why in ("unknownConnection", "unknownCall"):
            tried.is_refused(now, why)
            self.assertEqual(tried.not_before, now)
        tried.next = 999
        tried.is_refused(now, "destinationBusy")
        self.assertTrue(tried.is_over)

    def test_the_tries_of_calls_that_have_ended_are_forgotten(self):
        one = self.following('when = "long", seconds = 10, end = true')
        self.desk.arrives()
        self.turns(one, NOON + 10)
        self.assertEqual(one.tried, {})


class Silence(ground.Case):
    def test_it_says_once_that_it_follows(self):
        one = self.following('when = "long", seconds = 10, end = true', 'when = "closed", end = true')
        with mock.patch.object(self.desk, "attempt", side_effect=Unanswered("status 503")):
            one.turn()
        self.assertEqual(self.begun, [])
        for _ in range(2):
            one.picture = None
            one.turn()
            self.assertEqual(self.begun, ["follows the desk, by 2 rules of 1 group"])

    def test_a_desk_that_is_away(self):
        one, call = self.following('when = "long", seconds = 10, end = true'), self.desk.arrives()
        self.turns(one)
        self.desk.moment = NOON + 10
        with mock.patch.object(self.desk, "attempt", side_effect=Unanswered("status 503")):
            self.assertEqual([one.turn() for _ in range(5)], [following.PAUSE] * 5)
        self.assertEqual(self.turns(one), [("rules-100-long-1", "clearConnection", call, 200)])
        self.assertEqual(self.lines, ["no answer (status 503), retrying; nobody is moved meanwhile", f"call {call} in 100, 100-long: ended", "the desk answers again"])

    def test_an_answer_that_was_lost(self):
        """The same key is sent again, and acts once."""
        one, call, real = self.following('when = "long", seconds = 10, to = "110"'), self.desk.arrives(), self.desk.send

        def lost(request):
            real(request)
            raise Unanswered("cut off")

        self.turns(one)
        self.desk.moment = NOON + 10
        with mock.patch.object(self.desk, "send", lost):
            self.assertEqual(one.turn(), following.PAUSE)
        self.assertEqual((self.turns(one), self.waiting("110"), len(self.desk.sent)), ([], [call], 1))

    def test_a_login_that_may_not(self):
        one, call = self.following('when = "long", seconds = 10, end = true'), self.desk.arrives()
        forbidden = Answer(403, {"error": {"code": 41, "name": "forbidden"}})
        for name, told in (("attempt", "/snapshot is answered 403 forbidden"), ("send", "clearConnection is answered 403 forbidden")):
            self.lines.clear()
            with mock.patch.object(self.desk, name, return_value=forbidden):
                self.assertEqual((self.desk.moment, one.turn(), one.turn()), (self.desk.moment, following.DENIED, following.DENIED))
            self.assertEqual(self.lines, [f"{told}: the login needs the role rules, and the right password"])
            self.desk.moment = NOON + 10
        self.assertEqual(self.turns(one), [("rules-100-long-1", "clearConnection", call, 200)])

    def test_what_is_no_desk(self):
        one = self.following('when = "long", seconds = 10, end = true')
        with mock.patch.object(self.desk, "attempt", return_value=Answer(200, {})):
            self.assertEqual([one.turn() for _ in range(3)], [following.PAUSE] * 3)
        self.assertEqual(self.lines, ["no answer (the reply is no snapshot), retrying; nobody is moved meanwhile"])

    def test_a_desk_that_is_full(self):
        one, _ = self.following('when = "long", seconds = 10, end = true'), self.desk.arrives()
        self.desk.moment = NOON + 10
        with mock.patch.object(self.desk, "send", return_value=Answer(507, {"error": {"code": 32, "name": "deskFull"}})):
            self.assertEqual(one.turn(), following.DENIED)
        self.assertEqual(self.lines, ["clearConnection is answered 507 deskFull"])

    def test_another_history(self):
        one, call = self.following('when = "long", seconds = 10, to = "299"'), self.desk.arrives()
        self.turns(one, NOON + 10)
        for fault, is_kept in ((Missed("carried over"), True), (AnotherHistory("a copy"), False)):
            with mock.patch.object(self.desk, "page", side_effect=fault):
                self.assertEqual(one.turn(), following.LOOK)
            self.assertEqual((one.picture, list(one.tried)), (None, [("100-long", call)] if is_kept else []))
            self.turns(one)


if __name__ == "__main__":
    unittest.main()
