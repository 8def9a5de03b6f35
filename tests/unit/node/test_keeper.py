"""Places that machines publish, compaction up to the least of them, digests that are compared and deleted, and warnings."""
import sys
import unittest
from pathlib import Path
from unittest import mock

sys.path.insert(0, str(Path(__file__).resolve().parent))

from bench import LINE, Bench  # noqa: E402
from collections import deque  # noqa: E402
from acd_service.node.folder import UNCHECKED, Checked, Reached, State  # noqa: E402
from acd_service.node.keeper import Keeper  # noqa: E402

# hours after which a machine is gone
GONE = 0.5


class Machine:
    """How far a machine came, as its bridge and its folder say."""

    def __init__(self):
        self.folder, self.path, self.due, self.held, self.differs = self, "FOLDER", deque(), False, False
        self.reached, self.checked, self.seen = Reached(0, 0, b""), UNCHECKED, 0

    @property
    def state(self):
        return State(self.reached, self.checked, self.seen)

    def durable_state(self):
        return self.state

    def check(self, count, digest):
        """So many entries were fed."""
        self.checked = Checked(count, digest)
        self.due.append(self.checked)


class Keeping(Bench):
    def setUp(self):
        super().setUp()
        self.member()
        self.entries(40)                                   # at 2 to 41
        self.machines = {name: Machine() for name in ("m1", "m2", "m3")}
        self.keepers = {name: Keeper(name, list(self.machines), GONE, self.log(), machine, self.journal, lambda: self.now) for name, machine in self.machines.items()}

    def look(self, *names, after=60):
        self.now += after
        for name in names:
            self.keepers[name].look()

    def pass_by(self, minutes, *names):
        """A look counts for two minutes at most."""
        for after in [120] * (minutes // 2) + [60] * (minutes % 2):
            self.look(*names, after=after)

    def at(self, **places):
        for name, place in places.items():
            self.machines[name].reached = Reached(place, self.machines[name].reached.count, b"")

    def published(self):
        return {name.decode(): published.place for name, published in self.keepers["m1"].log.places().items()}

    def test_the_place_is_published_each_minute_and_each_thousand_entries(self):
        self.at(m1=5)
        self.look("m1", after=0)
        self.assertEqual(self.published(), {"m1": 5})
        self.at(m1=6)
        self.look("m1", after=59)
        self.assertEqual(self.published(), {"m1": 5})
        self.look("m1", after=1)
        self.assertEqual(self.published(), {"m1": 6})
        self.machines["m1"].reached = Reached(7, 999, b"")
        self.look("m1", after=1)
        self.assertEqual(self.published(), {"m1": 6})
        self.machines["m1"].reached = Reached(8, 1000, b"")
        self.look("m1", after=1)
        self.assertEqual(self.published(), {"m1": 8})

    def test_compaction_up_to_the_least_place(self):
        self.at(m1=30, m2=20)
        self.look("m1", "m2")
        self.assertEqual(self.store.compacted, 0)          # m3 has published none
        self.at(m3=12)
        self.look("m3")
        self.assertEqual(self.store.compacted, 12)
        self.at(m3=25)
        self.look("m3", "m1")
        self.assertEqual(self.store.compacted, 20)

    def test_compaction_up_to_the_end_where_all_have_all(self):
        self.at(m1=41, m2=41, m3=41)
        self.look("m1", "m2", "m3")
        self.assertEqual(self.store.compacted, self.store.revision)

    def test_nothing_is_forgotten_without_machines(self):
        self.keepers["m1"].machines = []
        self.at(m1=41)
        self.look("m1")
        self.assertEqual((self.store.compacted, self.published()), (0, {"m1": 41}))

    def test_one_that_is_gone_is_named_each_hour_and_not_waited_for(self):
        self.at(m1=20, m2=30, m3=10)
        self.look("m1", "m2", "m3")
        self.look("m1", "m2")                              # which finds the place of m3
        self.pass_by(29, "m1", "m2")
        self.assertEqual((self.store.compacted, self.said.getvalue()), (10, ""))
        self.look("m1", "m2")
        self.assertEqual(self.store.compacted, 20)
        self.assertEqual(self.said.getvalue().count("m3 has told no place for 0.5 hours"), 1)  # both write it into one journal here
        self.pass_by(59, "m1", "m2")
        self.assertEqual(self.said.getvalue().count("m3 has told no place"), 1)
        self.look("m1", "m2")
        self.assertEqual(self.said.getvalue().count("m3 has told no place"), 2)

    def test_one_that_comes_back_is_waited_for_again(self):
        self.at(m1=20, m2=30, m3=10)
        self.look("m1", "m2", "m3")
        self.pass_by(32, "m1", "m2")
        self.at(m1=35, m2=35, m3=22)                       # with a copied folder
        self.look("m3")
        self.look("m1", "m2")
        self.look("m1", "m2")
        self.assertEqual(self.store.compacted, 22)

    def test_one_whose_folder_is_too_old_is_not_waited_for(self):
        self.at(m1=20, m2=30, m3=10)
        self.look("m1", "m2", "m3")
        self.pass_by(32, "m1", "m2")
        before = self.keepers["m1"].log.places()[b"m3"]
        self.look("m3")                                    # it is started with the folder that it had
        self.assertEqual(self.keepers["m1"].log.places()[b"m3"], before)

    def test_one_that_never_published_is_waited_for_as_long(self):
        self.at(m1=20, m2=30)
        self.pass_by(29, "m1", "m2")
        self.assertEqual(self.store.compacted, 0)
        self.look("m1", "m2")
        self.assertEqual(self.store.compacted, 20)

    def test_while_etcd_is_away_nobody_is_gone(self):
        self.at(m1=20, m2=30, m3=10)
        self.look("m1", "m2", "m3")
        self.members[0].away = True
        self.pass_by(90, "m1")
        self.members[0].away = False
        self.look("m1")
        self.assertEqual(self.store.compacted, 10)
        self.assertNotIn("m3 has told", self.said.getvalue())

    def test_what_a_machine_that_is_gone_holds_doesnt_keep_etcd_full(self):
        self.at(m1=20, m2=30, m3=10)
        self.look("m1", "m2", "m3")
        self.at(m1=41, m2=41)
        self.store.full = True                             # so they can't publish that
        self.pass_by(32, "m1", "m2")
        self.assertIn(self.store.compacted, range(20, 42))  # and the log forgets nothing that the others need

    def test_a_full_etcd_forgets_all_the_same(self):
        self.at(m1=20, m2=30, m3=10)
        self.look("m1", "m2", "m3")
        self.store.full = True
        self.at(m3=15)
        self.look("m3")                                    # it can't publish that, and knows it
        self.assertEqual((self.store.compacted, self.published()["m3"]), (15, 10))
        self.at(m3=40)
        self.look("m1", "m2", "m3", after=1)
        self.assertEqual((self.store.compacted, self.published()["m3"]), (20, 10))
        self.assertIn("space exceeded", self.said.getvalue())

    def test_a_folder_that_may_be_of_another_log_forgets_nothing(self):
        self.at(m1=20, m2=30, m3=10)
        self.look("m1", "m2", "m3")
        self.at(m3=40)
        with mock.patch.object(self.keepers["m3"].log, "begin", side_effect=OSError("no leader")):
            self.look("m3")
        self.assertEqual((self.store.compacted, self.published()["m3"]), (10, 10))

    def test_a_place_that_etcd_refused_is_published_again_soon(self):
        self.at(m1=5)
        self.store.full = True
        self.look("m1")
        self.store.full = False
        self.look("m1", after=1)
        self.assertEqual(self.published(), {"m1": 5})

    def test_a_day_of_silence_while_the_machine_slept_is_two_minutes(self):
        self.at(m1=20, m2=30, m3=10)
        self.look("m1", "m2", "m3")
        self.look("m1", after=86400)
        self.assertEqual(self.store.compacted, 10)

    def test_digests_are_published_and_the_own_old_ones_deleted(self):
        for count in range(1000, 15000, 1000):
            self.machines["m1"].check(count, b"%d" % count)
            self.look("m1", after=1)
        self.store.put(LINE + b"/digest/m2/1000", b"x")
        self.machines["m1"].check(15000, b"15000")
        self.look("m1", after=1)
        self.assertEqual(sorted(int(key) for key in self.keepers["m1"].log.listed(b"digest/m1")), list(range(5000, 16000, 1000)))
        self.assertEqual(list(self.keepers["m1"].log.listed(b"digest/m2")), [b"1000"])

    def test_digests_wait_for_etcd(self):
        self.store.full = True
        self.machines["m1"].check(1000, b"x")
        self.look("m1")
        self.assertEqual(len(self.machines["m1"].due), 1)
        self.store.full = False
        self.look("m1")
        self.assertEqual((len(self.machines["m1"].due), self.keepers["m1"].log.digests(1000, [b"m1", b"m2"])), (0, {b"m1": b"x"}))

    def differ(self, **digests):
        """Which machines answer nothing if these are their digests."""
        for name, digest in digests.items():
            self.machines[name].check(1000, digest)
            self.look(name, after=1)
        self.look(*digests, after=1)
        return [name for name in digests if self.machines[name].differs]

    def test_one_that_differs_from_two_answers_nothing(self):
        self.assertEqual(self.differ(m1=b"x", m2=b"y", m3=b"y"), ["m1"])
        self.assertIn("differ from those of two other machines, so all requests and reads get 503: FOLDER isn't to be used", self.said.getvalue())
        self.now += 3600
        self.look("m1", "m2", "m3")
        self.assertEqual(self.said.getvalue().count("differ from"), 2)

    def test_one_with_another_folder_answers_again(self):
        self.assertEqual(self.differ(m1=b"x", m2=b"y", m3=b"y"), ["m1"])
        self.machines["m1"].checked = Checked(1000, b"y")
        self.look("m1", after=1)
        self.assertFalse(self.machines["m1"].differs)
        self.assertEqual(self.keepers["m1"].log.digests(1000, [b"m1"]), {b"m1": b"y"})

    def test_one_that_differs_does_so_until_another_has_its_digest(self):
        self.assertEqual(self.differ(m1=b"x", m2=b"y", m3=b"y"), ["m1"])
        self.machines["m1"].check(2000, b"xx")
        self.look("m1", after=1)
        self.assertTrue(self.machines["m1"].differs)       # nobody else has come so far

    def test_equal_ones_go_on(self):
        self.assertEqual(self.differ(m1=b"x", m2=b"x", m3=b"x"), [])

    def test_of_three_that_all_differ_nobody_knows(self):
        self.assertEqual(self.differ(m1=b"x", m2=b"y", m3=b"z"), [])

    def test_of_two_nobody_knows(self):
        self.assertEqual(self.differ(m1=b"x", m2=b"y"), [])

    def test_what_no_machine_put_counts_for_nothing(self):
        """Two digests below other names, in both forms, and of one machine in both."""
        for key in (b"1000/zz1", b"1000/zz2", b"zz1/1000", b"zz2/1000"):
            self.store.put(LINE + b"/digest/" + key, b"0000")
        self.store.put(LINE + b"/digest/m3/1000", b"0000")
        self.store.put(LINE + b"/digest/1000/m3", b"0000")
        self.assertEqual(self.differ(m1=b"x", m2=b"x"), [])
        self.keepers["m1"].machines = []
        self.look("m1", after=1)
        self.assertFalse(self.machines["m1"].differs)

    def test_a_machine_of_before_is_compared(self):
        for name in (b"m2", b"m3"):
            self.store.put(LINE + b"/digest/1000/" + name, b"y")
        self.assertEqual(self.differ(m1=b"x"), ["m1"])

    def test_what_somebody_puts_in_the_names_of_all_doesnt_last(self):
        self.differ(m1=b"x", m2=b"x", m3=b"x")
        for name in (b"m1", b"m2", b"m3"):
            self.store.put(LINE + b"/digest/" + name + b"/1000", b"0000")
        self.look("m1", "m2", "m3", after=1)
        self.look("m1", "m2", "m3", after=1)
        self.assertEqual([name for name in self.machines if self.machines[name].differs], [])
        self.assertIn("another digest of this machine after 1000 entries", self.said.getvalue())

    def test_half_of_the_quota(self):
        member, other = self.members[0], self.member(quota=1000, size=499, used=10)
        self.keepers["m1"].log = self.log()
        member.quota, member.size, member.used = 1000, 500, 400
        for minute in range(61):
            self.look("m1")
        printed = self.said.getvalue()
        self.assertEqual(printed.count(f"etcd at {member.end} has 500 bytes of its quota of 1000, 400 of them in use"), 2)
        self.assertNotIn(other.end, printed)

    def test_puts_go_to_the_member_that_leads(self):
        members = [self.members[0], self.member(), self.member()]
        self.keepers["m1"].log = log = self.log()
        for leader in (*members, *members):
            self.store.leader = leader
            self.look("m1", after=5)
            before = len(leader.asked)
            log.append(b"x")
            self.assertEqual(leader.asked[before:], [("/v3/kv/put", mock.ANY)])
        self.store.leader = None                           # nobody knows one: it stays as it is
        self.look("m1", after=5)
        log.append(b"x")
        self.assertEqual(members[2].asked[-1][0], "/v3/kv/put")

    def test_near_the_quota_requests_are_refused_and_places_published_all_the_time(self):
        member = self.members[0]
        for size, used, held in [(874, 874, False), (875, 749, False), (875, 750, True), (999, 999, True), (999, 100, False), (100, 100, False)]:
            member.quota, member.size, member.used = 1000, size, used
            self.look("m1", after=5)
            self.assertEqual(self.machines["m1"].held, held, (size, used))
        member.size, member.used = 900, 900
        self.look("m1")
        self.at(m1=17)
        self.look("m1", after=1)
        self.assertEqual(self.published(), {"m1": 17})
        self.assertEqual(self.said.getvalue().count("etcd is nearly full"), 1)
        member.size, member.used = 900, 200                # the log was shortened
        self.look("m1", after=1)
        self.assertFalse(self.machines["m1"].held)

    def test_the_line_is_the_only_key_that_is_read(self):
        self.store.put(LINE + b"/place/", b"5")
        self.store.put(LINE + b"/place/stranger", b"1")
        self.at(m1=30, m2=20, m3=10)
        self.look("m1", "m2", "m3")
        self.assertEqual(self.store.compacted, 10)


if __name__ == "__main__":
    unittest.main()
