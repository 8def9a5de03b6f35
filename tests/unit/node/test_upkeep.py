"""The work of the timer: it defragments members one after another, and ends the alarm of a full etcd."""
import sys
import unittest
from pathlib import Path
from unittest import mock

sys.path.insert(0, str(Path(__file__).resolve().parent))

from bench import Bench  # noqa: E402
from acd_service.node import upkeep  # noqa: E402

MACHINES = ["m1", "m2", "m3"]


class Upkeep(Bench):
    def setUp(self):
        super().setUp()
        for name, value in (("PAUSE", 0.01), ("LEAST", 9)):
            patch = mock.patch.object(upkeep, name, value)
            patch.start()
            self.addCleanup(patch.stop)

    def once(self):
        return upkeep.once(self.log(), MACHINES, self.journal)

    def tidied(self):
        return [sum(path.endswith("defragment") for path, _ in member.asked) for member in self.members]

    def test_one_machine_has_its_turn_at_a_time(self):
        for start in (0, 900, 1700000100):
            self.assertEqual([[upkeep.has_turn(name, MACHINES, start + second) for name in MACHINES] for second in (0, 299, 300, 600, 899, 900)],
                             [[True, False, False], [True, False, False], [False, True, False], [False, False, True], [False, False, True], [True, False, False]])

    def test_only_wasteful_members(self):
        for size, used in [(300, 100), (300, 200), (200, 10), (900, 449)]:
            self.member(quota=1000, size=size, used=used)
        self.assertEqual((self.once(), self.tidied()), (0, [1, 0, 0, 1]))
        self.assertEqual((self.once(), self.tidied()), (0, [1, 0, 0, 1]))

    def test_none_while_a_member_is_away(self):
        self.member(quota=1000, size=900, used=10)
        self.member().close()
        self.assertEqual((self.once(), self.tidied()), (1, [0, 0]))
        self.assertIn("doesn't answer", self.said.getvalue())

    def test_a_full_one_takes_entries_again(self):
        for _ in range(3):
            self.member(quota=1000, size=1000, used=900)
        self.entries(9)
        for name, place in [("m1", 9), ("m2", 7), ("m3", 8)]:
            self.log().publish_place(name.encode(), place)
        self.store.full = True
        for member in self.members:
            member.used = 100                              # after the compaction
        self.assertEqual((self.once(), self.store.full, self.store.compacted, self.tidied()), (0, False, 7, [1, 1, 1]))

    def test_what_is_given_free_by_and_by_is_waited_for(self):
        for leaves in ([900, 908, 900, 800, 400, 100], [900, 500, 100]):
            self.member(quota=1000, size=1000, leaves=leaves)
        self.store.full = True
        self.assertEqual((self.once(), self.store.full, self.tidied()), (0, False, [1, 1]))
        self.assertEqual([member.size for member in self.members], [100, 100])

    def test_what_is_never_given_free_is_waited_for_so_long(self):
        self.member(quota=100000, size=100000, leaves=list(range(90000, 10, -10)))
        self.store.full = True
        with mock.patch.object(upkeep, "LONGEST", 0.1):
            self.assertEqual((self.once(), self.store.full), (0, False))
        self.assertGreater(len(self.members[0].leaves), 8000)

    def test_what_comes_and_goes_isnt_waited_for(self):
        self.member(quota=1000, size=1000, leaves=[100, 105, 100, 95, 100, 105])
        self.store.full = True
        self.assertEqual((self.once(), self.store.full), (0, False))
        self.assertEqual(len(self.members[0].leaves), 2)   # of one look, another, and those before and after defragmenting

    def test_a_full_one_that_is_full_of_what_is_needed(self):
        self.member(quota=1000, size=1000, used=985)
        self.entries(9)
        self.log().publish_place(b"m1", 9)
        self.store.full = True
        self.assertEqual((self.once(), self.store.full, self.store.compacted), (1, True, 0))  # m2 and m3 have published no place
        self.assertIn("is full, 985 of 1000 bytes", self.said.getvalue())

    def test_a_full_one_where_a_member_is_away(self):
        self.member(quota=1000, size=1000, used=100)
        self.member().close()
        self.store.full = True
        self.assertEqual((self.once(), self.store.full, self.tidied()), (0, False, [1, 0]))

    def test_no_etcd(self):
        self.member(away=True)
        self.assertEqual(self.once(), 1)
        self.assertIn("no leader", self.said.getvalue())


if __name__ == "__main__":
    unittest.main()
