"""The log over an etcd that lags, forgets, compacts, breaks off, answers late, twice, and out of order."""
import itertools
import json
import sys
import threading
import time
import unittest
from pathlib import Path
from unittest import mock

sys.path.insert(0, str(Path(__file__).resolve().parent))

from bench import LINE, Bench, token  # noqa: E402
from etcd import text  # noqa: E402
from acd_service.node.log import QUOTA, Compacted, Forgotten, Refused, events  # noqa: E402


def followed(many, log, place=0, seen=0):
    """The numbers of so many entries after a place."""
    entries = (entry for _, entry in log.follow(place, seen) if entry is not None)
    return [int(entry.rsplit(b" ", 1)[1]) for entry in itertools.islice(entries, many)]


class Following(Bench):
    def test_each_entry_once_and_in_order(self):
        self.member()
        self.entries(5)
        self.assertEqual(followed(5, self.log()), [1, 2, 3, 4, 5])
        self.assertEqual(list(itertools.islice(self.log().follow(0), 2)), [(2, token(1) + b" 5 line 1"), (3, token(2) + b" 5 line 2")])
        self.assertEqual(followed(2, self.log(), 4), [4, 5])

    def test_other_keys_are_none_of_it(self):
        self.member()
        for number in range(1, 4):
            self.entries(1, number)
            self.store.put(LINE + b"/digest/1000/m1", b"x")
            self.store.put(b"desk/linf", b"x")
        self.assertEqual(followed(3, self.log()), [1, 2, 3])

    def test_what_comes_later(self):
        self.member()
        self.entries(1)
        following = self.log().follow(0)
        next(following)
        threading.Timer(1, self.entries, (2, 2)).start()  # after several silences
        self.assertEqual([int(entry[-1:]) for _, entry in itertools.islice(following, 2)], [2, 3])

    def test_a_member_that_lags(self):
        self.member(lag=3)
        self.member()
        self.entries(9)
        self.assertEqual(followed(9, self.log()), list(range(1, 10)))

    def test_events_that_come_twice(self):
        self.member(twice=True)
        self.entries(4)
        self.assertEqual(followed(4, self.log()), [1, 2, 3, 4])

    def test_events_out_of_order_are_never_taken(self):
        self.member(shuffled=True)
        self.entries(4)
        log, found = self.log(), []
        threading.Thread(target=lambda: found.extend(followed(4, log)), daemon=True).start()
        self.until(lambda: "before one that comes first" in self.said.getvalue())
        time.sleep(0.5)
        self.assertEqual(found, [])
        self.members[0].shuffled = False
        self.until(lambda: found == [1, 2, 3, 4])

    def test_out_of_order_at_one_member(self):
        self.member(shuffled=True)
        self.member()
        self.entries(4)
        for _ in range(4):                                 # whichever is asked first
            self.assertEqual(followed(4, self.log()), [1, 2, 3, 4])

    def test_a_member_that_breaks_off_within_a_line(self):
        self.member(broken=True)
        self.member()
        self.entries(3)
        for _ in range(4):
            self.assertEqual(followed(3, self.log()), [1, 2, 3])

    def test_members_away(self):
        away = self.member(away=True)
        self.entries(3)
        found, log = [], self.log()
        threading.Thread(target=lambda: found.extend(followed(3, log)), daemon=True).start()
        self.until(lambda: "no leader" in self.said.getvalue())
        away.away = False
        self.until(lambda: found == [1, 2, 3])
        self.assertEqual(self.said.getvalue().count("\n"), 1)  # one line, however often it is tried

    def test_deleted_and_put_again(self):
        self.member()
        self.entries(2)
        self.store.delete(LINE)
        self.store.put(LINE, b"")
        self.entries(1, 3)
        self.assertEqual([entry for _, entry in itertools.islice(self.log().follow(0), 5)], [token(1) + b" 5 line 1", token(2) + b" 5 line 2", b"", b"", token(3) + b" 5 line 3"])
        for place, left in [(3, [b"", b"", token(3) + b" 5 line 3"]), (4, [b"", token(3) + b" 5 line 3"]), (5, [token(3) + b" 5 line 3"])]:
            self.assertEqual([entry for _, entry in itertools.islice(self.log().follow(place), len(left))], left)

    def test_compacted_before_the_place(self):
        self.member()
        self.entries(6)
        log = self.log()
        log.compact(4)
        self.assertEqual(followed(3, log, 4), [4, 5, 6])
        for place in (0, 2, 3):
            with self.assertRaises(Forgotten):
                next(self.log().follow(place))

    def test_compacted_up_to_the_end(self):
        self.member()
        self.entries(2)
        for _ in range(9):                                 # machines that publish their place while nobody calls
            self.store.put(LINE + b"/place/m1", b"3")
        log = self.log()
        self.assertEqual((log.end_of(3), log.end_of(2)), (12, 2))
        log.compact(log.end_of(3))
        self.entries(1, 3)
        self.assertEqual(self.store.compacted, 12)
        self.assertEqual(log.end_of(3), 3)
        self.assertEqual((log.begin(3), followed(1, log, 3)), ((13, 2), [3]))  # of a machine that was away meanwhile

    def test_compacted_up_to_after_an_entry_that_a_machine_lacks(self):
        self.member()
        self.entries(3)
        self.store.put(LINE + b"/place/m1", b"4")
        log = self.log()
        log.compact(5)
        self.entries(1, 4)
        for place in (0, 2, 3):
            with self.assertRaisesRegex(Forgotten, "begins after this machine's place"):
                log.begin(place)
        self.assertEqual(log.begin(4), (6, 3))
        self.store.delete(LINE)
        log.compact(7)
        with self.assertRaises(Forgotten):                 # of the deletion, which counts as one
            log.begin(6)

    def test_deleted_and_compacted(self):
        """Up to where nothing came the log may be forgotten, though no entry shows it."""
        self.member()
        self.entries(2)
        self.store.delete(LINE)
        for _ in range(3):
            self.store.put(LINE + b"/place/m1", b"x")
        log, told = self.log(), []
        for told in log.follow(3):
            if told[1] is None:
                break
        self.assertEqual(told, (7, None))
        log.compact(7)
        self.entries(1, 3)
        self.assertEqual((log.begin(4, 7), followed(1, log, 4, 7)), ((8, 0), [3]))
        with self.assertRaises(Forgotten):
            log.begin(4, 6)
        self.store.forget_all()
        with self.assertRaisesRegex(Forgotten, "ends at 1, before this machine's place 7"):
            log.begin(0, 7)

    def test_compacted_again_while_it_asks(self):
        self.member()
        self.entries(1)
        for _ in range(3):
            self.store.put(LINE + b"/place/m1", b"2")
        log = self.log()
        log.compact(5)
        self.entries(1, 2)
        with mock.patch.object(log, "compaction_after", return_value=4), self.assertRaises(Compacted):
            log.begin(2)
        self.assertEqual(log.begin(2), (6, 1))

    def test_an_entry_that_comes_between_two_watches(self):
        """After a silence the node looks anew where to begin. It feeds the entries that came just then all the same, though the log has forgotten places after its own."""
        self.member()
        self.entries(2)
        self.store.put(LINE + b"/place/m1", b"3")
        log = self.log()
        log.compact(log.end_of(3))
        with mock.patch("acd_service.node.log.time.sleep", side_effect=lambda _: self.entries(1, 3)):
            self.assertEqual(followed(1, log, 3), [3])

    def test_places_that_are_forgotten_before_a_watch_begins(self):
        self.member()
        self.entries(2)
        log, begin = self.log(), self.log().begin

        def begin_late(place, seen):
            found = begin(place, seen)
            for _ in range(3 if self.store.compacted == 0 else 0):
                self.store.put(LINE + b"/place/m1", b"3")
            log.compact(log.end_of(place))
            return found

        threading.Timer(0.5, self.entries, (1, 3)).start()
        with mock.patch.object(log, "begin", begin_late):
            self.assertEqual(followed(1, log, 3), [3])
        self.assertIn("compacted up to 6 just now", self.said.getvalue())

    def test_nothing_is_missed_after_a_compaction_up_to_the_end(self):
        self.member()
        self.entries(2)
        self.store.put(LINE + b"/place/m1", b"3")
        log = self.log()
        log.compact(log.end_of(3))
        following = log.follow(3)
        threading.Timer(0.5, self.entries, (2, 3)).start()
        self.assertEqual([int(entry[-1:]) for _, entry in itertools.islice(following, 2)], [3, 4])

    def test_a_log_that_forgot(self):
        self.member()
        self.entries(6)
        following = self.log().follow(0)
        for _ in range(6):
            next(following)
        self.store.forget_all()
        with self.assertRaisesRegex(Forgotten, "ends at 1, before this machine's place 7"):
            next(following)

    def test_another_log(self):
        self.member()
        self.entries(2)
        self.store.put(b"other", b"x")
        self.entries(1, 3)
        with self.assertRaisesRegex(Forgotten, "no entry at this machine's place 4"):
            next(self.log().follow(4))

    def test_lines_of_a_watch(self):
        for line in [b'{"result":{"created":true}}', b'{"error":{"grpc_code":14}}\n', b'{"result":{"canceled":true}}\n']:
            with self.assertRaises(OSError):
                list(events(line, LINE, 0, 0))
        with self.assertRaises(Compacted):
            list(events(b'{"result":{"canceled":true,"compact_revision":"9"}}\n', LINE, 0, 0))
        with self.assertRaises(ValueError):                # no fault of a line: it ends the process
            list(events(b"{garbage\n", LINE, 0, 0))

    def test_changes_of_other_keys_are_told_behind_the_entries_of_their_line(self):
        changes = [(b"desk/line/place/m1", 5, 1), (LINE, 5, 1), (b"desk/line/place/m1", 6, 2)]
        for last, part, wanted in [(3, False, [(5, 1, b"x"), (6, 1, None)]), (2, False, [(5, 1, b"x")]), (1, False, [(5, 0, None)]), (3, True, [(5, 1, b"x")])]:
            told = [{"kv": {"key": text(key), "mod_revision": str(revision), "version": str(version), "value": "eA=="}} for key, revision, version in changes[:last]]
            line = json.dumps({"result": {"events": told, "fragment": part}}).encode() + b"\n"
            self.assertEqual(list(events(line, LINE, 0, 0)), wanted)

    def test_a_watch_asks_for_lines_of_a_bounded_length(self):
        self.member()
        self.entries(1)
        with mock.patch.object(self.members[0], "lines", side_effect=self.members[0].lines) as asked:
            followed(1, self.log())
        self.assertIs(asked.call_args.args[0]["create_request"]["fragment"], True)


class Calling(Bench):
    def test_the_next_member_where_one_is_gone(self):
        self.member().close()
        self.member()
        for number in range(8):
            self.log().append(b"%d" % number)
        self.assertEqual([change["value"] for change in self.store.changes], [b"%d" % number for number in range(8)])

    def test_kept_connections_to_a_member_that_went(self):
        first, second = self.member(), self.member()
        log = self.log()
        log.at = 0
        calls = [threading.Thread(target=log.append, args=(b"x",)) for _ in range(12)]
        first.late = 0.1                                   # so that several connections are kept
        for call in calls:
            call.start()
        for call in calls:
            call.join()
        self.assertGreater(len(log.idle), 4)
        first.away = True
        log.append(b"y")
        self.assertEqual(log.idle[0].port, int(second.end.split(":")[1]))
        self.assertEqual(len(log.idle), 1)

    def test_the_member_that_is_preferred(self):
        first, second = self.member(), self.member()
        log = self.log()
        for member, end in ((first, log.ends[0]), (second, log.ends[1]), (second, log.ends[1])):
            log.prefer(end)
            before = len(member.asked)
            log.append(b"x")
            log.append(b"y")
            self.assertEqual((len(member.asked), len(log.idle)), (before + 2, 1))
        second.away = True                                 # and the next one where it doesn't answer
        log.append(b"z")
        self.assertEqual([change["value"] for change in self.store.changes][-1], b"z")

    def test_no_majority(self):
        for _ in range(3):
            self.member(away=True)
        with self.assertRaisesRegex(OSError, "no leader"):
            self.log().append(b"x")

    def test_an_answer_that_comes_late(self):
        self.member(late=0.5)
        self.member()
        log = self.log(patience=0.3)
        log.at = 0
        log.append(b"x")
        self.assertEqual([change["value"] for change in self.store.changes], [b"x", b"x"])  # the log has it twice

    def test_digests(self):
        self.member()
        log = self.log()
        for count in (1000, 2000, 11000, 12000):
            for name in (b"m1", b"m2"):
                log.publish_digest(count, name, b"%d of %s" % (count, name))
        self.assertEqual(log.digests(1000, [b"m1", b"m2", b"m3"]), {b"m1": b"1000 of m1", b"m2": b"1000 of m2"})
        self.assertEqual(log.digests(1000, [b"m2"]), {b"m2": b"1000 of m2"})
        self.assertEqual(log.digests(1, [b"m1", b"m2"]), {})
        self.store.put(LINE + b"/digest/m1/x", b"by hand")
        log.forget_digests(2000, b"m1")
        self.assertEqual(sorted(log.listed(b"digest")), [b"m1/11000", b"m1/12000", b"m1/2000", b"m1/x", b"m2/1000", b"m2/11000", b"m2/12000", b"m2/2000"])

    def test_digests_as_they_were_before(self):
        self.member()
        log = self.log()
        for key in (b"1000/m1", b"1000/m2", b"m1/1000"):
            self.store.put(LINE + b"/digest/" + key, key)
        self.assertEqual(log.digests(1000, [b"m1", b"m2", b"m3"]), {b"m1": b"m1/1000", b"m2": b"1000/m2"})

    def test_places(self):
        self.member()
        log = self.log()
        log.publish_place(b"m1", 7)
        log.publish_place(b"m2", 0)
        for name, value in [(b"m3", b"x"), (b"m4", b""), (b"m5", b"-1")]:
            self.store.put(LINE + b"/place/" + name, value)
        self.assertEqual(log.places(), {b"m1": (2, 7), b"m2": (3, 0)})

    def test_compaction_twice_or_too_far(self):
        self.member()
        self.entries(5)
        log = self.log()
        for place in (3, 3, 2, 900):
            log.compact(place)
        self.assertEqual(self.store.compacted, 3)

    def test_what_a_member_says(self):
        member, gone = self.member(size=3000, used=1000, quota=3e6), self.member()
        log = self.log()
        gone.close()
        self.assertEqual(log.member(log.ends[0]), (log.ends[0], 3000, 1000, 3000000, False))
        self.store.leader = member
        self.assertTrue(log.member(log.ends[0]).leads)
        self.store.leader = gone
        self.assertFalse(log.member(log.ends[0]).leads)
        self.assertIsNone(log.member(log.ends[1]))
        member.quota = 2147483648
        self.assertEqual(log.member(log.ends[0]).quota, QUOTA)

    def test_refusals(self):
        self.member()
        self.store.full = True
        with self.assertRaisesRegex(OSError, "space exceeded"):
            self.log().append(b"x")
        self.assertTrue(self.log().is_full())
        with self.assertRaises(Refused):
            self.log().call("/v3/kv/range", {"key": "eA==", "revision": "99"})


class Users(Bench):
    """Of an etcd that asks who one is."""

    def setUp(self):
        super().setUp()
        self.member()
        self.store.users, self.store.rights = {"m1": "one", "m2": "two"}, {"m1": lambda key: key == LINE, "m2": lambda key: False}
        (self.folder / "password").write_text("one\n")

    def user(self, name="m1"):
        return self.log(user=(name, self.folder / "password"))

    def asked(self, path="/v3/auth/authenticate"):
        return sum(one == path for member in self.members for one, _ in member.asked)

    def test_nobody(self):
        with self.assertRaisesRegex(OSError, "permission denied"):
            self.log().append(b"x")

    def test_a_token_for_all_calls(self):
        log = self.user()
        for number in range(5):
            log.append(b"%d" % number)
        log.defragment(log.ends[0])
        self.assertEqual((self.asked(), len(self.store.changes)), (1, 5))

    def test_a_token_that_is_known_no_longer(self):
        log = self.user()
        log.append(b"x")
        self.members[0].tokens.clear()
        log.append(b"y")
        self.assertEqual((self.asked(), len(self.store.changes)), (2, 2))

    def test_many_at_once_ask_for_one(self):
        log = self.user()
        calls = [threading.Thread(target=log.append, args=(b"x",)) for _ in range(12)]
        for call in calls:
            call.start()
        for call in calls:
            call.join()
        self.assertEqual((self.asked(), len(self.store.changes)), (1, 12))

    def test_a_watch_of_a_member_that_knows_no_token(self):
        self.entries(2)
        log = self.user()
        self.assertEqual(followed(1, log), [1])
        log.token = "token.old"
        with mock.patch.object(log, "begin", return_value=(2, 0)):
            following = log.follow(0)
            threading.Timer(0.5, log.renewed, (log.connect(log.ends[0], 5), None)).start()
            self.assertEqual(next(following)[0], 2)
        self.assertIn("invalid auth token", self.said.getvalue())

    def test_a_wrong_password_and_no_file_are_waited_out(self):
        (self.folder / "password").write_text("none")
        log = self.user()
        with self.assertRaisesRegex(OSError, "authentication failed"):
            log.append(b"x")
        (self.folder / "password").unlink()
        with self.assertRaisesRegex(OSError, "No such file"):
            log.append(b"x")
        (self.folder / "password").write_text("one")
        log.append(b"x")

    def test_what_a_user_has_no_right_to(self):
        for _ in range(2):
            self.member()
        (self.folder / "password").write_text("two")
        log = self.user("m2")
        with self.assertRaisesRegex(Refused, "permission denied"):
            log.append(b"x")
        self.assertEqual(self.asked("/v3/kv/put"), 2)      # without a token, and with one; no other member says otherwise

    def test_an_etcd_that_asks_nobody(self):
        self.store.users = {}
        log = self.user()
        log.append(b"x")
        self.assertEqual(self.asked(), 0)
        self.store.users = {"m1": "one"}                   # and now it does
        log.append(b"y")
        self.assertEqual((self.asked(), len(self.store.changes)), (1, 2))


if __name__ == "__main__":
    unittest.main()
