"""The feeding loop: each entry of each value, in order, none passed over but what is no value; and answers to what was asked here."""
import asyncio
import hashlib
import os
import shutil
import sys
import threading
import time
import unittest
from pathlib import Path
from unittest import mock

sys.path.insert(0, str(Path(__file__).resolve().parent))

from bench import HERE, LINE, PATIENCE, Bench, token  # noqa: E402
from acd_service.node.bridge import PERIOD, Bridge  # noqa: E402
from acd_service.node.folder import NOTHING, UNCHECKED, Checked, Folder, Reached, State  # noqa: E402

DESK = str(HERE / "desk.py")


def digest_of(replies):
    found = b"0" * 64
    for reply in replies:
        found = hashlib.sha256(found + reply).hexdigest().encode()
    return found


class Bridging(Bench):
    def bridge(self, folder=None, feeds=True, **times):
        folder = folder or self.folder
        folder.mkdir(exist_ok=True)
        found = Bridge(str(folder), DESK, self.log(**times), self.journal, PATIENCE)
        if feeds:
            self.begin(found)
        self.addCleanup(self.end, found)
        return found

    def begin(self, bridge):
        for work in (bridge.run, bridge.waiting.put_for_ever):
            threading.Thread(target=work, daemon=True).start()

    def end(self, bridge):
        """Lets the threads end, and the desk with them."""
        bridge.log.begin = bridge.log.append = lambda *_: sys.exit()
        bridge.waiting.waiters[b"end"] = None
        bridge.waiting.unput.put((b"end", b""))

    def answers(self, bridge, *requests):
        """The answers to requests that come at once."""
        async def all_of_them():
            return await asyncio.gather(*map(bridge.answer, requests))
        return asyncio.run(all_of_them())

    def answers_together(self, bridge, *requests):
        """The answers to requests that all wait before the first one is put."""
        async def all_of_them():
            waiting = asyncio.gather(*map(bridge.answer, requests))
            while bridge.waiting.unput.qsize() < len(requests):
                await asyncio.sleep(0)
            self.begin(bridge)
            return await waiting
        return asyncio.run(all_of_them())

    def answer(self, bridge, request):
        return self.answers(bridge, request)[0]

    def several(self, *words):
        """A value of several entries."""
        self.store.put(LINE, b"*" + b"".join(b"\n%s 5 %s" % (token(number), word) for number, word in enumerate(words, 1)))

    def fed(self, folder=None):
        file = (folder or self.folder) / "desk.db"
        return file.read_text("latin-1").splitlines() if file.exists() else []


class Feeding(Bridging):
    def test_in_order_and_the_place_after_it(self):
        self.member()
        self.entries(30)
        bridge = self.bridge()
        replies = [b"200 line %d\n" % number for number in range(1, 31)]
        self.until(lambda: bridge.reached == Reached(31, 30, digest_of(replies)))
        self.assertEqual(self.fed(), [f"5 line {number}" for number in range(1, 31)])
        self.assertEqual((self.folder / "at").read_bytes().split(b"\n")[0].rstrip(), b"%020d %020d %s" % (31, 30, digest_of(replies)))

    def test_members_that_lag_repeat_break_off_and_shuffle(self):
        for faults in [{"lag": 2}, {"twice": True}, {"broken": True}, {"shuffled": True}, {"away": True}]:
            self.member(**faults)
        self.member()
        bridge = self.bridge()
        for first in range(1, 101, 20):
            self.entries(20, first)
            self.until(lambda: bridge.reached.count == first + 19, 60)
        self.assertEqual(self.fed(), [f"5 line {number}" for number in range(1, 101)])

    def test_what_is_no_entry_is_passed_over_counted_and_reported(self):
        self.member()
        bad = [b"nospace", b"", token(7) + b" 5 GET /snapshot", b"x" * 5000, token(8) + b" 12345678901 line", b"\n\n"]
        first, second = self.bridge(), self.bridge(self.folder / "second")
        for number, entry in enumerate(bad, 1):
            self.entries(1, number)
            self.store.put(LINE, entry)
        self.store.delete(LINE)
        self.entries(1, 7)
        replies = [part for number, entry in enumerate(bad, 1) for part in (b"200 line %d\n" % number, entry)] + [b"", b"200 line 7\n"]
        wanted = Reached(15, 14, digest_of(replies))
        self.until(lambda: first.reached == second.reached == wanted)
        self.assertEqual(self.fed(), [f"5 line {number}" for number in range(1, 8)])
        self.assertEqual((first.passed, self.said.getvalue().count("has no entry")), (7, 1))  # one line, of both machines' one journal
        self.now += 3601
        self.store.put(LINE, b"again")
        self.until(lambda: self.said.getvalue().count("has no entry") == 2)
        self.assertIn("(8 such since the start)", self.said.getvalue())

    def test_a_moment_that_is_none_of_the_desk_is_fed(self):
        self.member()
        self.store.put(LINE, token(1) + b" 9999999999 line 1")
        self.until(lambda bridge=self.bridge(): bridge.reached.count == 1)
        self.assertEqual(self.fed(), ["9999999999 line 1"])

    def test_no_memory_is_asked_again(self):
        self.member()
        self.store.put(LINE, token(1) + b" 5 memory")
        self.entries(1, 2)
        bridge = self.bridge()
        self.until(lambda: bridge.reached == Reached(3, 2, digest_of([b"200 memory\n", b"200 line 2\n"])))

    def test_a_desk_that_ends_is_started_and_fed_again(self):
        self.member()
        self.entries(2)
        self.store.put(LINE, token(3) + b" 5 fault")
        self.entries(2, 4)
        bridge = self.bridge()
        self.until(lambda: bridge.reached.count == 5)
        self.assertEqual(self.fed(), ["5 line 1", "5 line 2", "5 fault", "5 line 4", "5 line 5"])
        self.assertIn("the desk ended with status 1", self.said.getvalue())

    def test_several_of_one_value(self):
        self.member()
        self.entries(1)
        self.several(*(b"word %d" % number for number in range(100)))
        self.several(b"last")
        bridge = self.bridge()
        replies = [b"200 line 1\n", *(b"200 word %d\n" % number for number in range(100)), b"200 last\n"]
        self.until(lambda: bridge.reached == Reached(4, 102, digest_of(replies)))
        self.assertEqual(self.fed(), ["5 line 1", *(f"5 word {number}" for number in range(100)), "5 last"])

    def test_a_fault_in_the_middle_of_a_value(self):
        """All of it is fed again, in order: what was executed is repeated, and none is passed over."""
        self.member()
        self.entries(1)
        self.several(b"a", b"b", b"fault", b"c", b"d")
        bridge = self.bridge()
        self.until(lambda: bridge.reached == Reached(3, 6, digest_of([b"200 %s\n" % word for word in (b"line 1", b"a", b"b", b"fault", b"c", b"d")])))
        self.assertEqual(self.fed(), ["5 line 1", "5 a", "5 b", "5 a", "5 b", "5 fault", "5 c", "5 d"])

    def test_no_memory_in_the_middle_of_a_value(self):
        self.member()
        self.several(b"a", b"memory", b"b")
        bridge = self.bridge()
        self.until(lambda: bridge.reached == Reached(2, 3, digest_of([b"200 a\n", b"200 memory\n", b"200 b\n"])))
        self.assertEqual(self.fed(), ["5 a", "5 memory", "5 b"])

    def test_a_desk_that_is_killed_in_the_middle_of_a_value(self):
        """The place is that of before the value, until all of it is answered."""
        self.member()
        self.entries(1)
        bridge = self.bridge()
        self.until(lambda: bridge.reached.count == 1)
        self.several(*(b"slow %d" % number for number in range(20)))
        self.until(lambda: len(self.fed()) > 3)
        self.assertEqual(bridge.reached.place, 2)
        bridge.desk.kill()
        self.until(lambda: bridge.reached.place == 3)
        self.assertEqual((bridge.reached.count, bridge.reached.digest), (21, digest_of([b"200 line 1\n", *(b"200 slow %d\n" % number for number in range(20))])))
        lines, slow = self.fed(), [f"5 slow {number}" for number in range(20)]
        self.assertEqual((lines[-20:], lines[1:-20]), (slow, slow[:len(lines) - 21]))
        self.assertTrue(3 <= len(lines) - 21 < 20, len(lines))

    def test_a_value_of_which_one_is_no_entry_is_fed_in_no_part(self):
        self.member()
        self.several(b"a", b"GET /snapshot", b"b")
        self.several(b"c")
        bridge = self.bridge()
        bad = self.store.changes[0]["value"]
        self.until(lambda: bridge.reached == Reached(3, 2, digest_of([bad, b"200 c\n"])))
        self.assertEqual((self.fed(), bridge.passed), (["5 c"], 1))

    def test_a_digest_that_is_due_in_the_middle_of_a_value(self):
        self.member()
        (self.folder / "at").write_text(f"1 {PERIOD - 2} " + "a" * 64)
        self.several(b"a", b"b", b"c", b"d")
        bridge = self.bridge()
        self.until(lambda: bridge.reached.count == PERIOD + 2)
        digest = hashlib.sha256(hashlib.sha256(b"a" * 64 + b"200 a\n").hexdigest().encode() + b"200 b\n").hexdigest().encode()
        self.assertEqual((list(bridge.due), bridge.folder.state.checked), ([Checked(PERIOD, digest)], Checked(PERIOD, digest)))

    def test_a_place_that_is_lost_or_no_place(self):
        self.member()
        self.entries(3)
        for number, text in enumerate(["", "x", "1 2", "1 2 3 4", "a b c", "1 2 x".ljust(198) + "y\n1 1 x"]):
            folder = self.folder / str(number)
            folder.mkdir()
            (folder / "at").write_text(text)
            bridge = self.bridge(folder)
            self.until(lambda: bridge.reached.count == 3)
            self.assertEqual(self.fed(folder), ["5 line 1", "5 line 2", "5 line 3"])

    def test_from_a_place(self):
        self.member()
        self.entries(3)
        (self.folder / "at").write_text("3 2 " + "a" * 64)
        bridge = self.bridge()
        self.until(lambda: bridge.reached.count == 3)
        self.assertEqual(bridge.reached.digest, hashlib.sha256(b"a" * 64 + b"200 line 3\n").hexdigest().encode())
        self.assertEqual(self.fed(), ["5 line 3"])

    def test_answers(self):
        self.member()
        bridge = self.bridge()
        self.assertEqual([self.answer(bridge, b"mine %d" % number) for number in range(5)], [b"200 mine %d\n" % number for number in range(5)])
        self.store.put(LINE, token(1) + b" 5 somebody else's")
        self.assertEqual((self.answer(bridge, b"mine"), bridge.waiting.waiters), (b"200 mine\n", {}))

    def test_an_append_that_is_acknowledged_late_stands_twice_and_is_answered_once(self):
        for _ in range(2):
            self.member(late=0.5)
        bridge = self.bridge(patience=0.3)
        self.assertEqual(self.answer(bridge, b"late"), b"")      # nobody acknowledged: send it again
        for member in self.members:
            member.late = 0
        self.until(lambda: len(self.fed()) == 3)           # and yet it is in the log, once a try
        self.assertEqual((self.answer(bridge, b"again"), bridge.waiting.waiters), (b"200 again\n", {}))

    def test_appends_that_are_put_twice(self):
        self.member(twice=True)
        bridge = self.bridge()
        self.assertEqual([self.answer(bridge, b"%d" % number) for number in range(3)], [b"200 0\n", b"200 1\n", b"200 2\n"])
        self.until(lambda: len(self.fed()) == 6)

    def test_many_at_once_are_few_puts_and_each_gets_its_answer(self):
        self.member()
        bridge, requests = self.bridge(feeds=False, patience=PATIENCE), [b"mine %d" % number for number in range(350)]
        self.assertEqual(self.answers_together(bridge, *requests), [b"200 " + request + b"\n" for request in requests])
        values = [change["value"] for change in self.store.changes]
        self.assertEqual([value.split(b"\n")[0] for value in values], [b"*"] * 4)
        self.assertEqual([value.count(b"\n") for value in values], [100, 100, 100, 50])
        self.assertEqual([line.partition(" ")[2].encode() for line in self.fed()], requests)

    def test_no_value_is_too_long(self):
        self.member()
        bridge, requests = self.bridge(feeds=False, patience=PATIENCE), [b"%d" % number + b"x" * 4000 for number in range(80)]
        self.assertEqual(self.answers_together(bridge, *requests), [b"200 " + request + b"\n" for request in requests])
        # an entry has 44 bytes before its request and the LF before it, and a value one byte before the first entry
        sizes = [45 + len(request) for request in requests]
        many = next(many for many in range(80) if 1 + sum(sizes[:many + 1]) > 262144)
        self.assertEqual([len(change["value"]) for change in self.store.changes], [1 + sum(sizes[:many]), 1 + sum(sizes[many:])])

    def test_all_of_a_put_that_nobody_acknowledges_are_sent_again(self):
        member = self.member()
        bridge = self.bridge()
        self.answer(bridge, b"first")
        member.away = True
        self.assertEqual(self.answers(bridge, b"x", b"y", b"z"), [b""] * 3)
        self.assertIn("requests get 503: no member of etcd acknowledged", self.said.getvalue())
        member.away = False
        self.assertEqual(self.answers(bridge, b"x", b"y"), [b"200 x\n", b"200 y\n"])

    def test_who_has_given_up_is_not_put(self):
        self.member()
        bridge = self.bridge(feeds=False)
        bridge.waiting.patience = 0.1
        self.assertEqual(self.answers(bridge, b"x", b"y"), [b"", b""])
        bridge.waiting.patience = PATIENCE
        self.begin(bridge)
        self.assertEqual((self.answer(bridge, b"z"), self.fed()[0].partition(" ")[2], len(self.store.changes)), (b"200 z\n", "z", 1))

    def test_who_gives_up_while_others_are_put_is_not_put(self):
        """Of 250 a hundred are put, and then whoever still waits: nothing goes into the log that its client may have asked for a day ago."""
        self.member()
        waiting = self.bridge(feeds=False).waiting
        for number in range(250):
            waiting.waiters[b"%d" % number] = mock.Mock()
            waiting.unput.put((b"%d" % number, b"entry"))
        self.assertEqual([token for token, _ in waiting.next_ones()], [b"%d" % number for number in range(100)])
        for number in set(range(250)) - {101, 249}:
            del waiting.waiters[b"%d" % number]
        self.assertEqual([token for token, _ in waiting.next_ones()], [b"101", b"249"])

    def test_nothing_without_its_entry(self):
        self.member()
        bridge = self.bridge(feeds=False)
        bridge.waiting.patience = 0.2
        threading.Thread(target=bridge.waiting.put_for_ever, daemon=True).start()
        self.assertEqual((self.answer(bridge, b"x"), bridge.waiting.waiters, self.store.revision), (b"", {}, 2))

    def test_nothing_is_put_while_etcd_is_nearly_full(self):
        self.member()
        bridge = self.bridge()
        bridge.held = True
        self.assertEqual((self.answer(bridge, b"x"), self.store.revision), (b"", 1))
        bridge.held = False
        self.assertEqual(self.answer(bridge, b"x"), b"200 x\n")

    def test_reads_go_into_no_digest(self):
        self.member()
        self.entries(1)
        bridge = self.bridge()
        self.until(lambda: bridge.reached.count == 1)
        before = bridge.reached
        self.assertEqual(bridge.read(b"/snapshot"), b"200 GET /snapshot\n")
        self.assertEqual((bridge.reached, self.store.revision), (before, 2))

    def test_digests_that_are_due(self):
        self.member()
        (self.folder / "at").write_text(f"1 {PERIOD - 2} " + "a" * 64)
        self.entries(3)
        bridge = self.bridge()
        self.until(lambda: bridge.reached.count == PERIOD + 1)
        self.assertEqual([count for count, _ in bridge.due], [PERIOD])
        self.assertEqual(Folder(str(self.folder)).state, State(bridge.reached, bridge.due[0], 4))  # a start knows it

    def test_up_to_where_nothing_came_is_written_after_it(self):
        self.member()
        self.entries(2)
        self.store.put(LINE + b"/place/m2", b"3")
        bridge = self.bridge()
        self.until(lambda: bridge.folder.state.seen == 4)
        self.assertEqual((bridge.reached.place, Folder(str(self.folder)).state.seen), (3, 4))
        self.store.delete(LINE)
        self.store.put(LINE + b"/place/m2", b"3")
        self.until(lambda: bridge.folder.state.seen == 6)
        self.store.compacted = 6                           # nothing in it shows the place 5
        self.until(lambda: bridge.log.begin(5, 6) == (7, 0))
        self.assertEqual(self.answer(bridge, b"mine"), b"200 mine\n")
        self.assertNotIn("copy the folder", self.said.getvalue())

    def test_a_disk_that_takes_no_place_is_no_fault_of_etcd(self):
        self.member()
        self.entries(1)
        bridge = self.bridge(feeds=False)
        self.addCleanup(os.close, bridge.folder.at)
        bridge.folder.at = os.open(self.folder / "at", os.O_RDONLY)
        with self.assertRaises(OSError):                   # the process ends, and systemd starts it
            bridge.run()

    def test_nothing_is_answered_while_the_replies_differ(self):
        self.member()
        bridge = self.bridge()
        self.assertEqual(self.answer(bridge, b"x"), b"200 x\n")
        bridge.differs = True
        self.assertEqual((self.answer(bridge, b"x"), bridge.read(b"/snapshot"), self.store.revision), (b"", b"", 2))
        self.entries(1)
        self.until(lambda: bridge.reached.count == 2)      # it is fed all the same, so that its digests are told
        bridge.differs = False
        self.assertEqual((self.answer(bridge, b"y"), bridge.read(b"/snapshot")), (b"200 y\n", b"200 GET /snapshot\n"))


class Mending(Bridging):
    """A folder that needs entries which the log no longer has, and another one in its place."""

    def lacking(self):
        """A bridge over such a folder, and the folder of a machine that has all."""
        self.member()
        self.entries(9)
        good = self.bridge(self.folder / "good")
        self.until(lambda: good.reached.place == 10)
        self.end(good)
        self.store.compacted = 8
        bad = self.bridge(self.folder / "bad", feeds=False)
        bad.pause = 0.1
        (self.folder / "bad/desk.db").write_text("older")
        self.begin(bad)
        self.until(lambda: bad.lacks)
        return bad

    def copy(self, *names):
        for name in names:
            shutil.copy(self.folder / "good" / name, self.folder / "bad" / name)

    def test_it_says_so_and_answers_nothing(self):
        bridge = self.lacking()
        self.assertEqual((self.answer(bridge, b"x"), bridge.read(b"/snapshot"), self.store.revision), (b"", b"", 10))
        self.until(lambda: "place 0: copy the folder of another machine. Until that is done all requests and reads get 503" in self.said.getvalue())
        time.sleep(0.5)
        self.assertEqual((self.said.getvalue().count("copy the folder"), self.fed(self.folder / "bad")), (1, ["older"]))

    def test_it_goes_on_with_another_folder(self):
        bridge = self.lacking()
        self.copy("at", "desk.db")
        self.until(lambda: not bridge.lacks)
        self.assertEqual(self.answer(bridge, b"mine"), b"200 mine\n")
        self.assertEqual(len(self.fed(self.folder / "bad")), 10)

    def test_it_goes_on_with_another_folder_at_its_path(self):
        bridge = self.lacking()
        shutil.rmtree(self.folder / "bad")
        time.sleep(0.3)
        shutil.copytree(self.folder / "good", self.folder / "bad")
        self.until(lambda: not bridge.lacks)
        self.assertEqual(self.answer(bridge, b"mine"), b"200 mine\n")

    def test_it_goes_on_where_the_log_has_the_entries_after_all(self):
        """A member of etcd said otherwise."""
        bridge = self.lacking()
        time.sleep(0.3)
        self.assertTrue(bridge.lacks)
        self.store.compacted = 0
        self.until(lambda: not bridge.lacks)
        self.assertEqual(self.answer(bridge, b"mine"), b"200 mine\n")

    def test_the_place_alone_is_no_folder(self):
        bridge = self.lacking()
        self.copy("at")
        time.sleep(0.5)
        self.assertTrue(bridge.lacks)
        self.copy("desk.db")
        self.until(lambda: not bridge.lacks)

    def test_another_folder_that_lacks_entries_too(self):
        bridge = self.lacking()
        (self.folder / "bad/at").write_text("4 3 " + "a" * 64)
        self.copy("desk.db")
        self.until(lambda: "place 4: copy the folder" in self.said.getvalue())
        self.assertEqual((self.answer(bridge, b"x"), bridge.reached.place), (b"", 4))


class Folders(Bench):
    def test_a_part_of_a_folder_or_one_that_is_being_copied_is_none(self):
        for name, words in (("at", "1 1 " + "a" * 64), ("desk.db", "older")):
            (self.folder / name).write_text(words)
        folder = Folder(str(self.folder))
        first = before = folder.look()
        self.assertFalse(folder.is_replaced(first, before))
        for name, words in (("at", "3 2 " + "b" * 64), ("desk.db", "ne"), ("desk.db", "newer"), ("desk.db-wal", "newer")):
            (self.folder / name).write_text(words)
            self.assertFalse(folder.is_replaced(first, before), name)   # it has changed since
            before = folder.look()
            if name == "at":
                self.assertFalse(folder.is_replaced(first, before))     # and is a part
        self.assertEqual((folder.is_replaced(first, before), folder.state.reached), (True, Reached(3, 2, b"b" * 64)))

    def test_what_at_says(self):
        (self.folder / "at").write_bytes(b"%020d %020d %s\n" % (7, 6, b"a" * 64))   # as versions before 1.15 wrote it
        folder = Folder(str(self.folder))
        self.assertEqual(folder.state, State(Reached(7, 6, b"a" * 64), UNCHECKED, 0))
        for state in (State(Reached(8, 7, b"b" * 64), UNCHECKED, 9), State(Reached(8, 7, b"b" * 64), Checked(5, b"c" * 64), 9), State(NOTHING, UNCHECKED, 3)):
            folder.write(state)
            self.assertEqual(Folder(str(self.folder)).state, state)
            self.assertEqual((self.folder / "at").read_bytes()[:200].split(), (b"%020d %020d %s" % state.reached).split())   # and read it


if __name__ == "__main__":
    unittest.main()
