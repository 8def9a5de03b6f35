"""Of a follower: a copy that has what the desk has, by stock SQLite; why it ends and with which status; and how it goes on where one of the two gave no answer."""
import contextlib
import io
import json
import re
import shutil
import signal
import subprocess
import sys
import threading
import unittest
from pathlib import Path
from unittest import mock

import service_ground as ground
from acd_client import Unanswered
from acd_service import follow, reach
from service_ground import rows, said

ALL = "SELECT stamp, moment, requester, invoke, status, request, body FROM kept ORDER BY stamp"


def page(*requests, last=None):
    """A page as a desk spells it: of granted ticks, by stamps and moments."""
    found = [f'{{"moment":{moment},"reply":{{"invoke":{stamp},"requester":"x","result":{{}}}},"request":{{"invoke":{stamp},"requester":"x","service":"tick"}},"stamp":{stamp},"status":200}}'
             for stamp, moment in requests]
    return 200, f'{{"last":{last if last is not None else requests[-1][0] if requests else 0},"requests":[{",".join(found)}]}}'


class Follows(ground.Case):
    def setUp(self):
        super().setUp()
        self.copy = self.folder / "copy" / "desk.db"
        self.copy.parent.mkdir()
        self.enterContext(mock.patch.multiple(follow, PAUSE=0.02, SOON=0.3, ending=[]))

    def follow(self, address, *more):
        return said("follow", address, "--file", self.copy, "--once", *more)

    def caught_up(self, address, last):
        done = self.follow(address)
        self.assertEqual((done.status, done.faults, done.out.splitlines()[0]), (0, "", f"caught up at {last}"), done)
        self.assertRegex(done.out.splitlines()[1], rf"\A{self.copy} has the requests up to {last}; the last that the desk told of is {last}, at \d{{4}}-\d\d-\d\d \d\d:\d\d:\d\d UTC\Z")
        return done

    def ends(self, done, status, *patterns):
        lines = done.faults.splitlines()
        self.assertEqual((done.status, len(lines)), (status, len(patterns)), done)
        for line, pattern in zip(lines, patterns):
            self.assertRegex(line, rf"\Aacdctl follow: {pattern}")


class Copies(Follows):
    def test_what_the_desk_has(self):
        self.desk(ground.PLAN + ground.arrives(1) + "20 {\"requester\":\"x\",\"invoke\":1,\"service\":\"holdCall\",\"call\":9,\"device\":\"201\"}\n")
        _, address = self.serves()
        self.caught_up(address, 5)
        self.assertEqual(rows(self.copy, ALL), rows(self.file, ALL))
        self.assertEqual(self.copy.stat().st_mode & 0o777, 0o600)
        # and what comes later; a requester and a name may have any character that a desk takes
        desk = reach.desk_at(reach.argparse.Namespace(address=address, ca=None, login=None))
        for invoke, name in enumerate(('a"b\\c/', "x" * 40, "{[,:]}"), 1):
            desk.send({"requester": "y", "invoke": invoke, "service": "changeAgent", "agent": "7", "name": name})
        done = self.caught_up(address, 8)
        self.assertEqual(rows(self.copy, ALL), rows(self.file, ALL))
        self.assertEqual((self.copy.parent / "desk.db.followed").read_text(), f"{done.out.splitlines()[1]}\n")
        self.assertEqual(said("follow", "--last", "--file", self.copy), (0, f"{done.out.splitlines()[1]}\n", ""))

    def test_a_desk_without_requests(self):
        lines = ground.lines(self.file, "")
        self.assertEqual(lines, "")
        _, address = self.serves()
        self.caught_up(address, 0)
        self.assertEqual(rows(self.copy, "SELECT count(*) FROM kept"), [(0,)])

    def test_until_a_signal(self):
        self.desk()
        _, address = self.serves()
        with subprocess.Popen([sys.executable, ground.SERVICE / "bin/acdctl", "follow", address, "--file", self.copy], stdout=subprocess.PIPE, stderr=subprocess.PIPE, text=True) as one:
            self.assertEqual(one.stdout.readline(), "caught up at 3\n")
            one.terminate()
            self.assertEqual((one.wait(), one.stdout.read().startswith(f"{self.copy} has the requests up to 3; "), one.stderr.read()), (0, True, ""))

    def test_page_after_page(self):
        address, got = self.answers({"/requests?after=0": [page((1, 1), (2, 2), last=5), page((1, 1), (2, 2), last=5)], "/requests?after=1": page((2, 2), (3, 3), last=5),
                                     "/requests?after=2": page((3, 3), (4, 4), (5, 5))})
        self.caught_up(address, 5)
        self.assertEqual([path.rpartition("=")[2] for _, path, _ in got], ["0", "1", "2"])

    def test_what_was_said_last(self):
        self.assertEqual(said("follow", "--last", "--file", self.copy), (1, "", f"acdctl follow: {self.copy}.followed: No such file or directory: acdctl follow hasn't caught up yet there\n"))

    def test_what_a_killed_one_left(self):
        self.desk()
        _, address = self.serves()
        left = self.copy.with_name(".desk.db.acd-follow")
        left.write_bytes(b"half a file")
        self.caught_up(address, 3)
        self.assertFalse(left.exists())


class Differences(Follows):
    def setUp(self):
        super().setUp()
        self.desk(ground.PLAN + ground.arrives(1))
        shutil.copy(self.file, self.copy)

    def test_another_request(self):
        ground.lines(self.copy, ground.arrives(2))
        ground.lines(self.file, ground.arrives(3))
        _, address = self.serves()
        before = rows(self.copy, ALL)
        done = self.follow(address)
        self.ends(done, 3, f"{self.copy} has another request 5 than the desk: it isn't its copy, and nothing was fed", r"the desk: request number 5, at 10: request \{.*\"invoke\":3",
                  rf"{self.copy}: request number 5, at 10: request \{{.*\"invoke\":2")
        self.assertEqual(rows(self.copy, ALL), before)

    def test_of_ticks_nobody_learns_the_requester(self):
        ground.lines(self.copy, ground.tick(1, 20))
        ground.lines(self.file, ground.tick(2, 20))
        _, address = self.serves()
        done = self.follow(address)
        self.assertEqual((done.status, "abcdefghijkl" in done.faults, done.faults.count('"clock-.."')), (3, False, 4))

    def test_fewer_requests(self):
        ground.lines(self.copy, ground.arrives(2))
        _, address = self.serves()
        self.ends(self.follow(address), 3, rf"the desk has the requests up to 4, and {self.copy} those up to 5: .*Nothing was fed")

    def test_another_answer(self):
        """A desk of other rules, say: the copy's desk answers a request otherwise."""
        body = page((5, 20))[1].replace('"result":{}', '"result":{"call":1}')
        address, _ = self.answers({"/requests?after=3": (200, body)})
        ground.changed(self.copy, "DELETE FROM kept WHERE stamp < 0")
        with mock.patch.object(follow.Follower, "compare"):
            done = self.follow(address)
        self.ends(done, 3, f"{self.copy} answers a request otherwise than the desk did, and isn't its copy", "the desk: request number 5", f"{self.copy}: request number 5")

    def test_what_the_desk_tells_twice(self):
        """A request whose key the copy has already acts no second time."""
        first = json.loads(ground.lines(self.file, "0 GET /requests?after=3\n", "--reads").partition(" ")[2])["requests"][0]
        text = rows(self.file, "SELECT request, body FROM kept WHERE stamp = 4")[0]
        body = '{"last":5,"requests":[' + ",".join(f'{{"moment":{moment},"reply":{text[1]},"request":{text[0]},"stamp":{stamp},"status":200}}' for stamp, moment in ((4, 10), (5, 20))) + "]}"
        self.assertEqual(first["stamp"], 4)
        address, _ = self.answers({"/requests?after=3": (200, body)})
        self.ends(self.follow(address), 3, f"{self.copy} has the requests up to 4, where it was fed up to 5: the desk told one of them twice")

    def test_moments_that_go_back(self):
        body = ground.lines(self.file, "0 GET /requests?after=3\n", "--reads").partition(" ")[2].strip()
        more = page((5, 9))[1].partition('"requests":[')[2]
        address, _ = self.answers({"/requests?after=3": (200, body.replace('"last":4', '"last":5').removesuffix("]}") + "," + more)})
        self.ends(self.follow(address), 3, "the desk tells a request whose moment is before that of the one before it", "the desk: request number 5", f"{self.copy}: request number 4")


class Lacks(Follows):
    """A desk that has cut its file off."""

    def setUp(self):
        super().setUp()
        self.desk(ground.PLAN + ground.arrives(1) + ground.tick(1, 300000))

    def test_what_the_archive_alone_has(self):
        shutil.copy(self.file, self.copy)
        self.carried(ground.arrives(2, "0305678", 300100), 5)
        _, address = self.serves()
        done = self.follow(address)
        self.assertEqual((done.status, done.out.splitlines()[:2]), (0, [f"the desk's archive alone has request 5, the last of {self.copy}: it isn't compared", "caught up at 6"]), done)

    def test_a_copy_that_is_too_old(self):
        ground.lines(self.copy, ground.PLAN)
        self.carried(ground.arrives(2, "0305678", 300100), 5)
        _, address = self.serves()
        self.ends(self.follow(address), 4, rf"request 3 is needed of the desk, and the first that it has is 6: {self.copy} has to be made of the desk's archive\. Nothing was fed")
        self.assertEqual(rows(self.copy, "SELECT count(*) FROM kept"), [(3,)])

    def test_none_from_there_on(self):
        address, _ = self.answers({"/requests?after=0": page(last=7)})
        self.ends(self.follow(address), 4, "request 1 is needed of the desk, and it has none from there on")

    def test_one_that_is_left_out(self):
        address, _ = self.answers({"/requests?after=0": page((1, 1), (3, 3))})
        self.ends(self.follow(address), 4, "request 2 is needed of the desk, and isn't among those that it tells")


class Answers(Follows):
    """A desk that gives no answer, or one that says no more than that."""

    def test_nobody_listens(self):
        done = self.follow(f"http://127.0.0.1:{ground.free_port()}")
        self.assertEqual(done.status, 1)
        self.assertRegex(done.faults, r"\Aacdctl follow: no answer \(\[Errno 111\] Connection refused\), retrying\. ")
        self.assertIn("has the requests up to 0; the desk hasn't answered yet", done.out)

    def test_it_answers_again(self):
        address, _ = self.answers({"/requests?after=0": [(503, ""), (502, ""), (200, "x"), page((1, 1))]})
        with mock.patch.object(follow, "SOON", 60):
            done = self.follow(address)
        self.assertEqual((done.status, done.out.splitlines()[0]), (0, "caught up at 1"))
        lines = done.faults.splitlines()
        self.assertEqual((len(lines), lines[-1]), (2, "acdctl follow: the desk answers again"), lines)

    def test_one_that_tells_no_requests(self):
        for status, body, told in ((403, '{"error":{"code":41,"name":"forbidden"}}', "403 forbidden"), (404, "<html>", "404"), (401, "", "401")):
            address, _ = self.answers({"/requests?after=0": (status, body)})
            self.ends(self.follow(address), 1, f"the desk answered {told}: it tells no requests, or not to this login")

    def test_what_is_no_page(self):
        good = page((1, 1), (2, 2))[1]
        self.assertEqual([record.stamp for record in follow.page_of(good.encode()).records], [1, 2])
        for text in ("", "{}", "[]", "{", good[:-1], good.replace(":", ";", 1), good.replace('"stamp":1', '"stamp":01'), good.replace('"stamp":1', '"stamp":"1"'),
                     good.replace('"stamp":2', '"stamp":1'), good.replace('"last":2', '"last":1'), good.replace('"moment":1', '"moment":-1'), good.replace("},{", "};{"),
                     good.replace(',"status":200', ""), good.replace('{"last"', '{ "last"'),
                     '{"last":1,"requests":[}', '{"last":1,"requests":' + "[" * 100000):
            with self.subTest(text[:60]), self.assertRaises(Unanswered):
                follow.page_of(text.encode())

    def test_bytes_are_kept(self):
        """A name of another script, and how a number is spelt."""
        text = '{"last":1,"requests":[{"moment":1,"reply":{"x":1.0},"request":{"name":"\\u00e4Ä"},"stamp":1,"status":409}]}'
        record, = follow.page_of(text.encode()).records
        self.assertEqual((record.request.encode("latin-1").decode(), record.reply, record.status), ('{"name":"\\u00e4Ä"}', '{"x":1.0}', 409))


class Programs(Follows):
    """The copy's own desk."""

    def setUp(self):
        super().setUp()
        self.address, _ = self.answers({"/requests?after=0": page((1, 1))})

    def test_none(self):
        self.ends(self.follow(self.address, "--desk", self.folder / "none"), 1, f"{self.folder}/none: No such file or directory")

    def test_one_that_fails(self):
        self.program("acd", "echo '503 {\"error\":{}}'; exec cat > /dev/null")
        self.ends(self.follow(self.address), 1, rf"{self.copy} can't be opened: its desk answered 503 \{{\"error\":\{{\}}\}}, with status 0")
        self.program("acd", "read line; exit 3")
        self.ends(self.follow(self.address), 1, f"{self.copy} can't be opened: its desk ended, with status 3")

    def test_an_older_version(self):
        self.program("acd", "read line; echo '404 {}'; exec cat > /dev/null")
        self.ends(self.follow(self.address), 1, "acd tells no requests, so no copy can be kept by it: it is of an older version")

    def test_a_file_that_is_no_copy(self):
        self.program("acd", "read line; echo '200 {}'; exec cat > /dev/null")
        self.ends(self.follow(self.address), 1, f"{self.copy} isn't a copy of a desk: the reply is no page of requests")

    def test_one_that_ends_as_it_makes_the_file(self):
        self.program("acd", "read line; echo '200 {\"last\":0,\"requests\":[]}'; read line; exit 7")
        self.ends(self.follow(self.address), 1, f"{self.copy} can't be made: its desk ended with status 7")
        self.program("acd", "read line; echo '200 {\"last\":0,\"requests\":[]}'; read line; kill -9 $$")
        self.ends(self.follow(self.address), 1, rf"{self.copy} can't be opened: its desk was killed, with status 0")

    def test_a_file_that_is_open_elsewhere(self):
        """It waits for a while: a killed follower's desk may have it yet."""
        ground.lines(self.copy, "")
        self.serves(self.copy)
        self.ends(self.follow(self.address), 1, f"{self.copy} can't be opened: its desk .*, with status 4")

    def test_a_folder_that_is_none(self):
        self.copy.parent.rmdir()
        self.copy.parent.write_text("")
        self.ends(self.follow(self.address), 1, f"{self.copy} can't be made: Not a directory")

    def test_a_desk_that_is_killed_meanwhile(self):
        """It is started again, asked again, and both are told."""
        answer, count = follow.Copy.answer, []

        def answered(copy, line):
            count.append(line)
            if len(count) == 3:
                copy.desk.kill()
                copy.desk.wait()
            return answer(copy, line)

        with mock.patch.object(follow.Copy, "answer", answered):
            done = self.follow(self.address)
        self.assertEqual((done.status, done.out.splitlines()[0]), (0, "caught up at 1"))
        first, second = done.faults.splitlines()
        self.assertRegex(first, rf"\Aacdctl follow: {self.copy}: its desk .*; it is opened and asked again\Z")
        self.assertEqual(second, f"acdctl follow: {self.copy}: its desk answers again")
        self.assertEqual(rows(self.copy, "SELECT stamp, moment FROM kept"), [(1, 1)])

    def test_a_disk_without_room_for_the_note(self):
        with mock.patch.object(follow.put, "put", side_effect=OSError(28, "No space left on device")):
            self.assertEqual(self.follow(self.address).status, 0)


class Standbys(Follows):
    """A copy whose desk stands by: a script writes down with which words it was started, and which lines it got."""

    def setUp(self):
        super().setUp()
        self.address, _ = self.answers({"/requests?after=0": page()})
        self.noted = self.folder / "noted"
        self.stand_in("echo 'listening on 127.0.0.1:8080'; exec sleep 60")

    def stand_in(self, served):
        """What the script does once it is told to serve."""
        self.program("acd", f"""touch "$3"; echo "$*" >> {self.noted}
while read -r line; do
    echo "$line" >> {self.noted}
    case "$line" in
    serve) {served} ;;
    *) echo '200 {{"last":0,"requests":[]}}' ;;
    esac
done
test "$1" = lines""")

    def started(self):
        words = [sys.executable, ground.SERVICE / "bin/acdctl", "follow", self.address, "--file", self.copy, "--port", "8080", "--tick", "1"]
        one = self.enterContext(subprocess.Popen(words, stdout=subprocess.PIPE, stderr=subprocess.PIPE, text=True))
        self.addCleanup(one.kill)
        self.assertEqual(one.stdout.readline(), "caught up at 0\n")
        return one

    def lines(self):
        """What its last start had as words, and got as lines."""
        words, *lines = self.noted.read_text().partition("standby ")[2].splitlines()
        return words, lines

    def test_it_serves_once_it_is_told(self):
        one = self.started()
        one.send_signal(signal.SIGUSR1)
        self.assertEqual(one.stdout.readline(), f"{self.copy} serves from request 0 on: listening on 127.0.0.1:8080\n")
        words, lines = self.lines()
        self.assertEqual((words, lines[-1], lines.count("serve")), (f"--file {self.copy} --endless --port 8080 --tick 1", "serve", 1))
        # a second order is no line
        one.send_signal(signal.SIGUSR1)
        one.terminate()
        self.assertEqual((one.wait(), one.stderr.read(), self.lines()[1][-1]), (0, "", "serve"))

    def test_by_itself_it_never_serves(self):
        one = self.started()
        one.terminate()
        self.assertEqual((one.wait(), one.stderr.read(), "serve" in self.lines()[1]), (0, "", False))

    def test_a_desk_that_ends_instead(self):
        self.stand_in("exit 1")
        one = self.started()
        one.send_signal(signal.SIGUSR1)
        self.assertEqual((one.wait(), one.stderr.read()), (1, f"acdctl follow: {self.copy} doesn't serve: its desk ended with status 1\n"))

    def test_a_desk_that_ends_as_it_serves(self):
        self.stand_in("echo 'listening on 127.0.0.1:8080'; exit 1")
        one = self.started()
        one.send_signal(signal.SIGUSR1)
        self.assertEqual((one.wait(), one.stderr.read()), (1, f"acdctl follow: {self.copy} serves no more: its desk ended with status 1\n"))

    def test_either_a_port_or_a_socket(self):
        for words in (("--tick", "1"), ("--port", "8080", "--socket", "s")):
            done = self.follow(self.address, *words)
            self.assertEqual((done.status, done.out), (2, ""), done)
            self.assertIn("to stand by takes either --port or --socket", done.faults)


class Words(ground.Case):
    def test_command_lines(self):
        for words in ((), ("http://127.0.0.1",), ("--file", "G"), ("--last", "http://127.0.0.1"), ("desk.example", "--file", "G"), ("http://127.0.0.1", "--file", "G", "--ca", "C"),
                      ("http://desk.example", "--file", "G", "--login", "lea"), ("http://127.0.0.1", "--file", "G", "--onc")):
            with self.subTest(words):
                done = said("follow", *words)
                self.assertEqual((done.status, done.out), (2, ""), done)
        self.assertEqual(said("follow", "--help").status, 0)

    def test_a_certificate_that_is_not_there(self):
        done = said("follow", "https://127.0.0.1", "--file", self.folder / "G", "--ca", self.folder / "none")
        self.assertEqual(done, (1, "", f"acdctl follow: {self.folder}/none: No such file or directory\n"))

    def test_signals(self):
        """The first one ends it, and a second one doesn't disturb that."""
        with mock.patch.object(follow, "ending", []):
            with self.assertRaises(follow.Ended):
                follow.end()
            follow.end()
        with ground.as_before(), mock.patch.object(follow, "ending", []):
            signal.signal(signal.SIGTERM, follow.end)
            done = []
            with self.assertRaises(follow.Ended):
                with follow.undisturbed():
                    signal.pthread_kill(threading.get_ident(), signal.SIGTERM)
                    done.append("the rest")
            self.assertEqual(done, ["the rest"])

    def test_troubles(self):
        """One that may last is told once; in a brief one it gives up."""
        with mock.patch.object(follow.time, "sleep"), contextlib.redirect_stderr(io.StringIO()) as faults:
            lasting = follow.Trouble(False)
            with mock.patch.object(follow.time, "monotonic", side_effect=[0, *range(1, 100)]):
                for _ in range(5):
                    lasting.wait("why")
            lasting.is_over("again")
            lasting.is_over("again")
            brief = follow.Trouble(True)
            with mock.patch.object(follow.time, "monotonic", side_effect=[0, 5, 5.1]):
                brief.wait("brief")
                brief.wait("brief")
                with self.assertRaisesRegex(follow.Fault, "^brief$"):
                    brief.wait("brief")
        self.assertEqual([re.sub("^.*: ", "", line) for line in faults.getvalue().splitlines()], ["why", "again", "brief"])

    def test_the_note_is_written_so_often(self):
        """Not with each round, and at its end."""
        copy = mock.Mock(file=Path(self.folder / "G"), last=1, record=None)
        one = follow.Follower(mock.Mock(), copy, False)
        page_of_nothing = follow.Page(1, [follow.Record(1, 1, "{}", 200, "{}")])
        copy.record = page_of_nothing.records[0]
        with mock.patch.object(follow.Follower, "asked", lambda self: (page_of_nothing, 0.5)), mock.patch.object(follow.Follower, "note") as note, contextlib.redirect_stdout(io.StringIO()):
            one.noted = follow.time.monotonic() - 11
            self.assertEqual(one.round(), 0.1)
            one.noted = follow.time.monotonic()
            self.assertEqual(one.round(), 0.1)
        note.assert_called_once_with()


if __name__ == "__main__":
    unittest.main()
