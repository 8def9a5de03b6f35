"""Of ticks: when one is sent, what is told of a desk that answers otherwise, or not at all, and with which status the command ends."""
import json
import os
import signal
import socket
import subprocess
import sys
import threading
import unittest
from unittest import mock

import service_ground as ground
from acd_service import command, held, tick
from service_ground import said

CLOCK = "clock-abcdefghijkl"


def snapshot(moment=100, offered=None, ring=20, wrap=30, since=None):
    """Of a desk with an offer that rings since a moment, or an agent in after-call work since one."""
    connections = [{"device": "201", "state": "alerting", "group": "100", "offered": offered}] if offered is not None else []
    agents = [{"agent": "7", "state": "workingAfterCall", "group": "100", "since": since}] if since is not None else []
    return 200, {"moment": moment, "groups": [{"device": "100", "ring": ring, "wrap": wrap}], "stations": [], "agents": agents, "calls": [{"connections": connections}]}


class Ticks(ground.Case):
    def setUp(self):
        super().setUp()
        self.now = 1_800_000_000.0
        self.lines = []
        # the moments of its journal and of its looks; a connection has its own clock
        self.enterContext(mock.patch.object(tick.time, "time", lambda: self.now))
        self.enterContext(mock.patch.object(command, "report", lambda text: self.lines.append(str(text))))
        self.enterContext(ground.as_before())
        signal.signal(signal.SIGALRM, tick.too_late)

    def ticker(self, answers, step=10):
        address, self.got = self.answers(answers)
        return tick.Ticker(int(address.rpartition(":")[2]), step, CLOCK, str(self.file))

    def sent(self):
        return [json.loads(body) for method, path, body in self.got if (method, path) == ("POST", "/csta")]

    def turn(self, answers, invoke=7):
        one = self.ticker({"/csta": (200, {}), **answers})
        one.turn(invoke)
        return one


class Due(Ticks):
    def test_what_a_tick_ends(self):
        """An offer that has rung for its ring, after-call work that has lasted for its wrap; 0 has no end."""
        now = int(self.now)
        for found, is_sent in ((snapshot(), False), (snapshot(offered=now - 20), True), (snapshot(offered=now - 19), False), (snapshot(offered=now - 999, ring=0), False),
                               (snapshot(since=now - 30), True), (snapshot(since=now - 29), False), (snapshot(since=0, wrap=0), False)):
            with self.subTest(found):
                self.turn({"/snapshot": found})
                self.assertEqual(self.sent(), [{"requester": CLOCK, "invoke": 7, "service": "tick"}] * is_sent)
        self.assertEqual(self.lines, [])

    def test_an_older_desk_is_sent_each(self):
        """One that has no snapshot refuses it."""
        for status in (404, 410, 503):
            self.turn({"/snapshot": (status, {"error": {"code": 1, "name": "notFound"}})})
            self.assertEqual(len(self.sent()), 1)
        self.assertEqual(self.lines, [])

    def test_who_is_no_desk(self):
        for answer in ((404, "<html>"), (200, "x"), (200, []), (200, {}), (200, {"moment": "1"}), (200, {"moment": True, "groups": [], "calls": [], "agents": []}),
                       (200, {"moment": 4294967296, "groups": [], "calls": [], "agents": []}), (404, {"error": {"code": "1", "name": "x"}}), (404, {"error": {"code": 1}}), (404, []),
                       (200, "[" * 100000)):
            with self.subTest(str(answer)[:80]):
                self.lines.clear()
                one = self.turn({"/snapshot": answer})
                self.assertEqual((self.sent(), self.lines), ([], [f"who listens at port {one.desk.port} is no desk, and is sent nothing"]))

    def test_what_it_answers_to_a_tick(self):
        for answer, told in (((200, {}), None), ((409, {"error": {"code": 1, "name": "wrongState"}}), "409 wrongState"), ((507, "x"), "507"), ((400, {"error": {"code": 1, "name": "a b"}}), "400")):
            self.lines.clear()
            self.turn({"/snapshot": (404, {"error": {"code": 1, "name": "notFound"}}), "/csta": answer})
            self.assertEqual(self.lines, [f"the desk answered a tick with {told}"] * (told is not None))

    def test_a_clock_that_is_behind(self):
        """The desk's time is told where it is over a minute ahead; the tick ends what is due by the desk's."""
        ahead = int(self.now) + 61
        self.turn({"/snapshot": snapshot(ahead, offered=ahead - 20)})
        self.assertEqual(len(self.sent()), 1)
        self.assertEqual(self.lines, ["the desk's time is over a minute ahead of this machine's clock: until 2027-01-15 08:01:01 UTC no ring and no after-call work ends by a tick"])
        self.lines.clear()
        self.turn({"/snapshot": snapshot(ahead - 1)})
        self.assertEqual(self.lines, [])

    def test_nobody_listens(self):
        one = tick.Ticker(ground.free_port(), 10, CLOCK, str(self.file))
        one.silence.since = 5
        one.turn(7)
        self.assertEqual((self.lines, one.silence.since), ([], None))


class Silence(Ticks):
    def test_a_desk_that_takes_connections_and_answers_none(self):
        with socket.create_server(("127.0.0.1", 0)) as halted:
            one = tick.Ticker(halted.getsockname()[1], 0.1, CLOCK, str(self.file))
            begin = self.now
            one.turn(1)
            self.assertEqual(self.lines, [])
            self.now = begin + 59
            one.turn(2)
            self.assertEqual(self.lines, [])
            self.now = begin + 60
            one.turn(3)
            self.assertEqual(len(self.lines), 1)
            self.assertTrue(self.lines[0].startswith(f"the desk at port {one.desk.port} has answered nothing for a minute, and is there"))
            # a clock that was put back begins anew
            self.now = begin - 3600
            one.turn(4)
            self.assertEqual(len(self.lines), 1)

    def test_half_an_answer(self):
        """Of a desk that ends meanwhile: it isn't there just now, and nobody is told that it is no desk."""
        with socket.create_server(("127.0.0.1", 0)) as plain:
            one = tick.Ticker(plain.getsockname()[1], 10, CLOCK, str(self.file))
            plain.settimeout(10)

            def begin():
                connection, _ = plain.accept()
                connection.recv(1000)
                connection.sendall(b"HTTP/1.1 200 OK\r\nContent-Length: 10\r\n\r\nx")
                connection.close()

            threading.Thread(target=begin, daemon=True).start()
            one.turn(7)
        self.assertEqual((self.lines, one.silence.since), ([], None))
        self.assertEqual(signal.getitimer(signal.ITIMER_REAL), (0, 0))


class Waits(Ticks):
    def test_files_each_minute(self):
        one, looks = tick.Ticker(1, 10, CLOCK, str(self.file)), []
        with mock.patch.multiple(held, desks=lambda file: looks.append(file) or [3, 4], moved=lambda process, _: f"of {process}" if process == 4 else None):
            for moment, count in ((0, 1), (59, 1), (60, 2), (-100, 3)):
                self.now = 1_800_000_000.0 + moment
                one.look_at_files()
                self.assertEqual((len(looks), self.lines), (count, ["of 4"] * count))
        with mock.patch.object(held, "desks", side_effect=OSError):
            self.now += 1000
            one.look_at_files()

    def test_until_the_next_step(self):
        one, slept = tick.Ticker(1, 150, CLOCK, str(self.file)), []
        self.now = 1_800_000_000.0 + 20
        with mock.patch.object(tick.time, "sleep", slept.append), mock.patch.object(held, "desks", lambda _: []):
            one.wait()
        self.assertEqual(slept, [60, 60, 10])


class Steps(Ticks):
    def test_the_number_of_a_step(self):
        """It counts the steps since 1970."""
        one, invokes = tick.Ticker(1, 10, CLOCK, str(self.file)), []

        def turn(invoke):
            invokes.append(invoke)
            if len(invokes) == 2:
                raise KeyboardInterrupt

        with mock.patch.multiple(one, turn=turn, wait=lambda: setattr(self, "now", self.now + 10)), self.assertRaises(KeyboardInterrupt):
            one.run()
        self.assertEqual(invokes, [180_000_000, 180_000_001])

    def test_a_step_that_is_too_short(self):
        with self.assertRaisesRegex(tick.Fault, "the step 1 is too short by now: its number since 1970 has more than nine digits"):
            tick.Ticker(1, 1, CLOCK, str(self.file)).run()


class OfADesk(ground.Case):
    def test_by_the_command(self):
        """A ring that is over is ended within a step, and nobody reads the requester in its words."""
        self.desk('0 {"requester":"p","invoke":1,"service":"addGroup","device":"100","name":"B","ring":1,"wrap":30}\n' + ground.PLAN.partition("\n")[2]
                  + '0 {"requester":"p","invoke":4,"service":"setAgentState","agent":"7","requested":"loggedOn","device":"201","group":"100"}\n'
                  '0 {"requester":"p","invoke":5,"service":"setAgentState","agent":"7","requested":"ready"}\n' + ground.arrives(1))
        _, address = self.serves()
        port = address.rpartition(":")[2]
        with subprocess.Popen([sys.executable, ground.SERVICE / "bin/acdctl", "tick", "--port", port, "--step", "2", "--file", self.file], stdout=subprocess.PIPE, stderr=subprocess.STDOUT) as clock:
            ground.until(lambda: ground.rows(self.file, "SELECT requester FROM kept WHERE request LIKE '%tick%'"))
            clock.terminate()
            self.assertEqual((clock.wait(), clock.stdout.read()), (-signal.SIGTERM, b""))
        requester, = {one for one, in ground.rows(self.file, "SELECT requester FROM kept WHERE request LIKE '%tick%'")}
        self.assertRegex(requester, "^clock-[a-z]{12}$")


class Words(ground.Case):
    def test_command_lines(self):
        for words in (("--port", "0"), ("--port", "65536"), ("--port", "x"), ("--step", "1"), ("--step", "3601"), ("--step", "010"), ("x",), ("--none",)):
            self.refused(("tick", *words), 2, "")
        self.assertEqual(said("tick", "--help").status, 0)
        for word in ("--port", "--step", "--file"):
            self.assertIn(word, said("tick", "--help").out)

    def test_the_requester(self):
        with mock.patch.dict(os.environ, ACD_CLOCK=CLOCK):
            self.assertEqual(tick.read([]).requester, CLOCK)
        for wrong in ("clock", "clock-abc", "clock-abcdefghijklm", "clock-ABCDEFGHIJKL"):
            with mock.patch.dict(os.environ, ACD_CLOCK=wrong):
                self.refused(("tick",), 2, "ACD_CLOCK, which /etc/acd/clock.env gives, isn't 'clock-' and 12 letters of a-z")
        drawn = {tick.drawn() for _ in range(20)}
        self.assertEqual(len(drawn), 20)
        for one in drawn:
            self.assertRegex(one, "^clock-[a-z]{12}$")

    def test_a_fault_while_it_runs(self):
        with mock.patch.object(tick.Ticker, "run", side_effect=tick.Fault("why")):
            self.assertEqual(said("tick", "--step", "2"), (2, "", "acdctl tick: why\n"))


if __name__ == "__main__":
    unittest.main()
