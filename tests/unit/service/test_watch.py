"""Of the watch over a desk: what systemd is told, and when; what the journal is told of files, clock and silence, how often; and that the process beside a desk ends with it alone."""
import contextlib
import os
import socket
import subprocess
import threading
import time
import unittest
from unittest import mock

import service_ground as ground
from acd_service import command, held, pair, watch

NOON = 1_800_000_000


class Watched(ground.Case):
    """The moment is what the test says, and lines are collected."""

    def setUp(self):
        super().setUp()
        self.now, self.lines = float(NOON), []
        self.enterContext(mock.patch.object(watch.time, "time", lambda: self.now))
        self.enterContext(mock.patch.object(command, "report", lambda text: self.lines.append(str(text))))


class Lines(Watched):
    def test_once_an_hour(self):
        journal = watch.Journal()
        for moment, count in ((0, 1), (1, 1), (3599, 1), (3600, 2), (3601, 2), (7199, 2), (7200, 3)):
            self.now = float(NOON + moment)
            journal.report("a line")
            self.assertEqual(self.lines.count("a line"), count, moment)
        journal.report("another")
        self.assertEqual(self.lines.count("another"), 1)
        # a line from a time when the clock was ahead keeps none back
        self.now -= 7200
        journal.report("a line")
        self.assertEqual(self.lines.count("a line"), 4)
        self.assertEqual(set(journal.reported_at), {"a line"})

    def test_a_clock_that_is_behind(self):
        watch.look_at_clock(watch.Journal(), NOON + 60)
        self.assertEqual(self.lines, [])
        watch.look_at_clock(watch.Journal(), NOON + 61)
        self.assertEqual(self.lines, ["the desk's time is over a minute ahead of this machine's clock: until 2027-01-15 08:01:01 UTC no ring and no after-call work ends by a tick"])

    def test_silence(self):
        """It has lasted for as long as the first question waited; a clock that was put back begins anew, and so does an answer."""
        for moments, told in (((0, 49), 0), ((0, 50), 1), ((0, 30, -3600), 0), ((0, 30, None, 60), 0)):
            self.lines.clear()
            silence = watch.Silence(watch.Journal(), "port 8080", 10)
            for moment in moments:
                if moment is None:
                    silence.ends()
                else:
                    self.now = float(NOON + moment)
                    silence.lasts()
            with self.subTest(moments):
                self.assertEqual(self.lines, ["the desk at port 8080 has answered nothing for a minute, and is there: it is halted (acdctl copy --continue), or its disk hangs; until it "
                                              "answers no ring and no after-call work ends by a tick"] * told)

    def test_each_minute(self):
        minutes = watch.Minutes()
        for moment, is_over in ((0, True), (59, False), (60, True), (-100, True), (-41, False)):
            self.now = float(NOON + moment)
            self.assertEqual(minutes.is_over(), is_over, moment)

    def test_files_that_were_moved(self):
        with mock.patch.object(held, "moved", lambda process, file: f"{file} of {process}" if process == 4 else None):
            watch.look_at_files([3, 4], self.file)
        self.assertEqual(self.lines, [f"{self.file} of 4"])
        with mock.patch.object(held, "moved", side_effect=OSError):
            watch.look_at_files([3], self.file)

    def test_the_moment_of_a_snapshot(self):
        for text, moment in ((b'{"moment":5}', 5), (b'{"moment":4294967295}', 4294967295), (b'{"moment":4294967296}', 0), (b'{"moment":true}', 0), (b'{"moment":"5"}', 0), (b"[5]", 0), (b"5", 0),
                             (b'{"error":{}}', 0), (b"", 0), (b"[" * 100000, 0)):
            with self.subTest(text[:30]):
                self.assertEqual(watch.moment_of(text), moment)

    def test_how_many_requests_a_page_tells_of(self):
        """Their numbers follow one another; the first ones may be in an archive alone."""
        for page, count in (({"last": 0, "requests": []}, 0), ({"last": 7, "requests": [{"stamp": 1}, {"stamp": 2}]}, 7), ({"last": 650_000, "requests": [{"stamp": 50_001}]}, 600_000)):
            self.assertEqual(watch.kept_by(page), count)


class Besides(Watched):
    """Over a process that is played, in the desk's place, and an address that a test gives."""

    def setUp(self):
        super().setUp()
        self.desk = self.enterContext(subprocess.Popen(["sleep", "600"]))
        self.addCleanup(self.desk.kill)
        self.pid = os.pidfd_open(self.desk.pid)
        self.addCleanup(os.close, self.pid)
        self.told = self.enterContext(socket.socket(socket.AF_UNIX, socket.SOCK_DGRAM))
        self.told.bind(str(self.folder / "notify"))
        os.environ["NOTIFY_SOCKET"] = str(self.folder / "notify")
        self.enterContext(mock.patch.object(held, "moved", lambda process, file: f"{file} was moved" if self.is_moved else None))
        self.is_moved = False

    def beside(self, address):
        return watch.Beside(self.desk.pid, self.pid, address, self.file)

    def heard(self):
        """What systemd has been told since."""
        found = []
        with contextlib.suppress(BlockingIOError):
            while True:
                found.append(self.told.recv(100, socket.MSG_DONTWAIT).decode())
        return found

    def test_an_answer(self):
        """Whatever its status is; what may be wrong is looked for once a minute."""
        ahead = {"moment": NOON + 3600}
        address, got = self.answers({"/snapshot": (200, ahead), "/": (404, {"error": {"code": 35, "name": "notFound"}})})
        one, self.is_moved = self.beside(address), True
        for moment, path, count in ((0, "/snapshot", 1), (10, "/", 1), (59, "/", 1), (60, "/snapshot", 2)):
            self.now = float(NOON + moment)
            got.clear()
            one.turn()
            self.assertEqual(([path for _, path, _ in got], self.heard()), ([path], ["WATCHDOG=1"]))
            self.assertEqual([line.partition(":")[0] for line in self.lines].count(f"{self.file} was moved"), count)
        self.assertEqual(len(self.lines), 3)
        self.assertIn("the desk's time is over a minute ahead of this machine's clock: until 2027-01-15 09:00:00 UTC", self.lines[0])

    def test_a_store_that_fails_is_an_answer(self):
        address, _ = self.answers({"/snapshot": (503, {"error": {"code": 21, "name": "storeFault"}})})
        self.beside(address).turn()
        self.assertEqual((self.heard(), self.lines), (["WATCHDOG=1"], []))

    def test_nobody_listens(self):
        """That is no answer, and no silence; files are looked at all the same."""
        self.is_moved = True
        for address in (f"http://127.0.0.1:{ground.free_port()}", f"unix:{self.folder}/none"):
            self.lines.clear()
            self.beside(address).turn()
            self.assertEqual((self.heard(), self.lines), ([], [f"{self.file} was moved"]))

    def test_a_desk_that_hangs(self):
        """At a socket, which is named as it is."""
        with socket.socket(socket.AF_UNIX) as listener, mock.patch.object(watch, "MINUTE", 0.2):
            listener.bind(str(self.folder / "socket"))
            listener.listen()
            self.beside(f"unix:{self.folder}/socket").turn()
        self.assertEqual((self.heard(), len(self.lines)), ([], 1))
        self.assertTrue(self.lines[0].startswith(f"the desk at unix:{self.folder}/socket has answered nothing for a minute, and is there: "))

    def test_it_begins_once_the_desk_answers(self):
        path = self.folder / "socket"

        def answers():
            time.sleep(0.3)
            with socket.socket(socket.AF_UNIX) as listener:
                listener.bind(str(path))
                listener.listen()
                connection, _ = listener.accept()
                connection.recv(1000)
                self.assertEqual(self.heard(), [])
                connection.sendall(b"HTTP/1.1 404 Not Found\r\n\r\n")
                connection.close()

        desk = threading.Thread(target=answers)
        desk.start()
        self.assertTrue(self.beside(f"unix:{path}").begin())
        desk.join()
        self.assertEqual(self.heard(), ["READY=1"])

    def test_how_long_the_start_took_is_noted(self):
        """Once systemd knows; a desk that doesn't show its requests leaves the note as it was."""
        self.file.write_bytes(b"a desk's file")
        pair.remember(self.file)
        page = {"last": 120_000, "requests": [{"stamp": 20_001}, {"stamp": 20_002}]}
        for status, answer, noted in ((404, {"error": {"code": 35, "name": "notFound"}}, None), (200, "no JSON", None), (200, [], None), (200, page, 100_000), (200, {"last": 1}, 100_000)):
            address, got = self.answers({"/": (404, ""), "/requests?after=0": (status, answer)})
            self.assertTrue(self.beside(address).begin())
            found = pair.last_opening(self.file)
            self.assertEqual((self.heard(), [path for _, path, _ in got], found and found.kept), (["READY=1"], ["/", "/requests?after=0"], noted))
        self.assertTrue(0.1 <= found.seconds < 60, found)
        with mock.patch.object(pair, "remember_opening", side_effect=OSError):
            self.assertTrue(self.beside(address).begin())
        self.assertEqual((self.heard(), self.lines), (["READY=1"], []))

    def test_a_slow_start_is_told(self):
        for seconds, lines in ((5.0, []), (5.1, ["the desk took 5 s to open its file: the more requests it has, the longer it takes (PRUNING.md)"])):
            watch.report_opening(seconds)
            self.assertEqual(self.lines, lines)

    def test_it_ends_with_the_desk(self):
        """Whether that has begun to answer or not."""
        one = self.beside(f"unix:{self.folder}/none")
        threading.Timer(0.3, self.desk.kill).start()
        self.assertFalse(one.begin())
        one.stay(10)
        self.assertEqual((self.heard(), self.lines), ([], []))

    def test_how_often_it_asks(self):
        """Each step, and each minute at least."""
        one, waited = self.beside("unix:/none"), []
        for step, wanted in ((10, 10), (60, 60), (3600, 60)):
            with mock.patch.object(one, "ends_within", lambda seconds: waited.append(seconds) or True):
                one.stay(step)
            self.assertEqual(waited.pop(), wanted)

    def test_it_stays_whatever_happens(self):
        one, ends = self.beside("unix:/none"), iter((False, False, True))
        with mock.patch.multiple(one, ends_within=lambda _: next(ends), turn=mock.Mock(side_effect=ValueError("why"))):
            one.stay(10)
        self.assertEqual(self.lines, ["the desk's watch: ValueError('why')"])
        self.assertRaises(StopIteration, next, ends)


class OfADesk(ground.Case):
    """The process beside a desk that is played by a shell, as `acdctl ready` makes it."""

    def ready(self, *more):
        """The process that becomes the desk, and what hears for systemd."""
        told = self.enterContext(socket.socket(socket.AF_UNIX, socket.SOCK_DGRAM))
        told.bind(str(self.folder / "notify"))
        told.settimeout(60)
        port = ground.free_port()
        self.desk()
        # told apart by its port, since a desk of now might know no --tick
        self.program("acd", f'[ "$1" = serve ] || exec {ground.ACD} "$@"\nexec {ground.ACD} serve --file {self.file} --port {port} --endless')
        words = ["/usr/bin/python3", ground.SERVICE / "bin/acdctl", "ready", "--serve", "--file", self.file, "--port", str(port), *more]
        desk = subprocess.Popen(words, env={**os.environ, "NOTIFY_SOCKET": str(self.folder / "notify")}, stdout=subprocess.DEVNULL)
        self.addCleanup(desk.wait)
        self.addCleanup(desk.kill)
        return desk, port, told

    def beside(self, port):
        """The processes that watch a desk at this port."""
        return [process for process in held.processes() if not held.is_desk(process) and str(port) in held.words(process) and "ready" in held.words(process)]

    def test_a_desk_that_ticks(self):
        """It stays, and tells of each answer, until the desk ends."""
        desk, port, told = self.ready("--tick", "1")
        self.assertEqual([told.recv(100) for _ in range(3)], [b"READY=1", b"WATCHDOG=1", b"WATCHDOG=1"])
        self.assertEqual(len(self.beside(port)), 1)
        desk.kill()
        ground.until(lambda: not self.beside(port))

    def test_a_desk_that_does_not(self):
        """It ends as the desk begins."""
        _, port, told = self.ready()
        self.assertEqual(told.recv(100), b"READY=1")
        ground.until(lambda: not self.beside(port))

    def test_without_systemd(self):
        with mock.patch.object(os, "fork") as forked:
            watch.beside("unix:/none", self.file, 10)
        forked.assert_not_called()


if __name__ == "__main__":
    unittest.main()
