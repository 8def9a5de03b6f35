"""Tests of acdctl status: what it says of a desk that serves, of one that doesn't, and of what it can't ask."""
import contextlib
import datetime
import hashlib
import http.server
import io
import json
import os
import socket
import subprocess
import sys
import tempfile
import threading
import time
import unittest
from pathlib import Path
from unittest import mock

TOP = Path(__file__).resolve().parents[3]
sys.path.append(str(TOP / "service"))
from acd_service import VERSION, command, pair, settings, status  # noqa: E402

ACD = os.environ.get("ACD", str(TOP / "release/acd"))
NOW = 1_800_000_000
PLAN = "kind,number,name,ring,wrap\ngroup,100,Billing,20,30\nstation,201,,,\nagent,7,Ana,,\nagent,8,Ben,,\n"
REQUESTS = ({"service": "setAgentState", "agent": "7", "requested": "loggedOn", "device": "201", "group": "100"},
            {"service": "arriveCall", "caller": "0301", "called": "100"}, {"service": "arriveCall", "caller": "0302", "called": "100"})
# each of the planned rows is a request too
EXECUTED = 4 + len(REQUESTS)


class Machine(unittest.TestCase):
    """A folder with a desk's file, programs of its own, and settings that name both; nothing of this machine is asked."""

    def setUp(self):
        stack = contextlib.ExitStack()
        self.addCleanup(stack.close)
        self.folder = Path(stack.enter_context(tempfile.TemporaryDirectory()))
        self.file, self.copies = self.folder / "desk.db", self.folder / "copies"
        (self.folder / "bin").mkdir()
        (self.folder / "bin/acd").symlink_to(ACD)
        self.program("systemctl", "exit 0")
        (self.folder / "acd.env").write_text(f"ACD_FILE={self.file}\nACD_PORT={free_port()}\nACD_TLS_PORT={free_port()}\n")
        stack.enter_context(mock.patch.object(settings, "FILE", self.folder / "acd.env"))
        stack.enter_context(mock.patch.dict(os.environ, {"PATH": f"{self.folder}/bin:/usr/bin:/bin"}))
        stack.enter_context(mock.patch.object(command, "name", "acdctl status"))

    def program(self, name, text):
        place = self.folder / "bin" / name
        place.write_text(f"#!/bin/sh\n{text}\n")
        place.chmod(0o755)

    def plan(self, *requests):
        """The file has a plan, and has executed these requests at moments one second apart; it was closed."""
        (self.folder / "plan.csv").write_text(PLAN)
        subprocess.run([ACD, "import", "--file", self.file, "--plan", self.folder / "plan.csv"], check=True, capture_output=True)
        lines = "".join(f'{NOW - 10 + place} {json.dumps({"requester": "x", "invoke": place, **request})}\n' for place, request in enumerate(requests, 1))
        done = subprocess.run([ACD, "lines", "--file", self.file], input=lines, capture_output=True, text=True, check=True)
        self.assertEqual([line[:4] for line in done.stdout.splitlines()], ["200 "] * len(requests))

    @contextlib.contextmanager
    def served(self):
        """A desk serves the file at the settings' port."""
        port = settings.current()["ACD_PORT"]
        desk = subprocess.Popen([ACD, "serve", "--file", self.file, "--port", port, "--endless"], stdout=subprocess.PIPE)
        try:
            desk.stdout.readline()
            yield
        finally:
            desk.kill()
            desk.wait()
            desk.stdout.close()

    def said(self, *words):
        with contextlib.redirect_stdout(io.StringIO()) as out, mock.patch.object(status.time, "time", return_value=NOW):
            with self.assertRaises(SystemExit) as end:
                status.main(list(words))
        self.assertEqual(end.exception.code, 0)
        return out.getvalue()

    def lines(self, *words):
        return dict(line.split("  ", 1) for line in (" ".join(line.split("  ")[:1]) + "  " + line.split("  ", 1)[1].strip() for line in self.said(*words).splitlines()))

    def found(self):
        return json.loads(self.said("--json"))


def free_port():
    with socket.socket() as one:
        one.bind(("127.0.0.1", 0))
        return one.getsockname()[1]


class Plain(http.server.BaseHTTPRequestHandler):
    """Of a desk that is played: a snapshot with an agent."""

    def do_GET(self):
        self.send_response(200)
        self.end_headers()
        self.wfile.write(b'{"agents":[{"agent":"7","state":"null"}],"calls":[],"moment":5,"last":1}')

    def log_message(self, *_):
        pass


class Served(Machine):
    def test_what_the_desk_tells(self):
        self.plan(*REQUESTS)
        with self.served():
            found, lines = self.found(), self.lines()
        self.assertEqual(found["lastRequest"], {"stamp": EXECUTED, "moment": NOW - 7, "age": 7})
        self.assertEqual(found["callsWaiting"], {"count": 2, "longest": 8})
        self.assertEqual(found["agents"], {"planned": 2, "loggedOn": 1, "states": {"notReady": 1}})
        self.assertEqual(lines["calls waiting"], "2, the longest for 8 seconds")
        self.assertEqual(lines["agents"], "1 of 2 logged on: 1 notReady")
        self.assertTrue(lines["last request"].startswith(f"number {EXECUTED}, 7 seconds ago ("))
        self.assertEqual(set(found["unknown"]), {"certificate"})

    def test_at_a_socket(self):
        """Where the settings name no port; the option comes before the settings."""
        (self.folder / "acd.env").write_text(f"ACD_FILE={self.file}\nACD_SOCKET={self.folder}/desk.sock\nACD_TLS_PORT={free_port()}\n")
        self.assertEqual(self.found()["unknown"]["callsWaiting"], f"{self.folder}/desk.sock: no answer: [Errno 2] No such file or directory")
        for words in ([], ["--port", str(free_port()), "--socket", f"{self.folder}/desk.sock"]):
            with http.server.HTTPServer(("127.0.0.1", 0), Plain) as desk, self.subTest(words):
                (self.folder / "desk.sock").unlink(missing_ok=True)
                with socket.socket(socket.AF_UNIX) as listener:
                    listener.bind(f"{self.folder}/desk.sock")
                    listener.listen()
                    desk.socket.close()
                    desk.socket = listener
                    threading.Thread(target=desk.serve_forever, args=(0.02,), daemon=True).start()
                    self.assertEqual(json.loads(self.said("--json", *words))["agents"]["planned"], 1)
                    desk.shutdown()

    def test_how_many_requests_are_kept(self):
        """Whether the desk serves or not, and also where the first ones are in an archive alone."""
        self.plan(*REQUESTS)
        with self.served():
            self.assertEqual(self.found()["kept"], {"count": EXECUTED, "opening": 0.0, "lastStart": None})
        self.assertEqual(self.lines()["kept requests"], f"{EXECUTED}, which take some 0.0 s of the next start")
        answers = {"/requests?after=0": {"last": 650_000, "requests": [{"stamp": 50_001}]}, f"/requests?after={status.BEYOND}": {"last": 650_000, "requests": []}}
        with mock.patch.object(status.Client, "attempt", side_effect=lambda _, path: mock.Mock(status=200, body=answers.get(path, {}))):
            self.assertEqual(self.found()["kept"], {"count": 600_000, "opening": 5.4, "lastStart": None})
            answers["/requests?after=0"] = {"last": 0, "requests": []}
            self.assertEqual(self.found()["kept"], {"count": 0, "opening": 0.0, "lastStart": None})

    def test_what_the_next_start_takes_by_the_last_one(self):
        """By its seconds for each request; one that read few tells nothing of that."""
        self.plan()
        pair.remember(self.file)
        page = mock.Mock(status=200, body={"last": 600_000, "requests": [{"stamp": 1}]})
        with mock.patch.object(status.Client, "attempt", lambda _, method, path: page):
            for last, seconds in (((50_000, 1.0), 12.0), ((400_000, 2.0), 3.0), ((49_999, 9.0), 5.4), ((0, 0.2), 5.4)):
                pair.remember_opening(self.file, pair.Opening(*last))
                self.assertEqual(self.found()["kept"], {"count": 600_000, "opening": seconds, "lastStart": {"count": last[0], "seconds": last[1]}})
                self.assertEqual(self.lines()["kept requests"], f"600000, which take some {seconds} s of the next start; the last start took {last[1]} s with {last[0]}")

    def test_a_plan_alone(self):
        self.plan()
        with self.served():
            found, lines = self.found(), self.lines()
        self.assertEqual((found["lastRequest"], lines["last request"]), ({"stamp": 4, "moment": None, "age": None}, "number 4, of no known time"))
        self.assertEqual((found["callsWaiting"], lines["calls waiting"]), ({"count": 0, "longest": None}, "none"))
        self.assertEqual(lines["agents"], "0 of 2 logged on")

    def test_the_program_and_the_file(self):
        self.plan()
        found = self.found()
        says = subprocess.run([ACD, "--version"], capture_output=True, text=True, check=True).stdout.strip()
        self.assertEqual(found["version"], {"service": VERSION, "program": says})
        self.assertEqual(found["file"], {"path": str(self.file), "bytes": os.stat(self.file).st_size})

    def test_nothing_is_changed(self):
        self.plan(*REQUESTS)
        before = {path: (hashlib.sha256(path.read_bytes()).hexdigest(), path.stat().st_mtime_ns) for path in self.folder.iterdir() if path.is_file()}
        self.said()
        after = {path: (hashlib.sha256(path.read_bytes()).hexdigest(), path.stat().st_mtime_ns) for path in self.folder.iterdir() if path.is_file()}
        self.assertEqual(after, before)


class Alone(Machine):
    def test_without_a_desk_the_file_tells_its_last_request(self):
        self.plan(*REQUESTS)
        found, lines = self.found(), self.lines()
        self.assertEqual(found["lastRequest"], {"stamp": EXECUTED, "moment": NOW - 7, "age": 7})
        self.assertIn("; no desk answers (port ", lines["last request"])
        self.assertEqual((found["callsWaiting"], found["agents"]), (None, None))
        self.assertIn("Connection refused", found["unknown"]["agents"])
        self.assertTrue(lines["agents"].startswith("not known: port "))

    def test_a_log_that_holds_something_is_left_alone(self):
        self.plan(*REQUESTS)
        Path(f"{self.file}-wal").write_bytes(bytes(4200))
        self.assertIn("lastRequest", self.found()["unknown"])

    def test_without_a_file(self):
        found = self.found()
        self.assertEqual(found["file"], None)
        self.assertEqual(found["unknown"]["file"], f"{self.file}: No such file or directory")
        self.assertIn("lastRequest", found["unknown"])

    def test_a_stranger_at_the_port(self):
        self.plan()
        for body in ({"error": 1}, [], {"moment": "x", "calls": 3, "agents": [1]}):
            with self.subTest(body), mock.patch.object(status.Client, "attempt", return_value=mock.Mock(status=200, body=body)):
                unknown = self.found()["unknown"]
                self.assertIn("is no desk", unknown["agents"])
                self.assertIn("is no desk", unknown["callsWaiting"])

    def test_a_refusal(self):
        with mock.patch.object(status.Client, "attempt", return_value=mock.Mock(status=403, body={})):
            self.assertIn("the desk answered 403", self.found()["unknown"]["agents"])

    def test_another_file_has_its_own_copies(self):
        self.plan()
        (self.folder / "other").mkdir()
        other = self.folder / "other/desk.db"
        other.write_bytes(self.file.read_bytes())
        self.assertEqual(self.lines("--file", str(other))["last good copy"], f"none in {other.parent}/copies")

    def test_a_wrong_setting(self):
        (self.folder / "acd.env").write_text("ACD_PORT=80 80\n")
        with contextlib.redirect_stderr(io.StringIO()) as faults, self.assertRaises(SystemExit) as end:
            status.main([])
        self.assertEqual((end.exception.code, faults.getvalue()), (2, f"acdctl status: {settings.FILE}: '80 80' isn't a whole number from 1 to 65535\n"))


class Around(Machine):
    """Copies, a standby, archives, the certificate, units."""

    def copied(self, name, file="desk.db"):
        (self.copies / name).mkdir(parents=True)
        (self.copies / name / file).touch()

    def test_copies(self):
        self.copies.mkdir()
        self.assertEqual((self.found()["lastGoodCopy"], self.lines()["last good copy"]), (None, f"none in {self.copies}"))
        good = time.strftime("%Y-%m-%dT%H%M%SZ", time.gmtime(NOW - 90_000))
        for name in (good, "2020-01-01T000000Z", "unsound", "2027-01-15T080000Z.early", "fewer-2027-01-15T080000Z"):
            self.copied(name)
        self.copied("2027-01-15T075959Z", "north.db")
        self.assertEqual(self.found()["lastGoodCopy"], {"moment": good, "age": 90_000, "isWhollySound": True})
        self.assertEqual(self.lines()["last good copy"], f"{good}, 1 day 1 hour ago")
        (self.copies / good / "desk.db.again").touch()
        self.assertFalse(self.found()["lastGoodCopy"]["isWhollySound"])

    def test_copies_that_this_user_may_not_see(self):
        self.copies.mkdir()
        with mock.patch.object(status.os, "listdir", side_effect=PermissionError(13, "Permission denied", str(self.copies))):
            self.assertEqual(self.found()["unknown"]["lastGoodCopy"], f"{self.copies}: Permission denied")

    def test_a_standby(self):
        self.assertEqual(self.found()["standby"], None)
        note = Path(f"{self.file}.followed")
        note.write_text(f"{self.file} has the requests up to 4340; the last that the desk told of is 4346, at {time.strftime('%Y-%m-%d %H:%M:%S', time.gmtime(NOW - 12))} UTC\n")
        self.assertEqual(self.found()["standby"], {"has": 4340, "desk": 4346, "lag": 6, "age": 12})
        self.assertEqual(self.lines()["standby"], "has 4340 of 4346 requests, lacks 6; the other desk answered 12 seconds ago")
        note.write_text(f"{self.file} has the requests up to 0; the desk hasn't answered yet\n")
        self.assertEqual(self.found()["unknown"]["standby"], "the other desk hasn't answered yet")

    def test_an_archive(self):
        self.assertEqual(self.lines()["archive"], "none: the file wasn't pruned")
        Path(f"{self.file}.archive").write_text(f"archive desk.db-2026-11-27-4000\nlast 4000\ndigest {'0' * 64}\nwas 1 2\n")
        self.assertEqual(self.found()["archive"], {"name": "desk.db-2026-11-27-4000", "last": 4000, "isThere": False})
        self.assertIn("not beside the file", self.lines()["archive"])
        (self.folder / "desk.db-2026-11-27-4000").touch()
        self.assertEqual(self.lines()["archive"], "desk.db-2026-11-27-4000, with the requests up to 4000")
        Path(f"{self.file}.archive").write_text("nothing\n")
        self.assertIn("is no note of an archive", self.found()["unknown"]["archive"])

    def test_the_certificate(self):
        for days, says in ((87, "ends in 87 days"), (0, "ends in 0 days"), (-2, "has ended")):
            ends = datetime.datetime.fromtimestamp(NOW + days * 86400 + 60, datetime.timezone.utc)
            with mock.patch.object(status.certificate, "shown_at", return_value=b""), mock.patch.object(status.certificate, "end_of", return_value=ends):
                self.assertEqual(self.found()["certificate"], {"ends": ends.strftime("%Y-%m-%dT%H:%M:%SZ"), "days": days})
                self.assertTrue(self.lines()["certificate"].startswith(f"{says} ("))

    def test_units(self):
        self.assertEqual((self.found()["failedUnits"], self.lines()["failed units"]), ([], "none"))
        self.program("systemctl", "printf 'acd-tick.service loaded failed failed Ticks\\nacd-copy.service loaded failed failed Copies\\n'")
        self.assertEqual((self.found()["failedUnits"], self.lines()["failed units"]), (["acd-copy.service", "acd-tick.service"], "acd-copy.service, acd-tick.service"))
        self.program("systemctl", "echo no bus >&2; exit 1")
        self.assertEqual(self.found()["unknown"]["failedUnits"], "systemctl: no bus")

    def test_without_the_program(self):
        (self.folder / "bin/acd").unlink()
        with mock.patch.dict(os.environ, {"PATH": str(self.folder / "bin")}):
            self.assertEqual(self.found()["version"], {"service": VERSION, "program": None})

    def test_spans(self):
        found = {seconds: status.span(seconds) for seconds in (-5, 0, 1, 59, 60, 61, 3600, 90_000, 172_800, 200_000)}
        self.assertEqual(found, {-5: "0 seconds", 0: "0 seconds", 1: "1 second", 59: "59 seconds", 60: "1 minute", 61: "1 minute 1 second", 3600: "1 hour",
                                 90_000: "1 day 1 hour", 172_800: "2 days", 200_000: "2 days 7 hours"})


if __name__ == "__main__":
    unittest.main()
