"""acdctl webhook: which facts are alarms, what is sent of them and when, and what it makes of a gate or an address that fails."""
import argparse
import contextlib
import http.client
import http.server
import io
import json
import os
import threading
import time
import unittest
from unittest import mock

import service_ground as ground
from acd_client import Client
from acd_service import office
from acd_service.webhook import main, sending, stream
from acd_service.webhook.alarms import Alarm, Picture, Reckoning

NOW = 10_000


def office_of(**limits):
    return office.Office({"groups": {"100": "Störung"}, "agents": {}}, limits, title="Hotline")


def picture(live=True, moment=NOW, **tables):
    found = Picture()
    found.take({"live": live, "clock": NOW, "desk": {"moment": moment, "last": 9}, **tables}, True)
    return found


def queue(**members):
    return {"name": "Billing", "ring": 20, "wrap": 30, "counts": {"busy": 1}, **members}


class Facts(unittest.TestCase):
    def kinds(self, limits=(), **tables):
        found = Reckoning(office_of(**dict(limits))).alarms(picture(**tables))
        return {key: alarm.since for key, alarm in found.items()}

    def test_none(self):
        self.assertEqual(self.kinds(groups={"100": queue(waiting=1, queued=NOW - 119)}, agents={"7": {"doing": "workingAfterCall", "groups": ["100"], "since": NOW - 55}},
                                    calls={"1": {"state": "alerting", "group": "100", "since": NOW - 45}, "2": {"state": "alerting", "direct": True, "group": "100", "since": NOW - 15}},
                                    recent={"100": [9, 1, 9, 1, None, None]}), {})

    def test_each(self):
        """Since when it is so, where the figures show that."""
        waits = queue(waiting=1, queued=NOW - 120)
        for tables, wanted in (({"groups": {"100": waits}}, {"wait.100": NOW}), ({"groups": {"100": queue(ringing=1, queued=NOW - 150)}}, {"wait.100": NOW - 30}),
                               ({"groups": {"100": {"waiting": 2, "queued": NOW - 5}}}, {"nobody.100": 0}), ({"groups": {"100": queue()}, "recent": {"100": [1, 9, 1, 9, NOW - 300, NOW - 200]}}, {"level.100": NOW - 300, "lost.100": NOW - 200}),
                               ({"groups": {"100": queue()}, "calls": {"1": {"state": "alerting", "direct": True, "group": "100", "since": NOW - 16, "at": "201"}}}, {"sent.100": NOW - 1}),
                               ({"groups": {"100": queue()}, "calls": {"1": {"state": "alerting", "group": "100", "since": NOW - 46}}}, {"ticks": NOW - 26}),
                               ({"groups": {"100": queue()}, "agents": {"7": {"doing": "workingAfterCall", "groups": ["100"], "since": NOW - 56}}}, {"ticks": NOW - 26}),
                               ({"moment": NOW + 61}, {"clock": 0}), ({"moment": NOW + 60}, {})):
            self.assertEqual(self.kinds(**tables), wanted, tables)

    def test_limits_of_an_office(self):
        groups = {name: queue(waiting=1, queued=NOW - 40) for name in ("100", "110")}
        for limits, wanted in (({}, []), ({"bad": "30", "long": "20"}, ["wait.100", "wait.110"]), ({"bad.100": "40", "long": "5"}, ["wait.100"]), ({"bad": "30"}, []), ({"bad": "x", "long": "0"}, [])):
            self.assertEqual(sorted(self.kinds(limits, groups=groups)), wanted, limits)

    def test_who_waits(self):
        """The number of who waits longest is an alarm's, and in none of its words."""
        calls = {"1": {"state": "queued", "group": "100", "since": NOW - 130, "caller": "0301"}, "2": {"state": "alerting", "group": "100", "since": NOW - 5, "queued": NOW - 200, "caller": "0302"},
                 "3": {"state": "queued", "group": "110", "since": NOW - 500, "caller": "0303"}, "4": {"state": "alerting", "direct": True, "group": "100", "since": NOW - 30, "caller": "0304", "at": "201", "queued": NOW - 60}}
        found = Reckoning(office_of()).alarms(picture(groups={"100": queue(waiting=1, ringing=1, queued=NOW - 200)}, calls=calls))
        self.assertEqual({key: alarm.caller for key, alarm in found.items()}, {"wait.100": "0302", "sent.100": "0304"})
        self.assertEqual([alarm.words for alarm in found.values()], ["Störung: nobody at 201 answers a caller who was sent there", "Störung: a caller waits too long"])

    def test_changes(self):
        found = picture(groups={"100": queue(waiting=1, queued=NOW - 500)}, calls={"1": {}, "2": {}})
        found.take({"live": False, "clock": NOW + 1, "calls": {"1": None, "3": {}, "9": None}}, False)
        self.assertEqual((found.live, found.clock, sorted(found.tables["calls"]), list(found.tables["groups"])), (False, NOW + 1, ["2", "3"], ["100"]))
        found.take({"live": True}, True)
        self.assertEqual(found.tables["groups"], {})


class Begun(unittest.TestCase):
    """What is told as an alarm begins and ends, by a clock of its own."""

    def setUp(self):
        self.told = []
        self.watch = main.Watch(lambda state, key, known: self.told.append(f"{state} {key} {known['since']}"), {})

    def look(self, now, *keys, is_seen=True):
        self.watch.look({key: Alarm(*key.partition(".")[::2], since=5) if key == "wait.100" else Alarm(key, "") for key in keys}, now, is_seen)
        told, self.told[:] = list(self.told), []
        return told

    def test_begin_and_end(self):
        found = {"wait.100": Alarm("wait", "words", "100", 5), "clock": Alarm("clock", "words")}
        self.assertTrue(self.watch.look(found, 100))
        self.assertEqual(self.told, ["begun wait.100 5", "begun clock 100"])
        self.assertFalse(self.watch.look(found, 110))
        self.assertFalse(self.watch.look({}, 169))
        self.assertTrue(self.watch.look({}, 170))
        self.assertEqual(self.told[2:], ["ended wait.100 5", "ended clock 100"])

    def test_one_that_comes_back(self):
        """Within a minute it is the same one."""
        for now, keys, wanted in ((100, ["ticks"], ["begun ticks 100"]), (110, [], []), (165, ["ticks"], []), (224, [], []), (225, [], ["ended ticks 100"]), (226, ["ticks"], ["begun ticks 226"])):
            self.assertEqual(self.look(now, *keys), wanted, now)

    def test_while_nothing_is_seen(self):
        """Others neither begin nor end; that of the desk and of the gate end at once."""
        self.look(100, "ticks")
        for now, keys, is_seen, wanted in ((110, ["desk"], False, ["begun desk 110"]), (500, ["desk"], False, []), (510, ["gate"], False, ["begun gate 510"]), (900, ["desk"], False, ["ended gate 510"]),
                                           (910, ["ticks"], True, ["ended desk 110"]), (920, [], True, []), (970, [], True, ["ended ticks 100"])):
            self.assertEqual(self.look(now, *keys, is_seen=is_seen), wanted, now)


class Sent(unittest.TestCase):
    """One after the other, with pauses that grow, for an hour; by a clock of its own."""

    def setUp(self):
        self.now, self.answers, self.bodies, self.kept = 1000.0, [], [], 0
        self.sender = sending.Sender(self.send, [], self.keep, lambda: self.now)
        self.said = self.enterContext(contextlib.redirect_stderr(io.StringIO()))

    def keep(self):
        self.kept += 1

    def send(self, body):
        self.bodies.append(json.loads(body)["key"])
        answer = self.answers.pop(0) if self.answers else 200
        if isinstance(answer, Exception):
            raise answer
        return answer

    def put(self, *keys):
        for key in keys:
            self.sender.put({"state": "begun", "key": key})

    def lines(self):
        return self.said.getvalue().splitlines()

    def test_in_order(self):
        self.put("a", "b")
        self.answers = [500, OSError(111, "Connection refused"), 204]
        self.assertEqual([self.sender.turn() for _ in range(5)], [1, 2, 0, 0, 0])
        self.assertEqual((self.bodies, list(self.sender.waiting), self.kept), (["a", "a", "a", "b"], [], 4))
        self.assertRegex("\n".join(self.lines()), r"\A\S+.*: the webhook takes no alarm \(the answer was 500\), retrying for an hour\n.*: the webhook takes alarms again\Z")

    def test_the_pauses_grow(self):
        self.put("a")
        self.answers, found = [302] * 40, []
        while self.sender.waiting:
            pause = self.sender.turn()
            found.append(pause)
            self.now += pause
        self.assertEqual(found[:9], [1, 2, 4, 8, 16, 32, 64, 128, 256])
        self.assertEqual(set(found[9:-1]), {300})
        self.assertEqual((sum(found) >= 3600, sum(found) < 3600 + 300, found[-1]), (True, True, 0))
        self.assertRegex(self.lines()[-1], "not sent, for an hour the answer was 302: begun a$")

    def test_too_many(self):
        with mock.patch.object(sending, "MOST", 2):
            self.put("a", "b", "c")
        self.assertEqual([one["body"]["key"] for one in self.sender.waiting], ["b", "c"])
        self.assertRegex(self.lines()[0], "not sent, too many wait: begun a$")

    def test_one_that_went_meanwhile(self):
        def send(_):
            self.sender.waiting.popleft()
            return 500

        self.put("a")
        self.sender.send = send
        self.assertEqual((self.sender.turn(), self.sender.turn(), self.lines()), (0, 0, []))

    def test_it_runs(self):
        with mock.patch.object(sending.time, "sleep", side_effect=[None, SystemExit]), self.assertRaises(SystemExit):
            self.put("a", "b")
            self.sender.run()
        self.assertEqual(self.bodies, ["a", "b"])

    def test_addresses(self):
        for text in ("https://alarms.example/hook?t=1", "https://a:b@alarms.example:8443", "http://127.0.0.1:9/x", "http://localhost/"):
            self.assertEqual(sending.address(text).geturl(), text)
        for text in ("", "http://alarms.example/", "alarms.example", "https://", "ftp://127.0.0.1/", "https://a b/", "https://x/#y", "https://x:0/", "https://x:x/", "https://ä/", "https://[x"):
            with self.assertRaises(argparse.ArgumentTypeError, msg=text):
                sending.address(text)


class Handler(http.server.BaseHTTPRequestHandler):
    def log_message(self, *_):
        pass

    def do_GET(self):
        self.server.asked.append(self.path)
        status, data = self.server.answers.pop(0)
        self.send_response(status)
        self.end_headers()
        self.wfile.write(data)

    def do_POST(self):
        body = self.rfile.read(int(self.headers["Content-Length"]))
        self.server.asked.append((self.path, self.headers["Content-Type"], self.headers["Authorization"], json.loads(body)))
        self.do_answer()

    def do_answer(self):
        status, data = self.server.answers.pop(0)
        if status == "drips":
            with contextlib.suppress(OSError):
                for _ in range(200):
                    self.wfile.write(b"H")
                    time.sleep(0.05)
            return
        self.send_response(status)
        self.send_header("Location", "/elsewhere")
        self.send_header("Content-Length", str(len(data)))
        self.end_headers()
        self.wfile.write(data)


def event(kind, **members):
    return f"event: {kind}\nid: 1\ndata: {json.dumps({'live': True, 'clock': NOW, 'answered': NOW, **members})}\n\n".encode()


class Served(ground.Case):
    """Over a server."""

    def setUp(self):
        super().setUp()
        self.server = self.enterContext(http.server.ThreadingHTTPServer(("127.0.0.1", 0), Handler))
        self.server.asked, self.server.answers = [], []
        threading.Thread(target=self.server.serve_forever, args=(0.02,), daemon=True).start()
        self.addCleanup(self.server.shutdown)
        self.address = f"http://127.0.0.1:{self.server.server_port}"
        self.enterContext(mock.patch.object(main, "FILE", self.folder / "webhook.env"))

    def test_a_post(self):
        """No redirection is followed, and bytes that come one by one end it."""
        for path, login, asked in (("/hook?t=1", "", "/hook?t=1"), ("", "a:b@", "/")):
            self.server.answers = [(302, b"x")]
            self.assertEqual(sending.post(sending.address(f"http://{login}127.0.0.1:{self.server.server_port}{path}"), '{"ä":1}'.encode(), None), 302)
            self.assertEqual(self.server.asked.pop(), (asked, "application/json", "Basic YTpi" if login else None, {"ä": 1}))
        self.server.answers = [("drips", b"")]
        began = time.monotonic()
        with mock.patch.object(sending, "WHOLE", 0.3), self.assertRaises((OSError, http.client.HTTPException)):
            sending.post(sending.address(self.address), b"{}", None)
        self.assertLess(time.monotonic() - began, 5)

    def test_a_stream(self):
        self.server.answers = [(200, event("picture", groups={}, desk={}) + event("beat") + b"event: end\ndata: {\"why\":\"rights\"}\n\n")]
        found = stream.events(Client(self.address), "begin=0")
        self.assertEqual([next(found)[0], next(found)[0]], ["picture", "beat"])
        with self.assertRaisesRegex(stream.Lost, "ended the stream: rights"):
            next(found)
        for answers, why, status in (([(404, b""), (200, b"data: []\n\n")], "no event", 0), ([(200, b"")], "has ended", 0), ([(200, b"event: x\ndata")], "has ended", 0), ([(403, b""), (403, b"")], "answered 403: the login", 403), ([(401, b"")], "answered 401", 401),
                                     ([(429, b"")], "answered 429$", 429), ([(200, event("picture", agent={"agent": "7"}))], "nothing of the desk: the login", 403), ([(200, b"data: {\n\n")], "Expecting", 0)):
            self.server.answers = list(answers)
            with self.assertRaisesRegex(stream.Lost, why) as lost:
                next(stream.events(Client(self.address), "begin=0"))
            self.assertEqual(lost.exception.status, status)
        self.assertEqual(self.server.asked[1:3], ["/stream?begin=0", "/mine?stream&begin=0"])

    def webhook(self, **how):
        self.sent = []
        return main.Webhook(Client(self.address), lambda body: self.sent.append(json.loads(body)) or 200, office_of(limit="30", **{"goal.100": "90", "goal": "x" * 9, "level": "answered"}), self.folder / "state", clock=lambda: float(NOW), **how)

    def test_alarms_of_a_stream(self):
        """What is sent, to the member; a caller's number only where the office says so. After a start nothing is told twice."""
        waits = {"100": queue(waiting=1, queued=NOW - 150)}
        calls = {"1": {"state": "queued", "group": "100", "since": NOW - 150, "caller": "0301234"}}
        for shows in (False, True):
            (self.folder / "state").unlink(missing_ok=True)
            hook = self.webhook(shows_callers=shows)
            self.server.answers = [(200, event("picture", groups=waits, calls=calls, desk={"moment": NOW})), (200, event("picture", groups={}, desk={"moment": NOW}) + event("beat", live=False))]
            with contextlib.redirect_stderr(io.StringIO()) as said:
                self.assertEqual(hook.follow(), main.PAUSE)
            self.assertRegex(said.getvalue(), r"follows the gate\n.*begun: wait.100\n.*nothing comes of the gate: the stream has ended\n\Z")
            wanted = {"state": "begun", "key": "wait.100", "alarm": "wait", "text": "Störung: a caller waits too long", "since": NOW - 30, "moment": NOW, "group": "100", "name": "Störung", "title": "Hotline"}
            self.assertEqual([one["body"] for one in hook.sender.waiting], [{**wanted, "caller": "0301234"} if shows else wanted])
            self.assertEqual(self.server.asked.pop(), "/stream?begin=0&limit=30&goal.100=90&level=answered")
            again = self.webhook(shows_callers=shows)
            self.assertEqual((again.watch.known, list(again.sender.waiting)), (hook.watch.known, list(hook.sender.waiting)))
            again.clock = lambda: float(NOW + 60)
            with contextlib.redirect_stderr(io.StringIO()):
                again.follow()
            self.assertEqual([(one["body"]["state"], one["body"]["key"]) for one in again.sender.waiting], [("begun", "wait.100"), ("ended", "wait.100"), ("begun", "desk")])
            while again.sender.waiting:
                again.sender.turn()
            self.assertEqual((len(self.sent), json.loads((self.folder / "state").read_text())["waiting"]), (3, []))

    def test_a_gate_that_is_gone(self):
        """An alarm after ten seconds, which ends as the gate is back."""
        hook = self.webhook()
        self.server.answers = [(502, b""), (401, b""), (200, event("beat"))]
        with contextlib.redirect_stderr(io.StringIO()) as said:
            self.assertEqual((hook.follow(), len(hook.sender.waiting)), (main.PAUSE, 0))
            hook.heard -= main.GONE
            self.assertEqual((hook.follow(), [one["body"]["key"] for one in hook.sender.waiting]), (main.DENIED, ["gate"]))
            hook.follow()
        self.assertEqual([(one["body"]["state"], one["body"]["key"]) for one in hook.sender.waiting], [("begun", "gate"), ("ended", "gate")])
        self.assertRegex(said.getvalue(), "answered 502\n.*answered 401: .*supervisor.*\n")

    def test_another_day(self):
        """The gate counts from another midnight then."""
        moments = iter([NOW, NOW, NOW + 86400, NOW + 86400])
        hook = self.webhook()
        hook.clock = lambda: float(next(moments, NOW + 86400))
        self.server.answers = [(200, event("picture", groups={}, desk={}) + event("beat") + event("beat"))]
        with contextlib.redirect_stderr(io.StringIO()):
            self.assertEqual(hook.follow(), 0)

    def test_what_was_kept_and_is_none(self):
        for text in ("{", "[]", '{"alarms":[],"waiting":[]}', '{"waiting":[]}', "3"):
            (self.folder / "state").write_text(text)
            self.assertEqual(self.webhook().watch.known, {})
        hook = self.webhook()
        hook.state = self.folder / "none/state"
        with contextlib.redirect_stderr(io.StringIO()) as said:
            hook.keep()
        self.assertIn("No such file", said.getvalue())
        hook.state = None
        hook.keep()

    def test_it_runs(self):
        hook = self.webhook()
        with mock.patch.object(hook, "follow", side_effect=[0, SystemExit]), mock.patch.object(hook.sender, "run"), self.assertRaises(SystemExit):
            hook.run()

    def test_a_trial(self):
        (self.folder / "webhook.env").write_text(f"ACD_WEBHOOK={self.address}/hook\n")
        self.server.answers = [(200, b"ok")]
        self.assertEqual(ground.said("webhook", "--try"), (0, "the webhook took it\n", ""))
        path, kind, _, body = self.server.asked.pop()
        self.assertEqual((path, kind, body["key"], body["state"]), ("/hook", "application/json", "trial", "begun"))
        self.server.answers = [(500, b"")]
        self.assertEqual(ground.said("webhook", "--try"), (1, "", "acdctl webhook: the webhook took nothing: the answer was 500\n"))

    def test_settings(self):
        for given, line in (({}, "must begin with https://"), ({"ACD_WEBHOOK": "http://elsewhere/"}, "must begin with https://"), ({"ACD_WEBHOOK": self.address}, "is no address"),
                            ({"ACD_WEBHOOK": self.address, "ACD_WEBHOOK_DESK": "https://127.0.0.1:1", "ACD_WEBHOOK_CALLERS": "maybe"}, "must be yes or no")):
            with mock.patch.dict(os.environ, given):
                self.refused(["webhook"], 2, line)
        with mock.patch.dict(os.environ, {"ACD_WEBHOOK": "https://127.0.0.1:1", "ACD_WEBHOOK_DESK": "https://127.0.0.1:1"}):
            self.refused(["webhook", "--hook-ca", str(self.folder / "none.crt")], 1, "none.crt: No such file")
            with mock.patch.object(main.Webhook, "run", autospec=True) as ran:
                self.assertEqual(ground.said("webhook"), (0, "", ""))
            hook, = ran.call_args.args
            self.assertEqual((hook.client.wait, hook.shows_callers, hook.state), (main.SILENT, False, None))


if __name__ == "__main__":
    unittest.main()
