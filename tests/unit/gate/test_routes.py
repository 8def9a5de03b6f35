#!/usr/bin/python3
"""Tests of the gate's routes.   usage: tests/unit/gate/test_routes.py

Needs python3-aiohttp, python3-passlib and python3-bcrypt (Debian packages)."""
import contextlib
import io
import json
import threading
import time
import unittest
from unittest import mock

from standing import FORBIDDEN, NO_DESK, PAGE, REPLY, ROLES, DoorTest, basic

from acd_service.gate import files, following, limits
from acd_service.gate.desk import Place
from acd_service.gate.exchanges import Answer, Left, Question

# a desk with an agent who is logged off
SNAPSHOT = {"/snapshot": {"last": 0, "moment": 5, "groups": [], "stations": [], "calls": [], "agents": [{"agent": "7", "name": "Ana", "state": "null", "since": 0, "stamp": 1}]},
            "/history": {"events": [], "last": 0}, "/events": {"events": [], "last": 0}}


class RouteTest(DoorTest):
    def test_who_reads_requests(self):
        for login in ("planner", "Copy.2"):
            self.assertEqual(self.ask(login, None, "GET", "/requests?after=7"), (200, PAGE))
            status, fields, answer = self.exchange("HEAD", "/requests", None, {"X-Login": login})
            self.assertEqual((status, fields["content-length"], answer), (200, str(len(PAGE)), b""))
        self.assertEqual(self.desk.got, ["/requests?after=7", "/requests?"] * 2)
        for login in ("pbx", "sup", "ana", "ben", "lea", "blind", "nobody", "Jürgen", ""):
            self.assertEqual(self.ask(login, None, "GET", "/requests?after=7"), FORBIDDEN, login)
        self.assertEqual(len(self.desk.got), 4)

    def test_a_query_of_requests_goes_on(self):
        for query, sent in (("after=1&after=2", "after=1&after=2"), ("after=%31&x=?/#'\"<", "after=%31&x=?/#'\"<"), ("\xe4fter=1", "%E4fter=1"), ("after=\xc3\xa4", "after=%C3%A4")):
            self.begins(f"GET /requests?{query} HTTP/1.1\r\nConnection: close\r\nX-Login: planner\r\n\r\n".encode("latin-1"), rb"\AHTTP/1.1 200 ")
            self.assertEqual(self.desk.got.pop(), f"/requests?{sent}")
        # nginx refuses it too
        self.begins(b"GET /requests?after=1&x=\x7f HTTP/1.1\r\nX-Login: planner\r\n\r\n", rb"\AHTTP/1.\d 400 ")
        self.assertEqual(self.desk.got, [])

    def test_another_site(self):
        body = {"requester": "pbx", "service": "tick"}
        for fields in ({"Origin": "https://elsewhere"}, {"Origin": "null"}, {"Origin": "https://desk:8443.elsewhere"}, {"Origin": "http://desk:8443"},
                       {"Sec_Fetch_Site": "cross-site"}, {"Sec_Fetch_Site": "same-site"}, {"Origin": "https://desk:8443", "Sec_Fetch_Site": "cross-site"}):
            self.assertFalse(self.passes("pbx", body, **fields), fields)
        for fields in ({}, {"Origin": "https://desk:8443"}, {"Sec_Fetch_Site": "same-origin"}, {"Sec_Fetch_Site": "none"}):
            self.assertTrue(self.passes("pbx", body, **fields), fields)

    def test_who(self):
        for login, wanted in (("ana", {"agent": "7", "login": "ana", "reads": "own", "role": "agent"}), ("sup", {"login": "sup", "role": "supervisor"}), ("Jürgen", {"login": "Jürgen", "role": "supervisor"}),
                              ("cleo", {"agent": "7", "groups": ["100", "110"], "login": "cleo", "reads": "own", "role": "agent", "stations": ["201", "202"]}),
                              ("lea", {"groups": ["100", "110"], "login": "lea", "reads": "none", "role": "lead"}), ("Copy.2", {"login": "Copy.2", "reads": "none", "role": "follow"})):
            status, text = self.ask(login, None, "GET", "/who")
            self.assertEqual((status, json.loads(text)), (200, wanted))
        for login in ("nobody", ""):
            self.assertEqual(self.ask(login, None, "GET", "/who"), FORBIDDEN)

    def test_no_desk(self):
        self.gate.desk.where = Place(1)
        self.assertEqual(self.ask("pbx", {"requester": "pbx", "service": "tick"}), NO_DESK)
        self.assertEqual(self.ask("ana", {"requester": "ana", "service": "holdCall", "device": "201"}), FORBIDDEN)

    def test_an_agents_own_page(self):
        self.desk.known = SNAPSHOT
        status, told = self.ask("ana", None, "GET", "/mine")
        found = json.loads(told)
        self.assertEqual(status, 200)
        self.assertEqual({member: value for member, value in found.items() if member not in ("day", "moment", "number")},
                         {"agent": {"agent": "7", "name": "Ana", "since": 0, "state": "null"}, "calls": [], "groups": [], "live": True,
                          "names": {"agents": [{"agent": "7", "name": "Ana"}], "groups": [], "number": found["names"]["number"], "stations": []}})
        status, told = self.ask("pbx", None, "GET", "/mine?agent=8&hold=0")
        self.assertEqual((status, json.loads(told)["agent"]), (200, {"agent": "8"}))
        number = json.loads(told)["number"]
        begun = time.monotonic()
        status, told = self.ask("pbx", None, "GET", f"/mine?agent=8&hold=1&after={number}&names={number}")
        self.assertEqual((status, json.loads(told).get("names"), time.monotonic() - begun >= 1), (200, None, True))
        for query in ("agent=x", "agent=1234567890", "after=-1", "names=x", "hold=1e3"):
            self.assertEqual(self.ask("pbx", None, "GET", f"/mine?{query}")[0], 400, query)
        for login, query in (("ana", "agent=8"), ("lea", "agent=7"), ("pbx", "hold=1"), ("nobody", "agent=7"), ("Copy.2", "agent=7")):
            self.assertEqual(self.ask(login, None, "GET", f"/mine?{query}"), FORBIDDEN, (login, query))

    def test_an_agents_page_without_a_desk(self):
        self.gate.desk.where = Place(1)
        with mock.patch.object(following, "AWAY", 0.1):
            self.assertEqual(self.ask("ana", None, "GET", "/mine"), NO_DESK)
        self.assertEqual(self.ask("lea", {"requester": "lea", "service": "setGroupPriority", "device": "100", "priority": 1}), NO_DESK)

    def test_a_leads_request(self):
        """Judged by the desk as it is; sent again it gets its reply again, though it wouldn't be allowed any more."""
        self.desk.known = {**SNAPSHOT, "/snapshot": {**SNAPSHOT["/snapshot"], "groups": [{"device": "100", "name": "G", "ring": 1, "wrap": 1}]}}
        body = {"requester": "lea", "service": "setGroupPriority", "device": "100", "priority": 1}
        self.assertTrue(self.passes("lea", body))
        self.roles.write_text(ROLES.replace("groups=110,100", "groups=110"))
        self.assertEqual((self.ask("lea", body), len(self.desk.got)), ((409, REPLY), 1))
        self.assertFalse(self.passes("lea", {**body, "invoke": 2}))

    def test_a_lead_who_changes_an_agents_state(self):
        """The agent's page says who did it, until the agent asks for a state."""
        plan = {"groups": [{"device": "100", "name": "G", "ring": 1, "wrap": 1}], "stations": [{"device": "201", "agent": "7"}],
                "agents": [{"agent": "7", "name": "Ana", "state": "ready", "since": 0, "device": "201", "group": "100"}]}
        self.desk.known = {**SNAPSHOT, "/snapshot": {**SNAPSHOT["/snapshot"], **plan}}
        told = [json.loads(self.ask("ana", None, "GET", "/mine")[1]).get("changed")]
        for login, requested in (("lea", "notReady"), ("lea", "loggedOff"), ("ana", "ready")):
            with mock.patch.object(self.gate.desk, "ask", mock.AsyncMock(return_value=Answer(200, body=b'{"result":{},"status":200}'))):
                self.assertEqual(self.ask(login, {"requester": login, "service": "setAgentState", "agent": "7", "requested": requested})[0], 200)
            told.append(json.loads(self.ask("ana", None, "GET", "/mine")[1]).get("changed"))
        self.assertEqual([one and (one["by"], one["requested"], abs(one["moment"] - time.time()) < 600) for one in told],
                         [None, ("lea", "notReady", True), ("lea", "loggedOff", True), None])

    def test_who_loses_a_right_while_the_desk_is_asked(self):
        """The roles as they are when the desk has answered count."""
        station_of = self.gate.desk.station_of

        async def late(agent):
            self.roles.write_text(ROLES.replace("ana agent 7", "ana agent 9"))
            return await station_of(agent)

        self.gate.desk.station_of = late
        self.assertFalse(self.passes("ana", {"requester": "ana", "service": "holdCall", "device": "201"}))

    def test_files_of_records(self):
        (self.records / "groups").mkdir(parents=True)
        (self.records / "groups/2026-11-27.csv").write_text("group,entered\n100,3\n120,1\n")
        (self.records / "agents").mkdir()
        (self.records / "agents/2026-11-27.csv").write_text("day,agent\n2026-11-27,7\n")
        self.assertEqual(self.ask("planner", None, "GET", "/records/"), (200, b'{"agents":["2026-11-27"],"groups":["2026-11-27"],"records":[]}'))
        status, fields, told = self.exchange("GET", "/records/groups/2026-11-27.csv", None, {"X-Login": "planner"})
        self.assertEqual((status, told, fields["content-type"], fields["content-disposition"]),
                         (200, b"group,entered\n100,3\n120,1\n", "text/csv; charset=utf-8", 'attachment; filename="groups-2026-11-27.csv"'))
        self.roles.write_text(ROLES.replace("lea lead reads=none", "lea lead"))
        self.assertEqual(self.ask("lea", None, "GET", "/records/groups/2026-11-27.csv"), (200, b"group,entered\n100,3\n"))
        self.assertEqual(self.ask("lea", None, "GET", "/records/agents/2026-11-27.csv"), FORBIDDEN)
        self.assertEqual(self.ask("planner", None, "GET", "/records/agents/2026-11-28.csv")[0], 404)
        for login in ("pbx", "ana", "sup", "blind", "Copy.2", "nobody"):
            self.assertEqual(self.ask(login, None, "GET", "/records/"), FORBIDDEN, login)

    def test_who_has_left_gets_neither_page_nor_file(self):
        """The desk isn't asked, and no file is read."""
        for path in ("/requests", "/records/", "/records/groups/2026-11-27.csv"):
            with self.assertRaises(Left), mock.patch.object(files, "days", side_effect=AssertionError), mock.patch.object(files, "content", side_effect=AssertionError):
                self.standing.do(self.gate.answer(Question("GET", path, "", {"x-login": "planner"}, mock.AsyncMock(), lambda: True)))
        self.assertEqual(self.desk.got, [])

    def test_a_session(self):
        """Begun by a form, used, told of, ended."""
        status, fields, told = self.log_in("ana")
        cookie = fields["set-cookie"].partition(";")[0]
        self.assertEqual((status, json.loads(told)["ends"] - json.loads(told)["begun"]), (200, 12 * 3600))
        named = {"X-Login": "ana", "Cookie": cookie}
        self.assertEqual(self.exchange("GET", "/session", None, named)[::2], (200, told))
        self.assertEqual(self.exchange("POST", "/session", b"", named)[::2], (200, told))
        self.assertNotIn(b"begun", self.exchange("GET", "/session", None, {**named, "X-Login": "sup"})[2])
        status, fields, told = self.exchange("POST", "/logout", None, named)
        self.assertEqual((status, fields["set-cookie"], told), (204, "__Host-acd=; Path=/; Max-Age=0; HttpOnly; Secure; SameSite=Strict", b""))
        self.assertNotIn(b"begun", self.exchange("GET", "/session", None, named)[2])

    def test_a_form_of_a_browser(self):
        for login, password, wanted in (("ana", "secret", "/board/x"), ("ana", "guess", "/board/login/?wrong")):
            form = f"login={login}&password={password}&next=/board/x".encode()
            status, fields, _ = self.exchange("POST", "/login", form, {"X-Address": "192.0.2.1", "Accept": "text/html"})
            self.assertEqual((status, fields["location"], "set-cookie" in fields), (303, wanted, password == "secret"))
        form = b"login=ana&password=secret&next=https://elsewhere/"
        self.assertEqual(self.exchange("POST", "/login", form, {"X-Address": "192.0.2.1", "Accept": "text/html"})[1]["location"], "/board/")
        for form in (b"", b"login=ana", b"login=ana&login=ben&password=x", b"\xff", b"login=ana&password=%ff"):
            self.assertEqual(self.exchange("POST", "/login", form, {"X-Address": "192.0.2.1"})[0], 400, form)

    def test_who_is_asked_for_what(self):
        """A 401 asks a program for a password, and sends a page to the page of log-in."""
        page = {"Sec-Fetch-Site": "none", "Sec-Fetch-Mode": "navigate"}
        asks = 'Basic realm="desk", charset="UTF-8"'
        for fields, wanted in (({}, (asks, None)), ({**page, "X-Path": "/basic?/board/"}, (asks, None)), ({**page, "X-Path": "/board/?x"}, (None, "login")), ({**page, "X-Path": "/snapshot"}, (None, None)),
                               ({"Sec-Fetch-Site": "same-origin", "Sec-Fetch-Mode": "cors", "X-Path": "/board/"}, (None, None))):
            status, told, body = self.exchange("GET", "/auth/any", None, {"X-Signed": "yes", **fields})
            self.assertEqual((status, (told.get("www-authenticate"), told.get("x-why")), body), (401, wanted, b""), fields)

    def test_a_screen_is_sent_on(self):
        status, fields, _ = self.exchange("GET", "/basic?/board/?since=0", None, {})
        self.assertEqual((status, fields["location"]), (302, "/board/?since=0"))
        for query in ("//elsewhere/board/", "/csta", ""):
            self.assertEqual(self.exchange("GET", f"/basic?{query}", None, {})[0], 404, query)

    def test_many_at_once(self):
        answers = []
        threads = [threading.Thread(target=lambda: answers.append(self.ask("pbx", {"requester": "pbx", "service": "tick"})[0])) for _ in range(40)]
        for thread in threads:
            thread.start()
        for thread in threads:
            thread.join()
        self.assertEqual((answers, len(self.desk.got)), ([409] * 40, 40))

    def test_log_ins_have_a_rate(self):
        self.gate.rates.clock = lambda: self.now
        self.assertEqual([self.log_in("ana")[0] for _ in range(22)], [200] * 20 + [429] * 2)
        self.assertEqual([self.log_in("pbx")[0], self.log_in("ana", "guess")[0]], [200, 401])
        self.now += 3
        self.assertEqual([self.log_in("ana")[0] for _ in range(2)], [200, 429])

    def test_heavy_reads_count_for_more(self):
        self.gate.rates.clock = lambda: self.now
        asked = {"X-Signed": "yes", "X-Path": "/snapshot", "Authorization": basic("sup")}
        told = [self.exchange("GET", "/auth/reads", None, asked) for _ in range(501)]
        self.assertEqual([reply[0] for reply in told], [204] * 500 + [401])
        self.assertEqual(told[-1][1]["x-why"], "429")

    def test_the_proxy_of_before_is_told_once(self):
        with contextlib.redirect_stderr(io.StringIO()) as printed:
            for _ in range(3):
                self.assertEqual(self.exchange("GET", "/auth", None, {"Authorization": basic("ana")})[0], 204)
        self.assertRegex(printed.getvalue(), r"\Aacd-gate: nginx asks for everybody, .*X-Proxy.*\n\Z")

    def test_held_questions_are_bounded(self):
        with mock.patch.object(limits, "MOST_HELD", 2), contextlib.ExitStack() as held:
            rooms = [held.enter_context(self.gate.held.one("ana")) for _ in range(3)]
            self.assertEqual((rooms, held.enter_context(self.gate.held.one("ben"))), ([True, True, False], True))
            self.assertEqual(self.ask("ana", None, "GET", "/mine")[0], 429)
        self.assertEqual(self.gate.held.count, {})

    def test_whose_requester_is_the_rules(self):
        """That of a login of this role, or of rules that ask the desk itself."""
        self.roles.write_text(ROLES + "night rules\n")
        self.assertEqual([self.gate.is_rules(requester) for requester in ("night-100-closed-1", "rules-100-long-2", "night", "pbx-1", "rules", "clock-x", "nights-1")],
                         [True, True, True, False, False, False, False])
        self.roles.write_text(ROLES + "rules supervisor\n")
        self.assertFalse(self.gate.is_rules("rules-100-long-2"))

    def test_forged_fields(self):
        self.assertEqual(self.auth(basic("ana"), **{"X-Login": "pbx", "X-Why": "429"}), self.RIGHT)
        self.assertEqual(self.auth(None, **{"X-Login": "pbx"}), self.WRONG)


if __name__ == "__main__":
    unittest.main()
