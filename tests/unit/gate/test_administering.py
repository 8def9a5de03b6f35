#!/usr/bin/python3
"""Tests of what an office's administrator does by the gate, and of own passwords.   usage: tests/unit/gate/test_administering.py

Needs python3-aiohttp, python3-passlib and python3-bcrypt (Debian packages)."""
import contextlib
import io
import json
import os
import threading
import unittest
from unittest import mock

from passlib.hash import bcrypt
from standing import PATIENCE, PROXYS, ROLES, SECRET, USERS, DoorTest, basic

from acd_service.gate import accounts, acts

PASSWORD, OTHER = "kofa-tuli-73", "meine-eigene-1"
OFFICE = ("/office/plan", "/office/login", "/office/password", "/office/end")
ANNA = {"login": "anna", "role": "agent", "agent": "12", "groups": ["100"], "password": PASSWORD}


class OfficeTest(DoorTest):
    def setUp(self):
        super().setUp()
        self.enterContext(mock.patch("acd_service.gate.administering.ROUNDS", 4))
        self.roles.write_text(ROLES + "chef admin\n")
        self.users.write_text(USERS + f"chef:{SECRET}\n")
        self.printed = self.enterContext(contextlib.redirect_stderr(io.StringIO()))

    def by(self, login, path, body=None, password="secret", cookie=None, method="POST", **fields):
        """Status and what is told, through the proxy."""
        who = {"Cookie": f"__Host-acd={cookie}"} if cookie else {"Authorization": basic(login, password)}
        named = {"X-Proxy": PROXYS, "X-Address": "192.0.2.1", "X-Site": "https://desk:8443", **who, **fields}
        text = body if isinstance(body, (bytes, type(None))) else json.dumps(body)
        status, _, told = self.exchange(method, path, text if method == "POST" else None, named)
        return status, json.loads(told) if told else None

    def chef(self, path, body=None, **more):
        return self.by("chef", path, body, **more)

    def error(self, answer, status, name):
        self.assertEqual((answer[0], answer[1]["error"]["name"]), (status, name))

    def session(self, login, password):
        status, fields, _ = self.log_in(login, password)
        self.assertEqual(status, 200)
        return fields["set-cookie"].partition("=")[2].partition(";")[0]

    def acts(self):
        return [{name: value for name, value in act.items() if name not in ("moment", "number")} for act in acts.read(self.own / "acts")]

    def give(self, **more):
        self.assertEqual(self.chef("/office/login", {**ANNA, **more}), (200, {}))


class LoginTest(OfficeTest):
    def test_a_new_login(self):
        self.give(stations=["201"])
        self.assertEqual((self.own / "roles").read_text(), "anna agent agent=12 stations=201 groups=100\n")
        login, hashed, mark = (self.own / "users").read_text().strip().split(":")
        self.assertEqual((login, mark, bcrypt.verify(PASSWORD, hashed)), ("anna", "first", True))
        self.assertEqual([os.stat(self.own / name).st_mode & 0o777 for name in ("users", "roles", "acts")], [0o600] * 3)
        self.assertEqual(self.acts(), [{"login": "chef", "act": "giveLogin", "of": "anna", "role": "agent", "agent": "12", "stations": ["201"], "groups": ["100"]}])
        self.assertEqual(self.by("anna", "/session", method="GET", password=PASSWORD)[1],
                         {"agent": "12", "first": True, "groups": ["100"], "login": "anna", "own": True, "reads": "own", "role": "agent", "stations": ["201"]})
        self.assertNotIn(PASSWORD, self.printed.getvalue() + (self.own / "acts").read_text())
        self.assertIn("giveLogin of anna: chef at 192.0.2.1", self.printed.getvalue())
        status, told = self.chef("/office", method="GET")
        self.assertEqual((status, told["logins"], told["acts"][0]["act"]), (200, [{"agent": "12", "first": True, "groups": ["100"], "login": "anna", "role": "agent", "stations": ["201"]}], "giveLogin"))
        self.assertIn({"login": "pbx", "role": "exchange"}, told["roots"])
        self.assertNotIn("$2", json.dumps(told))

    def test_root_reads_first_and_is_never_written(self):
        before = self.roles.read_bytes(), self.users.read_bytes()
        for login in ("pbx", "ana", "nobody", "sup", "pbx-1", "chef"):
            self.error(self.chef("/office/login", {**ANNA, "login": login}), 409, "rootsLogin")
            self.error(self.chef("/office/password", {"login": login, "password": PASSWORD}), *((404, "unknownLogin") if login == "pbx-1" else (409, "rootsLogin") if login in ("pbx", "ana", "nobody", "sup", "chef") else ()))
        self.error(self.chef("/office/end", {"login": "ana"}), 409, "rootsLogin")
        self.error(self.by("ana", "/password", {"old": "secret", "new": PASSWORD}), 409, "rootsLogin")
        self.assertEqual((self.roles.read_bytes(), self.users.read_bytes(), self.acts()), (*before, []))

    def test_no_role_but_three(self):
        for role in ("admin", "office", "exchange", "rules", "follow", "wizard", "", "supervisor exchange", "agent#"):
            status, told = self.chef("/office/login", {**ANNA, "role": role, "agent": None, "groups": None})
            self.assertEqual((status, told["error"]), (400, {"code": 30, "member": "role", "name": "malformed"}), role)
        self.assertFalse((self.own / "roles").exists())

    def test_what_is_malformed(self):
        for body, member in ((b"", "json"), (b"[]", "json"), (b"{", "json"), (b'{"login":"a","login":"b"}', "json"), (json.dumps({**ANNA, "login": 7}).encode(), "login"), (json.dumps({**ANNA, "login": "Anna"}).encode(), "login"),
                             (json.dumps({**ANNA, "login": "clock"}).encode(), "login"), (json.dumps({**ANNA, "agent": "7 groups=1"}).encode(), "role"), (json.dumps({**ANNA, "groups": ["1", {}]}).encode(), "role"),
                             (json.dumps({**ANNA, "groups": "100"}).encode(), "groups"), (json.dumps({**ANNA, "role": "lead", "groups": []}).encode(), "role"), (json.dumps({**ANNA, "role": "supervisor"}).encode(), "role")):
            status, told = self.chef("/office/login", body)
            self.assertEqual((status, told["error"].get("member")), (400, member), body)
        self.assertEqual(self.chef("/office/login", b"x" * 4097)[0], 413)

    def test_passwords_that_are_none(self):
        for password in ("", "short-one", "a" * 73, "ü" * 37, "with\nline end", "with\0nul-byte"):
            self.error(self.chef("/office/login", {**ANNA, "password": password}), 400, "passwordForm")
        self.error(self.chef("/office/login", {**ANNA, "login": "annas-login", "password": "Annas-Login"}), 400, "passwordForm")
        for number, password in enumerate(("ten signs!", "a" * 72, "ü" * 36)):
            self.assertEqual(self.chef("/office/login", {**ANNA, "login": f"a{number}", "password": password})[0], 200, password)
            self.assertEqual(self.by(f"a{number}", "/who", method="GET", password=password)[0], 200, password)

    def test_there_already_or_not(self):
        self.error(self.chef("/office/login", {**ANNA, "password": None}), 404, "unknownLogin")
        self.give()
        self.error(self.chef("/office/login", {**ANNA, "password": OTHER}), 409, "loginExists")
        for path in ("/office/password", "/office/end"):
            self.error(self.chef(path, {"login": "ben-2", "password": OTHER}), 404, "unknownLogin")
        with mock.patch.object(accounts, "MOST", 1):
            self.error(self.chef("/office/login", {**ANNA, "login": "another"}), 409, "tooManyLogins")

    def test_a_second_click_acts_once(self):
        answers, body = [], {**ANNA, "key": "drawn"}
        clicks = [threading.Thread(target=lambda: answers.append(self.chef("/office/login", body))) for _ in range(3)]
        for click in clicks:
            click.start()
        for click in clicks:
            click.join(PATIENCE)
        self.assertEqual((answers, len(self.acts())), ([(200, {})] * 3, 1))
        self.assertEqual([self.chef("/office/end", {"login": "anna", "key": "x"})[0] for _ in range(2)], [200, 200])
        self.assertEqual([act["act"] for act in self.acts()], ["giveLogin", "endLogin"])

    def test_another_role(self):
        self.give()
        token = self.session("anna", PASSWORD)
        self.assertEqual(self.chef("/office/login", {"login": "anna", "role": "lead", "groups": ["110", "100"]}), (200, {}))
        self.assertEqual(self.by("", "/who", method="GET", cookie=token)[1], {"groups": ["100", "110"], "login": "anna", "own": True, "first": True, "role": "lead"})
        self.assertEqual(self.acts()[-1], {"login": "chef", "act": "changeRole", "of": "anna", "role": "lead", "groups": ["100", "110"]})

    def test_a_login_that_ends_ends_its_sessions(self):
        self.give()
        token = self.session("anna", PASSWORD)
        self.assertEqual(self.by("", "/who", method="GET", cookie=token)[0], 200)
        self.assertEqual(self.chef("/office/end", {"login": "anna"}), (200, {}))
        self.assertEqual((self.by("", "/who", method="GET", cookie=token)[0], self.log_in("anna", PASSWORD)[0], self.gate.sessions.found), (401, 401, {}))
        self.give()  # with the same password again
        self.assertEqual(self.by("", "/who", method="GET", cookie=token)[0], 401)

    def test_a_forgotten_password(self):
        self.give()
        token = self.session("anna", PASSWORD)
        self.assertEqual(self.chef("/office/password", {"login": "anna", "password": OTHER}), (200, {}))
        self.assertEqual((self.by("", "/who", method="GET", cookie=token)[0], self.log_in("anna", PASSWORD)[0], self.log_in("anna", OTHER)[0]), (401, 401, 200))
        self.assertEqual((self.acts()[-1], self.gate.accounts.is_first("anna")), ({"login": "chef", "act": "givePassword", "of": "anna"}, True))


class OwnPasswordTest(OfficeTest):
    def setUp(self):
        super().setUp()
        self.give()
        self.token, self.other = self.session("anna", PASSWORD), self.session("anna", PASSWORD)

    def change(self, old=PASSWORD, new=OTHER, **more):
        return self.by("anna", "/password", {"old": old, "new": new}, cookie=self.token, **more)

    def test_change(self):
        self.assertEqual(self.change(), (200, {}))
        self.assertEqual([self.by("", "/who", method="GET", cookie=token)[0] for token in (self.token, self.other)], [200, 401])
        self.assertEqual((self.log_in("anna", PASSWORD)[0], self.log_in("anna", OTHER)[0]), (401, 200))
        self.assertEqual((self.acts()[-1], self.gate.accounts.is_first("anna"), self.gate.sessions.coming), ({"login": "anna", "act": "changePassword"}, False, {}))
        self.assertNotIn(OTHER, self.printed.getvalue() + (self.own / "acts").read_text())

    def test_its_session_goes_on_all_the_while(self):
        """Also between the moment at which the file has the new one and the end of the change."""
        give, seen = accounts.give_password, []

        def slow(*words, **more):
            give(*words, **more)
            seen.append(self.by("", "/who", method="GET", cookie=self.token)[0])

        with mock.patch.object(accounts, "give_password", slow):
            self.assertEqual(self.change()[0], 200)
        self.assertEqual(seen, [200])

    def test_half_a_sign_is_a_wrong_one(self):
        self.error(self.change(old="\ud800"), 403, "wrongPassword")

    def test_by_name_and_password(self):
        self.assertEqual(self.by("anna", "/password", {"old": PASSWORD, "new": OTHER}, password=PASSWORD), (200, {}))
        self.assertEqual(self.by("", "/who", method="GET", cookie=self.token)[0], 401)

    def test_wrong_ones_count_as_those_of_a_log_in(self):
        for number in range(10):
            self.error(self.change(old=f"wrong-{number}") if number % 2 else (self.log_in("anna", f"wrong-{number}")[0] + 2, {"error": {"name": "wrongPassword"}}), 403, "wrongPassword")
        self.error(self.change(old="\ud800"), 429, "tooManyRequests")
        self.assertEqual((self.log_in("anna", "another")[0], "refused, wrong password: anna at 192.0.2.1" in self.printed.getvalue()), (429, True))

    def test_what_no_new_one_is(self):
        for new in ("short", PASSWORD, "a" * 73):
            self.error(self.change(new=new), 400, "passwordForm")
        for body in (b"", b"old=a&new=b", b'{"old":"x"}'):
            self.assertEqual(self.by("", "/password", body, cookie=self.token)[0], 400, body)
        self.assertEqual(self.by("", "/who", method="GET", cookie=self.other)[0], 200)

    def test_another_site(self):
        self.assertEqual([self.change(**{"Sec-Fetch-Site": site})[0] for site in ("cross-site", "same-site")], [403, 403])
        self.assertEqual(self.change(Origin="https://elsewhere")[0], 403)
        self.assertEqual(self.change(Origin="https://desk:8443")[0], 200)


class MayTest(OfficeTest):
    def test_who_administers(self):
        for login in ("pbx", "planner", "sup", "ana", "Copy.2", "nobody", "Jürgen"):
            self.assertEqual(self.by(login, "/office", method="GET")[0], 403, login)
            for path in OFFICE:
                self.assertEqual(self.by(login, path, {**ANNA, "requester": login, "service": "addStation", "device": "1"})[0], 403, (login, path))
        self.assertEqual((self.desk.got, os.listdir(self.own)), ([], []))
        for login, wanted in (("chef", 200), ("planner", 200), ("Copy.2", 200), ("pbx", 403), ("sup", 403), ("ana", 403)):
            self.assertEqual(self.by(login, "/acts", method="GET")[0], wanted, login)

    def test_a_forged_login(self):
        """A login that the gate hasn't found out by itself administers nothing: neither with the field of an older proxy, nor with a wrong secret, nor beside a good one."""
        for fields in ({"X-Login": "chef"}, {"X-Login": "chef", "X-Proxy": "0" * 64}, {"X-Login": "chef", "X-Proxy": ""}):
            for path in (*OFFICE, "/password"):
                status, _, _ = self.exchange("POST", path, json.dumps(ANNA), {"X-Site": "https://desk:8443", **fields})
                self.assertEqual(status, 403, (fields, path))
            self.assertEqual([self.exchange("GET", path, None, fields)[0] for path in ("/office", "/acts")], [403, 403])
        self.assertEqual(self.by("sup", "/office/login", ANNA, **{"X-Login": "chef"})[0], 403)
        self.assertEqual(self.exchange("POST", "/office/login", json.dumps(ANNA), {"X-Proxy": PROXYS, "X-Login": "chef"})[0], 401)
        self.assertEqual(os.listdir(self.own), [])

    def test_another_site(self):
        for fields in ({"Origin": "https://elsewhere"}, {"Sec-Fetch-Site": "cross-site"}, {"Sec-Fetch-Site": "same-site"}):
            for path in (*OFFICE, "/password"):
                self.assertEqual(self.chef(path, ANNA, **fields)[0], 403)

    def test_no_get(self):
        self.assertEqual([self.chef(path, method="GET")[0] for path in (*OFFICE, "/password")], [404] * 5)

    def test_who_loses_the_role_meanwhile(self):
        """Fetched first, and judged then."""
        from acd_service.gate import administering

        def late(password):
            self.roles.write_text(ROLES + "chef supervisor\n")
            return "$2b$04$" + "a" * 53

        with mock.patch.object(administering, "hashed", late):
            self.assertEqual(self.chef("/office/login", ANNA)[0], 403)
        self.assertEqual(os.listdir(self.own), [])

    def test_without_a_folder(self):
        self.gate.accounts.folder = None
        self.assertEqual([self.chef(path, ANNA)[0] for path in (*OFFICE, "/password")] + [self.chef("/office", method="GET")[0]], [404] * 6)
        self.assertEqual(self.by("chef", "/who", method="GET")[1], {"login": "chef", "role": "admin"})

    def test_a_disk_that_is_full(self):
        with mock.patch.object(accounts, "give_role", side_effect=OSError(28, "No space left on device")):
            self.error(self.chef("/office/login", ANNA), 500, "notWritten")
        self.assertEqual([(act["act"], act.get("number_of")) for act in self.acts()], [("giveLogin", None), ("notDone", 1)])
        with mock.patch.object(acts.Acts, "add", side_effect=OSError(28, "No space left on device")):
            self.error(self.chef("/office/login", {**ANNA, "key": "2"}), 500, "notWritten")
        self.assertEqual(os.listdir(self.own), ["acts"])
        self.give()

    def test_the_acts(self):
        self.give()
        self.give(login="benno")
        status, told = self.by("planner", "/acts?after=1", method="GET")
        self.assertEqual((status, told["last"], [act["of"] for act in told["acts"]]), (200, 2, ["benno"]))
        for query in ("after=x", "after=-1", "after=" + "9" * 16, "before=1"):
            self.assertEqual(self.by("planner", f"/acts?{query}", method="GET")[0], 400, query)


class PlanTest(OfficeTest):
    def setUp(self):
        super().setUp()
        self.desk.status = 200

    def plan(self, service="addAgent", name="Jürgen Müller", invoke=1, **members):
        body = {"requester": "chef-1", "invoke": invoke, "service": service, **({"agent": "12"} if "Agent" in service else {"device": "100"}), **({} if name is None else {"name": name}), **members}
        return self.chef("/office/plan", body)

    def names(self):
        return json.loads((self.own / "names.json").read_text())

    def test_a_name_in_any_script(self):
        self.assertEqual(self.plan(), (200, {"invoke": 1}))
        self.assertEqual(self.desk.got, [("/csta", b'{"requester":"chef-1","invoke":1,"service":"addAgent","agent":"12","name":"Juergen Mueller"}')])
        self.assertEqual(self.plan("addGroup", "Störung", 2, ring=20, wrap=30)[0], 200)
        self.assertEqual(self.names(), {"agents": {"12": "Jürgen Müller"}, "groups": {"100": "Störung"}})
        self.assertEqual(self.acts(), [{"login": "chef", "act": "giveName", "agent": "12", "name": "Jürgen Müller"}, {"login": "chef", "act": "giveName", "device": "100", "name": "Störung"}])
        self.plan()  # a second click
        self.assertEqual(len(self.acts()), 2)
        self.assertEqual(self.plan("changeAgent", "Juergen Mueller", 3)[0], 200)
        self.assertEqual((self.names()["agents"], self.acts()[-1]), ({}, {"login": "chef", "act": "takeName", "agent": "12"}))
        self.plan("addStation", None, 4, device="201")
        self.plan("changeAgent", "Ben", 5)
        self.assertEqual(len(self.acts()), 3)

    def test_a_refusal_names_nobody(self):
        self.desk.status = 409
        self.assertEqual(self.plan()[0], 409)
        self.assertEqual(os.listdir(self.own), [])

    def test_names_that_are_none(self):
        for name in ("", " x", 7, "a\nb", "n" * 81):
            status, told = self.plan(name=name)
            self.assertEqual((status, told["error"].get("member")), (400, "name"), name)
        self.assertEqual(self.desk.got, [])

    def test_only_the_plan(self):
        for service in ("tick", "arriveCall", "clearConnection", "setAgentState", "startMonitor", 7, None):
            self.assertEqual(self.plan(service=service if service else "x")[0] if isinstance(service, str) else self.chef("/office/plan", {"requester": "chef", "invoke": 1, "service": service})[0], 403, service)
        self.assertEqual(self.chef("/office/plan", {"requester": "pbx-1", "invoke": 1, "service": "addStation", "device": "1"})[0], 403)
        self.assertEqual(self.chef("/office/plan", b'{"requester":"chef","requester":"pbx"}')[0], 400)
        self.assertEqual(self.desk.got, [])
        # and by /csta, as an office's
        self.assertEqual([self.chef("/csta", {"requester": "chef", "invoke": 1, "service": service, "device": "1"})[0] for service in ("addStation", "tick")], [200, 403])

    def test_the_plan_as_the_page_shows_it(self):
        self.assertNotIn("plan", self.chef("/office", method="GET")[1])
        self.desk.known = {"/snapshot": {"last": 0, "moment": 5, "groups": [{"device": "100", "name": "Stoerung", "ring": 20, "wrap": 30, "priority": 1}], "stations": [{"device": "201", "agent": "12"}], "calls": [],
                                         "agents": [{"agent": "12", "name": "Juergen Mueller", "state": "null", "since": 0}]}}
        self.plan()
        self.plan("changeGroup", "Störung", 2)
        self.assertEqual(self.chef("/office", method="GET")[1]["plan"], {"groups": [{"device": "100", "name": "Störung", "ring": 20, "wrap": 30}], "stations": [{"device": "201"}], "agents": [{"agent": "12", "name": "Jürgen Müller"}]})

    def test_pages_are_told_the_name(self):
        self.desk.known = {"/snapshot": {"last": 0, "moment": 5, "groups": [], "stations": [], "calls": [], "agents": [{"agent": "12", "name": "Juergen Mueller", "state": "null", "since": 0, "stamp": 1}]},
                           "/history": {"events": [], "last": 0}, "/events": {"events": [], "last": 0}}
        self.plan()
        status, told = self.by("pbx", "/mine?agent=12", method="GET")
        self.assertEqual((status, told["agent"]["name"], told["names"]["agents"]), (200, "Jürgen Müller", [{"agent": "12", "name": "Jürgen Müller"}]))


del DoorTest, OfficeTest

if __name__ == "__main__":
    unittest.main()
