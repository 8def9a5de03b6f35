#!/usr/bin/python3
"""Tests of how the gate finds out who asks.   usage: tests/unit/gate/test_door.py

Needs python3-aiohttp, python3-passlib and python3-bcrypt (Debian packages)."""
import contextlib
import io
import json
import unittest

from standing import FORBIDDEN, PAGE, PATIENCE, PROXYS, REPLY, SESSIONS, DoorTest, basic

from acd_service.gate.exchanges import Left, Question
from trial import Connection

UNAUTHORIZED = (401, b'{"error":{"code":42,"name":"unauthorized"}}')
TOO_MANY = (429, b'{"error":{"code":43,"name":"tooManyRequests"}}')
GETS = ("/who", "/session", "/mine", "/requests", "/records/", "/records/groups/2026-11-27.csv", "/basic?/board/", "/none")
POSTS = ("/csta", "/session", "/none")


class OneQuestionTest(DoorTest):
    """What nginx sends on unasked."""

    def once(self, method, path, authorization=None, body=None, **fields):
        """Status and body of a request that nginx sends on, and its fields."""
        named = {"X-Proxy": PROXYS, "X-Address": "192.0.2.1", "X-Site": "https://desk:8443", "X-Path": path, **({"Authorization": authorization} if authorization else {}),
                 **{name.replace("_", "-"): value for name, value in fields.items()}}
        status, told, answer = self.exchange(method, path, body, named)
        self.assertNotIn("x-why", told)
        return (status, answer), told

    def everywhere(self, wanted, **fields):
        for method, paths in (("GET", GETS), ("POST", POSTS), ("PUT", ("/csta",))):
            for path in paths:
                self.assertEqual(self.once(method, path, body=b"{}" if method != "GET" else None, **fields)[0], wanted, (method, path))

    def test_a_forged_login_is_nobody(self):
        self.everywhere(UNAUTHORIZED, X_Login="pbx")
        self.assertEqual(self.once("GET", "/who", basic("pbx", "guess"), X_Login="pbx")[0], UNAUTHORIZED)
        self.everywhere(UNAUTHORIZED, X_Login="pbx", authorization=basic("pbx"), Cookie=f"__Host-acd={'A' * 43}.{'B' * 22}")
        self.assertEqual(self.desk.got, [])
        self.assertEqual(json.loads(self.once("GET", "/who", basic("ana"), X_Login="pbx")[0][1])["login"], "ana")

    def test_a_password(self):
        self.assertEqual(self.once("POST", "/csta", basic("pbx"), b'{"requester":"pbx"}')[0], (409, REPLY))
        self.assertEqual(self.once("GET", "/requests?after=7", basic("planner"))[0], (200, PAGE))
        self.assertEqual(self.once("GET", "/requests", basic("pbx"))[0], FORBIDDEN)
        self.assertEqual(self.once("GET", "/basic?/board/", basic("pbx"))[1]["location"], "/board/")
        self.assertEqual(self.once("GET", "/who", basic("J\xfcrgen".encode()))[0][0], 200)

    def test_a_session(self):
        cookie = self.log_in("ana")[1]["set-cookie"].partition(";")[0]
        for method in ("GET", "POST"):
            (status, answer), _ = self.once(method, "/session", Cookie=cookie)
            self.assertEqual((status, json.loads(answer)["login"], json.loads(answer)["ends"] > 0), (200, "ana", True))
        self.assertEqual(self.once("POST", "/csta", basic("pbx"), b'{"requester":"pbx"}', Cookie=cookie)[0], FORBIDDEN)
        self.assertEqual(self.once("POST", "/csta", None, b'{"requester":"ana","service":"tick"}', Cookie=cookie, Origin="https://elsewhere")[0], FORBIDDEN)
        self.assertEqual(self.once("POST", "/logout", Cookie=cookie)[0][0], 204)
        self.assertEqual(self.once("GET", "/session", Cookie=cookie)[0], UNAUTHORIZED)

    def test_who_has_no_line(self):
        with contextlib.redirect_stderr(io.StringIO()):
            self.everywhere(FORBIDDEN, authorization=basic("nobody"))

    def test_who_is_asked_for_a_password(self):
        asks = 'Basic realm="desk", charset="UTF-8"'
        script = {"Sec_Fetch_Site": "same-origin", "Sec_Fetch_Mode": "cors"}
        for path, fields, wanted in (("/who", {}, asks), ("/who", script, None), ("/basic?/board/", script, asks), ("/csta", {}, asks)):
            told, found = self.once("POST" if path == "/csta" else "GET", path, **fields)
            self.assertEqual((told, found.get("www-authenticate")), (UNAUTHORIZED, wanted), (path, fields))

    def test_too_many(self):
        for _ in range(10):
            self.assertEqual(self.once("GET", "/who", basic("ana", "guess"))[0], UNAUTHORIZED)
        self.everywhere(TOO_MANY, authorization=basic("ana"))
        self.assertNotIn("www-authenticate", self.once("GET", "/who", basic("ana"))[1])

    def test_each_request_counts_once(self):
        self.gate.rates.clock = lambda: self.now
        self.gate.rates.left["pbx"] = 3, self.now
        self.assertEqual([self.once("POST", "/csta", basic("pbx"), b'{"requester":"pbx"}')[0][0] for _ in range(4)], [409] * 3 + [429])
        # nginx of before has asked first, where it counted
        self.gate.rates.left["sup"] = 1, self.now
        self.assertEqual([self.ask("sup", None, "GET", "/who")[0] for _ in range(3)], [200] * 3)

    def test_nobodys_body_is_looked_at(self):
        self.assertEqual(self.once("POST", "/csta", None, b" " * 5000)[0], UNAUTHORIZED)
        self.assertEqual(self.once("POST", "/csta", basic("pbx"), b" " * 5000)[0][0], 413)

    def test_a_connection_stays_behind_a_refusal(self):
        """Also where a body came with it, which nobody has read."""
        ports = set()
        with Connection(self.port, seconds=PATIENCE) as one:
            for authorization, status in ((b"", 401), (basic("pbx"), 409), (b"", 401), (basic("nobody"), 403), (basic("pbx"), 409)):
                with contextlib.redirect_stderr(io.StringIO()):
                    reply = one.ask("POST", "/csta", b'{"requester":"pbx"}' + b" " * 4000, [("X-Proxy", PROXYS), ("X-Address", "192.0.2.1"), ("Authorization", authorization)])
                self.assertEqual((reply.status, reply.fields["connection"]), (status, "keep-alive"))
                ports.add(one.connection.sock.getsockname())
        self.assertEqual((len(ports), len(self.desk.got)), (1, 2))

    def test_who_has_left_is_dropped(self):
        """Its password isn't looked at."""
        looked = self.looks()
        fields = {"x-proxy": PROXYS, "x-address": "192.0.2.1", "authorization": basic("ana").decode()}
        with self.assertRaises(Left):
            self.standing.do(self.gate.answer(Question("GET", "/who", "", fields, None, lambda: True)))
        self.assertEqual(looked, [])

    def test_another_secret_is_none(self):
        """Behind nginx of before a client may write the field."""
        with contextlib.redirect_stderr(io.StringIO()) as printed:
            self.assertEqual(self.ask("ana", None, "GET", "/who", X_Proxy="0" * 64)[0], 200)
            self.assertEqual(printed.getvalue(), "")
            for _ in range(2):
                self.assertEqual(self.once("GET", "/who", basic("ana"), X_Proxy="0" * 64)[0], FORBIDDEN)
        self.assertRegex(printed.getvalue(), r"\Aacd-gate: nginx has another secret than this gate.*\n\Z")

    def test_the_proxy_of_before(self):
        """nginx's configuration of 1.16 says the secret that signs sessions."""
        with contextlib.redirect_stderr(io.StringIO()) as printed:
            self.assertEqual(self.once("GET", "/who", basic("ana"), X_Login="pbx", X_Proxy=SESSIONS)[0][0], 200)
            self.assertEqual(self.once("GET", "/who", X_Login="pbx", X_Proxy=SESSIONS)[0], UNAUTHORIZED)
        self.assertEqual(printed.getvalue(), "")

    def test_no_secret_is_nobodys(self):
        self.gate.door.secrets = []
        self.assertEqual(self.once("GET", "/who", basic("pbx"), X_Login="ana", X_Proxy="")[0][0], 200)
        self.assertEqual(self.ask("", None, "GET", "/who", X_Proxy="", Authorization=basic("pbx")), FORBIDDEN)

    def test_the_question_of_nginx(self):
        """For files, and for the desk's reads, it asks first, and nothing is told in the journal."""
        with contextlib.redirect_stderr(io.StringIO()) as printed:
            for path, login, wanted in (("/auth/any", "ana", (204, b"")), ("/auth/reads", "ana", (403, b"")), ("/auth/reads", "sup", (204, b""))):
                self.assertEqual(self.exchange("GET", path, None, {"X-Proxy": PROXYS, "X-Address": "192.0.2.1", "Authorization": basic(login)})[::2], wanted)
        self.assertEqual(printed.getvalue(), "")


if __name__ == "__main__":
    unittest.main()
