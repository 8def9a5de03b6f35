#!/usr/bin/python3
"""Tests of the files of roles and users.   usage: tests/unit/gate/test_roles.py

Needs python3-aiohttp, python3-passlib and python3-bcrypt (Debian packages)."""
import contextlib
import io
import unittest

from standing import FORBIDDEN, ROLES, SECRET, DoorTest, basic, lines, roles

from acd_service.gate.desk import Desk, Place
from acd_service.gate.roles import NOTHING, Role, hashes_of
from acd_service.gate.routes import Gate


class RoleTest(DoorTest):
    def test_lines(self):
        agent = Role("agent", "7", frozenset({"201", "202"}), frozenset({"100"}))
        for words in ("agent agent=7 stations=201,202 groups=100", "groups=100 stations=202,201 agent 7", "agent=7 groups=100 agent stations=201,202", "agent 7 groups=100 stations=201,202"):
            self.assertEqual(roles(f"ana {words}"), ({"ana": agent}, ""), words)
        self.assertEqual(roles("agent agent 7\n exchange\texchange\t#all"), ({"agent": Role("agent", "7"), "exchange": Role("exchange")}, ""))

    def test_faulty_lines(self):
        for words in ("", "wizard", "agent", "agent 7 8", "agent 7 agent=7", "agent=7", "agent agent 7", "office 7", "office agent=7", "exchange stations=201", "supervisor groups=100",
                      "agent 7 stations=", "agent 7 stations=201,", "agent 7 stations=201, 202", "agent 7 stations=201 stations=202", "agent 7 groups=all", "agent 7 room=1", "agent x",
                      "agent 7 Stations=201", "lead", "lead agent=7 groups=100", "lead groups=100 stations=201", "lead groups=", "lead groups=100 reads=own", "supervisor reads=own", "office reads=some",
                      "follow reads=all", "follow reads=none", "follow groups=100", "follow office", "agent 7 reads=", "agent 7 reads=own reads=own", "reads=all", "agent 7 office", "agent=1234567890 agent", "agent 7 stations=1234567890123456", "agent ٧", "agent agent=٧", "agent agent= 7"):
            found, printed = roles(f"pbx exchange\n\nana {words}\r")
            self.assertEqual(found, {"pbx": Role("exchange"), "ana": NOTHING}, words)
            self.assertRegex(printed, r"\Aacd-gate: roles, line 3: ana .*\n\Z")

    def test_what_a_faulty_line_is_told(self):
        for words, wanted in (("lead groups=100;110", 'cannot read "groups=100;110" (separate groups by commas)'), ("agent 7 room=1", 'cannot read "room=1"'), ("wizard", "its role is wizard")):
            self.assertEqual(roles(f"uwe {words}")[1], f"acd-gate: roles, line 1: uwe is refused: {wanted}\n")

    def test_what_a_line_reads(self):
        for words, wanted in (("supervisor", "all"), ("office reads=none", "none"), ("agent 7", "own"), ("reads=all agent 7", "all"), ("agent reads=none agent=7", "none"), ("lead groups=1", "all"),
                              ("exchange reads=all", "all"), ("follow", "none"), ("admin", "all"), ("admin reads=none", "none")):
            found, printed = roles(f"ana {words}")
            self.assertEqual((found["ana"].reading, printed), (wanted, ""), words)

    def test_two_lines_of_a_login(self):
        found, printed = roles("ana agent 7\nben office\nana agent 8")
        self.assertEqual(found, {"ana": NOTHING, "ben": Role("office")})
        self.assertRegex(printed, r"\Aacd-gate: roles, line 3: ana .*\n\Z")
        self.assertEqual(roles("ana agent 7\nana agent 8\nana agent 7")[0], {"ana": NOTHING})
        self.assertEqual(roles("pbx exchange\npbx exchange"), ({"pbx": Role("exchange")}, ""))

    def test_byte_order_mark_and_carriage_returns(self):
        (found, _), printed = lines(b"\xef\xbb\xbfana agent 7\r\nben office\r\n\r\n# caf\xe9\r\n")
        self.assertEqual(found, {"ana": Role("agent", "7"), "ben": Role("office")})
        self.assertNotIn("gets nothing", printed)
        (_, hashes), _ = lines(f"\ufeffana:{SECRET}\r\nben:{SECRET}:a note\r\n".encode())
        self.assertEqual(hashes, {"ana": SECRET, "ben": SECRET})

    def test_roles_are_read_again(self):
        tick, state = {"requester": "eve", "service": "tick"}, {"requester": "ana", "service": "setAgentState", "agent": "7"}
        self.assertFalse(self.passes("eve", tick))
        self.assertTrue(self.passes("ana", state))
        with contextlib.redirect_stderr(io.StringIO()) as printed:
            self.roles.write_text(ROLES + "eve exchange\nana supervisor\n")
            self.assertTrue(self.passes("eve", tick))
            self.assertFalse(self.passes("ana", state))
            self.roles.unlink()
            self.assertTrue(self.passes("eve", tick))  # by the last content
            self.assertEqual(self.ask("eve", None, "GET", "/who")[0], 200)
        self.assertRegex(printed.getvalue(), rf"\Aacd-gate: {self.roles}, line 15: ana .*\nacd-gate: {self.roles} can't be read: No such file or directory\n\Z")

    def test_faulty_users(self):
        for line in ("ana", "ana:", "ana:secret", "ana:{PLAIN}secret", "ana:*", "ana:!", f"an\x01a:{SECRET}", f"a b:{SECRET}", f":{SECRET}", SECRET):
            with contextlib.redirect_stderr(io.StringIO()) as printed:
                self.assertEqual(hashes_of("users", [f"ben:{SECRET}", line]), {"ben": SECRET}, line)
            self.assertRegex(printed.getvalue(), r"\Aacd-gate: users, line 2: .*\n\Z")
            self.assertNotIn("secret", printed.getvalue())
        with contextlib.redirect_stderr(io.StringIO()):
            self.users.write_text("ana:$2y$05$cut off\n")
            self.assertEqual([self.auth(basic("ana", password)) for password in ("secret", "", "$2y$05$cut off")], [self.WRONG] * 3)

    def test_a_line_that_does_not_parse_reads_neither(self):
        with contextlib.redirect_stderr(io.StringIO()) as printed:
            self.roles.write_text(ROLES.replace("ana agent 7 ", "ana agnet 7 "))
            self.assertEqual((self.auth(basic("ana")), self.auth(basic("ana", "wrong"))), ((403, None, None), self.WRONG))
            self.assertEqual(self.ask("ana", None, "GET", "/who"), FORBIDDEN)
            self.assertFalse(self.passes("ana", {"requester": "ana", "service": "setAgentState", "agent": "7"}))
            self.assertEqual(self.auth(basic("pbx")), (204, "pbx", None))
        self.assertEqual(printed.getvalue().count(f"{self.roles}, line 5: ana is refused"), 1)

    def test_a_login_without_a_line_gets_nothing(self):
        with contextlib.redirect_stderr(io.StringIO()) as printed:
            for path in ("/auth", "/auth/any", "/auth/reads"):
                self.assertEqual(self.exchange("GET", path, None, {"X-Address": "192.0.2.1", "X-Signed": "yes", "Authorization": basic("nobody")})[0], 403)
            self.assertEqual(self.auth(basic("nobody", "guess")), self.WRONG)
            self.assertEqual(self.log_in("nobody")[0], 403)
            self.assertEqual([self.ask("nobody", None, "GET", path)[0] for path in ("/mine?agent=7", "/requests", "/records/")], [403] * 3)
            self.roles.write_text(ROLES + "nobody supervisor\n")
            self.assertEqual(self.auth(basic("nobody")), (204, "nobody", None))
        self.assertEqual(printed.getvalue(), f"acd-gate: nobody gets nothing: it has no line in {self.roles}\nacd-gate: refused, wrong password: nobody at 192.0.2.1\n"
                                             "acd-gate: refused, no line in the roles: nobody at 192.0.2.1\n")

    def test_roles_that_cannot_be_read(self):
        """Those of before stay in force; at a start without any nobody gets in."""
        with contextlib.redirect_stderr(io.StringIO()) as printed:
            self.assertEqual(self.exchange("GET", "/auth/reads", None, {"X-Signed": "yes", "Authorization": basic("ana")})[0], 403)
            away = self.roles.rename(self.roles.with_name("away"))
            self.assertEqual([self.exchange("GET", "/auth/reads", None, {"X-Signed": "yes", "Authorization": basic(login)})[0] for login in ("ana", "sup")], [403, 204])
            begun = Gate(Desk(Place(1)), self.roles, self.users)
            self.assertEqual([begun.role_of(login) for login in ("ana", "sup", "pbx", "nobody")], [NOTHING] * 4)
            away.rename(self.roles)
            self.assertEqual([begun.role_of(login).name for login in ("ana", "sup", "pbx", "nobody")], ["agent", "supervisor", "exchange", "nothing"])
        self.assertEqual(printed.getvalue(), f"acd-gate: {self.roles} can't be read: No such file or directory\n" * 2)


if __name__ == "__main__":
    unittest.main()
