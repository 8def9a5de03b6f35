#!/usr/bin/python3
"""Tests of the logins, roles and names that an office gives, beside root's files.   usage: tests/unit/gate/test_accounts.py

Needs python3-aiohttp, python3-passlib and python3-bcrypt (Debian packages)."""
import asyncio
import contextlib
import io
import json
import os
import unittest
from pathlib import Path
from tempfile import TemporaryDirectory
from unittest import mock

from standing import SECRET, Named

from acd_service.gate import accounts
from acd_service.gate.accounts import Accounts
from acd_service.gate.roles import NOTHING, Role

# of "one first password" by bcrypt, as `htpasswd -nbB -C 4 x` makes it
FIRST = "$2y$04$q0W8vj5AqQrW3s6zVvJ0eu8uYb7Ak8v1zX0T2oH6z0t8yq1qk3q3K"


class AccountsTest(Named):
    def setUp(self):
        super().setUp()
        folder = Path(self.enterContext(TemporaryDirectory()))
        self.roles, self.users, self.own = folder / "roles", folder / "users", folder / "own"
        self.own.mkdir()
        self.roles.write_text("pbx exchange\nchef admin\nsup supervisor\n")
        self.users.write_text(f"pbx:{SECRET}\nchef:{SECRET}\nboss:{SECRET}\n")
        self.accounts = Accounts(self.roles, self.users, self.own)

    def both(self):
        """The roles and users that count, and what was reported."""
        with contextlib.redirect_stderr(io.StringIO()) as printed:
            found = self.accounts.both()
        return found, printed.getvalue().replace(f"{self.own}/", "").replace(f"{self.roles.parent}/", "")

    def write(self, roles="", users=""):
        (self.own / "roles").write_text(roles)
        (self.own / "users").write_text(users)

    def test_without_own_files_there_are_roots(self):
        (roles, users), printed = self.both()
        self.assertEqual((roles, list(users), printed), ({"pbx": Role("exchange"), "chef": Role("admin"), "sup": Role("supervisor")}, ["pbx", "chef", "boss"], ""))
        self.assertEqual(Accounts(self.roles, self.users).both(), (roles, users))
        self.assertEqual((self.accounts.own(), self.accounts.names(), Accounts(self.roles, self.users).own(), Accounts(self.roles, self.users).names()), ({}, {}, {}, {}))

    def test_the_offices_own_are_below(self):
        self.write("anna agent agent=7 groups=100\nlena lead groups=100\nsven supervisor\n", f"anna:{SECRET}:first\nlena:{SECRET}\nsven:{SECRET}:other\n")
        (roles, users), printed = self.both()
        self.assertEqual((roles["anna"], roles["lena"].name, roles["sven"].name, printed), (Role("agent", "7", None, frozenset({"100"})), "lead", "supervisor", ""))
        self.assertEqual({login: one.first for login, one in self.accounts.own().items()}, {"anna": True, "lena": False, "sven": False})
        self.assertEqual([self.accounts.is_own(login) for login in ("anna", "chef", "nobody")], [True, False, False])
        self.assertEqual([self.accounts.is_first(login) for login in ("anna", "lena", "chef")], [True, False, False])
        self.assertEqual(set(users), {"pbx", "chef", "boss", "anna", "lena", "sven"})

    def test_no_other_role(self):
        """Line by line: what a broken gate might write gives nobody another role."""
        for line in ("eve admin", "eve exchange", "eve office", "eve follow", "eve rules", "eve wizard", "eve agent agent=7\neve admin", "eve supervisor\neve exchange"):
            self.write(f"anna agent agent=7\n{line}\n", f"anna:{SECRET}\neve:{SECRET}\n")
            (roles, _), printed = self.both()
            self.assertEqual((roles["eve"], roles["anna"].name), (NOTHING, "agent"), line)
            self.assertRegex(printed, r"\Aacd-gate: roles, line [23]: eve is refused: .*\n\Z", line)
        self.assertIn("is given by roles alone", self.refused("eve admin"))

    def refused(self, line):
        self.write(line)
        return self.both()[1]

    def test_nothing_of_roots(self):
        """Neither a login of one of root's files nor one that would take the keys of one."""
        for login in ("pbx", "chef", "sup", "boss", "pbx-1", "chef-a-b"):
            self.write(f"{login} supervisor\n", f"{login}:{FIRST}\n")
            before, (found, printed) = Accounts(self.roles, self.users).both(), self.both()
            self.assertEqual(({one: role for one, role in found[0].items() if role != NOTHING}, found[1]), before, login)
            self.assertEqual(printed.count(f"{login} is refused: {login.split('-')[0]} is a login of roles or users, which come first"), 2, printed)
            self.assertEqual((printed.count("acd-gate: roles, line 1"), printed.count("acd-gate: users, line 1")), (1, 1), printed)

    def test_logins_without_keys(self):
        for login in ("clock", "plan-1", "Anna", "jürgen", "a" * 16):
            self.write(f"{login} agent agent=7\n", f"{login}:{FIRST}\n")
            (roles, users), printed = self.both()
            self.assertEqual((roles.get(login, NOTHING), login in users), (NOTHING, False), login)
            self.assertEqual(printed.count(f"{login} is refused"), 2)

    def test_root_takes_a_login_over(self):
        self.write("anna supervisor\n", f"anna:{FIRST}\n")
        self.assertEqual(self.both()[0][0]["anna"], Role("supervisor"))
        self.roles.write_text("anna agent agent=7\n")
        (roles, users), printed = self.both()
        self.assertEqual((roles["anna"], "anna" in users), (Role("agent", "7"), False))
        self.assertEqual(printed.count("anna is refused"), 2)
        self.assertEqual(self.both()[1], "")  # once
        self.roles.write_text("pbx exchange\n")
        self.assertEqual((self.both()[0][0]["anna"], self.both()[0][1]["anna"]), (Role("supervisor"), FIRST))

    def test_where_roots_cant_be_read(self):
        self.write("anna supervisor\n", f"anna:{FIRST}\n")
        self.assertIn("anna", self.both()[0][1])
        self.users.unlink()
        (_, users), printed = self.both()
        self.assertEqual(users, {})
        self.assertEqual(printed, "acd-gate: users can't be read: No such file or directory\n")
        self.assertEqual((self.both()[1], self.accounts.own()), ("", {}))
        self.users.write_text("")
        self.assertIn("anna", self.both()[0][1])
        self.roles.unlink()
        self.assertIn("anna", self.both()[0][1])  # those of before stay in force
        fresh = Accounts(self.roles, self.users, self.own)
        with contextlib.redirect_stderr(io.StringIO()):
            self.assertEqual(fresh.both(), ({}, {}))

    def test_what_is_written_is_read(self):
        agent = Role("agent", "7", frozenset({"203", "9"}), frozenset({"110", "100"}))
        accounts.give_role(self.own, "anna", agent)
        accounts.give_password(self.own, "anna", FIRST, True)
        accounts.give_role(self.own, "ben", Role("lead", groups=frozenset({"100"})))
        accounts.give_password(self.own, "ben", FIRST, False)
        self.assertEqual((self.own / "roles").read_text(), "anna agent agent=7 stations=9,203 groups=100,110\nben lead groups=100\n")
        self.assertEqual((self.own / "users").read_text(), f"anna:{FIRST}:first\nben:{FIRST}\n")
        (roles, users), printed = self.both()
        self.assertEqual((roles["anna"], users["ben"], printed), (agent, FIRST, ""))
        accounts.give_role(self.own, "anna", Role("supervisor"))
        accounts.give_password(self.own, "anna", FIRST, False)
        self.assertEqual((self.both()[0][0]["anna"], self.accounts.is_first("anna")), (Role("supervisor"), False))
        accounts.end_login(self.own, "anna")
        self.assertEqual(((self.own / "roles").read_text(), (self.own / "users").read_text()), ("ben lead groups=100\n", f"ben:{FIRST}\n"))
        self.assertEqual(self.both()[0][0].get("anna"), None)
        self.assertEqual([os.stat(self.own / name).st_mode & 0o777 for name in ("roles", "users")], [0o600, 0o600])

    def test_names(self):
        accounts.give_name(self.own, "agents", "7", "Jürgen Müller")
        accounts.give_name(self.own, "agents", "8", "Иван")
        accounts.give_name(self.own, "groups", "100", "Störung")
        accounts.give_name(self.own, "agents", "8", None)
        self.assertEqual(json.loads((self.own / "names.json").read_text()), {"agents": {"7": "Jürgen Müller"}, "groups": {"100": "Störung"}})
        snapshot = {"groups": [{"device": "100", "name": "Stoerung"}, {"device": "110", "name": "Billing"}], "agents": [{"agent": "7", "name": "Juergen Mueller"}]}
        self.assertEqual(self.accounts.shown(snapshot), {"groups": [{"device": "100", "name": "Störung"}, {"device": "110", "name": "Billing"}], "agents": [{"agent": "7", "name": "Jürgen Müller"}]})
        # somebody else has the number now
        self.assertEqual(self.accounts.shown({"groups": [], "agents": [{"agent": "7", "name": "Bert"}]})["agents"][0]["name"], "Bert")

    def test_names_that_are_none(self):
        for text, wanted in (("[]", {}), ("{", {}), ("", {}), ('{"agents":[],"groups":{"1":"a","2":3,"3":"x\\u0007","4":"","5":" b"},"stations":{"1":"a"}}', {"groups": {"1": "a"}}), (json.dumps({"agents": {"7": "n" * 81}}), {"agents": {}})):
            (self.own / "names.json").write_text(text)
            with contextlib.redirect_stderr(io.StringIO()) as printed:
                self.assertEqual(self.accounts.names(), wanted, text)
            self.assertEqual("it must be a JSON object" in printed.getvalue(), text in ("[]", "{"), text)

    def test_one_look_in_a_turn_of_the_loop(self):
        """However many ask; without a loop each looks."""
        with mock.patch.object(self.accounts, "look", side_effect=self.accounts.look) as looked:
            async def ask():
                roles, users = self.accounts.roles.now(), self.accounts.users.now()
                self.assertEqual((looked.call_count, roles["sup"].name, list(users)), (1, "supervisor", ["pbx", "chef", "boss"]))
                self.roles.write_text("sup lead groups=100\n")
                self.assertEqual(self.accounts.roles.now(), roles)
                await asyncio.sleep(0)
                self.assertEqual((self.accounts.roles.now()["sup"].name, looked.call_count), ("lead", 2))

            asyncio.run(ask())
            self.roles.write_text("sup office\n")
            for count in (3, 4):
                self.assertEqual((self.accounts.roles.now()["sup"].name, looked.call_count), ("office", count))


if __name__ == "__main__":
    unittest.main()
