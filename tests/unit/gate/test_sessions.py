#!/usr/bin/python3
"""Tests of the gate's sessions: their times, their file, their cookie.   usage: tests/unit/gate/test_sessions.py

Needs python3-aiohttp, python3-passlib and python3-bcrypt (Debian packages)."""
import asyncio
import contextlib
import io
import threading
import types
import unittest
from pathlib import Path
from tempfile import TemporaryDirectory
from unittest import mock

from standing import PATIENCE, Named

from acd_service.gate import sessions


class SessionTest(Named, unittest.IsolatedAsyncioTestCase):
    def setUp(self):
        super().setUp()
        self.file, self.hashes, self.now = Path(self.enterContext(TemporaryDirectory())) / "sessions", {"ana": "hash", "ben": "other"}, 1e9
        self.sessions = self.opened()

    def opened(self):
        return sessions.Sessions(self.file, types.SimpleNamespace(now=lambda: self.hashes), lambda: self.now)

    async def test_begin_and_end(self):
        first, second = await self.sessions.begin("ana"), await self.sessions.begin("ana")
        self.assertNotEqual(first, second)
        self.assertEqual(self.sessions.of(first).login, "ana")
        self.assertEqual([self.opened().of(token).login for token in (first, second)], ["ana", "ana"])
        self.assertNotIn(first, self.file.read_text())
        await self.sessions.end(first)
        self.assertEqual([self.opened().of(token) is None for token in (first, second)], [True, False])
        for odd in (None, "", "x", first, sessions.digest(second)):
            self.assertIsNone(self.sessions.of(odd), odd)

    async def test_times(self):
        token, hour = await self.sessions.begin("ana"), 3600
        for moved, good in ((12 * hour - 1, True), (1, False)):
            self.now += moved
            self.assertEqual(self.sessions.of(token) is not None, good)
        token = await self.sessions.begin("ana")
        for number in range(23):
            self.now += hour
            self.assertIsNotNone(await self.sessions.use(token), number)
        self.now += hour - 1
        self.assertIsNotNone(self.opened().of(token))
        self.now += 1
        self.assertIsNone(await self.sessions.use(token))

    async def test_another_password(self):
        token = await self.sessions.begin("ana")
        self.hashes["ana"] = "new"
        self.assertIsNone(self.sessions.of(token))
        del self.hashes["ana"]
        self.assertIsNone(self.sessions.of(token))

    def test_cookies(self):
        token = "a" * 43 + ".GTcL_2xwMKvGYUjHqLdxUA"
        for field, wanted in (("", None), ("a=b", None), (f"__Host-acd={token}", token), (f"x=1; __Host-acd={token}; y=2", token), (f"__Host-acd={token};__Host-acd={token}", ""), ("__Host-acd=", ""),
                              (f"__Host-acd={token}a", ""), (f"__Host-acd={token[:43]}", ""), (f"__Host-acd ={token}", None), (f'__Host-acd="{token}"', ""), (f"acd={token}", None)):
            self.assertEqual(sessions.cookie_of(field), wanted, field)

    async def test_a_signature(self):
        """By the recipe of nginx's page: printf '%s%s' SECRET DRAWN | openssl md5 -binary | openssl base64 | tr +/ -_ | tr -d =."""
        self.assertEqual(sessions.signed("a" * 43, "0" * 64), "a" * 43 + ".ZTV86CqdRNk6yC3k0EfNzA")
        self.assertRegex(await self.sessions.begin("ana"), rf"\A{sessions.TOKEN}\Z")

    def test_the_secrets(self):
        file, one, other = self.file.with_name("secret"), "0f" * 32, "1e" * 32
        of_session, of_proxy = f'map "" $acd_session_secret {{ default "{one}"; }}\n', f'map "" $acd_proxy_secret {{ default "{other}"; }}\n'
        for text, wanted in ((f"# drawn\n{of_session}", (one, one)), (of_session + of_proxy, (one, other)), (of_proxy + of_session.replace("{ ", "{\n"), (one, other))):
            file.write_text(text)
            self.assertEqual(sessions.secrets_of(file), wanted)
        for text in ("", 'map "" $acd_session_secret { default "short"; }\n' + of_proxy, None):
            file.write_text(text) if text is not None else file.unlink()
            with contextlib.redirect_stderr(io.StringIO()) as printed:
                drawn = [sessions.secrets_of(file) for _ in range(2)]
            self.assertFalse({one, other} & {found.session for found in drawn} or drawn[0].session == drawn[1].session)
            self.assertEqual(printed.getvalue().count(f"acd-gate: {file} has no secret"), 2)

    async def test_a_session_outlives_the_users_file_being_written(self):
        token, whole = await self.sessions.begin("ana"), dict(self.hashes)
        self.hashes.clear()  # htpasswd has cut the file, and hasn't written it yet
        self.assertIsNone(self.sessions.of(token))
        await self.sessions.begin("ben")
        self.hashes.update(whole)
        self.assertEqual([one.of(token).login for one in (self.sessions, self.opened())], ["ana", "ana"])

    async def test_a_disk_that_hangs_holds_no_request_up(self):
        token, writes, goes_on = await self.sessions.begin("ana"), [], threading.Event()
        self.addCleanup(goes_on.set)
        with mock.patch.object(self.sessions, "write", side_effect=lambda found: writes.append(list(found)) or goes_on.wait(10 * PATIENCE)):
            log_ins = [asyncio.create_task(self.sessions.begin("ben")) for _ in range(20)]
            async with asyncio.timeout(PATIENCE):
                while not writes:
                    await asyncio.sleep(0.01)
            self.assertEqual(self.sessions.of(token).login, "ana")
            self.assertFalse(any(one.done() for one in log_ins))  # who logs in waits
            goes_on.set()
            await asyncio.gather(*log_ins)
        self.assertLess(len(writes), 20)  # those who came meanwhile are written at once
        self.assertEqual(sum(one["login"] == "ben" for one in writes[-1]), 20)

    async def test_many_and_no_file(self):
        with mock.patch.object(sessions, "MOST", 3), mock.patch.object(self.sessions, "keep"):
            other, tokens = await self.sessions.begin("ben"), []
            for _ in range(5):
                self.now += 1
                tokens.append(await self.sessions.begin("ana"))
            self.assertEqual([self.sessions.of(token) is not None for token in (other, *tokens)], [True, False, False, True, True, True])
        self.file.write_text('no session\n{"digest":"x"}\n[]\n')
        with contextlib.redirect_stderr(io.StringIO()) as printed:
            self.assertEqual(self.opened().found, {})
        self.assertEqual(printed.getvalue().count("has a line that is no session"), 3)
        self.file = Path("/proc/none/sessions")
        with contextlib.redirect_stderr(io.StringIO()) as printed:
            unkept = self.opened()
            self.assertIsNotNone(unkept.of(await unkept.begin("ana")))
        self.assertIn("can't be written", printed.getvalue())


if __name__ == "__main__":
    unittest.main()
