"""The command line: what is refused."""
from __future__ import annotations

import os
import unittest
from collections.abc import Callable
from contextlib import redirect_stderr
from io import StringIO
from pathlib import Path
from tempfile import TemporaryDirectory
from typing import Any
from unittest import mock

from bridge.settings import Settings


def status_of(work: Callable[[], Any]) -> int:
    try:
        work()
    except SystemExit as ended:
        return int(str(ended.code))
    return 0


class Command(unittest.TestCase):
    def test_what_is_refused(self) -> None:
        cases: list[tuple[dict[str, Any], str]] = [
            ({}, "either"), ({"edge": "127.0.0.1:5060", "phones": {}}, "either"), ({"phones": {}}, ""), ({"edge": "127.0.0.1:5060"}, ""),
            # a trial asks nobody who he is
            ({"phones": {}, "listen": "127.8.9.1:5070"}, ""), ({"phones": {}, "listen": "0.0.0.0:5070"}, "loopback"),
            ({"phones": {}, "listen": "192.0.2.1:5070"}, "loopback"),
            ({"edge": "192.0.2.1:5060", "listen": "192.0.2.1:5070"}, ""), ({"edge": "192.0.2.1"}, "place"), ({"edge": "name:5060"}, "place"),
            ({"phones": {}, "listen": "127.0.0.1"}, "place"), ({"phones": {}, "listen": "127.0.0.1:99999"}, "place"), ({"phones": {}, "session": 89}, "seconds"),
            ({"phones": {}, "media": "198.51.100.0/24, 203.0.113.9,"}, ""), ({"phones": {}, "media": "198.51.100.1/24"}, "--media"),
            ({"phones": {}, "media": "x"}, "--media"), ({"phones": {}, "media": "::1"}, "--media")]
        for settings, wanted in cases:
            fault = Settings(**settings).fault()
            self.assertTrue(wanted in fault and bool(wanted) == bool(fault), (settings, fault))

    def test_a_desk_at_a_socket(self) -> None:
        for desk, wanted in (("unix:/run/acd/desk", ""), ("unix:desk", "the desk's address is unix:PATH"), ("unix://host/desk", "the desk's address is unix:PATH")):
            fault = Settings(edge="127.0.0.1:5060", desk=desk).fault()
            self.assertTrue(wanted in fault and bool(wanted) == bool(fault), (desk, fault))

    def test_the_desk_by_the_environment(self) -> None:
        """Its address may have a password; an option of the command line has precedence."""
        cases: list[tuple[dict[str, str], list[str], str]] = [({}, [], "http://127.0.0.1:8080"), ({"EXCHANGE_DESK": "http://pbx:x@h:1"}, [], "http://pbx:x@h:1"),
                                                              ({"EXCHANGE_DESK": "http://pbx:x@h:1"}, ["--desk", "http://h:2"], "http://h:2")]
        for environment, words, wanted in cases:
            with mock.patch.dict(os.environ, environment), mock.patch("sys.argv", ["acd-exchange", "--edge", "127.0.0.1:5060", *words]):
                self.assertEqual(Settings.read().desk, wanted)

    def test_the_password_and_the_authority(self) -> None:
        """They are settings by themselves: a password may have any signs, and stands on no command line."""
        words = ["acd-exchange", "--edge", "127.0.0.1:5060"]
        cases: list[tuple[dict[str, str], str]] = [
            ({"EXCHANGE_DESK": "https://pbx@h:8443", "EXCHANGE_PASSWORD": "a:b@c/d%"}, "https://pbx:a%3Ab%40c%2Fd%25@h:8443"),
            ({"EXCHANGE_DESK": "https://pbx@h:8443", "EXCHANGE_PASSWORD": ""}, "https://pbx@h:8443"),
            ({"EXCHANGE_DESK": "https://pbx:old@h:8443", "EXCHANGE_PASSWORD": "new"}, "https://pbx:new@h:8443"),
            # refused, with what it says
            ({"EXCHANGE_PASSWORD": "x"}, "names none"), ({"EXCHANGE_DESK": "https://h:8443", "EXCHANGE_PASSWORD": "x"}, "names none"),
            ({"EXCHANGE_DESK": "https://pbx@h:8443", "EXCHANGE_CA": "/none"}, "/none"), ({"EXCHANGE_DESK": "https://pbx@h:8443", "EXCHANGE_CA": __file__}, __file__),
            ({"EXCHANGE_DESK": "h:8443"}, "https://LOGIN@HOST:PORT"), ({"EXCHANGE_DESK": "ftp://pbx:secret@h:8443"}, "ftp://pbx:...@h:8443")]
        for environment, wanted in cases:
            with mock.patch.dict(os.environ, environment), mock.patch("sys.argv", words), redirect_stderr(StringIO()) as told:
                status = status_of(Settings.read)
                self.assertEqual((status, wanted in told.getvalue()), (0, False) if "://pbx" in wanted and not told.getvalue() else (2, True), told.getvalue())
                self.assertNotIn("secret", told.getvalue())
                if not status:
                    self.assertEqual((Settings.read().desk, Settings.read().login), (wanted, "pbx"))
        with mock.patch.dict(os.environ, {"EXCHANGE_CA": "/authority"}), mock.patch("sys.argv", words), mock.patch("ssl.create_default_context") as made:
            self.assertIs(Settings.read().context(), made.return_value)
        made.assert_called_with(cafile="/authority")
        self.assertIsNone(Settings().context())

    def test_what_becomes_of_an_offer_that_is_refused(self) -> None:
        cases: list[tuple[list[str], str]] = [([], "reject"), (["--refused", "reject"], "reject"), (["--refused", "wait"], "wait")]
        for words, wanted in cases:
            with mock.patch("sys.argv", ["acd-exchange", "--edge", "127.0.0.1:5060", *words]):
                self.assertEqual(Settings.read().refused, wanted)
        with mock.patch("sys.argv", ["acd-exchange", "--edge", "127.0.0.1:5060", "--refused", "deflect"]), redirect_stderr(StringIO()):
            with self.assertRaises(SystemExit) as ended:
                Settings.read()
        self.assertEqual(ended.exception.code, 2)

    def test_agents_of_phones(self) -> None:
        cases: list[tuple[str, dict[str, set[str]] | None]] = [
            ("", {}), ("# nobody\n\n201 7 8 # two\n202\tany\n", {"201": {"7", "8"}, "202": {"any"}}), ("201\n", None), ("201 7\n201 8\n", None), ("Ana 7\n", None),
            ("201 Ana\n", None), ("201 7,8\n", None)]
        with TemporaryDirectory() as folder:
            path = f"{folder}/agents"
            for text, wanted in cases:
                Path(path).write_text(text)
                with mock.patch("sys.argv", ["acd-exchange", "--edge", "127.0.0.1:5060", "--agents", path]), redirect_stderr(StringIO()) as told:
                    if wanted is None:
                        self.assertRaises(SystemExit, Settings.read)
                        self.assertIn(path, told.getvalue())
                    else:
                        self.assertEqual(Settings.read().agents, wanted)
            for words, status in (([f"--agents={folder}/none"], 2), (["--agents="], 0)):
                with mock.patch("sys.argv", ["acd-exchange", "--edge", "127.0.0.1:5060", *words]), redirect_stderr(StringIO()):
                    self.assertEqual(status_of(Settings.read), status)

    def test_networks(self) -> None:
        self.assertEqual([str(each) for each in Settings(media=" 198.51.100.0/24,203.0.113.9 ").networks], ["198.51.100.0/24", "203.0.113.9/32"])


if __name__ == "__main__":
    unittest.main()
