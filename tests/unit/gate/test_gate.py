#!/usr/bin/python3
"""Tests of the command `acdctl gate`: its words, what it says when it begins, by which loop.   usage: tests/unit/gate/test_gate.py

Needs python3-aiohttp, python3-passlib and python3-bcrypt (Debian packages)."""
import contextlib
import io
import socket
import stat
import sys
import tempfile
import threading
import types
import unittest
from pathlib import Path
from unittest import mock

from standing import PATIENCE, ROLES, TOP, USERS, Named, StandInDesk, basic

from acd_service.gate import main
from trial import Connection, free_port, running, until


class CommandTest(Named):
    def refused(self, *words):
        """The status and the last line that are said."""
        with contextlib.redirect_stderr(io.StringIO()) as printed, self.assertRaises(SystemExit) as ended:
            main.main(list(words))
        return ended.exception.code, printed.getvalue().splitlines()[-1]

    def test_words(self):
        options = main.parser().parse_args(["--desk", "unix:/run/acd/desk", "--port", "1"])
        self.assertEqual((options.desk.path, options.port), ("/run/acd/desk", 1))
        for words in ([], ["--port", "", "--desk", ""]):
            options = main.parser().parse_args(words)
            self.assertEqual((options.port, options.socket, options.desk, options.desk_socket), (None, "/run/acd-gate/gate.sock", None, "/run/acd/desk.sock"))
        self.assertEqual(self.refused("--port", "x")[0], 2)
        status, line = self.refused("--desk", "http://desk:8080")
        self.assertEqual((status, "neither a port, nor" in line), (2, True))

    def test_a_port_that_is_taken(self):
        with socket.create_server(("127.0.0.1", 0)) as taken:
            for port in (taken.getsockname()[1], 65536):
                self.assertEqual(self.refused("--port", str(port)), (1, f"acd-gate: cannot listen on port {port}"))

    def test_a_socket_that_is_taken(self):
        with tempfile.TemporaryDirectory() as folder, socket.socket(socket.AF_UNIX) as taken:
            taken.bind(f"{folder}/taken")
            taken.listen()
            for path in (f"{folder}/taken", f"{folder}/none/gate"):
                self.assertEqual(self.refused("--socket", path), (1, f"acd-gate: cannot listen on {path}"))

    def test_it_serves_at_a_socket(self):
        """A desk at a socket; root and the socket's group alone may connect to both."""
        with tempfile.TemporaryDirectory() as name:
            folder = Path(name)
            (folder / "roles").write_text(ROLES)
            (folder / "users").write_text(USERS)
            words = ["--socket", folder / "gate", "--port", "", "--desk", "", "--desk-socket", folder / "desk", "--roles", folder / "roles", "--users", folder / "users", "--secret", folder / "none"]
            with StandInDesk(str(folder / "desk")) as desk:
                threading.Thread(target=desk.serve_forever, args=(0.02,), daemon=True).start()
                with running(sys.executable, "-B", TOP / "service/bin/acdctl", "gate", *words):
                    self.assertTrue(until((folder / "gate").is_socket, PATIENCE))
                    self.assertTrue(until(lambda: stat.filemode((folder / "gate").stat().st_mode) == "srw-rw----", PATIENCE))
                    with Connection(folder / "gate", seconds=PATIENCE) as connection:
                        self.assertEqual(connection.ask("GET", "/auth", fields=[("Authorization", basic("pbx"))]).status, 204)
                        self.assertEqual(connection.ask("POST", "/csta", '{"requester":"pbx"}', [("X-Login", "pbx")]).status, 409)
                self.assertEqual(len(desk.got), 1)
                desk.shutdown()

    def test_uvloop_where_it_is_installed(self):
        with mock.patch.dict(sys.modules, {"uvloop": types.SimpleNamespace(new_event_loop="a loop of uvloop")}):
            self.assertEqual(main.loop_of(), "a loop of uvloop")
        with mock.patch.dict(sys.modules, {"uvloop": None}):
            self.assertIsNone(main.loop_of())

    def test_it_serves_by_either_name_of_a_desk(self):
        with tempfile.TemporaryDirectory() as name, StandInDesk() as desk:
            threading.Thread(target=desk.serve_forever, args=(0.02,), daemon=True).start()
            folder, port = Path(name), free_port()
            (folder / "roles").write_text(ROLES)
            (folder / "users").write_text(USERS)
            for number, place in enumerate((f"{desk.server_port}", f"http://127.0.0.1:{desk.server_port}"), 1):
                words = ["--port", port, "--desk", place, "--roles", folder / "roles", "--users", folder / "users", "--secret", folder / "none"]
                with running(sys.executable, "-B", TOP / "service/bin/acdctl", "gate", *words, port=port), Connection(port, seconds=PATIENCE) as connection:
                    self.assertEqual(connection.ask("GET", "/auth", fields=[("Authorization", basic("pbx"))]).status, 204)
                    self.assertEqual(connection.ask("POST", "/csta", '{"requester":"pbx"}', [("X-Login", "pbx")]).status, 409)
                self.assertEqual(len(desk.got), number)
            desk.shutdown()


if __name__ == "__main__":
    unittest.main()
