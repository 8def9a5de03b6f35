#!/usr/bin/python3
"""Tests of the gate's connections, and of requests that are none.   usage: tests/unit/gate/test_server.py

Needs python3-aiohttp, python3-passlib and python3-bcrypt (Debian packages)."""
import contextlib
import gzip
import io
import socket
import time
import unittest
from unittest import mock

from standing import BAD_GATEWAY, PATIENCE, DoorTest, Standing, basic

from acd_service.gate import server
from trial import Connection, bytes_back, until


class ServerTest(DoorTest):
    def test_other_requests(self):
        self.assertEqual(self.ask("pbx", None, "GET", "/csta")[0], 404)
        self.assertEqual(self.ask("pbx", b"{}", path="/events")[0], 404)
        self.assertEqual(self.ask("pbx", b"{}", path="/auth")[0], 404)
        self.assertEqual(self.ask("pbx", b" " * 4096)[0], 409)
        self.assertEqual(self.ask("pbx", b" " * 4097)[0], 413)
        self.assertEqual(self.ask("pbx", b"{}", "PUT"), (501, b'{"error":{"code":40,"name":"notImplemented"}}'))
        self.assertEqual(self.ask("pbx", None, "GET", "/" + "x" * 70000), (431, b'{"error":{"code":39,"name":"headTooLarge"}}'))
        for length in ("", "x", "-1", "+1", "٣", "1" * 5000):
            self.begins(f"POST /csta HTTP/1.1\r\nX-Login: pbx\r\nContent-Length: {length}\r\n\r\n".encode(), rb"\AHTTP/1.[01] 4(11|13) ")
        self.assertEqual(len(self.desk.got), 1)

    def test_what_is_no_request(self):
        for sent, wanted in ((b"GET\r\n\r\n", b"400"), (b"GET /who HTTP/1.1\r\nX: \x01\r\n\r\n", b"400"), (b"FOO /csta HTTP/1.1\r\n\r\n", b"501"),
                             (b"GET /who HTTP/1.1\r\n" + b"X: y\r\n" * 101 + b"\r\n", b"431"), (b"GET /who HTTP/1.1\r\n" + b"X: y\r\n" * 1000 + b"\r\n", b"431"),
                             (b"POST /csta HTTP/1.1\r\nX-Login: pbx\r\nTransfer-Encoding: chunked\r\n\r\n2\r\n{}\r\n0\r\n\r\n", b"411"), (b"POST //csta HTTP/1.1\r\nX-Login: pbx\r\nContent-Length: 2\r\n\r\n{}", b"409")):
            got = bytes_back(self.port, sent.replace(b" HTTP/1.1\r\n", b" HTTP/1.1\r\nConnection: close\r\n"), seconds=PATIENCE)
            self.assertEqual(got.split(b" ")[1], wanted, (sent[:50], got))
            if wanted != b"409":
                self.assertRegex(got, rb'\r\n\r\n\{"error":\{"code":\d\d,.*\}\}\Z')
        self.assertEqual(self.desk.got, [("/csta", b"{}")])

    def test_no_byte_is_unpacked(self):
        """The library would, by default."""
        packed = gzip.compress(b"{}")
        self.assertEqual(self.ask("pbx", packed, Content_Encoding="gzip")[0], 409)
        self.assertEqual(self.desk.got, [("/csta", packed)])

    def test_a_fault_of_the_gates_own(self):
        """It is told with where it came from, and answered as nginx answers for a gate that breaks off."""
        with mock.patch.object(self.gate, "said", side_effect=KeyError("unforeseen")), contextlib.redirect_stderr(io.StringIO()) as printed:
            self.assertEqual(self.ask("pbx", None, "GET", "/who"), BAD_GATEWAY)
        self.assertRegex(printed.getvalue(), r"(?s)Traceback.*KeyError: 'unforeseen'")

    def test_a_request_whose_client_leaves_in_the_middle(self):
        with contextlib.redirect_stderr(io.StringIO()) as printed:
            with socket.create_connection(("127.0.0.1", self.port)) as left:
                left.sendall(b"POST /csta HTTP/1.1\r\nX-Login: pbx\r\nContent-Length: 10\r\n\r\n{")
                self.assertTrue(until(lambda: self.standing.server.open == 1 and not self.standing.server.silent, PATIENCE))
            self.assertTrue(until(lambda: self.standing.server.open == 0, PATIENCE))
            self.assertTrue(self.passes("pbx", {"requester": "pbx", "service": "tick"}))
        self.assertEqual(printed.getvalue(), "")

    def test_silent_connections_are_closed(self):
        with mock.patch.object(server, "PATIENCE", 0.3), Standing(self.gate) as standing, contextlib.ExitStack() as held:
            silent = held.enter_context(socket.create_connection(("127.0.0.1", standing.port)))
            half = held.enter_context(socket.create_connection(("127.0.0.1", standing.port)))
            with contextlib.suppress(OSError):  # on a busy machine it is closed by now
                half.sendall(b"GET /who HTTP/1.1\r\nX-Login: ")
            for one in (silent, half):
                one.settimeout(PATIENCE)
                with contextlib.suppress(ConnectionResetError):
                    self.assertEqual(one.recv(1), b"")
            self.assertTrue(until(lambda: standing.server.open == 0, PATIENCE))

    def test_descriptors_that_run_out(self):
        """Who comes then waits, and the journal is told."""
        accept, failed = self.standing.loop.sock_accept, []

        async def fails_once(listening):
            if not failed:
                failed.append(await accept(listening))
                raise OSError(24, "Too many open files")
            return await accept(listening)

        with (mock.patch.object(self.standing.loop, "sock_accept", fails_once), contextlib.redirect_stderr(io.StringIO()) as printed,
              socket.create_connection(("127.0.0.1", self.port))):  # for the first one it waits already
            self.assertTrue(until(lambda: self.standing.server.open == 1, PATIENCE))
            with socket.create_connection(("127.0.0.1", self.port)):
                self.assertTrue(until(lambda: failed, PATIENCE))
                self.assertEqual(self.auth(basic("ana")), self.RIGHT)
        failed[0][0].close()
        self.assertIn("acd-gate: no connection can be taken: Too many open files", printed.getvalue())

    def test_connections_are_bounded(self):
        self.standing.server.most = 4
        with contextlib.ExitStack() as held:
            silent = [held.enter_context(socket.create_connection(("127.0.0.1", self.port))) for _ in range(4)]
            self.assertTrue(until(lambda: self.standing.server.open == 4, PATIENCE))
            fifth = self.meanwhile("ana", "secret")
            time.sleep(0.3)
            self.assertEqual((fifth, self.standing.server.open), ([], 4))
            silent[0].close()
            self.assertTrue(until(lambda: fifth == [self.RIGHT], PATIENCE))

    def test_none_stays_open_where_many_are(self):
        self.standing.server.most = 4
        with contextlib.ExitStack() as held:
            for wanted in ("keep-alive", "close", "close"):
                _, fields, _ = held.enter_context(Connection(self.port, seconds=PATIENCE)).ask("GET", "/auth", fields=[("X-Signed", "yes"), ("Authorization", basic("ana"))])
                self.assertEqual(fields["connection"], wanted)
                held.enter_context(socket.create_connection(("127.0.0.1", self.port)))
                self.assertTrue(until(lambda: self.standing.server.open >= 1, PATIENCE))

    def test_a_connection_stays_behind_each_answer(self):
        """Where the other end wants it to; nginx of before 1.16 closes those of services."""
        asked = [("POST", "/csta", b'{"requester":"pbx"}', 409), ("POST", "/csta", b'{"requester":"clock"}', 403), ("GET", "/who", None, 200), ("GET", "/none", None, 404), ("POST", "/none", b"{}", 404),
                 ("POST", "/csta", b" " * 5000, 413), ("GET", "/requests", None, 403), ("POST", "/logout", None, 204), ("PUT", "/csta", b"{}", 501)]
        with Connection(self.port, seconds=PATIENCE) as one:
            ports = set()
            for method, path, body, wanted in asked:
                reply = one.ask(method, path, body, [("X-Login", "pbx")])
                self.assertEqual((reply.status, reply.fields["connection"]), (wanted, "keep-alive"), path)
                ports.add(one.connection.sock.getsockname())
            self.assertEqual(len(ports), 1)
            self.assertEqual(one.ask("GET", "/who", None, [("X-Login", "pbx"), ("Connection", "close")]).fields["connection"], "close")

    def test_a_connection_stays(self):
        ports = set()
        with Connection(self.port, seconds=PATIENCE) as one:
            for authorization, wanted in ((basic("ana"), 204), (basic("ana", "x"), 401), (b"", 401), (basic("pbx"), 204)):
                self.assertEqual(one.ask("GET", "/auth", fields=[("Authorization", authorization), ("X-Address", "192.0.2.1")]).status, wanted)
                ports.add(one.connection.sock.getsockname())
        self.assertEqual(len(ports), 1)


if __name__ == "__main__":
    unittest.main()
