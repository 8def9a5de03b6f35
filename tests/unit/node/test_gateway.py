"""A connection to a member of etcd, beside servers that send each answer of HTTP in pieces of their own, or none."""
import socket
import ssl
import sys
import threading
import unittest
from pathlib import Path

sys.path.insert(0, str(Path(__file__).resolve().parent))

from bench import PATIENCE  # noqa: E402
from acd_service.node.gateway import Connection, NoAnswer  # noqa: E402

# of an authority, and made once
OURS = Path(__file__).resolve().parents[1] / "certificates/ours"
CHUNKS = b"HTTP/1.1 200 OK\r\nTransfer-Encoding: chunked\r\n\r\n"


class Gateway(unittest.TestCase):
    def server(self, *answers, step=0, context=None):
        """A connection to a server that sends one of these after each request, in pieces of so many bytes, and then closes the connection."""
        listening, self.came = socket.create_server(("127.0.0.1", 0)), []
        found = Connection("127.0.0.1", listening.getsockname()[1], PATIENCE, context and ssl.create_default_context(cafile=OURS / "ca.crt"))
        thread = threading.Thread(target=self.serve, args=(listening, answers, step, context), daemon=True)
        thread.start()
        for end in (lambda: thread.join(PATIENCE), listening.close, found.close):
            self.addCleanup(end)
        return found

    def serve(self, listening, answers, step, context):
        with listening.accept()[0] as plain:
            with context.wrap_socket(plain, server_side=True) if context else plain as connection:
                connection.setsockopt(socket.IPPROTO_TCP, socket.TCP_NODELAY, 1)
                for answer in answers:
                    self.came.append(connection.recv(65536))
                    for at in range(0, len(answer), step or 65536):
                        connection.sendall(answer[at:at + (step or 65536)])

    def read(self, connection, *request):
        status, body = connection.ask(*request)
        return status, body.read()

    def test_what_is_sent(self):
        connection = self.server(*[b"HTTP/1.1 200 OK\r\nContent-Length: 2\r\n\r\n{}"] * 3)
        host = b"Host: 127.0.0.1:%d\r\n" % connection.port
        for request in (("POST", "/v3/kv/put", b'{"key":""}'), ("POST", "/v3/watch", b"{}", "a.b"), ("GET", "/metrics")):
            self.assertEqual(self.read(connection, *request), (200, b"{}"))
        self.assertEqual(self.came, [b"POST /v3/kv/put HTTP/1.1\r\n" + host + b'Content-Length: 10\r\n\r\n{"key":""}',
                                     b"POST /v3/watch HTTP/1.1\r\n" + host + b"Authorization: a.b\r\nContent-Length: 2\r\n\r\n{}",
                                     b"GET /metrics HTTP/1.1\r\n" + host + b"Content-Length: 0\r\n\r\n"])

    def test_bodies_in_whatever_pieces(self):
        """And nothing of an answer is left for the next one."""
        answers = [(b"HTTP/1.1 400 Bad Request\r\nX: y: z\r\ncontent-length:  3 \r\n\r\nbad", (400, b"bad")),
                   (b"HTTP/1.0 200 OK\r\nContent-Length: 0\r\n\r\n", (200, b"")),
                   (CHUNKS + b"3\r\nabc\r\n00A;x=y\r\n0123456789\r\n0\r\n\r\n", (200, b"abc0123456789")),
                   (b"HTTP/1.1 503 \r\nTRANSFER-ENCODING: Chunked\r\n\r\n2\r\n\r\n\r\n0\r\nX: y\r\n\r\n", (503, b"\r\n")),
                   (CHUNKS + b"%x\r\n%s\r\n0\r\n\r\n" % (9999, b"x" * 9999), (200, b"x" * 9999)),
                   (b"HTTP/1.1 200 OK\r\nContent-Length: 9999\r\n\r\n" + b"y" * 9999, (200, b"y" * 9999))]
        for step in (0, 1, 7, 1000):
            connection = self.server(*(answer for answer, _ in answers), step=step)
            for answer, wanted in answers:
                self.assertEqual(self.read(connection, "POST", "/", b"{}"), wanted)

    def test_lines_of_an_answer_that_goes_on(self):
        """A line comes as soon as it is whole, of however many chunks."""
        connection = self.server(CHUNKS + b"6\r\n{1}\n{2\r\n", b"2\r\n}\n\r\n", b"1\r\nx\r\n0\r\n\r\n")
        body = connection.ask("POST", "/", b"{}").body
        self.assertEqual(body.readline(), b"{1}\n")
        for line in (b"{2}\n", b"x", b""):
            if line:
                connection.socket.sendall(b"go on")
            self.assertEqual(body.readline(), line)

    def test_what_is_no_answer_or_not_whole(self):
        for answer in (b"", b"HTTP/1.1 200 OK\r\nContent-Le", b"HTTP/1.1 200 OK\r\nContent-Length: 3\r\n\r\nab", CHUNKS, CHUNKS + b"3\r\nab", CHUNKS + b"3\r\nabc", CHUNKS + b"3\r\nabc\r\n",
                       CHUNKS + b"3\r\nabc\r\n0\r\n", CHUNKS + b"-3\r\nabc\r\n0\r\n\r\n", CHUNKS + b"x\r\n", CHUNKS + b"2\r\nabc\r\n0\r\n\r\n", b"HTTP/1.1 200 OK\r\n\r\n", b"garbage\r\n\r\n",
                       b"HTTP/2 200 OK\r\nContent-Length: 0\r\n\r\n", b"HTTP/1.1 200 OK\r\nContent-Length: -1\r\n\r\n", b"HTTP/1.1 200 OK\r\nContent-Length: 1_0\r\n\r\n" + b"x" * 10):
            with self.subTest(answer), self.assertRaises(NoAnswer):
                self.read(self.server(answer), "POST", "/", b"{}")

    def test_a_member_that_says_nothing(self):
        listening = socket.create_server(("127.0.0.1", 0))
        self.addCleanup(listening.close)
        connection = Connection("127.0.0.1", listening.getsockname()[1], 0.1)
        self.addCleanup(connection.close)
        with self.assertRaises(TimeoutError):
            connection.ask("POST", "/", b"{}")

    def test_certificates(self):
        context = ssl.SSLContext(ssl.PROTOCOL_TLS_SERVER)
        context.load_cert_chain(OURS / "desk.crt", OURS / "desk.key")
        connection = self.server(CHUNKS + b"3\r\nabc\r\n0\r\n\r\n", b"HTTP/1.1 200 OK\r\nContent-Length: 2\r\n\r\n{}", step=5, context=context)
        self.assertEqual([self.read(connection, "POST", "/", b"{}") for _ in range(2)], [(200, b"abc"), (200, b"{}")])


if __name__ == "__main__":
    unittest.main()
