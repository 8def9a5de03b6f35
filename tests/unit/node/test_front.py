"""The answers to a client: the refusals of the desk. A body that can't be an entry makes none.

Needs python3-aiohttp (Debian package)."""
import asyncio
import contextlib
import random
import socket
import ssl
import sys
import threading
import time
import unittest
from pathlib import Path
from unittest import mock

sys.path.insert(0, str(Path(__file__).resolve().parent))

from bench import PATIENCE, Bench  # noqa: E402
from acd_service.gate.main import loop_of  # noqa: E402
from acd_service.node import handshakes  # noqa: E402
from acd_service.node.front import Front  # noqa: E402
from acd_service.node.handshakes import network_of  # noqa: E402
from acd_service.node.main import BACKLOG, listening_at  # noqa: E402

IN_TIME = handshakes.SECONDS
# of two authorities, and made once
CERTIFICATES = Path(__file__).resolve().parents[1] / "certificates"
JSON = b'{"error":{"code":30,"member":"json","name":"malformed"}}'
HEAD = b'{"error":{"code":30,"member":"head","name":"malformed"}}'
LENGTH = b'{"error":{"code":30,"member":"contentLength","name":"malformed"}}'
NOT_FOUND = b'{"error":{"code":35,"name":"notFound"}}'
NO_LENGTH = b'{"error":{"code":37,"name":"lengthRequired"}}'
TOO_LARGE = b'{"error":{"code":38,"name":"bodyTooLarge"}}'
HEAD_TOO_LARGE = b'{"error":{"code":39,"name":"headTooLarge"}}'
NOT_IMPLEMENTED = b'{"error":{"code":40,"name":"notImplemented"}}'
AGAIN = b'{"error":{"code":33,"name":"noMemory"}}'
FORBIDDEN = b'{"error":{"code":41,"name":"forbidden"}}'


class Answers:
    """In a bridge's place: it answers each request with itself."""

    def __init__(self):
        self.asked, self.silent = [], False

    async def answer(self, request):
        self.asked.append(request)
        return b"" if self.silent else b"200 " + request + b"\n"

    def read(self, target):
        return b'200 "a report\\n"\n' if target == b"/reports/queues" else b"405 x\n" if target == b"/csta" else b"200 " + target + b"\n"


def read_all(connection):
    found = b""
    while part := connection.recv(65536):
        found += part
    return found


class Fronting(Bench):
    new_loop = staticmethod(asyncio.new_event_loop)

    def front(self, context=None, most=2000, address="127.0.0.1"):
        """A front in a loop of its own, which a fault ends with the test."""
        self.answers, faults, loop = Answers(), [], self.new_loop()
        self.server, listening = Front(self.answers, self.journal, context), listening_at(address, 0)
        self.server.most, self.address, self.loop = most, listening.getsockname(), loop
        loop.set_exception_handler(lambda _, about: faults.append(about))
        serving = loop.create_task(self.server.listen(listening, BACKLOG))
        thread = threading.Thread(target=loop.run_until_complete, args=(asyncio.wait([serving]),), daemon=True)
        thread.start()

        def end():
            loop.call_soon_threadsafe(serving.cancel)
            thread.join()
            self.assertFalse([one for one in faults if not isinstance(one.get("exception"), OSError)])

        self.addCleanup(end)
        return self.address

    def in_loop(self, do):
        """What a function returns that the loop calls."""
        async def call():
            return do()
        return asyncio.run_coroutine_threadsafe(call(), self.loop).result(PATIENCE)

    def exchange(self, sent, address=None):
        """The status and the body of a reply; None where there is none."""
        with socket.create_connection(address or self.address, timeout=PATIENCE) as connection:
            connection.sendall(sent)
            connection.shutdown(socket.SHUT_WR)
            reply = read_all(connection)
        head, _, body = reply.partition(b"\r\n\r\n")
        return (int(head.split()[1]), body) if reply else None

    def post(self, body, path=b"/csta", length=None):
        return self.exchange(b"POST %s HTTP/1.1\r\nHost: desk\r\nContent-Length: %s\r\n\r\n%s" % (path, length or b"%d" % len(body), body))


class Requests(Fronting):
    def test_bodies(self):
        self.front()
        self.assertEqual(self.post(b'{"a":1}'), (200, b'{"a":1}'))
        self.assertEqual(self.post(b'{\r\n"a":\n1}'), (200, b'{\t\t"a":\t1}'))
        self.assertEqual(self.post(b"x" * 4096), (200, b"x" * 4096))
        self.assertEqual(len(self.answers.asked), 3)
        for body in [b"", b"GET /snapshot", b"GET", b"HEAD /"]:
            self.assertEqual(self.post(body), (400, JSON), body)
        self.assertEqual(len(self.answers.asked), 3)
        self.answers.silent = True
        self.assertEqual(self.post(b"{}"), (503, AGAIN))

    def test_lengths(self):
        self.front()
        for length, refusal in [(b"4097", (413, TOO_LARGE)), (b"9" * 5000, (413, TOO_LARGE)), (b"9" * 60000, (413, TOO_LARGE)),
                                (b"0" * 5000 + b"2", (200, b"{}")), (b"0" * 5000, (400, JSON)), (b"-1", (400, LENGTH)),
                                (b"+2", (400, LENGTH)), (b"0x2", (400, LENGTH)), (b"2,2", (400, LENGTH)),
                                (b"2\r\nContent-Length: 2", (400, LENGTH)), (b"\xb2", (400, LENGTH)), (b"1_0", (400, LENGTH)),
                                (b"2\r\nTransfer-Encoding: chunked", (501, NOT_IMPLEMENTED))]:
            self.assertEqual(self.post(b"{}", length=length), refusal, length[:30])
        self.assertEqual(self.exchange(b"POST /csta HTTP/1.1\r\nHost: desk\r\n\r\n{}"), (411, NO_LENGTH))
        self.assertEqual(self.answers.asked, [b"{}"])

    def test_a_body_that_ends_early_is_no_request(self):
        self.front()
        self.assertIsNone(self.post(b'{"a"', length=b"9"))
        self.assertEqual(self.answers.asked, [])

    def test_one_request_a_connection(self):
        self.front()
        one = b"POST /csta HTTP/1.1\r\nHost: desk\r\nConnection: keep-alive\r\nContent-Length: 2\r\n\r\n{}"
        self.assertEqual(self.exchange(one + one), (200, b"{}"))
        self.assertEqual(self.exchange(b"GET /snapshot HTTP/1.1\r\nHost: desk\r\nContent-Length: %d\r\n\r\n%s" % (len(one), one)), (200, b"/snapshot"))
        self.assertEqual(self.answers.asked, [b"{}"])

    def test_paths_and_methods(self):
        self.front()
        for path in [b"/", b"/snapshot", b"/cstax", b"/CSTA", b"/csta/"]:
            self.assertEqual(self.post(b"{}", path), (404, NOT_FOUND))
        self.assertEqual(self.post(b"{}", b"/csta?x=1"), (200, b"{}"))
        for method in [b"PUT", b"DELETE", b"OPTIONS", b"get", b"CONNECT"]:
            self.assertEqual(self.exchange(method + b" /csta HTTP/1.1\r\nHost: desk\r\nContent-Length: 2\r\n\r\n{}"), (501, NOT_IMPLEMENTED))
        for head in [b"x\r\n\r\n", b"GET / HTTP/9.x\r\n\r\n", b"GET / x HTTP/1.1\r\n\r\n", b"\x16\x03\x01\x02\x00\r\n\r\n", b"\r\n\r\n"]:
            self.assertEqual(self.exchange(head), (400, HEAD), head)
        self.assertIsNone(self.exchange(b"\x16\x03\x01\x02\x00\r\n"))   # the desk answers nothing either
        self.assertEqual(self.exchange(b"GET /" + b"x" * 70000 + b" HTTP/1.1\r\n\r\n"), (431, HEAD_TOO_LARGE))
        self.assertEqual(self.exchange(b"GET / HTTP/1.1\r\n" + b"a: b\r\n" * 200 + b"\r\n"), (431, HEAD_TOO_LARGE))

    def test_reads(self):
        self.front()
        self.assertEqual(self.exchange(b"GET /events?after=7 HTTP/1.1\r\nHost: desk\r\n\r\n"), (200, b"/events?after=7"))
        self.assertEqual(self.exchange(b"HEAD /events HTTP/1.1\r\nHost: desk\r\n\r\n"), (200, b""))
        self.assertEqual(self.exchange(b"GET /reports/queues HTTP/1.1\r\nHost: desk\r\n\r\n"), (200, b"a report\n"))
        self.assertEqual(self.exchange(b"GET /csta HTTP/1.1\r\nHost: desk\r\n\r\n"), (405, b"x"))

    def test_more_connections_than_there_is_room_for(self):
        address = self.front(most=20)
        silent = [socket.create_connection(address) for _ in range(20)]
        self.until(lambda: self.server.open == 20)
        with contextlib.suppress(ConnectionResetError):
            self.assertIsNone(self.exchange(b""))
        for connection in silent:
            connection.close()
        self.until(lambda: self.server.open == 0)
        self.assertEqual(self.post(b"{}"), (200, b"{}"))

    def test_hostile_bytes_end_nothing(self):
        """A fault in the loop would fail the test."""
        self.front()
        chance = random.Random(4)
        good = b"POST /csta HTTP/1.1\r\nHost: desk\r\nContent-Length: 7\r\nX: y\r\n\r\n{\"a\":1}"
        pieces = [b"\r\n", b"\n", b"\r", b"\0", b"\xff", b"\x85", b" ", b":", b"Content-Length: ", b"9" * 5000, b"HTTP/1.1", b"HTTP/1." + b"9" * 30,
                  b"GET ", b"//", b"?", b"Transfer-Encoding: x\r\n", b"Expect: 100-continue\r\n"]
        for _ in range(3000):
            sent = bytearray(good)
            for _ in range(chance.randrange(1, 5)):
                at = chance.randrange(len(sent) + 1)
                sent[at:at + chance.choice([0, 0, 1, 5])] = chance.choice(pieces)
            try:
                self.exchange(bytes(sent))
            except OSError:                                # a reset: what was sent wasn't all read
                pass
        self.assertEqual(self.post(b"{}"), (200, b"{}"))


@mock.patch.object(handshakes, "SECONDS", 10 * PATIENCE)
class Certificates(Fronting):
    def client(self, ours, theirs=None):
        context = ssl.create_default_context(cafile=ours / "ca.crt")
        if theirs:
            context.load_cert_chain(theirs / "desk.crt", theirs / "desk.key")
        return context

    def tried(self, context, sent=b"POST /csta HTTP/1.1\r\nHost: desk\r\nContent-Length: 2\r\n\r\n{}"):
        """The bytes that a client gets after its request."""
        with socket.create_connection(self.address, timeout=PATIENCE) as plain:
            try:
                with context.wrap_socket(plain, server_hostname="127.0.0.1") as connection:
                    connection.sendall(sent)
                    return read_all(connection)
            except OSError:
                return b""

    def front_of(self, ours, asks=True):
        """A front with this certificate, which may ask its clients for theirs."""
        context = ssl.SSLContext(ssl.PROTOCOL_TLS_SERVER)
        context.load_cert_chain(ours / "desk.crt", ours / "desk.key")
        if asks:
            context.load_verify_locations(ours / "ca.crt")
            context.verify_mode = ssl.CERT_REQUIRED
        self.front(context)

    def test_who_has_no_certificate_gets_nothing(self):
        ours, theirs = CERTIFICATES / "ours", CERTIFICATES / "theirs"
        self.front_of(ours)
        self.assertTrue(self.tried(self.client(ours, ours)).endswith(b"\r\n\r\n{}"))
        self.assertEqual((self.tried(self.client(ours)), self.tried(self.client(ours, theirs)), self.answers.asked), (b"", b"", [b"{}"]))
        with socket.create_connection(self.address, timeout=PATIENCE) as plain:
            plain.sendall(b"POST /csta HTTP/1.1\r\nHost: desk\r\nContent-Length: 2\r\n\r\n{}")
            try:
                self.assertNotIn(b"HTTP", read_all(plain))
            except ConnectionError:
                pass
        with socket.create_connection(self.address):       # in a handshake that goes on for ever
            self.until(lambda: self.server.handshakes.many == 1)
            self.assertTrue(self.tried(self.client(ours, ours)).endswith(b"{}"))
            self.assertEqual(self.server.handshakes.many, 1)

    def silent(self, many, address="127.0.0.1"):
        """Connections from an address that send nothing. They are closed at the end."""
        found = [socket.create_connection(self.address, timeout=PATIENCE, source_address=(address, 0)) for _ in range(many)]
        self.addCleanup(lambda: [connection.close() for connection in found])
        return found

    def is_served(self, context):
        """Not only once others, whose time is over much later, have given up."""
        self.assertTrue(self.tried(context).endswith(b"{}"))

    def test_who_has_no_handshake_takes_nobodys_place(self):
        ours = CERTIFICATES / "ours"
        self.front_of(ours)
        client, counts, strangers = self.client(ours, ours), [], self.silent(600)
        self.is_served(client)      # of the same address, too
        for number in range(1, 61):
            strangers += self.silent(10, f"127.0.1.{number}")
            counts.append(self.server.handshakes.many)
        self.is_served(client)
        self.until(lambda: self.server.handshakes.many >= 497)   # the client took the place of some, and has gone
        self.assertTrue(counts[0] <= 60 and max(counts) <= 500, counts)
        self.until(lambda: self.server.open == 0)
        held = self.in_loop(lambda: {network: len(handshakes) for network, handshakes in self.server.handshakes.of.items()})
        self.assertTrue(all(held.get(f"127.0.1.{number}") for number in range(1, 61)), held)   # nobody's only ones were given up for another's many
        self.in_loop(lambda: [handshake.cancel() for handshakes in self.server.handshakes.of.values() for handshake in handshakes])
        self.until(lambda: self.server.handshakes.many == 0 and not self.server.handshakes.of)
        self.assertEqual([read_all(connection) for connection in strangers], [b""] * 1200)

    def test_one_that_is_given_up_within_its_handshake(self):
        self.front_of(CERTIFICATES / "ours")
        silent = self.silent(1)[0]
        silent.sendall(b"\x16")
        self.until(lambda: self.server.handshakes.many == 1)
        self.in_loop(lambda: self.server.handshakes.give_up(network_of("127.0.0.1")))
        with contextlib.suppress(ConnectionError):     # a reset where the byte wasn't read yet
            self.assertEqual(read_all(silent), b"")
        self.until(lambda: (self.server.handshakes.many, self.server.open) == (0, 0))

    def test_a_handshake_is_over_in_time(self):
        """However often a byte comes."""
        self.enterContext(mock.patch.object(handshakes, "SECONDS", IN_TIME))
        ours = CERTIFICATES / "ours"
        self.front_of(ours)
        hello, start = b"\x16\x03\x01\x02\x00" + b"\x01" * 500, time.monotonic()
        with self.silent(1)[0] as slow, contextlib.suppress(ConnectionError):
            slow.settimeout(0.25)
            for at in range(len(hello)):
                slow.sendall(hello[at:at + 1])
                with contextlib.suppress(TimeoutError):
                    if not slow.recv(1):
                        break
        # if the bytes counted it would be two minutes
        self.assertTrue(IN_TIME - 1 < time.monotonic() - start < 60)

    def test_those_with_a_handshake_have_a_limit_of_their_own(self):
        ours = CERTIFICATES / "ours"
        context = ssl.SSLContext(ssl.PROTOCOL_TLS_SERVER)
        context.load_cert_chain(ours / "desk.crt", ours / "desk.key")
        self.front(context, most=20)
        met = [self.client(ours).wrap_socket(connection, server_hostname="127.0.0.1") for connection in self.silent(20)]
        self.until(lambda: self.server.open == 20)
        self.assertEqual(self.tried(self.client(ours)), b"")
        self.until(lambda: self.server.handshakes.many == 0)
        for connection in met:
            connection.close()
        self.until(lambda: self.server.open == 0)
        self.is_served(self.client(ours))

    def test_who_counts_as_one(self):
        for one, other, same in [("10.0.0.1", "10.0.0.1", True), ("10.0.0.1", "10.0.0.2", False), ("2001:db8::1", "2001:db8::ffff:1", True), ("2001:db8::1", "2001:db8:0:1::1", False),
                                 ("::ffff:10.0.0.1", "10.0.0.1", True), ("::ffff:10.0.0.1", "::ffff:10.0.0.2", False), ("fe80::1%lo", "fe80::2", True)]:
            self.assertEqual(network_of(one) == network_of(other), same, (one, other))

    def test_an_address_of_ipv6(self):
        address = self.front(address="::1")
        self.assertEqual(self.exchange(b"GET /x HTTP/1.1\r\nHost: desk\r\n\r\n", address[:2]), (200, b"/x"))

    def test_executed_requests_are_read_by_no_certificate(self):
        ours = CERTIFICATES / "ours"
        for asks in (True, False):
            self.front_of(ours, asks)
            for target, is_one in ((b"/requests", True), (b"/requests?after=7", True), (b"//requests", False), (b"http://desk/requests?x", True),
                                   (b"HtTp:///requests", True), (b"/requests/", False), (b"/Requests", False), (b"/%72equests", False), (b"/events?/requests", False),
                                   (b"http://desk?/requests", False)):
                head, _, body = self.tried(self.client(ours, ours), b"GET %s HTTP/1.1\r\nHost: desk\r\n\r\n" % target).partition(b"\r\n\r\n")
                wanted = (b"403", FORBIDDEN) if asks and is_one else (b"200", target)
                self.assertEqual((head.split()[1], body), wanted, target)
            answer = self.tried(self.client(ours, ours), b"HEAD /requests HTTP/1.1\r\nHost: desk\r\n\r\n")
            self.assertTrue(answer.startswith(b"HTTP/1.1 403 " if asks else b"HTTP/1.1 200 ") and answer.endswith(b"\r\n\r\n"), answer)


@unittest.skipUnless(loop_of(), "python3-uvloop isn't installed")
class RequestsByUvloop(Requests):
    def new_loop(self):
        return loop_of()()


@unittest.skipUnless(loop_of(), "python3-uvloop isn't installed")
class CertificatesByUvloop(Certificates):
    def new_loop(self):
        return loop_of()()


if __name__ == "__main__":
    unittest.main()
