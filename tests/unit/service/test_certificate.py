"""acdctl certificate: what it says of certificates, and with which status it ends."""
import datetime
import re
import shutil
import socket
import ssl
import tempfile
import threading
import unittest
from pathlib import Path

from service_ground import TOP, said
from acd_service import certificate as program

CERTIFICATES = TOP / "tests/unit/certificates/ours"


def moment_in(certificate):
    """The last moment in a certificate of this folder, as its bytes have it: UTCTime before 2050, GeneralizedTime from then on."""
    return b"491231235959Z" if "2049" in certificate else b"99991231235959Z"


def made(folder, end, name=None):
    """A certificate that is good until this moment, YYYYMMDDHHMMSSZ, with its key beside it: one that was made once, with another moment in its place. Its
    signature isn't right any more, which nobody looks at who trusts any certificate."""
    name = name or ("until-2049" if end < "2050" else "self-signed")
    was, moment = moment_in(name), end.encode()
    now = moment[-len(was):]
    der = ssl.PEM_cert_to_DER_cert((CERTIFICATES / f"{name}.crt").read_text())
    if der.count(was) != 1 or len(now) != len(was):
        raise ValueError(f"{name}.crt can't be made to end at {end}")
    (folder / "desk.crt").write_text(ssl.DER_cert_to_PEM_cert(der.replace(was, now)))
    shutil.copy(CERTIFICATES / "desk.key", folder)
    return folder / "desk.crt"


def end_by_openssl(certificate):
    """The end of a certificate as Python's ssl has it, by OpenSSL's library."""
    context = ssl.SSLContext(ssl.PROTOCOL_TLS_CLIENT)
    context.load_verify_locations(certificate)
    found, = context.get_ca_certs()
    return datetime.datetime.fromtimestamp(ssl.cert_time_to_seconds(found["notAfter"]), datetime.timezone.utc)


class Port(threading.Thread):
    """Shows a certificate to whoever connects."""

    def __init__(self, certificate):
        super().__init__(daemon=True)
        self.socket, self.context = socket.create_server(("127.0.0.1", 0)), ssl.SSLContext(ssl.PROTOCOL_TLS_SERVER)
        self.context.load_cert_chain(certificate, certificate.with_suffix(".key"))
        self.port = self.socket.getsockname()[1]
        self.start()

    def run(self):
        while True:
            try:
                plain, _ = self.socket.accept()
                with self.context.wrap_socket(plain, server_side=True) as connection:
                    connection.recv(1)
            except (ssl.SSLError, ConnectionError):
                continue
            except OSError:
                return


class Certificates(unittest.TestCase):
    def setUp(self):
        folder = tempfile.TemporaryDirectory()
        self.addCleanup(folder.cleanup)
        self.folder = Path(folder.name)

    def ran(self, port, *words):
        done = said("certificate", "--port", port, *words)
        return done.status, done.out + done.faults

    def in_days(self, days):
        moment = datetime.datetime.now(datetime.timezone.utc) + datetime.timedelta(days=days)
        return moment.strftime("%Y%m%d%H%M%SZ"), moment.strftime("%Y-%m-%d %H:%M UTC")

    def test_what_is_told(self):
        """Two weeks before its end, each day from then on, after its end, and not before."""
        for days, options, status, told in ((15.01, (), 0, "ends on {}"), (14.01, (), 0, "ends on {}"), (13.99, (), 1, "ends in 13 days, on {}"), (0.5, (), 1, "ends in 0 days, on {}"),
                                            (-0.01, (), 1, "ended on {}"), (-400, (), 1, "ended on {}"), (20, ("--days", "30"), 1, "ends in 19 days, on {}")):
            end, shown = self.in_days(days)
            port = Port(made(self.folder, end))
            with self.subTest(days=days):
                said = self.ran(port.port, *options)
                self.assertEqual(said[0], status)
                self.assertRegex(said[1], re.escape(f"acdctl certificate: the certificate at 127.0.0.1:{port.port} {told.format(shown)}"))
                self.assertEqual(len(said[1].splitlines()), 1)
            port.socket.close()

    def test_ends_as_openssl_reads_them(self):
        """Of either form of a time, before 2050 and after it, and of a certificate of the first version."""
        for name, *ends in ((None, "20301231235959Z", "20491231235959Z", "20500101000000Z", "21260228120001Z"), ("version-1-until-2049", "20301231235959Z", "20491231235959Z")):
            for end in ends:
                with self.subTest(name=name, end=end):
                    certificate = made(self.folder, end, name)
                    found = program.end_of(ssl.PEM_cert_to_DER_cert(certificate.read_text()))
                    self.assertEqual((found, found.strftime("%Y%m%d%H%M%SZ")), (end_by_openssl(certificate), end))

    def test_what_is_no_certificate(self):
        der = ssl.PEM_cert_to_DER_cert(made(self.folder, "20301231235959Z").read_text())
        for length in range(0, 200):
            with self.assertRaises(program.Fault):
                program.end_of(der[:length])
        for wrong in (b"", b"\x30", b"\x30\x80", b"\x30\x84\xff\xff\xff\xff", b"\x02\x01\x01", b"0" * 4000):
            with self.assertRaises(program.Fault):
                program.end_of(wrong)

    def test_nobody_listens(self):
        with socket.create_server(("127.0.0.1", 0)) as taken:
            port = taken.getsockname()[1]
        self.assertEqual(self.ran(port), (0, f"acdctl certificate: nobody listens at 127.0.0.1:{port}, so there is no certificate to look at (ACD_TLS_HOST and ACD_TLS_PORT in acd.env)\n"))

    def test_a_port_without_tls(self):
        with socket.create_server(("127.0.0.1", 0)) as plain:
            threading.Thread(target=lambda: [connection.sendall(b"HTTP/1.1 400 Bad Request\r\n\r\n") for connection, _ in [plain.accept()]], daemon=True).start()
            status, said = self.ran(plain.getsockname()[1])
        self.assertEqual((status, said.count("\n")), (1, 1))
        self.assertRegex(said, "acdctl certificate: 127.0.0.1:[0-9]+: ")

    def test_refused_words(self):
        for words in (("--port", "0"), ("--port", "65536"), ("--port", "x"), ("--days", "-1"), ("8443",)):
            self.assertEqual(said("certificate", *words).status, 2)


if __name__ == "__main__":
    unittest.main()
