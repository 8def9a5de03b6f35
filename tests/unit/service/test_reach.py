"""reach: what a person is told who gets no answer, and how soon."""
import argparse
import socket
import ssl
import sys
import threading
import types
import unittest
from pathlib import Path
from unittest import mock

TOP = Path(__file__).resolve().parents[3]
sys.path.insert(0, str(TOP / "service"))
from acd_service import reach  # noqa: E402

CERTIFICATES = TOP / "tests/unit/certificates/ours"
HINT = "; only root and the group acd-local reach this port: be one of them, or use https://.. with --login"


def free_port():
    with socket.create_server(("127.0.0.1", 0)) as taken:
        return taken.getsockname()[1]


class NoAnswer(unittest.TestCase):
    def fault(self, address):
        desk = reach.desk_at(argparse.Namespace(address=address, ca=None, login=None))
        with self.assertRaises(reach.Fault) as told, mock.patch.multiple(reach, SOON=0.1, PAUSE=0.05):
            reach.read(desk, "/snapshot")
        return str(told.exception)

    @staticmethod
    def account(user, groups=(), has_group=True):
        """Who runs it, on a machine that has acd-local or not; the group's number is 950."""
        def getgrnam(_):
            if has_group:
                return types.SimpleNamespace(gr_gid=950)
            raise KeyError

        return mock.patch.multiple(reach, grp=types.SimpleNamespace(getgrnam=getgrnam), pwd=types.SimpleNamespace(getpwuid=lambda _: types.SimpleNamespace(pw_name=user)),
                                   os=types.SimpleNamespace(geteuid=lambda: 1000, getegid=lambda: 1000, getgroups=lambda: list(groups), environ={}))

    def test_a_user_of_this_machine(self):
        port = free_port()
        for user, groups, has_group, hint in (("joe", (1000, 27), True, HINT), ("joe", (1000, 950), True, ""), ("joe", (1000,), False, ""), ("root", (0,), True, ""), ("acd", (), True, "")):
            with self.subTest(user=user, groups=groups), self.account(user, groups, has_group):
                self.assertEqual(self.fault(f"http://127.0.0.1:{port}"), f"no answer: [Errno 111] Connection refused{hint}")

    def test_a_socket(self):
        """Who may not connect is told who may; where nobody listens, nothing of that."""
        for fault, hint in ((PermissionError(13, "Permission denied"), HINT.replace("port", "socket")), (FileNotFoundError(2, "No such file or directory"), "")):
            with self.subTest(fault=fault), self.account("joe", (1000,)), mock.patch("socket.socket.connect", side_effect=fault):
                self.assertEqual(self.fault("unix:/run/acd/desk"), f"no answer: {fault}{hint}")

    def test_an_address(self):
        for good in ("unix:/run/acd/desk", "http://127.0.0.1:8080", "https://desk.example:8443/line"):
            self.assertEqual(reach.address(good), good)
        for bad in ("unix:desk", "unix:", "http://pbx@desk", "ftp://desk", "http://desk/?a"):
            with self.assertRaises(argparse.ArgumentTypeError):
                reach.address(bad)
        parser = argparse.ArgumentParser(exit_on_error=False)
        with self.assertRaises(SystemExit), mock.patch("sys.stderr"):
            reach.check(parser, argparse.Namespace(address="unix:/run/acd/desk", ca=None, login="joe"))

    def test_elsewhere(self):
        """Nothing is said of acd-local where another machine, or a proxy, is asked."""
        port = free_port()
        with self.account("joe", (1000,)):
            self.assertEqual(self.fault(f"https://127.0.0.1:{port}"), "no answer: [Errno 111] Connection refused")
            self.assertEqual(self.fault(f"http://127.0.0.2:{port}"), "no answer: [Errno 111] Connection refused")

    def test_what_no_further_attempt_mends(self):
        """A certificate that isn't trusted is told at once, not after the seconds that a desk may be away."""
        context = ssl.SSLContext(ssl.PROTOCOL_TLS_SERVER)
        context.load_cert_chain(CERTIFICATES / "self-signed.crt", CERTIFICATES / "desk.key")
        with socket.create_server(("127.0.0.1", 0)) as plain:
            def show():
                try:
                    context.wrap_socket(plain.accept()[0], server_side=True)
                except OSError:
                    pass

            threading.Thread(target=show, daemon=True).start()
            desk = reach.desk_at(argparse.Namespace(address=f"https://127.0.0.1:{plain.getsockname()[1]}", ca=None, login=None))
            # who tried again would wait here, and be told for how long
            with self.assertRaisesRegex(reach.Fault, "no answer: .*CERTIFICATE_VERIFY_FAILED"), mock.patch.object(reach.time, "sleep", side_effect=AssertionError("it tries again")):
                reach.read(desk, "/snapshot")


if __name__ == "__main__":
    unittest.main()
