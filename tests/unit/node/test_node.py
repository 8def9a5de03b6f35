"""The command as a process: with which status it ends, and what it waits out."""
import contextlib
import http.client
import io
import os
import signal
import socket
import struct
import subprocess
import sys
import tempfile
import threading
import time
import unittest
from pathlib import Path

sys.path.insert(0, str(Path(__file__).resolve().parent))

from bench import HERE, LINE, PATIENCE, SERVICE, Bench, token  # noqa: E402
from acd_service import main  # noqa: E402

NODE = str(SERVICE / "bin/acd-node")
NEEDED = ["--name", "m1", "--folder", "/nonexistent/folder", "--etcd", "127.0.0.1:9"]


def free_port():
    with socket.create_server(("127.0.0.1", 0)) as taken:
        return taken.getsockname()[1]


class Processes(Bench):
    def start(self, *more, name="m1"):
        self.port = free_port()
        words = [NODE, "--name", name, "--folder", str(self.folder / name), "--etcd", ",".join(member.end for member in self.members), "--port", str(self.port),
                 "--desk", str(HERE / "desk.py"), *more]
        process = subprocess.Popen(words, stderr=subprocess.PIPE, text=True)
        self.addCleanup(process.stderr.close)
        self.addCleanup(process.wait)
        self.addCleanup(process.kill)
        return process

    def ask(self, body=None, target="/csta"):
        connection = http.client.HTTPConnection("127.0.0.1", self.port, timeout=PATIENCE)
        try:
            connection.request("GET" if body is None else "POST", target, body)
            reply = connection.getresponse()
            return reply.status, reply.read()
        except (OSError, http.client.HTTPException):
            return None
        finally:
            connection.close()

    def answers(self, process, word=b"x"):
        self.until(lambda: process.poll() is None and self.ask(word) == (200, word))

    def test_it_answers_and_no_bad_body_gets_into_the_log(self):
        self.member()
        process = self.start()
        self.answers(process)
        before = len([change for change in self.store.changes if change["key"] == LINE])
        for body in [b"", b"GET /snapshot", b"HEAD /"]:
            self.assertEqual(self.ask(body), (400, b'{"error":{"code":30,"member":"json","name":"malformed"}}'))
        self.assertEqual(len([change for change in self.store.changes if change["key"] == LINE]), before)

    def test_bad_entries_stop_nothing(self):
        self.member()
        process = self.start()
        self.answers(process)
        for entry in [b"nospace", b"", b" ", token(1) + b" x", b"\xff\n\xff"]:
            self.store.put(LINE, entry)
        self.answers(process, b"y")
        process.send_signal(signal.SIGTERM)
        process.wait()
        process = self.start()
        self.answers(process, b"z")

    def test_etcd_that_is_away_is_waited_out(self):
        member = self.member()
        process = self.start()
        self.answers(process)
        member.away = True
        self.assertEqual(self.ask(b"x")[0], 503)
        self.assertEqual(self.ask(target="/snapshot"), (200, b"GET /snapshot"))  # reads are answered as before
        time.sleep(2)
        member.away = False
        self.answers(process, b"y")

    def test_what_nobody_foresaw_ends_the_feeding_thread_with_the_process(self):
        self.member()
        process = self.start()
        self.answers(process)
        self.members[0].lines = lambda *_: iter([{"header": {}, "events": [{"kv": {"no": "revision"}}]}])
        self.assertEqual(process.wait(PATIENCE), 1)
        self.assertIn("KeyError", process.stderr.read())

    def test_and_the_loop_with_the_process(self):
        self.member()
        process = self.start()
        self.answers(process)
        self.ask(b"odd")
        self.assertEqual(process.wait(PATIENCE), 1)
        self.assertIn("ValueError", process.stderr.read())

    def test_clients_that_leave_end_nothing(self):
        self.member()
        process = self.start()
        self.answers(process)
        for sent in (b"", b"POST /csta HTTP/1.1\r\nContent-Le", b"POST /csta HTTP/1.1\r\nHost: desk\r\nContent-Length: 9\r\n\r\n12", b"POST /csta HTTP/1.1\r\nHost: desk\r\nContent-Length: 4\r\n\r\nslow",
                     b"GET /snapshot HTTP/1.1\r\nHost: desk\r\n\r\n"):
            for _ in range(20):
                with socket.create_connection(("127.0.0.1", self.port), timeout=PATIENCE) as connection:
                    connection.setsockopt(socket.SOL_SOCKET, socket.SO_LINGER, struct.pack("ii", 1, 0))
                    connection.sendall(sent)
        self.answers(process, b"y")

    def test_and_a_thread_that_answers_with_the_process(self):
        self.member()
        process = self.start()
        self.answers(process)
        self.members[0].garbage = True
        self.ask(b"x")
        self.assertEqual(process.wait(PATIENCE), 1)
        self.assertIn("JSONDecodeError", process.stderr.read())

    def says(self, process, words):
        """Reads the lines of a node that goes on, until one has these words."""
        found = threading.Timer(PATIENCE, process.kill)
        found.start()
        self.assertIn(words, next((line for line in process.stderr if words in line), ""))
        found.cancel()

    def test_a_log_that_was_compacted_or_forgot(self):
        self.member()
        self.entries(9)
        self.store.compacted = 5
        process = self.start()
        self.says(process, "the log begins behind this machine's place 0: copy the folder of another machine")
        self.assertEqual((self.ask(b"x")[0], self.ask(target="/snapshot")[0], process.poll()), (503, 503, None))
        process.kill()
        self.store.compacted = 0
        process = self.start()
        self.answers(process)
        self.store.forget_all()
        self.says(process, "it isn't the log that this folder was fed from")
        self.assertEqual((self.ask(b"x")[0], process.poll()), (503, None))

    def test_one_that_differs_from_two(self):
        self.member()
        for name in (b"m2", b"m3"):
            self.store.put(LINE + b"/digest/" + name + b"/1000", b"other")
        (self.folder / "m1").mkdir()
        (self.folder / "m1/at").write_text("3 999 " + "0" * 64)
        for turn in range(2):                              # and so does a start
            process = self.start("--machines", "m1,m2,m3")
            if turn == 0:
                self.entries(1)
            self.says(process, "differ from those of two other machines")
            self.assertEqual((self.ask(b"x")[0], self.ask(target="/snapshot")[0], process.poll()), (503, 503, None))
            process.kill()
            process.wait()

    def test_a_folder_that_takes_no_place(self):
        self.member()
        (self.folder / "m1/at").mkdir(parents=True)
        self.assertEqual(self.start().wait(PATIENCE), 1)


class CommandLines(unittest.TestCase):
    def refused(self, *words):
        """In this process: a start of its own would cost more than all else here."""
        with contextlib.redirect_stderr(io.StringIO()) as faults, self.assertRaises(SystemExit) as end:
            main.main(["acdctl", "node", *words])
        self.assertEqual(end.exception.code, 2, (words, faults.getvalue()))
        return faults.getvalue()

    def test_the_command(self):
        done = subprocess.run([NODE, *NEEDED[:2]], stderr=subprocess.PIPE, text=True, timeout=PATIENCE)
        self.assertEqual((done.returncode, "acd-node: " in done.stderr), (2, True))

    def test_an_address_that_strangers_reach(self):
        for address in ["10.0.0.1", "0.0.0.0", "desk.example", "128.0.0.1", ""]:
            self.assertIn("strangers", self.refused(*NEEDED, "--bind", address))
            self.assertIn("strangers", self.refused(*NEEDED, "--bind", address, "--cert", "c", "--key", "k"))

    def test_options(self):
        for words in [[], NEEDED[2:], NEEDED[:2] + NEEDED[4:], NEEDED[:4], [*NEEDED, "--gone", "0"], [*NEEDED, "--gone", "nan"], [*NEEDED, "--gone", "x"],
                      [*NEEDED, "--machines", "m2,m3"], [*NEEDED, "--machines", "m1,m1"], [*NEEDED, "--machines", "m1,"], [*NEEDED, "--name", "a/b"], [*NEEDED, "--etcd", "127.0.0.1"],
                      [*NEEDED, "--client-ca", "c"], [*NEEDED, "--cert", "c"], [*NEEDED, "--key", "k"], [*NEEDED, "--upkeep", "now"], [*NEEDED, "--upkeep", "later", "--machines", "m1"],
                      [*NEEDED, "--etcd-cert", "c"], [*NEEDED, "--etcd-user", "m1"], [*NEEDED, "--etcd-user", "m1", "--etcd-password", "/nonexistent"]]:
            self.refused(*words)

    def test_a_password_that_everybody_may_read(self):
        with tempfile.NamedTemporaryFile() as file:
            words = [*NEEDED, "--upkeep", "now", "--machines", "m1", "--etcd-user", "m1", "--etcd-password", file.name]
            os.chmod(file.name, 0o644)
            self.assertIn(f"chmod o= {file.name}", self.refused(*words))
            os.chmod(file.name, 0o640)
            self.assertEqual(subprocess.run([NODE, *words], stderr=subprocess.PIPE, timeout=PATIENCE).returncode, 1)   # no etcd is there

    def test_no_user(self):
        done = subprocess.run([NODE, *NEEDED, "--upkeep", "now", "--machines", "m1", "--etcd-user", "", "--etcd-password", "/nonexistent"], stderr=subprocess.PIPE, timeout=PATIENCE)
        self.assertEqual(done.returncode, 1)

    def test_upkeep_without_etcd(self):
        done = subprocess.run([NODE, "--name", "m1", "--machines", "m1", "--etcd", "127.0.0.1:9", "--upkeep", "now"], stderr=subprocess.PIPE, text=True, timeout=PATIENCE)
        self.assertEqual((done.returncode, done.stderr.count("\n")), (1, 1))
        self.assertIn("etcd isn't looked after", done.stderr)


if __name__ == "__main__":
    unittest.main()
