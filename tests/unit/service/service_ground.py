"""What the tests of the commands share: a folder with a desk's file, the program that keeps it, and a command that is run in this process."""
import contextlib
import http.server
import io
import json
import os
import re
import shutil
import signal
import socket
import sqlite3
import subprocess
import sys
import tempfile
import threading
import time
import unittest
import warnings
from pathlib import Path
from typing import NamedTuple
from unittest import mock

TOP = Path(__file__).resolve().parents[3]
SERVICE = TOP / "service"
sys.path.append(str(SERVICE))
from acd_service import main, pair  # noqa: E402

ACD = os.path.abspath(os.environ.get("ACD", TOP / "release/acd"))
SIGNALS = (signal.SIGHUP, signal.SIGINT, signal.SIGTERM, signal.SIGALRM, signal.SIGPIPE)
# a desk of a group, a station and an agent, in three requests; and then a caller each
PLAN = """\
0 {"requester":"plan","invoke":1,"service":"addGroup","device":"100","name":"Billing","ring":20,"wrap":30}
0 {"requester":"plan","invoke":2,"service":"addStation","device":"201"}
0 {"requester":"plan","invoke":3,"service":"addAgent","agent":"7","name":"Ana"}
"""


def arrives(invoke, caller="0301234", moment=10):
    return f'{moment} {{"requester":"pbx","invoke":{invoke},"service":"arriveCall","caller":"{caller}","called":"100"}}\n'


def tick(invoke, moment):
    return f'{moment} {{"requester":"clock-abcdefghijkl","invoke":{invoke},"service":"tick"}}\n'


class Said(NamedTuple):
    """What came of a command: its status, and what it printed on the two streams."""
    status: int
    out: str
    faults: str


def lines(file, text, *words):
    """The answers of the program to these lines, over a file."""
    done = subprocess.run([ACD, "lines", "--file", file, *words], input=text, capture_output=True, text=True, check=True, timeout=60)
    return done.stdout


def rows(file, statement, *values):
    """What stock SQLite reads in a file; a log is played into a copy."""
    with tempfile.TemporaryDirectory() as folder:
        made = Path(shutil.copy(file, folder))
        if pair.log_of(file).exists():
            shutil.copy(pair.log_of(file), pair.log_of(made))
        with contextlib.closing(sqlite3.connect(made)) as book:
            return book.execute(statement, values).fetchall()


def changed(file, *statements):
    """Changes a file by stock SQLite, and leaves no log beside it."""
    with contextlib.closing(sqlite3.connect(file, isolation_level=None)) as book:
        for statement in statements:
            book.execute(statement)
        book.execute("PRAGMA wal_checkpoint(TRUNCATE)")
    for end in ("-wal", "-shm"):
        Path(f"{file}{end}").unlink(missing_ok=True)


def snapshot(folder):
    """All files below a folder: their names and bytes."""
    return {str(one.relative_to(folder)): one.read_bytes() for one in sorted(folder.rglob("*")) if one.is_file() and not one.is_symlink()}


def free_port():
    with socket.create_server(("127.0.0.1", 0)) as taken:
        return taken.getsockname()[1]


def until(holds, seconds=60):
    """Waits until something holds."""
    end = time.monotonic() + seconds
    while not holds():
        if time.monotonic() > end:
            raise TimeoutError("it doesn't come")
        time.sleep(0.02)


@contextlib.contextmanager
def as_before():
    """Signals, the mask of files and the variables are afterwards what they were."""
    before = {one: signal.getsignal(one) for one in SIGNALS}
    mask, blocked = os.umask(0o022), signal.pthread_sigmask(signal.SIG_BLOCK, ())
    os.umask(mask)
    try:
        with mock.patch.dict(os.environ):
            time.tzset()
            yield
    finally:
        for one, handler in before.items():
            signal.signal(one, handler)
        os.umask(mask)
        signal.pthread_sigmask(signal.SIG_SETMASK, blocked)
        time.tzset()


def said(*words, stdin=b"", by="acdctl"):
    """A command of acdctl, or what is called by an old name, run in this process, so that its branches are counted."""
    out, faults = io.TextIOWrapper(io.BytesIO(), encoding="utf-8"), io.StringIO()
    given, status = io.TextIOWrapper(io.BytesIO(stdin)), 0
    with as_before(), warnings.catch_warnings(), contextlib.redirect_stdout(out), contextlib.redirect_stderr(faults), mock.patch("sys.stdin", given):
        # of what an earlier test left to be collected
        warnings.simplefilter("ignore", ResourceWarning)
        try:
            main.main([by, *map(str, words)])
        except SystemExit as end:
            status = end.code or 0
    if isinstance(status, str):
        faults.write(f"{status}\n")
        status = 1
    out.flush()
    return Said(status, out.buffer.getvalue().decode(), faults.getvalue())


class Case(unittest.TestCase):
    """Each test has a folder of its own, and the program as `acd`."""
    maxDiff = None

    def setUp(self):
        self.folder = Path(os.path.realpath(self.enterContext(tempfile.TemporaryDirectory())))
        self.bin = self.folder / "bin"
        self.bin.mkdir()
        (self.bin / "acd").symlink_to(ACD)
        self.enterContext(mock.patch.dict(os.environ, {"PATH": f"{self.bin}:/usr/sbin:/usr/bin:/sbin:/bin", "TZ": "UTC"}))
        for name in ("NOTIFY_SOCKET", "SERVICE_RESULT", "ACD_PASSWORD"):
            os.environ.pop(name, None)
        time.tzset()
        self.home = self.folder / "desk"
        self.home.mkdir()
        self.file = self.home / "desk.db"

    def program(self, name, text):
        """A script in the place of a program."""
        (self.bin / name).unlink(missing_ok=True)
        (self.bin / name).write_text(f"#!/bin/sh\n{text}\n")
        (self.bin / name).chmod(0o755)

    def refused(self, words, status, pattern):
        """A command ends with this status and one line, in which this is found."""
        done = said(*words)
        self.assertEqual((done.status, done.out), (status, ""), done)
        self.assertRegex(done.faults, rf"\Aacdctl {words[0]}: .*(?:{pattern}).*\n\Z")

    def desk(self, text=PLAN):
        """The file of a desk that executed these lines, and was closed."""
        lines(self.file, text)
        return self.file

    def killed(self, text):
        """A desk answers these lines, and is killed: they are in its log alone."""
        with subprocess.Popen([ACD, "lines", "--file", self.file], stdin=subprocess.PIPE, stdout=subprocess.PIPE) as desk:
            for line in text.splitlines():
                desk.stdin.write(f"{line}\n".encode())
                desk.stdin.flush()
                self.assertTrue(desk.stdout.readline())
            desk.kill()

    def carried(self, text, last):
        """Cuts off a file's requests, all up to this stamp, as a carry-over does; it goes on with these lines. The archive, which has the file as it was before."""
        archive = self.home / f"desk.db-1970-01-04-{last}"
        shutil.copy(self.file, archive)
        changed(self.file, "DELETE FROM kept", "DELETE FROM events")
        lines(self.file, text)
        pair.log_of(self.file).unlink(missing_ok=True)
        return archive

    def serves(self, file=None):
        """The process of a desk that serves a file, and its address."""
        port = free_port()
        desk = subprocess.Popen(["acd", "serve", "--file", file or self.file, "--port", str(port), "--endless"], stdout=subprocess.DEVNULL, stderr=subprocess.DEVNULL)

        def end():
            desk.kill()
            desk.wait()

        self.addCleanup(end)
        until(lambda: not socket.socket().connect_ex(("127.0.0.1", port)))
        return desk, f"http://127.0.0.1:{port}"

    def answers(self, answers):
        """The address of a server that gives, at each path, what is found there: a status and a text, a function of what it is sent, or several in turn; and the list
        of what it is sent."""
        got = []

        class Handler(http.server.BaseHTTPRequestHandler):
            def do_GET(self):
                body = self.rfile.read(int(self.headers.get("Content-Length", 0))).decode()
                got.append((self.command, self.path, body))
                found = answers[self.path]
                found = (found.pop(0) if len(found) > 1 else found[0]) if isinstance(found, list) else found
                status, text = found(body) if callable(found) else found
                data = text.encode() if isinstance(text, str) else json.dumps(text, separators=(",", ":")).encode()
                self.send_response(status)
                self.send_header("Content-Length", str(len(data)))
                self.end_headers()
                self.wfile.write(data)

            do_POST = do_GET

            def log_message(self, *_):
                pass

        server = http.server.ThreadingHTTPServer(("127.0.0.1", 0), Handler)
        threading.Thread(target=server.serve_forever, args=(0.05,), daemon=True).start()
        self.addCleanup(server.server_close)
        self.addCleanup(server.shutdown)
        return f"http://127.0.0.1:{server.server_port}", got


def moments_out(text):
    """A text with X in the place of each name of a copy, and of what is drawn by chance."""
    return re.sub(r"(put-away|taken-back|damaged)-X-[0-9a-z_]+", r"\1-X", re.sub(r"\d{4}-\d\d-\d\dT\d{6}Z", "X", text))
