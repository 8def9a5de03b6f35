"""What the gate's tests begin with: the gate in a thread of its own, over a stand-in for the desk that keeps the requests it gets."""
import asyncio
import contextlib
import http.client
import io
import json
import socket
import sys
import tempfile
import threading
import unittest
from base64 import b64encode
from http.server import BaseHTTPRequestHandler, ThreadingHTTPServer
from pathlib import Path
from socketserver import TCPServer
from unittest import mock

TOP = Path(__file__).resolve().parents[3]
sys.path += [str(TOP / "service"), str(TOP / "client"), str(TOP / "tests/trials")]
from acd_service import command  # noqa: E402
from acd_service.gate.desk import Desk, Place  # noqa: E402
from acd_service.gate.roles import Watched, hashes_of, roles_of  # noqa: E402
from acd_service.gate.routes import Gate  # noqa: E402
from acd_service.gate.server import Server, listening_at  # noqa: E402
from acd_service.gate.sessions import Secrets  # noqa: E402
from trial import Connection, bytes_back, until  # noqa: E402

ROLES = """# who may what
pbx exchange
planner office
sup supervisor
ana agent 7   # at any station

ben agent 07
cleo stations=201,202 agent groups=100,110 agent=7
ana-b agent agent=8
lea lead reads=none groups=110,100
Copy.2 follow
blind office reads=none
Jürgen supervisor
"""
# seconds for what comes at once, unless the machine is busy
PATIENCE = 120
# of "secret" by SHA-1, as `htpasswd -s` makes it
SECRET = "{SHA}5en6G6MezRroT3XKqkdPOmY/BfQ="
# what the gate and nginx know
PROXYS, SESSIONS = "0f" * 32, "1e" * 32
USERS = "".join(f"{login}:{SECRET}\n" for login in ("pbx", "planner", "sup", "ana", "ana-b", "nobody", "Jürgen", "Copy.2"))
FORBIDDEN = (403, b'{"error":{"code":41,"name":"forbidden"}}')
BAD_GATEWAY = (502, b'{"error":{"code":44,"name":"badGateway"}}')
# where the gate runs, and the desk doesn't answer it
NO_DESK = (502, b'{"error":{"code":46,"name":"noDesk"}}')
REPLY = b'{"error":{"code":3,"name":"unknownCall"},  "odd":1}'
PAGE = b'{"last":0,  "requests":[]}'


def lines(content):
    """A file's lines as the gate reads them, and its lines on standard error."""
    with tempfile.TemporaryDirectory() as folder, contextlib.redirect_stderr(io.StringIO()) as printed:
        file = Path(folder) / "file"
        file.write_bytes(content)
        said = [Watched(file, read).now() for read in (roles_of, hashes_of)]
    return said, printed.getvalue().replace(f"{folder}/", "")


def roles(content):
    with contextlib.redirect_stderr(io.StringIO()) as printed:
        return roles_of("roles", content.split("\n")), printed.getvalue()


class StandIn(BaseHTTPRequestHandler):
    """Agent 7 is logged on at 201, and agent 07 nowhere; a service is answered by odd bytes with status 409, unless it is granted."""
    protocol_version = "HTTP/1.1"

    def log_message(self, *_):
        pass

    def answer(self, status, body):
        self.send_response(status)
        self.send_header("Content-Type", "application/json")
        self.send_header("Content-Length", str(len(body)))
        self.send_header("Connection", "close")
        self.end_headers()
        self.wfile.write(body)

    def do_GET(self):
        if self.path.startswith("/requests"):
            self.server.got.append(self.path)
            return self.answer(200, PAGE)
        known = {"/agents/7": {"agent": "7", "device": self.server.station}, "/agents/07": {"agent": "07"}, **self.server.known}
        found = known.get(self.path.partition("?")[0])
        self.answer(404 if found is None else 200, json.dumps(found).encode())

    def do_POST(self):
        self.server.got.append((self.path, self.rfile.read(int(self.headers["Content-Length"]))))
        if self.server.status == 200:
            return self.answer(200, b'{"invoke":1}')
        self.answer(409, REPLY)


class StandInDesk(ThreadingHTTPServer):
    request_queue_size = 128

    def __init__(self, path=None):
        if path:
            self.address_family = socket.AF_UNIX
        super().__init__(path or ("127.0.0.1", 0), StandIn)
        self.got, self.station, self.known, self.status = [], "201", {}, 409

    def server_bind(self):
        """Without the name of its own host, which a socket has none of."""
        TCPServer.server_bind(self)
        self.server_port = self.server_address[1]


class Named(unittest.TestCase):
    """What is told bears the gate's name, whichever command ran in this process before, and a loop on a busy machine doesn't tell that it is slow."""

    def setUp(self):
        self.enterContext(mock.patch.multiple(command, name="acd-gate", is_old=True))
        self.enterContext(mock.patch.object(asyncio.log.logger, "warning"))


class Standing:
    """A gate that listens, in a thread with a loop of its own."""

    def __init__(self, gate):
        self.gate, self.listening = gate, listening_at(Place(0))
        self.port, self.begun = self.listening.getsockname()[1], threading.Event()
        self.thread = threading.Thread(target=asyncio.run, args=(self.serve(),), daemon=True)

    async def serve(self):
        self.loop, self.task, self.server = asyncio.get_running_loop(), asyncio.current_task(), Server(self.gate.answer)
        self.begun.set()
        with contextlib.suppress(asyncio.CancelledError):
            await self.server.listen(self.listening)

    def __enter__(self):
        self.thread.start()
        self.begun.wait(PATIENCE)
        return self

    def __exit__(self, *_):
        self.loop.call_soon_threadsafe(self.task.cancel)
        self.thread.join(PATIENCE)
        self.listening.close()

    def do(self, work):
        """The result of a coroutine, in the gate's loop."""
        return asyncio.run_coroutine_threadsafe(work, self.loop).result(PATIENCE)


class GateTest(Named):
    def setUp(self):
        super().setUp()
        folder = Path(self.enterContext(tempfile.TemporaryDirectory()))
        self.roles, self.users, self.records, self.own = folder / "roles", folder / "users", folder / "records", folder / "own"
        self.own.mkdir()
        self.roles.write_text(ROLES)
        self.users.write_text(USERS)
        self.desk = self.enterContext(StandInDesk())
        threading.Thread(target=self.desk.serve_forever, args=(0.02,), daemon=True).start()
        self.addCleanup(self.desk.shutdown)
        self.gate = Gate(Desk(Place(self.desk.server_port)), self.roles, self.users, records=self.records, secrets=Secrets(SESSIONS, PROXYS), own=self.own)
        self.standing = self.enterContext(Standing(self.gate))
        self.port = self.standing.port

    def exchange(self, method, path, body, fields):
        with Connection(self.port, seconds=PATIENCE) as connection:
            return connection.ask(method, path, body, fields.items())

    def begins(self, sent, answer):
        """What comes back for these bytes begins so."""
        self.assertRegex(bytes_back(self.port, sent, seconds=PATIENCE), answer)

    def ask(self, login, body, method="POST", path="/csta", **fields):
        named = {"X-Login": login.encode(), "X-Site": "https://desk:8443", **{name.replace("_", "-"): value for name, value in fields.items()}}
        status, _, answer = self.exchange(method, path, body if isinstance(body, (bytes, type(None))) else json.dumps(body), named)
        return status, answer

    def passes(self, login, body, **fields):
        before = len(self.desk.got)
        answer = self.ask(login, body, **fields)
        came = len(self.desk.got) - before
        self.assertIn((answer, came), [((409, REPLY), 1), (FORBIDDEN, 0)])
        return came == 1

    def allowed(self, login, services, **members):
        return [service for service in services if self.passes(login, {"requester": login, "invoke": 1, "service": service, **members})]


def basic(login, password="secret"):
    return b"Basic " + b64encode((login if isinstance(login, bytes) else login.encode()) + b":" + (password if isinstance(password, bytes) else password.encode()))


class DoorTest(GateTest):
    """Passwords and sessions, by a clock of its own."""
    def setUp(self):
        super().setUp()
        self.now = 1000.0
        self.gate.passwords.clock = lambda: self.now

    def auth(self, authorization, address="192.0.2.1", **fields):
        """Status, login and why."""
        named = {"X-Address": address, "X-Signed": "yes", **({} if authorization is None else {"Authorization": authorization}), **fields}
        status, reply_fields, _ = self.exchange("GET", "/auth", None, named)
        return status, reply_fields.get("x-login"), reply_fields.get("x-why")

    def log_in(self, login, password="secret", address="192.0.2.1", **fields):
        form = f"login={login}&password={password}".encode()
        return self.exchange("POST", "/login", form, {"X-Address": address, **fields})

    def looks(self):
        """Counts the passwords that are looked at."""
        looked, fits = [], self.gate.passwords.fits
        self.gate.passwords.fits = lambda hashes, attempt: looked.append(attempt.login) or fits(hashes, attempt)
        return looked

    def waits(self, count):
        """Until so many passwords wait for a check."""
        self.assertTrue(until(lambda: self.gate.passwords.turns.count == count, PATIENCE), self.gate.passwords.turns.count)

    def blocked(self):
        """A check that is under way ends where this is released; and the logins of those that were looked at, in their order."""
        ends, looked, fits = threading.Semaphore(0), [], self.gate.passwords.fits

        def slow(hashes, attempt):
            looked.append(attempt.login)
            ends.acquire(timeout=10 * PATIENCE)  # later than anybody waits for an answer
            return fits(hashes, attempt)

        self.gate.passwords.fits = slow
        self.addCleanup(ends.release, 1000)
        return ends, looked

    def meanwhile(self, login, password="guess", address="192.0.2.1"):
        """A question in a thread of its own; where its verdict is put."""
        answers = []

        def ask():
            with contextlib.suppress(OSError, http.client.HTTPException):  # where the gate ends first
                answers.append(self.auth(basic(login, password), address))

        threading.Thread(target=ask, daemon=True).start()
        return answers

    RIGHT, WRONG, TOO_MANY = (204, "ana", None), (401, None, None), (401, None, "429")
