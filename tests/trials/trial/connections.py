"""Connections to a desk, or to what stands before one: exchanges of HTTP, plain bytes, and ports that are free."""
import contextlib
import http.client
import json
import socket
import ssl
import time
from typing import NamedTuple

# trusts any certificate
ANY = ssl.create_default_context()
ANY.check_hostname, ANY.verify_mode = False, ssl.CERT_NONE


class Reply(NamedTuple):
    """A reply of HTTP; the names of its fields are in small letters."""
    status: int
    fields: dict
    body: bytes

    @property
    def text(self):
        return self.body.decode()

    @property
    def value(self):
        return json.loads(self.body)


def connected(place, seconds=60):
    """A socket that is connected: to a port of this machine, or to the socket at a path."""
    if isinstance(place, int):
        return socket.create_connection(("127.0.0.1", place), timeout=seconds)
    there = socket.socket(socket.AF_UNIX)
    there.settimeout(seconds)
    try:
        there.connect(str(place))
    except OSError:
        there.close()
        raise
    return there


class ToSocket(http.client.HTTPConnection):
    """To a Unix socket, at a path."""

    def __init__(self, path, timeout):
        super().__init__("127.0.0.1", timeout=timeout)
        self.path = path

    def connect(self):
        self.sock = connected(self.path, self.timeout)


class Connection:
    """A connection that is kept for several exchanges: to a port, over TLS if there is a context, or to the socket at a path."""

    def __init__(self, place, context=None, seconds=60):
        if context:
            self.connection = http.client.HTTPSConnection("127.0.0.1", place, timeout=seconds, context=context)
        elif isinstance(place, int):
            self.connection = http.client.HTTPConnection("127.0.0.1", place, timeout=seconds)
        else:
            self.connection = ToSocket(place, seconds)

    def __enter__(self):
        return self

    def __exit__(self, *_):
        self.connection.close()

    def ask(self, method, target, body=None, fields=()):
        """One exchange. `fields` are pairs. A body goes with its length, and Host is this address, unless a field says otherwise; one that is None is left out."""
        body = body.encode() if isinstance(body, str) else body
        named = [name for name, _ in fields]
        self.connection.putrequest(method, target, skip_host="Host" in named)
        if body is not None and not {"Content-Length", "Transfer-Encoding"} & set(named):
            self.connection.putheader("Content-Length", str(len(body)))
        for name, value in fields:
            if value is not None:
                self.connection.putheader(name, value)
        self.connection.endheaders(body)
        reply = self.connection.getresponse()
        return Reply(reply.status, {name.lower(): value for name, value in reply.getheaders()}, reply.read())


def bytes_back(port, sent, context=None, ends=False, seconds=60):
    """What comes back for these bytes until the other side closes; `ends` says that nothing more is sent. Where the connection breaks it is what came before."""
    got = b""
    with contextlib.suppress(OSError), socket.create_connection(("127.0.0.1", port), timeout=seconds) as plain:
        connection = context.wrap_socket(plain, server_hostname="127.0.0.1") if context else plain
        connection.sendall(sent)
        if ends:
            connection.shutdown(socket.SHUT_WR)
        while part := connection.recv(65536):
            got += part
    return got


def free_ports(count):
    with contextlib.ExitStack() as held:
        return [held.enter_context(socket.create_server(("127.0.0.1", 0))).getsockname()[1] for _ in range(count)]


def free_port():
    return free_ports(1)[0]


def is_refused(port, address="127.0.0.1"):
    """Whether nobody listens there."""
    try:
        socket.create_connection((address, port), timeout=5).close()
    except ConnectionRefusedError:
        return True
    return False


def until(holds, seconds=60, step=0.05):
    """Waits until it holds; whether it did. What isn't reached yet doesn't hold."""
    end = time.monotonic() + seconds
    while True:
        with contextlib.suppress(OSError, http.client.HTTPException):
            if holds():
                return True
        if time.monotonic() > end:
            return False
        time.sleep(step)


def until_listening(port, seconds=120):
    return until(lambda: not is_refused(port), seconds)
