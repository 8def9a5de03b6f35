"""A crowd at the edge, from a network of its own: phones behind one address, strangers who hold connections, and SYNs of forged addresses. Needs root, nft and nginx."""
from __future__ import annotations

import ctypes
import multiprocessing
import os
import secrets
import socket
import ssl
import struct
import subprocess
import time
from collections.abc import Iterator
from contextlib import ExitStack, contextmanager
from multiprocessing.process import BaseProcess
from pathlib import Path
from types import TracebackType

from ground import EXCHANGE, PASSWORD, credentials
from lone import LoneEdge, field
from trial import ANY, Trial, until

expect = Trial.expect

HERE, OFFICE, STRANGER, ELSEWHERE = "10.9.0.1", "10.9.0.21", "10.9.0.66", "10.9.0.30"
MANY = [f"10.9.1.{place}" for place in range(1, 41)]
PHONES, IDLE, MOST = 300, 2600, 400
# seconds for which a connection stays without a byte, and those until what counts time has seen it
LIFE, LATE = 30, 15


class Cable:
    """Another network, with addresses of its own, that a cable joins to this one."""

    def __enter__(self) -> Cable:
        self.home = os.open("/proc/self/ns/net", os.O_RDONLY)
        self.keeper = subprocess.Popen(["unshare", "--net", "sleep", "3600"])
        until(lambda: os.readlink(f"/proc/{self.keeper.pid}/ns/net") != os.readlink("/proc/self/ns/net"), 5, 0.01)
        self.there = os.open(f"/proc/{self.keeper.pid}/ns/net", os.O_RDONLY)
        run = subprocess.run
        run(["ip", "link", "add", "edge0", "type", "veth", "peer", "name", "out0", "netns", str(self.keeper.pid)], check=True)
        run(["ip", "-batch", "-"], input=f"link set lo up\naddr add {HERE}/16 dev edge0\nlink set edge0 up\nroute add default via {OFFICE}\n", text=True, check=True)
        with self.outside():
            lines = "".join(f"addr add {host}/16 dev out0\n" for host in (OFFICE, STRANGER, ELSEWHERE, *MANY))
            run(["ip", "-batch", "-"], input=f"link set lo up\nlink set out0 up\n{lines}", text=True, check=True)
        return self

    def __exit__(self, kind: type[BaseException] | None, value: BaseException | None, where: TracebackType | None) -> None:
        self.keeper.kill()
        self.keeper.wait()

    @contextmanager
    def outside(self) -> Iterator[None]:
        """What this thread opens, and starts, is in the other network."""
        libc = ctypes.CDLL(None, use_errno=True)
        for entered in (self.there, self.home):
            if libc.setns(entered, 0):
                raise OSError(ctypes.get_errno(), "setns")
            if entered == self.there:
                yield

    def connect(self, host: str, port: int, encrypted: bool = False) -> socket.socket:
        with self.outside():
            plain = socket.socket()
        plain.settimeout(5)
        plain.bind((host, 0))
        plain.connect((HERE, port))
        return ANY.wrap_socket(plain) if encrypted else plain

    def flood(self, port: int, seconds: float, a_second: int, source: str = "") -> BaseProcess:
        """SYNs to a port of here, of ever new addresses, or of one and ever new ports; by a process of its own, so that it holds up nobody who measures."""
        with self.outside():
            raw = socket.socket(socket.AF_INET, socket.SOCK_RAW, socket.IPPROTO_RAW)

        def work() -> None:
            began, sent = time.monotonic(), 0
            while time.monotonic() < began + seconds:
                for _ in range(20):
                    raw.sendto(syn(socket.inet_aton(source) if source else b"\x0b" + secrets.token_bytes(3), port), (HERE, 0))
                    sent += 1
                time.sleep(max(0.0, began + sent / a_second - time.monotonic()))

        process = multiprocessing.get_context("fork").Process(target=work, daemon=True)
        process.start()
        raw.close()
        return process


def syn(source: bytes, port: int) -> bytes:
    """A packet of IP with a SYN of TCP, by RFC 791 and RFC 9293; the kernel fills in the sum of its IP header."""
    to = socket.inet_aton(HERE)
    segment = struct.pack("!HHIIBBHHH", 1024 + secrets.randbelow(60000), port, secrets.randbits(32), 0, 5 << 4, 2, 64240, 0, 0)
    total = sum(struct.unpack("!16H", source + to + struct.pack("!BBH", 0, 6, len(segment)) + segment))
    total = (total & 0xffff) + (total >> 16)
    segment = segment[:16] + struct.pack("!H", ~((total & 0xffff) + (total >> 16)) & 0xffff) + segment[18:]
    return struct.pack("!BBHHHBBH4s4s", 0x45, 0, 40, secrets.randbits(16), 0, 64, 6, 0, source, to) + segment


class Phone:
    """A phone over its own connection."""

    def __init__(self, cable: Cable, edge: LoneEdge, number: str, host: str, encrypted: bool):
        self.number, self.kind = number, "TLS" if encrypted else "TCP"
        self.line = cable.connect(host, edge.tls_port if encrypted else edge.edge_port, encrypted)

    def request(self, method: str) -> int:
        """With its password; 0 where its connection is gone."""
        head, call_id = "", secrets.token_hex(8)
        uri, to = ("sip:127.0.0.1", self.number) if method == "REGISTER" else ("sip:100@127.0.0.1", "100")
        try:
            for cseq in (1, 2):
                self.line.sendall((f"{method} {uri} SIP/2.0\r\nVia: SIP/2.0/{self.kind} {OFFICE}:9;rport;branch=z9hG4bK{secrets.token_hex(8)}\r\nTo: <sip:{to}@x>\r\n"
                                   f"From: <sip:{self.number}@x>;tag=1\r\nCall-ID: {call_id}\r\nCSeq: {cseq} {method}\r\n"
                                   f"Contact: <sip:{self.number}@{OFFICE}:9;transport=tcp>\r\nMax-Forwards: 70\r\n{head}Content-Length: 0\r\n\r\n").encode())
                text = ""
                while field(text, "Call-ID") != call_id or text.startswith("SIP/2.0 1"):
                    text = self.line.recv(8192).decode("latin-1")
                    if not text:
                        return 0
                status = int(text[8:11])
                if status not in (401, 407):
                    break
                head = credentials(text, status, method, uri, self.number, PASSWORD)
        except OSError:
            return 0
        return status


def is_open(line: socket.socket) -> bool:
    line.settimeout(0)
    try:
        return bool(line.recv(1))
    except (BlockingIOError, ssl.SSLWantReadError):
        return True
    except OSError:
        return False


class Crowd:
    def __init__(self, folder: Path, cable: Cable, edge: LoneEdge, web: int):
        self.folder, self.cable, self.edge, self.web = folder, cable, edge, web

    def limit(self, *words: str) -> None:
        ports = f"{self.edge.edge_port},{self.edge.tls_port}"
        done = subprocess.run([EXCHANGE / "acd-edge-limit", "--ports", ports, *words], capture_output=True, text=True)
        expect(f"acd-edge-limit {words}", (done.returncode, done.stdout, done.stderr), (0, "", ""))

    def hold(self, hosts: list[str], count: int, port: int) -> list[socket.socket]:
        """Connections that say nothing, by turns of the addresses; those that stay."""
        lines = []
        for place in range(count):
            try:
                lines.append(self.cable.connect(hosts[place % len(hosts)], port))
            except OSError:
                pass
        return [line for line in lines if is_open(line)]

    def phones(self) -> None:
        """Three hundred phones behind one address, whom nobody's idle connections keep out; these end, and those of the phones don't."""
        with ExitStack() as stack:
            phones = [Phone(self.cable, self.edge, str(1000 + place), OFFICE, bool(place % 2)) for place in range(PHONES)]
            for phone in phones:
                stack.enter_context(phone.line)
            expect("phones that register", sum(phone.request("REGISTER") == 200 for phone in phones), PHONES)
            began = time.monotonic()
            held = [(f"of one address at {port}", self.hold([STRANGER], IDLE, port), MOST) for port in (self.edge.edge_port,)]
            held.append(("of one address at the port of TLS", self.hold([MANY[0]], MOST + 50, self.edge.tls_port), MOST))
            held.append(("of forty addresses", self.hold(MANY[1:], IDLE, self.edge.edge_port), IDLE))
            held.append(("that finished the handshake of TLS", [self.cable.connect(ELSEWHERE, self.edge.tls_port, True) for _ in range(20)], 20))
            for what, lines, wanted in held:
                expect(f"idle connections {what} ({time.monotonic() - began:.0f} s)", len(lines), wanted)
            self.others_are_served(phones[0])
            expect("the phones meanwhile", sum(phone.request("OPTIONS") == 200 for phone in phones), PHONES)
            until(lambda: not any(is_open(line) for _, lines, _ in held for line in lines), LIFE + LATE, 1)
            for what, lines, _ in held:
                expect(f"idle connections {what} in the end", sum(map(is_open, lines)), 0)
            time.sleep(max(0.0, LIFE + LATE - 10))
            expect("the phones, silent for longer than a stranger may be", sum(phone.request("OPTIONS") == 200 for phone in phones), PHONES)

    def others_are_served(self, known: Phone) -> None:
        for host in (ELSEWHERE, OFFICE):
            for encrypted in (False, True):
                began = time.monotonic()
                phone = Phone(self.cable, self.edge, known.number, host, encrypted)
                status, took = phone.request("OPTIONS"), time.monotonic() - began
                expect(f"a new connection of {host} over {phone.kind}: {status} after {took:.2f} s", status == 200 and took < 2)
                phone.line.close()

    def unlimited(self) -> None:
        """A network without a limit, and another number."""
        self.limit("--most", "20", "--unlimited", f"{MANY[0]},2001:db8::/32")
        for host, wanted in ((MANY[0], 60), (MANY[1], 20)):
            lines = self.hold([host], 60, self.edge.edge_port)
            expect(f"connections of {host}", len(lines), wanted)
            for line in lines:
                line.close()
        self.limit()

    def page(self) -> float:
        """Seconds until nginx has answered somebody."""
        began = time.monotonic()
        with self.cable.connect(ELSEWHERE, self.web) as line:
            line.sendall(b"GET / HTTP/1.0\r\n\r\n")
            return time.monotonic() - began if line.recv(100).startswith(b"HTTP/1.1 204") else 99.0

    def pages(self, seconds: float) -> list[float]:
        ends, times = time.monotonic() + seconds, list[float]()
        while time.monotonic() < ends:
            times.append(self.page())
            time.sleep(0.02)
        return times

    def forged(self, seconds: float) -> None:
        """SYNs of forged addresses, fifteen hundred a second, and some in the name of the office: nginx answers others as fast as without them, and phones connect. By
        turns with them and without, since what else runs on the machine takes time too."""
        self.pages(1)
        expect("nginx's connections that the kernel tracks", tracked(self.web), 0)
        without, beside = list[float](), list[float]()
        for _ in range(int(seconds / 10)):
            without += self.pages(5)
            floods = [self.cable.flood(self.edge.edge_port, 10, 1500), self.cable.flood(self.edge.edge_port, 10, 50, OFFICE)]
            beside += self.pages(9)
            kept = tracked(self.edge.edge_port)
            expect(f"handshakes that the kernel keeps: {kept}", 0 < kept < 1550 * 20)
            for flood in floods:
                flood.join()
        quiet, busy = (sorted(times)[int(0.95 * len(times))] for times in (without, beside))
        expect(f"nginx answered {len(beside)} times, 95 % within {busy:.3f} s (without {quiet:.3f} s), all within {max(beside):.2f} s",
               busy < quiet + 0.1 and max(beside) < 5)
        floods = [self.cable.flood(self.edge.edge_port, 10, 1500), self.cable.flood(self.edge.edge_port, 10, 50, OFFICE)]
        time.sleep(2)
        for number in ("1000", "1001"):
            for host in (ELSEWHERE, OFFICE):
                phone = Phone(self.cable, self.edge, number, host, False)
                expect(f"a phone of {host} beside the forged ones", phone.request("REGISTER"), 200)
                phone.line.close()
        for flood in floods:
            flood.join()

    def other_tables(self) -> None:
        """Where a table of somebody else needs connections they stay tracked, and it stays as it is."""
        for rules, wanted in (("ip saddr 192.0.2.1 drop", False), ("ct state invalid drop", True)):
            subprocess.run(["nft", "-f", "-"], input=f"table inet office {{ chain input {{ type filter hook input priority filter; {rules}\n }}\n}}\n", text=True, check=True)
            self.limit()
            self.pages(1)
            expect(f"beside {rules!r} nginx's connections are tracked", tracked(self.web) > 0, wanted)
            listed = subprocess.run(["nft", "list", "table", "inet", "office"], capture_output=True, text=True).stdout
            expect("the other table is as it was", rules in listed)
            subprocess.run(["nft", "delete", "table", "inet", "office"], check=True)
        subprocess.run([EXCHANGE / "acd-edge-limit", "--remove"], check=True)
        expect("no table is left", subprocess.run(["nft", "list", "tables"], capture_output=True, text=True).stdout, "")
        for words in (["--most", "0"], ["--ports", "70000"], ["--ports", ""], ["--unlimited", "a; b"], ["--unlimited"], ["--none"]):
            expect(f"acd-edge-limit {words}", subprocess.run([EXCHANGE / "acd-edge-limit", *words], capture_output=True).returncode, 2)


def tracked(port: int) -> int:
    """How many connections to a port the kernel tracks."""
    return sum(f" dport={port} src=" in line or f" dport={port} [UNREPLIED]" in line for line in Path("/proc/net/nf_conntrack").read_text().splitlines())


def start_nginx(edge: LoneEdge, port: int) -> None:
    folder = edge.folder
    temporary = " ".join(f"{kind}_temp_path {folder};" for kind in ("client_body", "proxy", "fastcgi", "uwsgi", "scgi"))
    (folder / "nginx.conf").write_text(f"daemon off; user root; pid {folder}/nginx.pid; error_log {folder}/nginx-errors; worker_processes 1; events {{ }}\n"
                                       f"http {{ access_log off; {temporary} server {{ listen {HERE}:{port}; return 204; }} }}\n")
    edge.start(["nginx", "-c", str(folder / "nginx.conf")], "nginx")


def run(folder: Path, base: int, seconds: float = 60) -> None:
    with Cable() as cable, LoneEdge(folder, base, {"EDGE_HOST": "0.0.0.0"}, names=tuple(str(1000 + place) for place in range(PHONES))) as edge:
        crowd = Crowd(folder, cable, edge, base + 8)
        start_nginx(edge, crowd.web)
        crowd.limit()
        crowd.phones()
        crowd.unlimited()
        crowd.forged(seconds)
        crowd.other_tables()
