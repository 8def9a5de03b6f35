"""The ground of a trial: a folder with a desk, an exchange, phones and callers, on ports of their own."""
from __future__ import annotations

import hashlib
import json
import os
import re
import secrets
import shutil
import signal
import socket
import subprocess
import sys
from concurrent.futures import ThreadPoolExecutor
from pathlib import Path
from types import TracebackType
from typing import IO, Any, Self

HERE = Path(__file__).resolve().parent
TOP = HERE.parents[2]
EXCHANGE = TOP / "exchange"
sys.path.insert(0, str(EXCHANGE))
sys.path += [str(TOP / "client"), str(TOP / "tests/trials"), str(TOP / "tests/trials/gate")]

from acd_client import Answer, Client, Event  # noqa: E402
from place import SECRET, Place  # noqa: E402
from trial import Desk, Plan, ran, until, until_listening  # noqa: E402

PASSWORD = "open-sesame"
# the address that the edges of a trial take for a trunk's
TRUNK = "127.0.0.9"


class Phone:
    """Sends requests that aren't INVITEs by hand, each until it is answered, with a password where one is asked for."""

    def __init__(self, to: int, port: int = 0, host: str = "127.0.0.1"):
        self.to, self.host = to, host
        self.socket = socket.socket(socket.AF_INET, socket.SOCK_DGRAM)
        self.socket.bind((host, port))
        self.port = self.socket.getsockname()[1]

    def __enter__(self) -> Phone:
        return self

    def __exit__(self, *_: object) -> None:
        self.socket.close()

    def request(self, method: str, uri: str, number: str, more: str = "", account: str = "", password: str = PASSWORD,
                waits: tuple[float, ...] = (0.5, 1, 2, 4, 4, 4)) -> tuple[int, str]:
        """The status, 0 where no answer comes, and the reply."""
        head, tag, call_id = "", secrets.token_hex(4), secrets.token_hex(8)
        for cseq in (1, 2):
            rest = f"From: <sip:{number}@127.0.0.1>;tag={tag}\r\nCall-ID: {call_id}\r\nCSeq: {cseq} {method}\r\n{head}{more}"
            status, text = self.exchange(method, uri, f"<sip:{number}@127.0.0.1>" if method == "REGISTER" else f"<{uri}>", rest, waits)
            if status not in (401, 407):
                break
            head = credentials(text, status, method, uri, account or number, password)
        return status, text

    def exchange(self, method: str, uri: str, to: str, rest: str, waits: tuple[float, ...]) -> tuple[int, str]:
        branch = "z9hG4bK" + secrets.token_hex(8)
        data = (f"{method} {uri} SIP/2.0\r\nVia: SIP/2.0/UDP {self.host}:{self.port};rport;branch={branch}\r\nTo: {to}\r\n{rest}"
                f"Max-Forwards: 70\r\nContent-Length: 0\r\n\r\n").encode()
        for wait in waits:
            self.socket.sendto(data, ("127.0.0.1", self.to))
            self.socket.settimeout(wait)
            try:
                while True:
                    text = self.socket.recv(8192).decode("latin-1")
                    if branch in text and not text.startswith("SIP/2.0 1"):
                        return int(text.split(" ")[1]), text
            except (TimeoutError, ConnectionRefusedError):
                pass
        return 0, ""


class Programs:
    """Programs that run in a folder, each a group of processes of its own, since kamailio is several."""

    def __init__(self, folder: Path):
        shutil.rmtree(folder, ignore_errors=True)
        folder.mkdir(parents=True)
        self.folder = folder
        self.running: list[subprocess.Popen[bytes]] = []
        self.files: list[IO[bytes]] = []

    def __exit__(self, kind: type[BaseException] | None, value: BaseException | None, where: TracebackType | None) -> None:
        for process in self.running:
            self.kill(process)
        for file in self.files:
            file.close()

    def start(self, words: list[str], name: str, **environment: str) -> subprocess.Popen[bytes]:
        said = (self.folder / f"{name}.out").open("ab")
        self.files.append(said)
        process = subprocess.Popen(words, cwd=self.folder, stdin=subprocess.DEVNULL, stdout=said, stderr=said, start_new_session=True,
                                   env={**os.environ, **environment})
        self.running.append(process)
        return process

    def kill(self, process: subprocess.Popen[bytes]) -> None:
        try:
            os.killpg(process.pid, signal.SIGKILL)
        except ProcessLookupError:
            pass
        process.wait()

    def end(self, process: subprocess.Popen[bytes], by: int = signal.SIGTERM) -> int:
        if process.poll() is None:
            process.send_signal(by)
        return process.wait()

    def said(self, name: str) -> str:
        file = self.folder / f"{name}.out"
        return file.read_text(errors="replace") if file.exists() else ""

    def make_edge(self, values: dict[str, object], names: list[str], changes: dict[str, str] | None = None) -> subprocess.Popen[bytes]:
        """Kamailio by the packaged file, with these values of its substdef lines and further changes of its text, and accounts of these names."""
        folder = self.folder / "edge"
        folder.mkdir()
        config = (EXCHANGE / "kamailio.cfg").read_text()
        for name, value in [*values.items(), ("FOLDER", folder)]:
            config = re.sub(rf'(?m)^(#!substdef "!{name}!)[^!]*', rf"\g<1>{value}", config)
        for old, new in (changes or {}).items():
            assert old in config, f"kamailio.cfg doesn't have {old!r}"
            config = config.replace(old, new)
        (folder / "kamailio.cfg").write_text(config)
        subprocess.run(["openssl", "req", "-x509", "-newkey", "rsa:2048", "-nodes", "-subj", "/CN=edge", "-keyout", "edge.key", "-out", "edge.crt"],
                       cwd=folder, check=True, capture_output=True)
        write_accounts(folder / "subscriber", [(name, PASSWORD) for name in [*names, "trunk"]])
        return self.start_kamailio(int(str(values["EDGE_PORT"])))

    def start_kamailio(self, port: int) -> subprocess.Popen[bytes]:
        folder = self.folder / "edge"
        edge = self.start(["kamailio", "-m", "1280", "-DD", "-E", "-f", str(folder / "kamailio.cfg"), "-P", str(folder / "pid"), "-w", str(folder)], "edge")
        assert until_listening(port), f"kamailio doesn't listen: {self.said('edge')[-400:]}"
        return edge


class Ground(Programs):
    """Ports: desk, exchange, music and edge from base on; callers from base + 50, phones from base + 100, media from base + 300."""

    def __init__(self, folder: Path, program: Path, base: int, stations: int = 3, agents: int = 2, groups: str = "100", ring: int = 5, wrap: int = 2,
                 edge: bool = False, options: tuple[str, ...] = (), gate: bool = False):
        super().__init__(folder)
        self.program, self.base, self.options = program, base, options
        self.desk_port, self.port, self.music_port, self.edge_port, self.tls_port = range(base, base + 5)
        # where the exchange finds the desk
        self.reached_by = {"EXCHANGE_DESK": f"http://127.0.0.1:{self.desk_port}"}
        self.stations = [str(201 + each) for each in range(stations)]
        self.callers, self.media = 0, base + 300
        plan = Plan([(number, f"Group {number}", ring, wrap) for number in groups.split()], self.stations, [str(each + 1) for each in range(agents)])
        (folder / "plan.csv").write_text(plan.text())
        (folder / "phones.json").write_text(json.dumps({number: f"sip:{number}@127.0.0.1:{self.phone_port(number)}" for number in self.stations}))
        self.acd("import", "--file", "desk.db", "--plan", "plan.csv")
        self.client = Client(f"http://127.0.0.1:{self.desk_port}", requester="supervisor")
        self.keys = Phone(self.edge_port if edge else self.port)
        self.by_edge = edge
        self.desk = self.start_desk()
        self.gate = self.start_gate() if gate else None
        self.exchange = self.start_exchange()
        if edge:
            self.start_edge()
            for number in self.stations:
                assert self.register(number) == 200, f"{number} isn't registered"

    def __enter__(self) -> Self:
        return self

    def __exit__(self, *what: Any) -> None:
        self.client.disconnect()
        self.keys.socket.close()
        if self.gate:
            self.gate.doClassCleanups()
        self.desk.kill()
        super().__exit__(*what)

    # programs

    def acd(self, *words: str) -> str:
        done = ran(self.program, *words, cwd=self.folder)
        return done.output + done.faults

    def start_desk(self) -> Desk:
        return Desk(self.program, "desk.db", 1000000, self.desk_port, cwd=self.folder)

    def start_gate(self) -> type[Place]:
        """The gate and nginx before the desk, with a login for the exchange."""
        folder = self.folder / "gate"
        folder.mkdir()
        (folder / "roles").write_text("pbx exchange\n")
        (folder / "users").write_text(f"pbx:{SECRET}\n")
        ports = {"desk_port": self.desk_port, "gate_port": self.base + 5, "port": self.base + 6}
        gate = type("Gate", (Place,), {"folder": folder, **ports})
        gate.write_secret()
        gate.start_gate()
        gate.start_nginx()
        self.reached_by = {"EXCHANGE_DESK": f"https://pbx@127.0.0.1:{gate.port}", "EXCHANGE_PASSWORD": "secret", "EXCHANGE_CA": str(folder / "desk.crt")}
        return gate

    def start_exchange(self, stop_at: str = "") -> subprocess.Popen[bytes]:
        before = self.said("exchange").count("following")
        exchange = self.start_alone(stop_at)
        until(lambda: self.said("exchange").count("following") > before or exchange.poll() is not None, 30, 0.02)
        return exchange

    def start_alone(self, stop_at: str = "") -> subprocess.Popen[bytes]:
        """Without waiting for the desk."""
        program = [str(HERE / "stopped.py"), stop_at] if stop_at else [str(EXCHANGE / "bin/acd-exchange")]
        who = ["--edge", f"127.0.0.1:{self.edge_port}"] if self.by_edge else ["--phones", "phones.json"]
        return self.start([sys.executable, *program, *who, "--listen", f"127.0.0.1:{self.port}",
                           "--music-port", str(self.music_port), *self.options], "exchange", **self.reached_by)

    def start_ticks(self) -> None:
        self.start([str(TOP / "service/bin/acd-tick"), "--port", str(self.desk_port), "--step", "2"], "ticks")

    def start_edge(self) -> None:
        ports = {"EDGE_PORT": self.edge_port, "TLS_PORT": self.tls_port, "EXCHANGE_PORT": self.port}
        self.edge = self.make_edge({**ports, "TRUNK_ADDRESSES": TRUNK}, self.stations)

    # phones and callers

    def phone_port(self, station: str) -> int:
        return self.base + 100 + int(station) - 201

    def sipp(self, name: str, scenario: str, words: list[str]) -> subprocess.Popen[bytes]:
        (self.folder / f"{name}.xml").write_text(scenario)
        self.media += 4
        return self.start(["sipp", "-sf", f"{name}.xml", "-i", "127.0.0.1", "-nostdin", "-trace_msg", "-message_file", f"{name}.msg",
                           "-trace_err", "-error_file", f"{name}.err", "-mp", str(self.media), *words], name)

    def phone(self, station: str, scenario: str, calls: int = 1, name: str = "") -> subprocess.Popen[bytes]:
        return self.sipp(name or f"phone-{station}", scenario, ["-p", str(self.phone_port(station)), "-m", str(calls)])

    def caller(self, name: str, scenario: str, numbers: list[str], rate: float = 1.0) -> subprocess.Popen[bytes]:
        (self.folder / f"{name}.csv").write_text("SEQUENTIAL\n" + "".join(f"{number};\n" for number in numbers))
        self.callers += 1
        to = f"127.0.0.1:{self.edge_port if self.by_edge else self.port}"
        return self.sipp(name, scenario, ["-inf", f"{name}.csv", "-p", str(self.base + 50 + self.callers), to,
                                          "-m", str(len(numbers)), "-r", str(max(1, int(1000 * rate))), "-rp", "1000000", "-l", "3000"])

    def trace(self, name: str) -> str:
        file = self.folder / f"{name}.msg"
        return file.read_text(errors="replace") if file.exists() else ""

    # requests by hand

    def key(self, station: str, code: str) -> int:
        """A feature code, sent as a message: its status."""
        return self.keys.request("MESSAGE", f"sip:{code}@127.0.0.1", station)[0]

    def register(self, station: str, expires: int = 3600) -> int:
        """From the phone's own port, before its program has it; with 0 it is unreachable from then on."""
        with Phone(self.edge_port, self.phone_port(station)) as phone:
            contact = f"Contact: <sip:{station}@127.0.0.1:{self.phone_port(station)}>;expires={expires}\r\n"
            return phone.request("REGISTER", "sip:127.0.0.1", station, contact)[0]

    def log_on(self, *agents: int, group: str = "100") -> None:
        for agent in agents:
            station = self.stations[agent - 1]
            assert self.key(station, f"*22{agent}*{group}") == 200, f"agent {agent} isn't logged on"
            assert self.key(station, "*24") == 200, f"agent {agent} isn't ready"

    # the desk

    def ask(self, service: str, **members: Any) -> Answer:
        return self.client.ask(service, **members)

    def events(self, after: int = 0) -> list[Event]:
        found: list[Event] = []
        while page := self.client.page(found[-1]["number"] if found else after)["events"]:
            found += page
        return found

    def story(self) -> str:
        """The events as name@device, without those of agents."""
        told = (event["event"] + (f"@{event['device']}" if "device" in event else "") for event in self.events())
        return " ".join(word for word in told if not word.startswith("agent"))

    def wait_until_quiet(self, seconds: float = 15) -> bool:
        """Until no call lives at the desk: each event's call is cleared."""
        def is_quiet() -> bool:
            events = self.events()
            return {e["call"] for e in events if "call" in e} == {e["call"] for e in events if e["event"] == "callCleared"}

        return bool(until(is_quiet, seconds, 0.2))


def side_by_side(jobs: int, works: list[tuple[Any, ...]]) -> list[Any]:
    """What each work returns, a function and its arguments; so many at a time. Where the trial is ended no further one begins."""
    with ThreadPoolExecutor(max(1, jobs)) as pool:
        made = [pool.submit(*work) for work in works]
        try:
            return [each.result() for each in made]
        except (SystemExit, KeyboardInterrupt):
            pool.shutdown(wait=False, cancel_futures=True)
            raise


def wait_for(processes: list[subprocess.Popen[bytes]], seconds: float) -> list[int | None]:
    """The statuses of those that ended in time."""
    until(lambda: None not in [process.poll() for process in processes], seconds)
    return [process.poll() for process in processes]


def offer(port: int, host: str = "127.0.0.1") -> str:
    """The body of an INVITE that asks for the sound there."""
    return f"v=0\r\no=- 1 1 IN IP4 {host}\r\ns=-\r\nc=IN IP4 {host}\r\nt=0 0\r\nm=audio {port} RTP/AVP 8\r\n"


def write_accounts(file: Path, accounts: list[tuple[str, str]]) -> None:
    rows = ["username(string) domain(string) ha1(string)"]
    rows += [f"{name}:acd:{hashlib.md5(f'{name}:acd:{password}'.encode()).hexdigest()}" for name, password in accounts]
    file.write_text("\n".join(rows) + "\n")


def credentials(challenge: str, status: int, method: str, uri: str, name: str, password: str) -> str:
    """The field that answers a challenge (RFC 2617, MD5, without qop); nothing where none came."""
    parts = dict(re.findall(r'(\w+)="([^"]*)"', challenge))
    if "nonce" not in parts:
        return ""

    def digest(*words: str) -> str:
        return hashlib.md5(":".join(words).encode()).hexdigest()

    answer = digest(digest(name, parts["realm"], password), parts["nonce"], digest(method, uri))
    field = "Authorization" if status == 401 else "Proxy-Authorization"
    return f'{field}: Digest username="{name}", realm="{parts["realm"]}", nonce="{parts["nonce"]}", uri="{uri}", response="{answer}", algorithm=MD5\r\n'
