"""How long it takes from an agent's ready to the ring at the phone, and how many calls a second are carried."""
from __future__ import annotations

import csv
import secrets
import socket
import time
from dataclasses import dataclass
from pathlib import Path

import scenarios
from ground import Ground, offer, wait_for
from trial import Trial


class Line:
    """A socket that speaks SIP by hand."""

    def __init__(self, ground: Ground, port: int):
        self.ground, self.port = ground, port
        self.socket = socket.socket(socket.AF_INET, socket.SOCK_DGRAM)
        self.socket.bind(("127.0.0.1", port))
        self.socket.settimeout(5)

    def request(self, method: str, to: str, sender: str, call_id: str, text: str = "") -> None:
        self.socket.sendto((f"{method} sip:{to}@127.0.0.1:{self.ground.port} SIP/2.0\r\nVia: SIP/2.0/UDP 127.0.0.1:{self.port};branch=z9hG4bK{call_id}\r\n"
                            f"From: <sip:{sender}@127.0.0.1>;tag=t{call_id}\r\nTo: <sip:{to}@127.0.0.1>\r\nCall-ID: {call_id}\r\nCSeq: 1 {method}\r\n"
                            f"Contact: <sip:{sender}@127.0.0.1:{self.port}>\r\nMax-Forwards: 70\r\nContent-Length: {len(text)}\r\n\r\n{text}").encode(),
                           ("127.0.0.1", self.ground.port))

    def wait_for(self, *begins: str) -> str:
        while True:
            text = self.socket.recv(8192).decode("latin-1")
            if text.startswith(begins):
                return text

    def answer(self, request: str, status: str) -> None:
        rows = [row for row in request.split("\r\n")[1:] if row.split(":")[0] in ("Via", "From", "Call-ID", "Cseq", "CSeq")]
        to = next(row for row in request.split("\r\n") if row.startswith("To:"))
        rows.append(to if "tag=" in to else to + ";tag=p")
        self.socket.sendto("\r\n".join([f"SIP/2.0 {status}", *rows, "Content-Length: 0", "", ""]).encode(), ("127.0.0.1", self.ground.port))


def part(times: list[float], share: float) -> float:
    return sorted(times)[int(share * (len(times) - 1))]


def ready_to_ring(folder: Path, program: Path, base: int, count: int = 60, poll: str = "0.1") -> dict[str, list[float]]:
    """Milliseconds from ready, by the phone's own code and by a screen's request over HTTP, to the INVITE at the phone. Each caller gives up then."""
    found: dict[str, list[float]] = {"code": [], "screen": []}
    with Ground(folder, program, base, 1, 1, ring=0, wrap=0, options=("--poll", poll)) as ground:
        phone, keys, caller = (Line(ground, base + 100 + place) for place in range(3))
        keys.request("MESSAGE", "*221*100", "201", secrets.token_hex(6))
        keys.wait_for("SIP/2.0 200")
        for turn in range(2 * count):
            call, how = secrets.token_hex(6), "code" if turn % 2 else "screen"
            caller.request("INVITE", "100", f"03{turn:05d}", call, offer(9))
            caller.wait_for("SIP/2.0 182")
            time.sleep(0.15 + secrets.randbelow(100) / 1000)
            began = time.monotonic()
            if how == "code":
                keys.request("MESSAGE", "*24", "201", secrets.token_hex(6))
            else:
                ground.ask("setAgentState", agent="1", requested="ready")
            invite = phone.wait_for("INVITE")
            found[how].append(1000 * (time.monotonic() - began))
            phone.answer(invite, "180 Ringing")
            caller.request("CANCEL", "100", f"03{turn:05d}", call)
            caller.wait_for("SIP/2.0 487")
            caller.request("ACK", "100", f"03{turn:05d}", call)
            phone.answer(phone.wait_for("CANCEL"), "200 OK")
            phone.answer(invite, "487 Request Terminated")
            keys.request("MESSAGE", "*25", "201", secrets.token_hex(6))
            Trial.expect(f"the call of turn {turn} ends", ground.wait_until_quiet())
        for line in (phone, keys, caller):
            line.socket.close()
    return found


@dataclass
class Carried:
    calls: int
    good: int
    failed: int
    repeats: int
    took: float
    of_exchange: float
    of_desk: float


def processor_seconds(process: int) -> float:
    return sum(int(word) for word in Path(f"/proc/{process}/stat").read_text().rsplit(")", 1)[1].split()[11:13]) / 100


def idle(folder: Path, program: Path, base: int, seconds: int = 20) -> tuple[float, float]:
    """The shares of a processor that bridge and desk take while nothing happens but polling."""
    with Ground(folder, program, base) as ground:
        time.sleep(2)
        before = processor_seconds(ground.exchange.pid), processor_seconds(ground.desk.process.pid)
        time.sleep(seconds)
        after = processor_seconds(ground.exchange.pid), processor_seconds(ground.desk.process.pid)
    return (after[0] - before[0]) / seconds, (after[1] - before[1]) / seconds


def load(folder: Path, program: Path, base: int, rate: float, seconds: int) -> Carried:
    """Whole calls at a rate: a ring of 50 ms, a talk of half a second, over so many agents that none waits for one."""
    agents = min(1000, int(12 * rate) + 20)
    with Ground(folder, program, base, agents, agents, wrap=1, options=("--tick", "1")) as ground:
        phones = {number: f"sip:{number}@127.0.0.1:{base + 100}" for number in ground.stations}
        ground.end(ground.exchange)
        (folder / "phones.json").write_text(str(phones).replace("'", '"'))
        for agent in range(1, agents + 1):
            ground.ask("setAgentState", agent=str(agent), requested="loggedOn", device=ground.stations[agent - 1], group="100")
            ground.ask("setAgentState", agent=str(agent), requested="ready")
        ground.exchange = ground.start_exchange()
        quiet = ["-l", "3000", "-trace_stat", "-fd", "1"]
        (folder / "phone.xml").write_text(scenarios.phone(50))
        ground.start(["sipp", "-sf", "phone.xml", "-i", "127.0.0.1", "-p", str(base + 100), "-nostdin", "-mp", str(base + 300), *quiet,
                      "-stf", "phone.csv"], "phones")
        (folder / "caller.xml").write_text(scenarios.caller(patience=30000, talks=500))
        count = int(rate * seconds)
        (folder / "numbers.csv").write_text("SEQUENTIAL\n" + "".join(f"03{each:06d};\n" for each in range(count)))
        time.sleep(2)
        before = processor_seconds(ground.exchange.pid), processor_seconds(ground.desk.process.pid)
        began = time.monotonic()
        caller = ground.start(["sipp", "-sf", "caller.xml", "-inf", "numbers.csv", "-i", "127.0.0.1", "-p", str(base + 50),
                               f"127.0.0.1:{ground.port}", "-nostdin",
                               "-m", str(count), "-r", str(int(rate)), "-mp", str(base + 400), *quiet, "-stf", "caller.csv"], "callers")
        wait_for([caller], 3 * seconds + 60)
        took = time.monotonic() - began
        after = processor_seconds(ground.exchange.pid), processor_seconds(ground.desk.process.pid)
        ground.wait_until_quiet(5)
        row, phone = last_row(folder / "caller.csv"), last_row(folder / "phone.csv")
    return Carried(count, int(row["SuccessfulCall(C)"]), int(row["FailedCall(C)"]), int(row["Retransmissions(C)"]) + int(phone["Retransmissions(C)"]), took,
                   (after[0] - before[0]) / took, (after[1] - before[1]) / took)


def last_row(file: Path) -> dict[str, str]:
    return list(csv.DictReader(file.open(), delimiter=";"))[-1]
