"""Each feature of the exchange as a scenario by itself, with the events that it has to bring at the desk and what the phones have to see."""
from __future__ import annotations

import itertools
import re
import socket
import subprocess
import time
from collections.abc import Callable
from pathlib import Path
from typing import Any

import scenarios
from ground import PASSWORD, Ground, offer, side_by_side, wait_for
from trial import Trial, until

BUSY = "486 Busy Here"
expect = Trial.expect


class Stage(Ground):
    """The ground of one scenario: three phones, two agents or three, and two groups; everybody is logged off at first."""

    def expect_story(self, what: str, wanted: str) -> None:
        """The desk's events: as name@device, without those of agents."""
        expect(f"{what}: everything ends", self.wait_until_quiet())
        expect(what, self.story(), wanted)

    def arise(self, kind: str, count: int) -> None:
        """Waits until the desk has told so many events of a kind."""
        expect(f"{count} events {kind}", until(lambda: sum(event["event"] == kind for event in self.events()) >= count, 15, 0.1))

    def ends(self, what: str, *processes: subprocess.Popen[bytes], seconds: float = 20) -> None:
        expect(f"{what}: the phones' courses", wait_for(list(processes), seconds), [0] * len(processes))


def run(folder: Path, program: Path, base: int, jobs: int) -> None:
    """Each scenario with 182 and with music, some at a time, at ports that no other one has meanwhile; those of one that broke off stay taken."""
    free = [base + 1000 * place for place in range(jobs)]

    def work(name: str, waiting: str) -> None:
        ports, options = free.pop(), ("--waiting", waiting, "--trace", *OPTIONS.get(name, ()))
        with Stage(folder / f"{name.replace(' ', '-')}-{waiting}", program, ports, groups="100 101", options=options, **GROUNDS.get(name, {})) as ground:
            FEATURES[name](ground, waiting == "music")
            expect(f"{name}: steps undone", ground.said("exchange").count("a step was undone"), 0)
            ground.end(ground.exchange)
        free.append(ports)

    side_by_side(jobs, [(work, *case) for case in itertools.product(FEATURES, ("queued", "music"))])


def cleared(*devices: str) -> str:
    return " ".join(f"connectionCleared@{device}" for device in devices) + " callCleared"


OFFERED = "queued@100 diverted@100 delivered@201"
BACK = "diverted@201 queued@100"
ESTABLISHED = f"{OFFERED} established@201"


def statuses(ground: Ground, name: str) -> list[str]:
    return re.findall(r"received.*\n\nSIP/2\.0 (\d+)", ground.trace(name))


def log_on_and_off(ground: Stage, music: bool) -> None:
    """By messages, and by a call from the phone itself; several groups; what is refused."""
    expect("log on", ground.key("201", "*221*100*101"), 200)
    expect("ready", ground.key("201", "*24"), 200)
    shown = ground.client.read("/agents/1") or {}
    expect("in two groups, ready", (shown.get("groups"), shown.get("state")), (["100", "101"], "ready"))
    expect("logged on twice", ground.key("201", "*221*100"), 403)
    expect("logged on elsewhere", ground.key("202", "*221*100"), 403)
    expect("a code for an agent who sits at another phone", [ground.key("202", code) for code in ("*231", "*241", "*251", "*261")], 4 * [404])
    expect("who is still there, and ready", state(ground, 1), "ready")
    expect("a code that isn't one", ground.key("201", "*29"), 404)
    expect("a group that isn't one", ground.key("202", "*222*109"), 403)
    expect("no group", ground.key("202", "*222"), 404)
    expect("somebody from outside", ground.key("0301", "*241"), 404)
    expect("not ready, off", [ground.key("201", "*25"), ground.key("201", "*26"), ground.key("201", "*23")], [200, 200, 200])
    expect("ready when logged off", ground.key("201", "*24") in (403, 404))
    for place, code in enumerate(("*222*101", "*24")):
        dialled = ground.caller(f"dialled{place}", scenarios.caller(code, talks=0), ["202"])
        ground.ends(f"{code} dialled", dialled)
    shown = ground.client.read("/agents/2") or {}
    expect("agent 2", (shown.get("device"), shown.get("state")), ("202", "ready"))
    refused = ground.caller("refused", scenarios.caller("*223*101", talks=0), ["203"])
    ground.ends("a log-on that the desk refuses", refused)
    expect("is told so", statuses(ground, "refused")[-1:], ["403"])


def hold_and_retrieve(ground: Stage, music: bool) -> None:
    ground.log_on(1)
    phone = ground.phone("201", scenarios.phone(300, extra=scenarios.hold(700)))
    caller = ground.caller("caller", scenarios.caller(talks=4000, music=music), ["0301111"])
    ground.ends("hold", caller, phone)
    ground.expect_story("hold", f"{ESTABLISHED} held@201 retrieved@201 {cleared('0301111', '201')}")
    expect("the caller hears of both", re.findall(r"a=(send\w+)", ground.trace("caller"))[-2:], ["sendonly", "sendrecv"])


def transfer_to_a_station(ground: Stage, music: bool) -> None:
    ground.log_on(1)
    phones = [ground.phone("201", scenarios.phone(300, extra=scenarios.refer("202"))), ground.phone("202", scenarios.phone(300, talks=1500))]
    caller = ground.caller("caller", scenarios.caller(talks=0, music=music), ["0302222"])
    ground.ends("transfer", caller, *phones)
    ground.expect_story("transfer", f"{ESTABLISHED} transferred@201 delivered@202 established@202 {cleared('202', '0302222')}")
    expect("the phone is told", re.findall(r"\nSIP/2\.0 (100|200) \w+\n", ground.trace("phone-201").partition("NOTIFY")[2])[:1], ["100"])
    ports = re.findall(r"received.*?m=audio (\d+)", ground.trace("caller"), re.DOTALL)
    expect("whom the caller hears", ports[-2:], [str(ground.music_port), re.findall(r"sent.*?m=audio (\d+)", ground.trace("phone-202"), re.DOTALL)[0]])


def transfer_into_a_queue(ground: Stage, music: bool) -> None:
    ground.log_on(1)
    ground.log_on(2, group="101")
    phones = [ground.phone("201", scenarios.phone(300, extra=scenarios.refer("101"))), ground.phone("202", scenarios.phone(300, talks=1500))]
    caller = ground.caller("caller", scenarios.caller(talks=0, music=music), ["0303333"])
    ground.ends("transfer into a queue", caller, *phones)
    ground.expect_story("transfer into a queue", f"{ESTABLISHED} transferred@201 queued@101 diverted@101 delivered@202 established@202 {cleared('202', '0303333')}")


def deflection(ground: Stage, music: bool) -> None:
    """A rung phone answers 302: its call goes on to another one, and to one that can't have it not."""
    ground.log_on(1)
    phones = [ground.phone("201", scenarios.refusing("302 Moved Temporarily", "<sip:202@elsewhere>")), ground.phone("202", scenarios.phone(300))]
    caller = ground.caller("caller", scenarios.caller(talks=4000, music=music), ["0304444"])
    ground.ends("deflection", caller, *phones)
    ground.expect_story("deflection", f"{OFFERED} diverted@201 delivered@202 established@202 {cleared('0304444', '202')}")


def between_phones(ground: Stage, music: bool) -> None:
    """A private call; meanwhile the called phone is busy for somebody else."""
    phone = ground.phone("202", scenarios.phone(300))
    first = ground.caller("first", scenarios.caller("202", talks=3000), ["203"])
    time.sleep(1.5)
    second = ground.caller("second", scenarios.caller("202"), ["0305555"])
    ground.ends("private", second, first, phone)
    ends = f"{cleared('0305555', '202')} {cleared('203', '202')}"
    ground.expect_story("private", f"serviceInitiated@203 originated@203 delivered@202 established@202 failed@202 {ends}")
    expect("busy", statuses(ground, "second")[-1:], ["486"])


def unknown(ground: Stage, music: bool) -> None:
    callers = [ground.caller("stranger", scenarios.caller("999"), ["0306666"]), ground.caller("inside", scenarios.caller("999"), ["201"])]
    ground.ends("unknown", *callers)
    expect("unknown", [statuses(ground, name)[-1:] for name in ("stranger", "inside")], [["404"], ["404"]])
    ground.expect_story("unknown", "")


def click_to_dial(ground: Stage, music: bool) -> None:
    phones = [ground.phone("202", scenarios.phone(300, talks=1500)), ground.phone("203", scenarios.phone(300, extra=scenarios.moved()))]
    expect("a makeCall of a screen", ground.ask("makeCall", device="203", called="202").status, 200)
    ground.ends("click to dial", *phones)
    ground.expect_story("click to dial", f"serviceInitiated@203 originated@203 delivered@202 established@202 {cleared('202', '203')}")


def cleared_by_a_supervisor(ground: Stage, music: bool) -> None:
    ground.log_on(1)
    phone = ground.phone("201", scenarios.phone(300))
    caller = ground.caller("caller", scenarios.caller(talks=0, music=music), ["0307777"])
    ground.arise("established", 1)
    time.sleep(0.5)
    ground.ask("clearConnection", call=1, device="201")
    ground.ends("cleared", caller, phone)
    ground.expect_story("cleared", f"{ESTABLISHED} {cleared('201', '0307777')}")


def strange_numbers(ground: Stage, music: bool) -> None:
    """What callers show: a number of the desk's own, nothing, a country's code, a long number, the same one twice."""
    shown = ["100", "anonymous", "+49301", "12345678901234567890", "0308888", "0308888"]
    callers = [ground.caller(f"caller{place}", scenarios.caller(patience=8000, music=music), [number]) for place, number in enumerate(shown)]
    ground.arise("queued", 6)
    told = sorted((ground.client.read(f"/calls/{call}") or {}).get("caller", "") for call in range(1, 7))
    expect("callers", told, sorted(["0100", "0", "49301", "678901234567890", "0308888", "0308888"]))
    ground.ends("strange numbers", *callers)
    expect("strange numbers: everything ends", ground.wait_until_quiet())


def late_answer(ground: Stage, music: bool) -> None:
    """The desk takes an offer back while the exchange is held up and the phone answers: the phone is told that it is over, and the next one rings."""
    ground.log_on(1)
    first, second = ground.phone("201", scenarios.phone(1500, talks=scenarios.LONG)), ground.phone("202", scenarios.phone(200))
    caller = ground.caller("caller", scenarios.caller(talks=6000, music=music), ["0309999"])
    ground.arise("delivered", 1)
    time.sleep(0.3)
    ground.exchange.send_signal(19)
    time.sleep(6)
    ground.ask("tick")
    ground.exchange.send_signal(18)
    time.sleep(0.5)
    ground.log_on(2)
    ground.ends("a late answer", caller, first, second, seconds=30)
    ground.expect_story("a late answer", f"{OFFERED} {BACK} diverted@100 delivered@202 established@202 {cleared('0309999', '202')}")


def refused_and_waits(ground: Stage, music: bool) -> None:
    """With --refused wait the offer of a busy phone waits for the end of its ring, and the call keeps its place."""
    ground.start_ticks()
    ground.log_on(1)
    phone = ground.phone("201", scenarios.refusing(BUSY))
    caller = ground.caller("caller", scenarios.caller(talks=3000, music=music), ["0301010"])
    ground.ends("a busy phone", phone)
    second = ground.phone("202", scenarios.phone(300))
    ground.arise("queued", 2)
    ground.log_on(2)
    ground.ends("a refused ring", caller, second)
    ground.expect_story("a refused ring", f"{OFFERED} {BACK} diverted@100 delivered@202 established@202 {cleared('0301010', '202')}")


def gone_while_three_are_ready(ground: Stage, music: bool) -> None:
    """A phone isn't registered any more: the second agent's rings within a second, by the desk's clock, though nobody ticks; the first agent is not ready."""
    ground.log_on(1, 2, 3)
    expect("a phone that goes", ground.register("201", 0), 200)
    second = ground.phone("202", scenarios.phone(300))
    caller = ground.caller("caller", scenarios.caller(talks=3000, music=music, account=f"trunk:{PASSWORD}"), ["0302020"])
    ground.ends("a gone phone", caller, second)
    ground.expect_story("a gone phone", f"{OFFERED} {BACK} diverted@100 delivered@202 established@202 {cleared('0302020', '202')}")
    expect("the agents", [state(ground, agent) for agent in (1, 3)], ["notReady", "ready"])
    first, then = [event["moment"] for event in ground.events() if event["event"] == "delivered"]
    expect(f"the second phone rings {then - first} s behind the first offer", then - first <= 1)


def gone_and_alone(ground: Stage, music: bool) -> None:
    """A phone is registered and silent, and no other agent is ready: its call waits before one that came later, and each rings at whoever gets ready."""
    callers = []
    for place, number in enumerate(("0303030", "0303131"), 1):
        callers.append(ground.caller(f"caller{place}", scenarios.caller(talks=3000, music=music, account=f"trunk:{PASSWORD}"), [number]))
        ground.arise("queued", place)
    ground.log_on(1)
    ground.arise("agentNotReady", 1)
    expect("alone: who waits", [call["call"] for call in (ground.client.read("/queues/100") or {})["calls"]], [1, 2])
    second = ground.phone("202", scenarios.phone(300))
    ground.log_on(2)
    ground.ends("alone, the other agent", callers[0], second)
    first = ground.phone("201", scenarios.phone(300))
    expect("alone: ready again", ground.key("201", "*24"), 200)
    ground.ends("alone, the same agent", callers[1], first)
    ground.expect_story("alone", f"queued@100 {OFFERED} {BACK} diverted@100 delivered@202 established@202 {cleared('0303030', '202')} "
                                 f"diverted@100 delivered@201 established@201 {cleared('0303131', '201')}")


def state(ground: Ground, agent: int) -> str:
    return str((ground.client.read(f"/agents/{agent}") or {}).get("state"))


def without_an_ack(ground: Stage, music: bool) -> None:
    """A caller is answered and never says so: the agent hears nobody for less than 3 s."""
    ground.log_on(1)
    phone = ground.phone("201", scenarios.phone(300))
    with socket.socket(socket.AF_INET, socket.SOCK_DGRAM) as ghost:
        ghost.bind(("127.0.0.1", 0))
        ghost.sendto(invitation(ground, ghost.getsockname()[1]), ("127.0.0.1", ground.port))
        ground.ends("a ghost", phone, seconds=12)
    heard = seconds_between(ground.trace("phone-201"), "ACK sip", "BYE sip")
    expect(f"an agent hears a ghost for {heard:.1f} s", heard < 3)
    expect("a ghost: everything ends", ground.wait_until_quiet())


def invitation(ground: Ground, port: int, number: str = "0307070") -> bytes:
    body = offer(port)
    return (f"INVITE sip:100@127.0.0.1:{ground.port} SIP/2.0\r\nVia: SIP/2.0/UDP 127.0.0.1:{port};rport;branch=z9hG4bKghost\r\nFrom: <sip:{number}@x>;tag=1\r\n"
            f"To: <sip:100@x>\r\nCall-ID: ghost\r\nCSeq: 1 INVITE\r\nContact: <sip:x@127.0.0.1:{port}>\r\nMax-Forwards: 70\r\n"
            f"Content-Length: {len(body)}\r\n\r\n{body}").encode()


def seconds_between(trace: str, one: str, other: str) -> float:
    """From the first message that begins so to the last one that begins otherwise."""
    found = re.findall(r"-+ \S+ (\d+):(\d+):(\d+\.\d+)\nUDP message received.*\n\n(\S+ sip)", trace)
    moments = {what: [3600 * int(h) + 60 * int(m) + float(s) for h, m, s, first in found if first == what] for what in (one, other)}
    return moments[other][-1] - moments[one][0] if moments[one] and moments[other] else 99.0


def silent_desk(ground: Stage, music: bool) -> None:
    """The desk is held for 9 s by a peer that says nothing: who calls then gets 503, who called at first too, and later callers are served."""
    with socket.create_connection(("127.0.0.1", ground.desk_port)):
        time.sleep(0.3)
        first = ground.caller("first", scenarios.caller(), ["0301"])
        time.sleep(8)
        second = ground.caller("second", scenarios.caller(), ["0302"])
        ground.ends("a silent desk", first, second)
        time.sleep(1)
    expect("503", [statuses(ground, name)[-1:] for name in ("first", "second")], [["503"], ["503"]])
    time.sleep(1)
    third = ground.caller("third", scenarios.caller(patience=1000, music=music), ["0303"])
    ground.ends("a desk that answers again", third)
    expect("a silent desk: everything ends", ground.wait_until_quiet())


def hang_ups_while_it_is_down(ground: Stage, music: bool) -> None:
    """The bridge is killed in two talks; one caller and the other one's agent hang up, and are gone. After the start nobody hears nobody."""
    ground.log_on(1, 2)
    phones = [ground.phone("201", scenarios.phone(300)), ground.phone("202", scenarios.phone(300))]
    callers = [ground.caller(f"caller{place}", scenarios.caller(talks=0, music=music), [f"030{place}"]) for place in range(2)]
    ground.arise("established", 2)
    time.sleep(1)
    ground.end(ground.exchange, 9)
    gone = next(place for place in range(2) if f'"030{place}"' in ground.trace("phone-201"))
    for process in (callers[gone], phones[1]):
        ground.end(process, 9)
    time.sleep(12 if Trial.options.quick else 60)
    ground.exchange = ground.start_exchange()
    began = time.monotonic()
    ground.ends("hang-ups while it is down", phones[0], callers[1 - gone], seconds=10)
    took = time.monotonic() - began
    expect(f"the last one is told after {took:.1f} s", took < 4)
    expect("hang-ups while it is down: everything ends", ground.wait_until_quiet())


def orphans(ground: Stage, music: bool) -> None:
    """Calls at the desk that no phone has a part in: behind a lost file, and while the bridge was down. They are cleared at its start."""
    ground.end(ground.exchange, 9)
    for file in ground.folder.glob("exchange.db*"):
        file.unlink()
    ground.ask("arriveCall", caller="0304040", called="100")
    call = ground.ask("makeCall", device="201", called="202").result["call"]
    ground.ask("phoneOffHook", call=call, device="201")
    ground.exchange = ground.start_exchange()
    expect("orphans: everything ends", ground.wait_until_quiet(5))


def another_history(ground: Stage, music: bool) -> None:
    """An older copy of the desk's file is put back: the bridge ends with status 3, also where the copy has gone on meanwhile."""
    for turn, further in enumerate((0, 9), 1):
        ground.ask("arriveCall", caller="0305050", called="100")
        time.sleep(0.5)
        ground.desk.stop()
        copy = {file: file.read_bytes() for file in ground.folder.glob("desk.db*")}
        ground.desk = ground.start_desk()
        ground.ask("clearConnection", call=turn, device="0305050")
        time.sleep(1)
        if further:
            ground.end(ground.exchange)
        ground.desk.stop()
        for file in ground.folder.glob("desk.db*"):
            file.unlink()
        for file, content in copy.items():
            file.write_bytes(content)
        ground.desk = ground.start_desk()
        for _ in range(further):
            ground.ask("arriveCall", caller="0306060", called="100")
        if further:
            ground.exchange = ground.start_exchange()
        expect("another history", wait_for([ground.exchange], 10), [3])
        for file in ground.folder.glob("exchange.db*"):
            file.unlink()
        ground.exchange = ground.start_exchange()
        time.sleep(1)


FEATURES: dict[str, Callable[[Stage, bool], None]] = {
    "log on and off": log_on_and_off, "hold": hold_and_retrieve, "transfer": transfer_to_a_station, "transfer into a queue": transfer_into_a_queue,
    "deflection": deflection, "private calls": between_phones, "unknown": unknown, "click to dial": click_to_dial, "a supervisor": cleared_by_a_supervisor,
    "strange numbers": strange_numbers, "a late answer": late_answer, "a refused ring": refused_and_waits,
    "a gone phone": gone_while_three_are_ready, "alone": gone_and_alone, "no ACK": without_an_ack, "a silent desk": silent_desk,
    "hang-ups": hang_ups_while_it_is_down, "orphans": orphans, "another history": another_history}
OPTIONS = {"a refused ring": ("--refused", "wait")}
GROUNDS: dict[str, dict[str, Any]] = {"a gone phone": {"agents": 3, "edge": True}, "alone": {"edge": True}}
