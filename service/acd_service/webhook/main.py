"""Sends an office's alarms to a program elsewhere: a POST of JSON as an alarm begins, and one as it ends.

It follows the gate as a board does, by a login of the role supervisor, and is the one unit that may go out. Tested, not
proved."""
import argparse
import json
import os
import re
import signal
import ssl
import threading
import time
from collections.abc import Callable
from pathlib import Path
from typing import Any, NoReturn
from urllib.parse import SplitResult, urlencode

from acd_client import Client

from acd_service import command, office, put, reach, settings
from acd_service.command import INFO, Fault, report, say
from acd_service.gate.days import midnight
from acd_service.webhook import stream
from acd_service.webhook.alarms import Alarm, Picture, Reckoning
from acd_service.webhook.sending import Sender, address, post

FILE = settings.FILE.parent / "webhook.env"
# seconds: without a word of the gate until it is lost, until that is an alarm, between two questions, and for which an
# alarm that comes back is the same one
SILENT, GONE, PAUSE, DENIED, SAME = 8, 10, 1, 10, 60
# limits by which the gate counts, and their values
COUNTED, NUMBER = r"(limit|goal|lost)(\.[0-9]{1,15})?", r"[0-9]{1,5}(\.[0-9]{1,15})?"
GATE, DESK = Alarm("gate", "Neither gate nor proxy answers"), Alarm("desk", "The desk does not answer")
AT_ONCE = (GATE.kind, DESK.kind)


class Watch:
    """What is an alarm, since when, and when it last was; `tell` gets what begins and ends. An alarm of a desk that
    isn't seen neither begins nor ends."""

    def __init__(self, tell: Callable[[str, str, dict[str, Any]], None], known: dict[str, dict[str, Any]]) -> None:
        self.tell, self.known = tell, known

    def look(self, found: dict[str, Alarm], now: float, is_seen: bool = True) -> bool:
        """Whether anything began or ended."""
        has_news = False
        for key, alarm in found.items():
            if key not in self.known:
                self.known[key] = {"kind": alarm.kind, "group": alarm.group, "words": alarm.words,
                                   "since": alarm.since or int(now), "caller": alarm.caller}
                self.tell("begun", key, self.known[key])
                has_news = True
            self.known[key]["last"] = int(now)
        for key, alarm_known in list(self.known.items()):
            kind = alarm_known["kind"]
            if key not in found and not is_seen and kind != GATE.kind:
                alarm_known["last"] = int(now)
            elif key not in found and now - alarm_known["last"] >= (0 if kind in AT_ONCE else SAME):
                self.tell("ended", key, self.known.pop(key))
                has_news = True
        return has_news


class Webhook:
    """`state` is the file of what is known and what waits to be sent, if there is one."""

    def __init__(self, client: Client, send: Callable[[bytes], int], has: office.Office, state: Path | None,
                 shows_callers: bool = False, clock: Callable[[], float] = time.time) -> None:
        self.client, self.office, self.state, self.shows_callers = client, has, state, shows_callers
        self.clock, self.picture, self.reckoning = clock, Picture(), Reckoning(has)
        kept = self.kept()
        self.writing = threading.RLock()
        self.sender = Sender(send, kept.get("waiting", []), self.keep, clock)
        self.watch = Watch(self.tell, kept.get("alarms", {}))
        self.heard, self.has_begun, self.lost = time.monotonic(), False, ""

    # what is known

    def kept(self) -> dict[str, Any]:
        """Of an earlier run."""
        found: Any = None
        try:
            found = json.loads(self.state.read_text()) if self.state else None
        except (OSError, ValueError):
            return {}
        is_good = (isinstance(found, dict) and isinstance(found.get("alarms"), dict) and
                   isinstance(found.get("waiting"), list))
        return dict(found) if is_good else {}

    def keep(self) -> None:
        if self.state is None:
            return
        with self.writing, self.sender.changed:
            text = json.dumps({"alarms": self.watch.known, "waiting": list(self.sender.waiting)})
            try:
                put.put(self.state, text + "\n")
            except OSError as fault:
                report(f"{self.state}: {fault.strerror}")

    def tell(self, state: str, key: str, known: dict[str, Any]) -> None:
        group = known["group"]
        body = {"state": state, "key": key, "alarm": known["kind"], "text": known["words"], "since": known["since"],
                "moment": int(self.clock())}
        if group:
            line = self.picture.tables["groups"].get(group, {})
            body |= {"group": group, "name": self.reckoning.name(group, line)}
        if self.office.title:
            body["title"] = self.office.title
        if self.shows_callers and known.get("caller"):
            body["caller"] = known["caller"]
        report(f"{state}: {key}", INFO)
        self.sender.put(body)

    # what is seen

    def query(self, begin: int) -> str:
        """What a board asks for: the day of now, so that both share what the gate counts."""
        limits = {name: value for name, value in self.office.limits.items()
                  if re.fullmatch(COUNTED, name) and re.fullmatch(NUMBER, value)}
        level = {"level": "answered"} if self.office.limits.get("level") == "answered" else {}
        return urlencode({"begin": begin, **limits, **level})

    def follow(self) -> float:
        """Until the stream ends, or another day begins; in how many seconds to ask again."""
        begin = midnight(self.clock())
        try:
            for kind, told in stream.events(self.client, self.query(begin)):
                if kind in ("picture", "change"):
                    self.picture.take(told, kind == "picture")
                self.picture.live, self.picture.clock = bool(told.get("live")), float(told.get("clock", 0))
                self.see()
                if midnight(self.clock()) != begin:
                    return 0
        except stream.Lost as fault:
            return self.lose(fault)
        return PAUSE

    def see(self) -> None:
        self.heard = time.monotonic()
        if not self.has_begun or self.lost:
            report("follows the gate" if not self.has_begun else "the gate answers again", INFO)
            self.has_begun, self.lost = True, ""
        is_live = self.picture.live
        self.look(self.reckoning.alarms(self.picture) if is_live else {DESK.key: DESK}, is_live)

    def lose(self, fault: stream.Lost) -> float:
        if str(fault) != self.lost:
            self.lost = str(fault)
            report(f"nothing comes of the gate: {fault}")
        if time.monotonic() - self.heard >= GONE:
            self.look({GATE.key: GATE}, False)
        return DENIED if fault.status in (401, 403) else PAUSE

    def look(self, found: dict[str, Alarm], is_seen: bool) -> None:
        with self.writing:
            if self.watch.look(found, self.clock(), is_seen):
                self.keep()

    def run(self) -> NoReturn:
        threading.Thread(target=self.sender.run, daemon=True).start()
        while True:
            time.sleep(self.follow())


# The command

def parser() -> command.Parser:
    found = command.Parser("Sends alarms to the webhook of ACD_WEBHOOK, as they begin and as they end. It runs until "
                           "somebody ends it.")
    found.add_argument("address", nargs="?", type=reach.address, metavar="URL",
                       help="the address of the gate, at the proxy; that of ACD_WEBHOOK_DESK unless given")
    found.add_argument("--state", type=Path, metavar="FILE",
                       help="where alarms of now and what isn't sent yet are kept; in memory alone unless given")
    found.add_argument("--office", type=Path, metavar="FILE",
                       help=f"names, limits and zone; {office.FILE} as it comes, where that is there")
    found.add_argument("--hook-ca", metavar="FILE",
                       help="trust the certificates in this file for the webhook, in place of this machine's")
    found.add_argument("--try", dest="tries", action="store_true", help="send one alarm of a trial, say what came of "
                                                                        "it, and end")
    reach.add_login_options(found)
    return found


def setting(name: str) -> str:
    """As the unit has it in its environment, else of the file."""
    return os.environ.get(name, "") or settings.written(FILE).get(name, "")


def read(words: list[str]) -> argparse.Namespace:
    found = parser()
    options = found.parse_args(words)
    try:
        options.hook = address(setting("ACD_WEBHOOK"))
        if options.address is None and not options.tries:
            options.address = reach.address(setting("ACD_WEBHOOK_DESK"))
    except argparse.ArgumentTypeError as fault:
        raise Fault(f"{FILE}: {fault}", status=command.REFUSED) from None
    if setting("ACD_WEBHOOK_CALLERS") not in ("", "no", "yes"):
        raise Fault(f"{FILE}: ACD_WEBHOOK_CALLERS must be yes or no", status=command.REFUSED)
    reach.check(found, options)
    return options


def sends(hook: SplitResult, ca: str | None) -> Callable[[bytes], int]:
    try:
        context = ssl.create_default_context(cafile=ca) if hook.scheme == "https" else None
    except OSError as fault:
        raise Fault(f"{ca}: {fault.strerror or fault}") from None
    return lambda body: post(hook, body, context)


def send_one(send: Callable[[bytes], int]) -> None:
    now = int(time.time())
    sender = Sender(send, [], lambda: None)
    sender.put({"state": "begun", "key": "trial", "alarm": "trial", "text": "A trial of the webhook", "since": now,
                "moment": now})
    why = sender.fault_of(sender.waiting[0])
    if why is not None:
        raise Fault(f"the webhook took nothing: {why}")
    say("the webhook took it")


def do(options: argparse.Namespace) -> None:
    send = sends(options.hook, options.hook_ca)
    if options.tries:
        return send_one(send)
    for one in (signal.SIGTERM, signal.SIGINT):
        signal.signal(one, signal.SIG_DFL)
    client = reach.desk_at(options)
    client.wait = SILENT
    has = office.counting(options.office, report)
    Webhook(client, send, has, options.state, setting("ACD_WEBHOOK_CALLERS") == "yes").run()


def main(words: list[str]) -> NoReturn:
    command.run(read, do, words)
