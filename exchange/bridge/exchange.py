"""The exchange: its parts, each over those that it gets, the messages that come to them, and its start."""
from collections.abc import Callable

from acd_client import Answer

from .calls import Calls
from .dialogs import REMIND, Dialogs
from .message import Message, Refused
from .music import Music
from .phones import DESK_WAIT, Phones
from .records import Asked, Leg, Served
from .settings import Settings
from .steps import Steps
from .store import Store
from .transactions import ACK_WAIT, LIFE, LONGEST_WAIT, ROUND_TRIP, Transactions

# seconds: until peers have sent again what came to nobody; for an answer to a probe
GRACE, PROBE_WAIT = 3 * ROUND_TRIP, 2.0


class Exchange:
    def __init__(self, settings: Settings, store: Store, send: Callable[[bytes, str], None]):
        self.settings, self.now = settings, store.now
        self.steps = Steps(settings, store, send)
        self.rows = self.steps.rows
        self.transactions = Transactions(self.steps)
        self.music = Music(self.steps, self.transactions)
        self.dialogs = Dialogs(self.steps, self.transactions, self.music)
        self.calls = Calls(self.steps, self.dialogs)
        self.phones = Phones(self.steps, self.transactions, self.dialogs, self.calls)

    def receive(self, data: bytes, source: str) -> None:
        """A datagram. With an edge the exchange hears the edge alone, without one everybody who reaches the address."""
        text = data.decode("latin-1")
        self.steps.trace("<", source, text)
        if self.settings.edge not in ("", source):
            return
        try:
            message = Message.read(text)
        except Refused as fault:
            if fault.request is not None:
                self.steps.step(self.transactions.refuse, fault.request, fault.status, source)
            return
        if not message.is_request:
            # with a second Via it is for somebody else (RFC 3261, 8.1.3.3)
            if len(message.values("via")) == 1:
                self.steps.step(self.transactions.take_response, message)
        elif not self.steps.step(self.take_request, message, source) and message.method != "ACK":
            self.steps.step(lambda: self.transactions.answer(self.transactions.add_served(message, source), 500))

    def take_request(self, message: Message, source: str) -> None:
        new = self.transactions.take_request(message, source)
        if new is not None:
            self.phones.take(message, *new)

    def resume(self) -> None:
        """Messages that came to nobody while the exchange was down may come again now. It asks for those that don't
        come soon. If the machine's clock was set meanwhile, moments of the file are too far off: nothing waits longer
        than it would from now on."""
        now = self.now()
        transactions: list[Asked | Served] = [*self.rows.asked.values(), *self.rows.served.values()]
        for row in transactions:
            row.due, row.ends = min(row.due, now + LIFE), min(row.ends, now + LIFE)
        for asked in self.rows.asked.values():
            self.resume_asked(asked, now)
        for served in self.rows.served.values():
            if served.interval:
                served.due, served.ends = now, max(served.ends, now + ACK_WAIT)
        for leg in self.rows.legs.values():
            self.resume_leg(leg, now)

    def resume_asked(self, asked: Asked, now: float) -> None:
        leg = self.rows.legs.get(asked.leg)
        if asked.over:
            self.steps.put(asked.ack, asked.to)
        elif not (asked.then == "invited" and leg is not None and leg.cancelled):
            # a phone that answered meanwhile says so again within LONGEST_WAIT; one that rings when it is asked
            wait = GRACE if asked.interval else LONGEST_WAIT + ROUND_TRIP
            asked.interval, asked.due = asked.interval or ROUND_TRIP, now + wait
            asked.ends = max(asked.ends, now + wait + 4 * GRACE)

    def resume_leg(self, leg: Leg, now: float) -> None:
        unheard = self.rows.served.get(leg.transaction)
        if leg.state == "in" and not leg.call:
            leg.due = now + DESK_WAIT
        elif leg.state == "in":
            leg.due = min(leg.due, now + REMIND)
        elif leg.state == "up":
            self.dialogs.watch_on(leg)
            if not (unheard and unheard.interval):
                self.transactions.request(leg, "OPTIONS", patience=PROBE_WAIT)

    def compare(self, key: str, answer: Answer) -> None:
        """Compares the desk's connections of a call with its legs: it ends a leg without a connection, a connection
        without a leg, and a call in which no phone has a part. So it makes up for steps that the file lost by a power
        cut."""
        shown = answer.body["connections"] if answer.status == 200 else []
        states = {each["device"]: each["state"] for each in shown}
        call, asked = self.rows.calls.get(key), {row.leg for row in self.rows.requests.values()
                                                 if row.then == "answered"}
        legs = {device: self.rows.legs.get(leg) for device, leg in call.legs.items()} if call is not None else {}
        if call is not None and states:
            call.legs = {device: leg for device, leg in call.legs.items() if device in states}
        else:
            self.rows.strangers.remove(key)
            self.rows.calls.remove(key)
        for device, leg in legs.items():
            if leg is not None and device not in states:
                self.dialogs.end(leg)
            elif leg is not None and leg.state == "up" and states[device] == "alerting" and leg.key not in asked:
                self.steps.ask("answerCall", "answered", leg, call=int(key), device=device)
        parts = [device for device, state in states.items() if state in ("initiated", "connected", "hold")]
        if any(legs.get(device) is None for device in parts):
            self.steps.ask("clearConnection", call=int(key), device=min(states))
        elif call is not None and states:
            for each in shown:
                if each["state"] == "alerting" and each["device"] not in legs:
                    self.calls.delivered(call, each["device"], each.get("group", ""))
            call.connected = len(states) == 2 and set(states.values()) <= {"connected", "hold"}
            # by then an earlier re-INVITE has ended
            call.due = self.now() + GRACE
