"""Transactions (RFC 3261, 17): requests of peers and their answers, and requests to peers; the exchange sends each
again until it has come."""
import hashlib
import secrets
from typing import Any, Protocol

from .grammar import read_field, read_uri
from .message import COOKIE, Fields, Message
from .records import Asked, Leg, Served
from .steps import Steps

ALLOW = ("allow", "INVITE, ACK, BYE, CANCEL, REFER, OPTIONS, MESSAGE")
# seconds: between repeats, at first and at most; until they end; until an answered caller has to send its ACK
ROUND_TRIP, LONGEST_WAIT, LIFE, ACK_WAIT = 0.5, 4.0, 32.0, 2.5


class Listener(Protocol):
    """What a leg does at the steps of its transactions."""

    def progressed(self, leg: Leg, message: Message) -> None: ...
    def confirm(self, leg: Leg, message: Message, first: bool) -> None: ...
    def finish(self, row: Asked, leg: Leg, message: Message | None) -> None: ...
    def end(self, leg: Leg, status: int = 480) -> None: ...


class Transactions:
    listener: Listener

    def __init__(self, steps: Steps):
        self.steps, self.rows, self.settings, self.now = steps, steps.rows, steps.settings, steps.now
        self.contact = ("contact", f"<sip:acd@{self.settings.listen}>")
        self.secret = secrets.token_hex(16)
        steps.rings |= {"Served": self.served_due, "Asked": self.asked_due}

    # requests of peers
    def take_request(self, message: Message, source: str) -> tuple[Served, Leg | None] | None:
        """A new request, with its leg if it is in a dialog; None if nothing is left to do."""
        row, leg = self.rows.served.get(message.transaction), self.rows.legs.get(message.tag("to"))
        if leg is not None and leg.call_id != message.get("call-id"):
            leg = None
        if message.method == "ACK":
            self.acknowledge(message, row, leg)
        elif row is not None:
            self.steps.put(row.reply, source)
        elif not message.tag("to") or message.method == "CANCEL":
            return self.add_served(message, source), None
        elif leg is None or message.method != "INVITE" and message.cseq < leg.heard:
            self.answer(self.add_served(message, source), 481 if leg is None else 500)
        else:
            leg.heard = message.cseq
            return self.add_served(message, source), leg
        return None

    def acknowledge(self, message: Message, row: Served | None, leg: Leg | None) -> None:
        """Ends the repeats of an answer. The ACK of a 2xx has the tag of that answer, which only its receiver knows."""
        row = row or self.rows.served.get(leg.transaction if leg else "")
        if row is None or not row.interval:
            return
        reply = Message.read(row.reply)
        if reply.cseq == message.cseq and (reply.status >= 300 or reply.tag("to") == message.tag("to")):
            row.interval, row.due = 0.0, self.now() + LIFE
            if leg is not None and leg.hangs_up:
                self.listener.end(leg)

    def add_served(self, message: Message, source: str) -> Served:
        return self.rows.served.add(Served(message.transaction, source, message.text()))

    def answer(self, row: Served, status: int, tag: str = "", fields: Fields = (), body: str = "") -> None:
        """Answers a request; a last answer to an INVITE is sent again until its ACK comes."""
        request, now = Message.read(row.request), self.now()
        row.reply = request.answer(status, tag or secrets.token_hex(8) if status > 100 else "", fields, body).text()
        self.steps.put(row.reply, row.back)
        if status >= 200 and request.method == "INVITE":
            row.interval, row.due, row.ends = ROUND_TRIP, now + ROUND_TRIP, now + (ACK_WAIT if status < 300 else LIFE)
        elif status >= 200:
            row.due = now + LIFE

    def refuse(self, message: Message, status: int, source: str) -> None:
        """Answers a message that can't be read, and keeps nothing of it: the same tag each time (RFC 3261, 8.2.7)."""
        tag = hashlib.sha256((self.secret + message.get("via") + message.get("cseq")).encode()).hexdigest()[:16]
        self.steps.put(message.refusal(status, tag).text(), source)

    def served_due(self, row: Served) -> None:
        leg = self.rows.legs.get(row.leg)
        if not row.interval:
            self.rows.served.remove(row.key)
        elif self.now() < row.ends:
            self.steps.put(row.reply, row.back)
            self.put_off(row, LONGEST_WAIT)
        else:
            row.interval, row.due = 0.0, self.now() + LIFE
            if leg is not None and leg.state == "up":
                self.listener.end(leg)

    def put_off(self, row: Served | Asked, most: float) -> None:
        row.interval = min(2 * row.interval, most)
        row.due = min(self.now() + row.interval, row.ends)

    # requests to peers
    def request(self, leg: Leg, method: str, body: str = "", fields: Fields = (), **how: Any) -> None:
        message = self.in_dialog(leg, method, body, fields)
        if method == "INVITE":
            leg.transaction = message.transaction
        self.transmit(message, leg.hop, leg.key, **how)

    def transmit(self, message: Message, address: str, leg: str = "", then: str = "", served: str = "",
                 patience: float = LIFE) -> None:
        """Sends a request to a peer; the function `then` gets the last answer, for a leg."""
        now, text = self.now(), message.text()
        due, ends = now + min(ROUND_TRIP, patience), now + patience
        self.rows.asked.add(Asked(message.transaction, address, text, leg, then, served, ROUND_TRIP, ends, due=due))
        self.steps.put(text, address)

    def in_dialog(self, leg: Leg, method: str, body: str = "", fields: Fields = (), cseq: int = 0) -> Message:
        leg.asked += not cseq
        via = f"SIP/2.0/UDP {self.settings.listen};rport;branch={COOKIE}{secrets.token_hex(8)}"
        rows = [("via", via), *(("route", route) for route in leg.routes), ("max-forwards", "70"), ("from", leg.ours),
                ("to", leg.theirs), ("call-id", leg.call_id), ("cseq", f"{cseq or leg.asked} {method}"), self.contact]
        return Message(f"{method} {leg.target} SIP/2.0", [*rows, ALLOW, *fields], body)

    def of_same(self, row: Asked, method: str, to_field: str = "") -> Message:
        """A request in the transaction of an INVITE: its CANCEL, or the ACK of a refusal."""
        invite = Message.read(row.text)
        rows = [*invite.some("via", "from", "call-id", "max-forwards", "route"), ("to", to_field or invite.get("to"))]
        return Message(invite.first.replace("INVITE", method, 1), [*rows, ("cseq", f"{invite.cseq} {method}")])

    def hop(self, leg: Leg) -> str:
        """The address for its requests: the edge, its first route or its contact, or the address from which its
        messages come."""
        first = read_field("route", leg.routes[0])[0].uri if leg.routes else read_uri(leg.target)
        return self.settings.edge or first.place or leg.hop

    def asked_due(self, row: Asked) -> None:
        leg = self.rows.legs.get(row.leg)
        if not row.over and self.now() < row.ends:
            self.steps.put(row.text, row.to)
            self.put_off(row, LIFE if row.key.endswith(" INVITE") else LONGEST_WAIT)
        else:
            self.rows.asked.remove(row.key)
            if leg is not None and not row.over:
                self.listener.finish(row, leg, None)

    def take_response(self, message: Message) -> None:
        row = self.rows.asked.get(message.transaction)
        leg = self.rows.legs.get(row.leg if row else message.tag("from"))
        if row is None or row.over:
            self.take_repeat(row, leg, message)
        elif message.status >= 200:
            self.take_last(row, leg, message)
        elif message.method == "INVITE":
            # the exchange doesn't send it again; a phone may ring for as long as the desk lets it
            row.interval, row.due = 0.0, row.ends
            if leg is not None and row.then == "invited":
                row.due = row.ends if leg.cancelled else 0.0
                self.listener.progressed(leg, message)

    def take_repeat(self, row: Asked | None, leg: Leg | None, message: Message) -> None:
        """An answer that came before, or one without a request."""
        known = leg is not None and read_field("to", leg.theirs)[0].parameters.get("tag") == message.tag("to")
        if message.method == "INVITE" and 200 <= message.status < 300 and not known:
            self.turn_away(message)
        elif row is not None:
            self.steps.put(row.ack, row.to)

    def take_last(self, row: Asked, leg: Leg | None, message: Message) -> None:
        row.over, row.due = True, self.now() + LIFE
        if message.method == "INVITE" and message.status >= 300:
            row.ack = self.of_same(row, "ACK", message.get("to")).text()
        elif message.method == "INVITE" and leg is None:
            self.turn_away(message)
        elif message.method == "INVITE" and leg is not None:
            self.listener.confirm(leg, message, first=row.then == "invited")
            row.ack, row.to = self.in_dialog(leg, "ACK", cseq=message.cseq).text(), leg.hop
        self.steps.put(row.ack, row.to)
        if leg is not None:
            self.listener.finish(row, leg, message)

    def turn_away(self, message: Message) -> None:
        """A phone answers though nobody waits for it any more, or a second phone answers by a fork: the exchange ends
        its dialog, each time."""
        contact = message.uri_of("contact")
        leg = Leg("", "", True, "closing", message.get("call-id"), message.get("from"), message.get("to"),
                  contact.text, routes=message.all("record-route")[::-1], asked=message.cseq)
        hop = self.hop(leg) if contact.text else ""
        for method, cseq in (("ACK", message.cseq), ("BYE", 0)) if hop else ():
            self.steps.put(self.in_dialog(leg, method, cseq=cseq).text(), hop)

    def owes_ack(self, leg: Leg) -> bool:
        """Whether its peer still owes the ACK of the last answer."""
        served = self.rows.served.get(leg.transaction)
        return served is not None and served.interval > 0

    def is_negotiating(self, leg: Leg) -> bool:
        """Whether its last INVITE isn't over yet, at either side."""
        asked, served = self.rows.asked.get(leg.transaction), self.rows.served.get(leg.transaction)
        return asked is not None and not asked.over or served is not None and (served.interval > 0 or not served.due)
