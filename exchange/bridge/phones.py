"""Requests of phones and callers: calls, hang-ups, hold, transfer, and the feature codes by which agents log on."""
import re
import secrets
from collections.abc import Callable
from typing import NamedTuple

from acd_client import Answer

from . import sdp
from .calls import REFUSED, Calls
from .dialogs import LEAST_SESSION, Dialogs
from .grammar import IPV4
from .message import PHRASES, Fields, Message
from .records import Agent, Leg, Request, Served
from .steps import Steps
from .transactions import ALLOW, Transactions

SDP = "application/sdp"
STATES = {"23": "loggedOff", "24": "ready", "25": "notReady", "26": "workingAfterCall"}
DESK_WAIT = 5.0


class Sender(NamedTuple):
    """The sender of a request: how the exchange knows him, his address, and the number of his phone if he has one."""
    way: str
    address: str
    phone: str


class Phones:
    def __init__(self, steps: Steps, transactions: Transactions, dialogs: Dialogs, calls: Calls):
        self.steps, self.rows, self.settings, self.now = steps, steps.rows, steps.settings, steps.now
        self.transactions, self.dialogs, self.calls = transactions, dialogs, calls
        self.contact = transactions.contact
        self.desk_is_silent = False
        calls.takers |= {"held": self.held, "transferred": self.transferred, "featured": self.featured}

    def take(self, message: Message, row: Served, leg: Leg | None) -> None:
        """A new request. Outside of a dialog the exchange takes only requests for which the edge vouches. The edge
        makes a CANCEL itself, and vouches for none."""
        refusal = self.refusal(message, leg)
        if leg is None and message.method != "CANCEL" and self.sender(message, row.back) is None:
            self.steps.say_hourly("403 to a request for which the edge doesn't vouch: is its kamailio.cfg of this "
                                  "version?")
            self.answer(row, 403)
        elif message.method == "CANCEL":
            self.cancel_call(message, row)
        elif refusal is not None:
            self.answer(row, refusal[0], fields=refusal[1])
        elif message.method == "OPTIONS":
            self.answer(row, 503 if self.desk_is_silent and leg is None else 200, fields=[ALLOW])
        elif leg is None:
            first: dict[str, Callable[[Message, Served], None]] = {"INVITE": self.call, "MESSAGE": self.feature}
            first[message.method](message, row)
        else:
            row.leg = leg.key
            later: dict[str, Callable[[Message, Served, Leg], None]] = {
                "INVITE": self.change, "BYE": self.bye, "REFER": self.refer}
            later[message.method](message, row, leg)

    def refusal(self, message: Message, leg: Leg | None) -> tuple[int, Fields] | None:
        """The refusal of a request that the exchange can't carry out, in the order of RFC 3261, 8.2; None if it can."""
        methods = ("INVITE", "MESSAGE", "OPTIONS") if leg is None else ("INVITE", "BYE", "REFER", "OPTIONS")
        required = [name for name in message.values("require") if name.lower() != "timer"]
        body, wanted = message.first_of("content-type"), message.values("accept")
        if message.method not in methods:
            return 501, [ALLOW]
        if message.uri.scheme not in ("sip", "sips", "tel"):
            return 416, []
        if required:
            return 420, [("unsupported", ", ".join(required))]
        if message.method == "INVITE" and message.body and body not in (None, SDP):
            return 415, [("accept", SDP)]
        if message.method == "INVITE" and wanted and not {SDP, "application/*", "*/*"} & set(wanted):
            return 406, []
        return None

    def sender(self, message: Message, source: str) -> Sender | None:
        """The sender by the edge's word, or without an edge by the list of phones and the address of the datagram; None
        if neither says."""
        if not self.settings.edge:
            shown = message.uri_of("from").number
            is_phone = shown in self.settings.phones
            return Sender("phone" if is_phone else "trunk-address", source.partition(":")[0], shown if is_phone else "")
        said, phones = message.all("x-acd-sender"), message.all("x-acd-phone")
        found = re.fullmatch(f"(trunk-password|trunk-address|phone) ({IPV4})", said[0]) if len(said) == 1 else None
        if found is None or [len(phone) > 0 for phone in phones] != [True] * (found[1] == "phone"):
            return None
        return Sender(found[1], found[2], phones[0] if phones else "")

    def answer(self, row: Served, status: int, tag: str = "", fields: Fields = ()) -> None:
        self.transactions.answer(row, status, tag, fields)

    def call(self, message: Message, row: Served) -> None:
        called, sender, contact = message.uri.number, self.sender(message, row.back), message.uri_of("contact").text
        if sender is None or not contact or sdp.media(message.body) is None:
            return self.answer(row, 488 if contact else 400)
        if 0 < message.session < LEAST_SESSION:
            return self.answer(row, 422, fields=[("min-se", str(LEAST_SESSION))])
        if self.desk_is_silent:
            return self.answer(row, 503, fields=[("retry-after", "10")])
        row.leg = key = secrets.token_hex(8)
        leg = self.rows.legs.add(Leg(key, self.device(message, sender), bool(sender.phone), "in",
                                     message.get("call-id"), f"{message.get('to')};tag={key}", message.get("from"),
                                     contact, row.back, row.key, message.all("record-route"), heard=message.cseq,
                                     sdp=message.body, due=self.now() + DESK_WAIT, way=sender.way,
                                     sender=sender.address))
        leg.hop = self.transactions.hop(leg)
        self.answer(row, 100)
        if called.startswith("*"):
            self.feature(message, row)
        elif re.fullmatch(r"[0-9]{1,15}", called):
            self.calls.arrive(leg, leg.device, called)
        else:
            self.dialogs.end(leg, 404)

    def device(self, message: Message, sender: Sender) -> str:
        """The number of the phone, or the number that a caller shows."""
        return sender.phone or re.sub(r"[^0-9]", "", message.uri_of("from").number)[-15:] or "0"

    def cancel_call(self, message: Message, row: Served) -> None:
        invite = self.rows.served.get(row.key.rpartition(" ")[0] + " INVITE")
        leg = self.rows.legs.get(invite.leg) if invite is not None else None
        self.answer(row, 200 if invite is not None else 481, leg.key if leg is not None else "")
        if leg is not None and leg.state == "in":
            self.dialogs.end(leg, 487)

    def bye(self, message: Message, row: Served, leg: Leg) -> None:
        self.answer(row, 200)
        self.dialogs.hang_up(leg)
        if leg.state == "in":
            # a caller may end its early dialog so
            self.dialogs.end(leg, 487)
        self.rows.legs.remove(leg.key)

    # offers in a dialog: refreshed, held, retrieved, moved to another address
    def change(self, message: Message, row: Served, leg: Leg) -> None:
        if leg.state != "up" or self.transactions.is_negotiating(leg):
            return self.answer(row, 491)
        self.answer(row, 100)
        leg.transaction, leg.target = row.key, message.uri_of("contact").text or leg.target
        leg.hop = self.transactions.hop(leg)
        held, call = sdp.is_held(message.body), self.dialogs.call_of(leg)
        if held != leg.held and leg.station and call is not None:
            service = "holdCall" if held else "retrieveCall"
            self.steps.ask(service, "held", leg, row.key, call=int(call.key), device=leg.device)
        else:
            self.pass_on(leg, row, message.body)

    def held(self, row: Request, leg: Leg | None, answer: Answer) -> None:
        invite = self.rows.served[row.served]
        if leg is None or answer.status != 200:
            return self.answer(invite, 488)
        leg.held = row.body["service"] == "holdCall"
        self.pass_on(leg, invite, Message.read(invite.request).body)

    def pass_on(self, leg: Leg, row: Served, body: str) -> None:
        """Passes an offer that changes something on to the other side, whose answer becomes the answer."""
        call, other = self.dialogs.call_of(leg), self.dialogs.other(leg)
        same = not body or (sdp.media(body), sdp.is_held(body)) == (sdp.media(leg.sdp), sdp.is_held(leg.sdp))
        leg.sdp = body or leg.sdp
        if same or other is None or other.state != "up" or call is None or not call.joined:
            self.dialogs.accept(leg, row)
        elif self.transactions.is_negotiating(other):
            self.answer(row, 491)
        else:
            self.dialogs.offer(other, body, "passed", served=row.key)

    # a blind transfer; one in two steps has no service at the desk
    def refer(self, message: Message, row: Served, leg: Leg) -> None:
        target, call = message.uri_of("refer-to"), self.dialogs.call_of(leg)
        is_number = re.fullmatch(r"[0-9]{1,15}", target.number)
        if not leg.station or call is None or "replaces=" in target.headers.lower() or not is_number:
            return self.answer(row, 603)
        self.answer(row, 202, fields=[self.contact])
        self.notify(leg, 100, message.cseq)
        self.steps.ask("singleStepTransfer", "transferred", leg, row.key, call=int(call.key), device=leg.device,
                       to=target.number)

    def transferred(self, row: Request, leg: Leg | None, answer: Answer) -> None:
        refer = self.rows.served.get(row.served)
        if leg is not None and leg.state == "up" and refer is not None:
            status = 200 if answer.status == 200 else REFUSED.get(answer.error, 603)
            self.notify(leg, status, Message.read(refer.request).cseq)

    def notify(self, leg: Leg, status: int, cseq: int) -> None:
        state = "active;expires=60" if status < 200 else "terminated;reason=noresource"
        fields = [("event", f"refer;id={cseq}"), ("subscription-state", state), ("content-type", "message/sipfrag")]
        line = f"SIP/2.0 {status} {PHRASES[status]}\r\n"
        self.transactions.transmit(self.transactions.in_dialog(leg, "NOTIFY", line, fields), leg.hop)

    # feature codes, dialled or sent as a message
    def feature(self, message: Message, row: Served) -> None:
        """*22AGENT*GROUP*GROUP.. logs on at the phone; *23 off, *24 ready, *25 not ready, *26 in after-call work: the
        agent at this phone, and no other one."""
        code, sender, leg = message.uri.number, self.sender(message, row.back), self.rows.legs.get(row.leg)
        station = sender.phone if sender is not None else ""
        found = re.fullmatch(r"\*(?:(22)([0-9]{1,9})((?:\*[0-9]{1,15}){1,8})|(2[3-6]))",
                             code if code.startswith("*") else message.body.strip())
        logged_on = self.rows.agents.get(station)
        if found is None or not station:
            self.answer_code(row, leg, 404)
        elif found[1] and not self.settings.may_log_on(station, found[2]):
            self.answer_code(row, leg, 403)
        elif found[1]:
            groups = found[3][1:].split("*")
            self.steps.ask("setAgentState", "featured", leg, row.key, agent=found[2], requested="loggedOn",
                           device=station, groups=groups)
        elif logged_on is not None:
            self.steps.ask("setAgentState", "featured", leg, row.key, agent=logged_on.agent, requested=STATES[found[4]])
        else:
            self.answer_code(row, leg, 404)

    def featured(self, row: Request, leg: Leg | None, answer: Answer) -> None:
        if answer.status == 200 and "device" in row.body:
            # the exchange knows it before it reads the event, since *24 may follow at once
            self.rows.agents.add(Agent(row.body["device"], row.body["agent"]))
        self.answer_code(self.rows.served.get(row.served), leg, 200 if answer.status == 200 else 403)

    def answer_code(self, row: Served | None, leg: Leg | None, status: int) -> None:
        if leg is not None and leg.state == "in" and status == 200:
            leg.hangs_up = True
            self.dialogs.accept(leg, self.rows.served[leg.transaction], self.dialogs.music.offer(leg.sdp) or leg.sdp)
        elif leg is not None:
            self.dialogs.end(leg, status)
        elif row is not None and not row.reply:
            self.answer(row, status)
