"""Legs: dialogs with phones and callers from the INVITE to the BYE, their media and their session timers (RFC 4028)."""
import re
import secrets
from collections.abc import Callable

from . import sdp
from .grammar import read_uri
from .message import Fields, Message
from .music import Music
from .records import Asked, Call, Leg, Served
from .steps import Steps
from .transactions import ALLOW, Transactions

LEAST_SESSION = 90
# answers that concern the phone, and not this very call; the edge says 408 for a silent phone, 477 for one whose
# connection is gone
UNAVAILABLE = (404, 408, 477, 480, 486, 603)
# seconds: between two 182, since proxies give up after three minutes; for an answer to a CANCEL; before a new offer
REMIND, AFTER_CANCEL, AGAIN = 45.0, 4.0, 1.0


class Dialogs:
    def __init__(self, steps: Steps, transactions: Transactions, music: Music):
        self.steps, self.rows, self.settings, self.now, self.music = steps, steps.rows, steps.settings, steps.now, music
        self.transactions = transactions
        self.contact = transactions.contact
        transactions.listener = self
        steps.rings |= {"Leg": self.leg_due, "Call": self.settle}
        # the function for the last answer to a request of a leg, by its name
        self.takers: dict[str, Callable[[Leg, Message | None, str], None]] = {
            "invited": self.invited, "moved": self.moved, "passed": self.passed}

    # the legs of a call
    def of(self, call: Call) -> list[Leg]:
        return [self.rows.legs[key] for key in call.legs.values() if key in self.rows.legs]

    def call_of(self, leg: Leg) -> Call | None:
        """The call in which it has a part."""
        call = self.rows.calls.get(leg.call)
        return call if call is not None and call.legs.get(leg.device) == leg.key else None

    def other(self, leg: Leg) -> Leg | None:
        call = self.call_of(leg)
        return next((other for other in self.of(call) if other.key != leg.key), None) if call is not None else None

    def detach(self, call: Call, device: str) -> Leg | None:
        leg = self.rows.legs.get(call.legs.get(device, ""))
        call.legs = {other: key for other, key in call.legs.items() if other != device}
        return leg

    def hang_up(self, leg: Leg) -> None:
        """This side of the call is over: asks the desk to end it. If the caller ends, it drops answerCall requests that
        it hasn't sent yet."""
        call = self.call_of(leg)
        if call is not None:
            self.detach(call, leg.device)
            # the first one may be under way
            for key in sorted(self.rows.requests, key=int)[1:] if leg.device == call.caller else ():
                if self.rows.requests[key].then == "answered" and self.rows.requests[key].body["call"] == int(call.key):
                    self.rows.requests.remove(key)
            self.steps.ask("clearConnection", call=int(call.key), device=leg.device)

    # a phone is rung
    def invite(self, call: Call, device: str, shown: str, offer: str) -> None:
        key, edge = secrets.token_hex(8), self.settings.edge
        target = f"sip:{device}@{edge}" if edge else self.settings.phones.get(device, "")
        hop = read_uri(target).place if target else ""
        leg = self.rows.legs.add(Leg(key, device, True, "out", f"{secrets.token_hex(10)}@{self.settings.host}",
                                     f'"{shown}" <sip:{shown}@{self.settings.listen}>;tag={key}', f"<{target}>", target,
                                     hop, call=call.key, way="phone", sender="" if edge else hop.partition(":")[0]))
        call.legs = {**call.legs, device: key}
        if leg.hop:
            self.offer(leg, offer, "invited", [("x-acd-call", call.key)])
        else:
            self.refused(leg, None)

    def local_body(self, leg: Leg, body: str) -> str:
        """The body as this leg gets it, with this leg's origin, whose version grows; without a body, the last one."""
        if body:
            leg.version += 1
            origin = f"o=acd {int(leg.key[:8], 16)} {leg.version} IN IP4 {self.settings.host}"
            leg.own = re.sub(r"^o=[^\r\n]*", origin, body, 1, re.MULTILINE)
        return leg.own

    def progressed(self, leg: Leg, message: Message) -> None:
        other = self.other(leg)
        if leg.cancelled and leg.state == "out":
            self.cancel(leg)
        leg.state = "rings"
        if message.status in (180, 183) and other is not None and other.state == "in" and not leg.cancelled:
            self.transactions.answer(self.rows.served[other.transaction], 180, other.key, [self.contact])

    def confirm(self, leg: Leg, message: Message, first: bool) -> None:
        """Takes over what a 2xx to an INVITE says of the dialog."""
        if first:
            leg.theirs, leg.routes = message.get("to"), message.all("record-route")[::-1]
        leg.target = message.uri_of("contact").text or leg.target
        leg.hop = self.transactions.hop(leg)
        if message.session >= LEAST_SESSION:
            leg.session = message.session
            leg.refreshes = message.refresher != "uas"
        self.watch(leg)

    def invited(self, leg: Leg, message: Message | None, served: str) -> None:
        call = self.call_of(leg)
        if message is None or message.status >= 300:
            return self.refused(leg, message)
        leg.state, leg.sdp = "up", message.body
        if leg.cancelled or call is None:
            # it crossed the CANCEL
            self.end(leg)
        elif call.caller == leg.device:
            leg.music = True
            self.steps.ask("phoneOffHook", "went_off_hook", leg, call=int(call.key), device=leg.device)
        else:
            self.steps.ask("answerCall", "answered", leg, call=int(call.key), device=leg.device)

    def refused(self, leg: Leg, message: Message | None) -> None:
        """A phone that is busy, says no, moved, or isn't there."""
        call, status = self.call_of(leg), message.status if message else 480
        moved = message.uri_of("contact").number if message and status < 400 else ""
        self.rows.legs.remove(leg.key)
        if call is not None and not leg.cancelled:
            self.detach(call, leg.device)
            if re.fullmatch(r"[0-9]{1,15}", moved):
                self.steps.ask("deflectCall", "deflected", call=int(call.key), device=leg.device, to=moved)
            else:
                self.decline(call, leg.device, status)

    def decline(self, call: Call, device: str, status: int) -> None:
        """Ends a private call. An offer of a group returns to its place at once, or waits for the end of its ring."""
        if not call.offers.get(device):
            call.failure = status if status in (404, 480, 486, 603) else 480
            self.steps.ask("clearConnection", call=int(call.key), device=device)
        elif self.settings.refused == "reject" and (status < 400 or status in UNAVAILABLE):
            self.steps.ask("rejectCall", "rejected", call=int(call.key), device=device)

    # session timers: whoever refreshes does so in the middle of the interval; who waits in vain hangs up before its end
    def offer(self, leg: Leg, body: str = "", then: str = "", fields: Fields = (), served: str = "") -> None:
        leg.session = leg.session or self.settings.session
        rows = [("supported", "timer"), ("min-se", str(LEAST_SESSION)), ("content-type", "application/sdp"),
                ("session-expires", f"{leg.session};refresher={'uac' if leg.refreshes else 'uas'}")]
        self.transactions.request(leg, "INVITE", self.local_body(leg, body), [*fields, *rows], then=then, served=served)

    def watch(self, leg: Leg) -> None:
        leg.due = self.now() + (leg.session / 2 if leg.refreshes else leg.session - min(32, leg.session / 3))

    def watch_on(self, leg: Leg) -> None:
        """At a start. If the peer's time to refresh is over by then, a probe asks whether it is there, and it gets
        another interval."""
        due = leg.due
        self.watch(leg)
        if leg.refreshes or due > self.now():
            leg.due = min(due, leg.due)

    def leg_due(self, leg: Leg) -> None:
        if leg.state == "in" and leg.call:
            self.entertain(leg)
        elif leg.state == "in" or leg.state == "up" and not leg.refreshes:
            # the desk hasn't answered, and the carrier is to try elsewhere; or the peer hasn't refreshed
            self.end(leg, 503)
        elif leg.state == "up" and self.transactions.is_negotiating(leg):
            leg.due = self.now() + AGAIN
        elif leg.state == "up":
            self.offer(leg)
            self.watch(leg)

    # a caller's INVITE is answered
    def accept(self, leg: Leg, row: Served, body: str = "") -> None:
        """200 to its INVITE, the first one or a later one."""
        request, fields = Message.read(row.request), [self.contact, ALLOW, ("supported", "timer")]
        leg.state = "up" if leg.state == "in" else leg.state
        leg.session, leg.refreshes = self.settings.session, True
        if request.session and "timer" in request.values("supported"):
            refresher = request.refresher or "uac"
            leg.session, leg.refreshes = max(LEAST_SESSION, min(request.session, leg.session)), refresher == "uas"
            fields += [("require", "timer"), ("session-expires", f"{leg.session};refresher={refresher}")]
        self.watch(leg)
        self.transactions.answer(row, 200, leg.key, fields, self.local_body(leg, body))

    def entertain(self, leg: Leg) -> None:
        """A leg that has nobody to talk to yet: 182 Queued for a caller without an answer, else music."""
        music = self.music.offer(leg.sdp)
        if leg.state == "in" and self.settings.waiting == "music" and music and self.music.place(leg):
            leg.music = True
            self.accept(leg, self.rows.served[leg.transaction], music)
        elif leg.state == "in":
            self.transactions.answer(self.rows.served[leg.transaction], 182, leg.key, [self.contact])
            leg.due = self.now() + REMIND
        elif leg.state == "up" and not leg.music and music and not self.transactions.is_negotiating(leg):
            self.offer(leg, music, "moved")

    # a leg ends
    def finish(self, row: Asked, leg: Leg, message: Message | None) -> None:
        """The last answer to a request, or None if none came. A peer that is silent or doesn't know the dialog is
        gone."""
        ends = leg.state == "closing"
        if row.then:
            self.takers[row.then](leg, message, row.served)
        if ends or leg.state == "up" and (message is None or message.status in (408, 481)):
            self.hang_up(leg)
            self.rows.legs.remove(leg.key)

    def end(self, leg: Leg, status: int = 480) -> None:
        """Ends this leg in whichever state it is, and its part in a call."""
        self.hang_up(leg)
        leg.music = False
        if leg.state == "in":
            self.transactions.answer(self.rows.served[leg.transaction], status, leg.key)
            self.rows.legs.remove(leg.key)
        elif leg.state in ("out", "rings") and not leg.cancelled:
            leg.cancelled = True
            if leg.state == "rings":
                self.cancel(leg)
        elif leg.state == "up":
            leg.state, leg.due = "closing", 0.0
            self.transactions.request(leg, "BYE")

    def cancel(self, leg: Leg) -> None:
        """The last answer to the INVITE ends the leg, or the end of the time for it."""
        row = self.rows.asked[leg.transaction]
        self.transactions.transmit(self.transactions.of_same(row, "CANCEL"), row.to)
        row.ends = row.due = self.now() + AFTER_CANCEL

    # media change: to music, to the other phone, or as the other side asked
    def settle(self, call: Call) -> None:
        """Each leg that is up hears somebody: the other leg, once the desk connected them, else music."""
        legs = sorted(self.of(call), key=lambda leg: leg.device != call.caller)
        if not call.connected or len(legs) != 2:
            for leg in legs:
                if leg.state == "up":
                    self.entertain(leg)
        elif not call.joined and legs[0].state == "in":
            call.joined, legs[1].music = True, False
            self.accept(legs[0], self.rows.served[legs[0].transaction], legs[1].sdp)
        elif not call.joined and legs[0].state == legs[1].state == "up":
            if any(map(self.transactions.is_negotiating, legs)):
                call.due = self.now() + 0.2
            else:
                self.offer(legs[0], legs[1].sdp, "moved")

    def moved(self, leg: Leg, message: Message | None, served: str) -> None:
        """The peer's answer to an offer of music or of the other phone's media. If the peer refuses, the exchange
        offers again later."""
        call, other, offered = self.call_of(leg), self.other(leg), sdp.media(leg.own)
        is_music = offered is not None and offered[:2] == (self.settings.host, self.settings.music_port)
        if call is not None and (message is None or message.status >= 300 or not (is_music or call.connected)):
            call.due = self.now() + AGAIN
        elif call is not None and message is not None:
            leg.sdp, leg.music, call.joined = message.body, is_music, not is_music
            if is_music and call.connected:
                self.settle(call)
            elif not is_music and other is not None and other.state == "up":
                other.music = False
                if sdp.media(leg.sdp) != sdp.media(other.own):
                    self.offer(other, leg.sdp)

    def passed(self, leg: Leg, message: Message | None, served: str) -> None:
        """The other side's answer to an offer that the exchange passed on."""
        row = self.rows.served[served]
        asker = self.rows.legs.get(row.leg)
        if asker is not None and message is not None and message.status < 300:
            leg.sdp = message.body
            self.accept(asker, row, leg.sdp)
        else:
            self.transactions.answer(row, message.status if message is not None and message.status >= 300 else 408)
