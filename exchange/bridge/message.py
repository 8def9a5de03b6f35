"""Messages of SIP (RFC 3261), as far as a user agent over UDP needs them; the grammar reads their fields."""
import re
from collections.abc import Iterable
from http import HTTPStatus
from typing import Any

from .grammar import (GRAMMAR, LISTS, SINGLE, TOKEN, TOKEN_SIGNS, Address, Lapse, Malformed, Sequence, Uri, Via,
                      read_field, read_uri)

COMPACT = {"v": "via", "f": "from", "t": "to", "i": "call-id", "m": "contact", "l": "content-length",
           "c": "content-type", "r": "refer-to", "k": "supported", "x": "session-expires"}
SHOWN = {"call-id": "Call-ID", "cseq": "CSeq", "min-se": "Min-SE"}
PHRASES = {each.value: each.phrase for each in HTTPStatus} | {
    100: "Trying", 180: "Ringing", 182: "Queued", 416: "Unsupported URI Scheme", 420: "Bad Extension",
    422: "Session Interval Too Small", 480: "Temporarily Unavailable", 481: "No Such Call", 486: "Busy Here",
    487: "Request Terminated", 488: "Not Acceptable Here", 491: "Request Pending", 505: "Version Not Supported",
    603: "Decline"}
# what a branch begins with that is of one transaction alone
COOKIE = "z9hG4bK"

FOLD, STRAY = re.compile(r"\r\n[ \t]+"), re.compile(r"[\r\n\0]")
NAME = re.compile(rf"([{TOKEN_SIGNS}]++)[ \t]*+:")
REQUEST_LINE = re.compile(r"([^ ]++) ([^ ]++) SIP/([0-9]++\.[0-9]++)", re.IGNORECASE)
STATUS_LINE = re.compile(r"SIP/2\.0 ([1-6][0-9][0-9])(?: .*)?", re.IGNORECASE)

Fields = Iterable[tuple[str, str]]


class Refused(Malformed):
    """A datagram that is no message; `request` is what is there of it, where that can be answered."""

    def __init__(self, fault: str, status: int, request: "Message | None"):
        super().__init__(fault)
        self.status, self.request = status, request


class Message:
    def __init__(self, first: str, fields: Fields, body: str = ""):
        self.first, self.fields, self.body = first, list(fields), body
        self.is_request = first[:4].upper() != "SIP/"
        words = (first + " ").split(" ")
        self.target = words[1]
        self.status = 0 if self.is_request or not words[1].isdecimal() else int(words[1][:3])
        # what was read of the fields
        self.seen: dict[str, list[Any]] = {}

    @classmethod
    def read(cls, text: str) -> "Message":
        """The message of a datagram; Refused where it is none."""
        head, end, body = text.partition("\r\n\r\n")
        first, *lines = FOLD.sub(" ", head).split("\r\n")
        found = [NAME.match(line) for line in lines]
        fields = [(each[1].lower(), each.string[each.end():].strip(" \t")) for each in found if each]
        message = cls(first, [(COMPACT.get(name, name), value) for name, value in fields], body)
        is_plain = not STRAY.search("".join((first, *lines)))
        try:
            if not end or not is_plain or not all(found):
                raise Malformed("a line that is no field, or no end")
            message.check()
        except Malformed as fault:
            version = REQUEST_LINE.fullmatch(first)
            status = 505 if version and version[3] != "2.0" else 400
            raise Refused(str(fault), status, message if is_plain and message.can_be_refused() else None) from None
        return message

    def check(self) -> None:
        """Reads each field that has a grammar here."""
        form = (REQUEST_LINE if self.is_request else STATUS_LINE).fullmatch(self.first)
        if form is None or self.is_request and (form[3] != "2.0" or not TOKEN.fullmatch(form[1])):
            raise Malformed("the first line")
        fields, self.fields = self.fields, []
        try:
            for name, value in fields:
                self.take_field(name, value)
        except Malformed:
            self.fields = fields
            raise
        if not all(map(self.seen.get, ("via", "from", "to", "call-id", "cseq"))):
            raise Malformed("a field that has to be there")
        if self.is_request:
            if form[1] != self.method or read_uri(self.target).headers:
                raise Malformed("another method in its CSeq, or fields in its URI")
        length = self.first_of("content-length")
        if length is not None and length > len(self.body):
            raise Malformed("cut off")
        self.body = self.body[:length]

    def take_field(self, name: str, value: str) -> None:
        if name in SINGLE and name in self.seen:
            raise Malformed(f"two fields {name}")
        if name in GRAMMAR:
            values = read_field(name, value)
            self.seen.setdefault(name, []).extend(values)
        self.fields += [(name, each.text) for each in values] if name in LISTS else [(name, value)]

    def can_be_refused(self) -> bool:
        """Whether it is a request that says to whom to answer, and to which request the answer belongs. An ACK has no
        answer."""
        method = self.first.partition(" ")[0]
        return (self.is_request and TOKEN.fullmatch(method) is not None and method != "ACK" and
                bool(self.get("via") and self.get("cseq")))

    def text(self) -> str:
        rows = [f"{SHOWN.get(name, name.title())}: {value}" for name, value in self.fields if name != "content-length"]
        return "\r\n".join([self.first, *rows, f"Content-Length: {len(self.body)}", "", self.body])

    # the content of its fields

    def get(self, name: str, default: str = "") -> str:
        return next((value for field, value in self.fields if field == name), default)

    def some(self, *names: str) -> list[tuple[str, str]]:
        return [(name, value) for name, value in self.fields if name in names]

    def all(self, name: str) -> list[str]:
        return [value for _, value in self.some(name)]

    # what that means

    def values(self, name: str) -> list[Any]:
        if name not in self.seen:
            self.seen[name] = [each for value in self.all(name) for each in read_field(name, value)]
        return self.seen[name]

    def first_of(self, name: str) -> Any:
        return next(iter(self.values(name)), None)

    @property
    def sequence(self) -> Sequence:
        found: Sequence = self.values("cseq")[0]
        return found

    @property
    def cseq(self) -> int:
        return self.sequence.number

    @property
    def method(self) -> str:
        return self.sequence.method

    @property
    def uri(self) -> Uri:
        return read_uri(self.target)

    def uri_of(self, name: str) -> Uri:
        """The URI of a field, the first one; one without a text where it isn't there."""
        found: Address | None = self.first_of(name)
        return found.uri if found is not None else Uri("", "")

    def tag(self, name: str) -> str:
        found: Address | None = self.first_of(name)
        return found.parameters.get("tag", "") if found is not None else ""

    @property
    def transaction(self) -> str:
        """The key of its transaction: its branch, its sender, its method; an ACK has the key of its INVITE."""
        via: Via = self.values("via")[0]
        branch = via.parameters.get("branch", "")
        if not branch.startswith(COOKIE) or branch == COOKIE:
            branch = f"{self.get('call-id')}/{self.tag('from')}/{self.cseq}/{branch}"
        return f"{branch} {via.sent_by} {'INVITE' if self.method == 'ACK' else self.method}"

    @property
    def session(self) -> int:
        """The seconds of its session interval; 0 where it asks for none."""
        found: Lapse | None = self.first_of("session-expires")
        return found.seconds if found is not None else 0

    @property
    def refresher(self) -> str:
        found: Lapse | None = self.first_of("session-expires")
        return found.parameters.get("refresher", "") if found is not None else ""

    def answer(self, status: int, tag: str, fields: Fields, body: str) -> "Message":
        kept = self.some("via", "from", "call-id", "cseq", *(["record-route"] if 100 < status < 300 else []))
        to_field = self.get("to") + (f";tag={tag}" if tag and not self.tag("to") else "")
        kind = [("content-type", "application/sdp")] if body else []
        return Message(f"SIP/2.0 {status} {PHRASES.get(status, '')}", [*kept, ("to", to_field), *fields, *kind], body)

    def refusal(self, status: int, tag: str) -> "Message":
        """The answer to a message that can't be read, with its fields as they came."""
        rows = self.some("via", "from", "to", "call-id", "cseq")
        try:
            is_open = not self.tag("to")
        except Malformed:
            is_open = False
        return Message(f"SIP/2.0 {status} {PHRASES[status]}",
                       [(name, f"{value};tag={tag}" if name == "to" and is_open else value) for name, value in rows])
