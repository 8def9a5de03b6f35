"""The grammar of SIP's fields (RFC 3261, 25.1): the only reader of fields in the exchange.

It reads a value once, from left to right. It matches each piece at its position, by a pattern that never backtracks
(`++`, `(?>`), and text that fits no piece makes the message malformed: the time for a field grows with its length,
whatever it holds. White space is allowed where the grammar has it, folded lines are white space by then, and none of
the fields that it reads may have a comment.

For groups it uses `(?>(?:..)+)` and never `(?:..)++`: in Python 3.11 the latter goes on after a part that failed
halfway."""
import re
from collections.abc import Callable
from functools import lru_cache
from typing import Any, NamedTuple
from urllib.parse import unquote

OCTET = "(?:25[0-5]|2[0-4][0-9]|1[0-9]{2}|[1-9]?[0-9])"
IPV4 = rf"{OCTET}(?:\.{OCTET}){{3}}(?![0-9.])"

TOKEN_SIGNS = r"A-Za-z0-9\-.!%*_+`'~"
ESCAPED = "%[0-9A-Fa-f]{2}"
UNRESERVED = r"A-Za-z0-9\-_.!~*'()"
# names of hosts with an underscore are no names, and are used
HOST = r"(?:[A-Za-z0-9.\-_]++|\[[0-9A-Fa-f:.]++\])"

TOKEN = re.compile(f"[{TOKEN_SIGNS}]++")
QUOTED = re.compile(r'"(?>(?:[^"\\\x00-\x08\x0a-\x1f\x7f]++|\\[\x00-\x09\x0b\x0c\x0e-\x7f])*)"')
BLANK, SPACE, REST = re.compile(r"[ \t]*+"), re.compile(r"[ \t]++"), re.compile(r"[ \t]*+\Z")
COMMA, SEMICOLON, EQUAL, SLASH, COLON = (re.compile(rf"[ \t]*+{sign}[ \t]*+") for sign in ",;=/:")
STAR = re.compile(r"[ \t]*+\*[ \t]*+\Z")
CLOSED = re.compile(r">[ \t]*+")
# a name without quotes before <, a name in quotes, and what may be a URI with and without brackets around it
NAME_AND_OPENED = re.compile(rf"(?>(?:[{TOKEN_SIGNS}]++[ \t]*+)*)<")
OPENED = re.compile(r"[ \t]*+<")
IN_BRACKETS, BARE = re.compile(r"[!#-;=?-~]++"), re.compile(r"[!#-+\-.-:=@-~]++")
# of a URI that is copied and never read
ANY_IN_BRACKETS, ANY_BARE = re.compile(r'[^<>" \t]++'), re.compile(r'[^<>"?,; \t]++')
PLAIN_VALUE = re.compile(rf"[{TOKEN_SIGNS}]++|\[[0-9A-Fa-f:.]++\]")
VIA_VALUE = re.compile(rf"[{TOKEN_SIGNS}:]++|\[[0-9A-Fa-f:.]++\]")
SENT_BY = re.compile(HOST)
PORT, NUMBER = re.compile("[0-9]{1,5}+(?![0-9])"), re.compile("[0-9]{1,10}+(?![0-9])")
# a Call-ID is compared as text, so signs that it may not have do no harm
VISIBLE = re.compile("[!-~]++")

PARAMETER = rf"(?>(?:[{UNRESERVED}\[\]/:&+$]|{ESCAPED})+)"
SIP_URI = re.compile(
    rf"sips?:(?:((?>(?:[{UNRESERVED}&=+$,;?/]|{ESCAPED})+))(?::(?>(?:[{UNRESERVED}&=+$,]|{ESCAPED})*))?@)?"
    rf"({HOST})(?::([0-9]{{1,5}}))?"
    rf"(?>(?:;{PARAMETER}(?:={PARAMETER})?)*)(?:\?((?>(?:[{UNRESERVED}\[\]/?:+$=&]|{ESCAPED})+)))?", re.IGNORECASE)
TEL_URI = re.compile(rf"tel:(\+?[0-9A-F*#().\-]++)(?>(?:;{PARAMETER}(?:={PARAMETER})?)*)", re.IGNORECASE)
OTHER_URI = re.compile(rf"[A-Za-z][A-Za-z0-9+\-.]*+:(?>(?:[{UNRESERVED};/?:@&=+$,]|{ESCAPED})+)")

Parameters = dict[str, str]


class Malformed(ValueError):
    """It doesn't fit the grammar."""


class Uri(NamedTuple):
    """`number` is the user without its parameters, and without escapes; `place` is where it leads to, as HOST:PORT,
    empty where the host is no address of IPv4: nothing is looked up here."""
    text: str
    scheme: str
    number: str = ""
    place: str = ""
    headers: str = ""


class Address(NamedTuple):
    """A name-addr or an addr-spec. Behind an addr-spec without brackets parameters are those of the field (RFC 3261,
    20)."""
    text: str
    display: str
    uri: Uri
    parameters: Parameters


class Via(NamedTuple):
    text: str
    sent_by: str
    parameters: Parameters


class Sequence(NamedTuple):
    number: int
    method: str


class Lapse(NamedTuple):
    """Seconds, and what belongs to them."""
    seconds: int
    parameters: Parameters


class Reader:
    """A position in a value, which only moves forwards."""

    def __init__(self, text: str):
        self.text, self.at = text, 0

    def take(self, piece: re.Pattern[str]) -> str | None:
        """Reads the text at this position, if it is such a piece."""
        found = piece.match(self.text, self.at)
        if found is None:
            return None
        self.at = found.end()
        return found[0]

    def need(self, piece: re.Pattern[str]) -> str:
        taken = self.take(piece)
        if taken is None:
            raise Malformed(f"at {self.at}: {self.text[self.at:self.at + 20]!r}")
        return taken

    def ends(self) -> None:
        self.need(REST)

    def quoted(self) -> str | None:
        """The text of a quoted string."""
        taken = self.take(QUOTED)
        return re.sub(r"\\(.)", r"\1", taken[1:-1], flags=re.DOTALL) if taken is not None else None

    def parameters(self, plain: re.Pattern[str] = PLAIN_VALUE, once: bool = True) -> Parameters:
        """None may be there twice; a tag has a token, so that nobody reads it otherwise."""
        found: Parameters = {}
        while self.take(SEMICOLON) is not None:
            name, value = self.need(TOKEN).lower(), ""
            if self.take(EQUAL) is not None:
                text = None if name == "tag" else self.quoted()
                value = self.need(plain) if text is None else text
            if name in found and (once or name == "tag") or name == "tag" and not TOKEN.fullmatch(value):
                raise Malformed(f"the parameter {name}")
            found[name] = value
        return found

    def recipient(self) -> Address:
        """A To: its tag alone is read, as the edge reads it, and what the edge lets through has to have the same one
        here. So any URI will do."""
        return self.address(ANY_IN_BRACKETS, ANY_BARE, lambda text: Uri(text, ""), False)

    def address(self, in_brackets: re.Pattern[str] = IN_BRACKETS, bare: re.Pattern[str] = BARE,
                read: Callable[[str], Uri] | None = None, once: bool = True) -> Address:
        self.take(BLANK)
        began, display = self.at, self.quoted()
        if display is not None:
            self.need(OPENED)
        else:
            named = self.take(NAME_AND_OPENED)
            display = named[:-1].strip() if named is not None else None
        uri = (read or read_uri)(self.need(bare if display is None else in_brackets))
        if display is not None:
            self.need(CLOSED)
        parameters = self.parameters(once=once)
        return Address(self.since(began), display or "", uri, parameters)

    def via(self) -> Via:
        self.take(BLANK)
        began = self.at
        for between in (SLASH, SLASH, SPACE):
            self.need(TOKEN)
            self.need(between)
        sent_by = self.need(SENT_BY)
        if self.take(COLON) is not None:
            sent_by += ":" + self.need(PORT)
        parameters = self.parameters(VIA_VALUE)
        return Via(self.since(began), sent_by, parameters)

    def kind(self) -> str:
        """A type of content, as type/subtype; its parameters are passed over."""
        self.take(BLANK)
        main = self.need(TOKEN)
        self.need(SLASH)
        kind = f"{main}/{self.need(TOKEN)}".lower()
        self.parameters()
        return kind

    def word(self) -> str:
        self.take(BLANK)
        return self.need(TOKEN)

    def since(self, began: int) -> str:
        return self.text[began:self.at].strip(" \t")


@lru_cache(4096)
def read_uri(text: str) -> Uri:
    """A URI, the whole text."""
    scheme = text.partition(":")[0].lower()
    if scheme in ("sip", "sips"):
        found = SIP_URI.fullmatch(text)
        if found is None:
            raise Malformed(f"no URI: {text[:40]!r}")
        user, host, port, headers = found.groups()
        port = int(port or 5060)
        place = f"{host}:{port}" if re.fullmatch(IPV4, host) and 0 < port < 65536 else ""
        return Uri(text, scheme, number(user or ""), place, headers or "")
    pattern = TEL_URI if scheme == "tel" else OTHER_URI
    found = pattern.fullmatch(text)
    if found is None:
        raise Malformed(f"no URI: {text[:40]!r}")
    return Uri(text, scheme, number(found[1]) if scheme == "tel" else "")


def number(user: str) -> str:
    return unquote(user.partition(";")[0], "latin-1")


def one(read: Callable[[Reader], Any]) -> Callable[[str], list[Any]]:
    """Reads a value that is one such thing."""
    def whole(value: str) -> list[Any]:
        reader = Reader(value)
        found = read(reader)
        reader.ends()
        return [found]
    return whole


def some(read: Callable[[Reader], Any], least: int = 1) -> Callable[[str], list[Any]]:
    """Reads a list of them, with commas between."""
    def whole(value: str) -> list[Any]:
        if not least and not value:
            return []
        reader = Reader(value)
        found = [read(reader)]
        while reader.take(COMMA) is not None:
            found.append(read(reader))
        reader.ends()
        return found
    return whole


def read_contacts(value: str) -> list[Any]:
    return [] if STAR.match(value) else some(Reader.address)(value)


def read_sequence(reader: Reader) -> Sequence:
    count = int(reader.need(NUMBER))
    reader.need(SPACE)
    if count >= 1 << 31:
        raise Malformed("a number of 2^31 or more")
    return Sequence(count, reader.need(TOKEN))


def read_lapse(reader: Reader) -> Lapse:
    return Lapse(int(reader.need(NUMBER)), reader.parameters())


def read_hops(reader: Reader) -> int:
    hops = int(reader.need(NUMBER))
    if hops > 255:
        raise Malformed("more than 255 hops")
    return hops


def read_length(reader: Reader) -> int:
    return int(reader.need(NUMBER))


def read_call_id(reader: Reader) -> str:
    return reader.need(VISIBLE)


# how each field is read; those of SINGLE are there once at most, those of LISTS are kept part by part
GRAMMAR: dict[str, Callable[[str], list[Any]]] = {
    "via": some(Reader.via), "from": one(Reader.address), "to": one(Reader.recipient), "call-id": one(read_call_id),
    "cseq": one(read_sequence), "contact": read_contacts, "route": some(Reader.address),
    "record-route": some(Reader.address), "refer-to": one(Reader.address), "max-forwards": one(read_hops),
    "content-length": one(read_length), "session-expires": one(read_lapse), "require": some(Reader.word),
    "supported": some(Reader.word, 0), "content-type": one(Reader.kind), "accept": some(Reader.kind, 0)}
SINGLE = {"from", "to", "call-id", "cseq", "refer-to", "max-forwards", "content-length", "session-expires",
          "content-type"}
LISTS = {"via", "route", "record-route"}


@lru_cache(4096)
def read_field(name: str, value: str) -> tuple[Any, ...]:
    """The content of a field; the fields of a dialog come again with each of its messages."""
    return tuple(GRAMMAR[name](value))
