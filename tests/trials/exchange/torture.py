"""Torture messages: for each section of RFC 4475 that concerns a user agent server over UDP one message, written for the bridge, with what it has to say to it.

What the RFC leaves open is decided by the grammar: what doesn't fit it is refused. Sections 3.3.7 and 3.3.12 to 3.3.14 are about registrars, which the bridge is
none of: it has to read them, and to say so."""
from __future__ import annotations

import socket
from pathlib import Path
from typing import NamedTuple

from ground import Ground, offer
from trial import Trial

expect = Trial.expect

SDP = offer(7000).encode()


class Torture(NamedTuple):
    """`answers` are the statuses that it gets at once, in their order; a response, and what isn't for the bridge, gets none."""
    section: str
    name: str
    data: bytes
    answers: tuple[int, ...]


def fields(method: str, key: str, **others: str) -> list[str]:
    """The fields that a request has to have, each one as it is given, and left out where that is nothing."""
    plain = {"via": f"Via: SIP/2.0/UDP 127.0.0.1:6001;branch=z9hG4bK-{key}", "sender": f"From: <sip:0301@127.0.0.1>;tag=f-{key}", "to": "To: <sip:100@127.0.0.1>",
             "call": f"Call-ID: {key}@torture", "cseq": f"CSeq: 7 {method}", "contact": "Contact: <sip:0301@127.0.0.1:6001>", "hops": "Max-Forwards: 70"}
    return [row for row in (plain | others).values() if row]


def request(method: str, key: str, *more: str, body: bytes = b"", **others: str) -> bytes:
    """`first` is its first line, or `uri` the one in it."""
    first = others.pop("first", f"{method} {others.pop('uri', 'sip:100@127.0.0.1')} SIP/2.0")
    rows = [first, *fields(method, key, **others), *more]
    if not any(row.lower().startswith("content-length") for row in rows):
        rows.append(f"Content-Length: {len(body)}")
    return "\r\n".join([*rows, "", ""]).encode() + body


def invite(key: str, *more: str, body: bytes = SDP, **others: str) -> bytes:
    return request("INVITE", key, *more, *([] if any(row.startswith("Content-Type") for row in more) else ["Content-Type: application/sdp"]), body=body, **others)


def response(first: str, key: str, *more: str, cseq: str = "CSeq: 7 OPTIONS") -> bytes:
    return request("OPTIONS", key, *more, first=first, cseq=cseq)


MIXED = (b"--gap\r\nContent-Type: text/plain\r\n\r\nhello\r\n--gap\r\nContent-Type: application/octet-stream\r\nContent-Transfer-Encoding: binary\r\n\r\n"
         b"\x00\x01\r\n\r\n\xff\x00\r\n--gap--\r\n")
TORTUOUS = (b"INVITE sip:100@127.0.0.1;unknown SIP/2.0\r\nTO :\r\n sip:100@127.0.0.1 ;   x    = y1\r\n"
            b"from   : \"A \\\\ \\\"B\\\"\"       <sip:0301@127.0.0.1>\r\n  ;\r\n"
            b"  tag = f-3.1.1.1\r\nMaX-fOrWaRdS: 0068\r\nCall-ID: tortuous@torture\r\nContent-Length   : %d\r\ncseq: 0009\r\n  INVITE\r\n"
            b"Via  : SIP  /   2.0\r\n /UDP\r\n    127.0.0.1:6001;branch=9older\r\ns :\r\nNewField:   a value\r\n that goes on\r\nUnknownField: ;;,,;;,;\r\n"
            b"Content-Type: application/sdp\r\nRoute:\r\n <sip:127.0.0.1;lr;unknown=value;no-value>\r\n"
            b"v:  SIP  / 2.0  / TCP     other.example   ;\r\n  branch  =   z9hG4bK-a  ,\r\n SIP  /    2.0   / UDP  192.0.2.9   ; branch=\r\n z9hG4bK-b\r\n"
            b"m:\"Quoted \\\"\\\"\" <sip:0301@127.0.0.1:6001> ; new =\r\n      value ;\r\n  second ; q = 0.33\r\n\r\n" % len(SDP)) + SDP

TORTURES = [
    # valid messages
    Torture("3.1.1.1", "a short tortuous INVITE", TORTUOUS, (100,)),
    Torture("3.1.1.2", "a wide range of valid characters",
            request("!odd-Method0123456789_*+`.%indeed'~", "wide", "odd-Field_0.!%*+`'~: \x07 ;,\u20ac",
                    uri="sip:1_a!%7F%40(~)&=+$,;/?x:&=+$,p@[2001:db8::1]:65535;a-_.!~*'()=%41[]/:&+$",
                    sender='From: "\\\x01\u20ac" <sip:h>;tag=_token~1\'+`*%!-.', to="To: a.b-c d~' <sip:100@127.0.0.1>;p=\"\u20ac\""), (501,)),
    Torture("3.1.1.3", "a valid use of the % escape", invite("escape", uri="sip:%31%30%30@127.0.0.1", to="To: <sip:sips%3Auser%40h@127.0.0.1>",
                                                             contact="Contact: <sip:%61@127.0.0.1:6001>"), (100,)),
    Torture("3.1.1.4", "escaped nulls in URIs", invite("null", sender="From: <sip:%00301%00@127.0.0.1>;tag=1", contact="Contact: <sip:%00@127.0.0.1:6001>"),
            (100,)),
    Torture("3.1.1.5", "a % that is no escape", request("RE%47IST%45R", "percent", contact='Contact: "%Z%45" <sip:a@127.0.0.1>'), (501,)),
    Torture("3.1.1.6", "no blank between a name and <", request("OPTIONS", "blank", sender="From: caller<sip:0301@127.0.0.1>;tag=1"), (200,)),
    Torture("3.1.1.7", "long values", invite("long" + "g" * 300, "Unknown: " + "value" * 100,
                                             to=f'To: "{"I have a name of several letters " * 10}" <sip:100@127.0.0.1:6000;'
                                             f'unknown{"long" * 30}=v{"alu" * 30}>;unknown{"long" * 30}=p{"aram" * 20}', via="Via: "
                                             + ", ".join(f"SIP/2.0/TCP sip{place}.example;branch=z9hG4bK{'l' * 60}{place}" for place in range(12))), (100,)),
    Torture("3.1.1.8", "octets behind the message", request("OPTIONS", "trailing") + invite("behind"), (200,)),
    Torture("3.1.1.9", "semicolons in the user part", request("OPTIONS", "semicolons", uri="sip:user;par=u%40example.net@127.0.0.1"), (200,)),
    Torture("3.1.1.10", "varied and unknown transports",
            request("OPTIONS", "transports", "Via: SIP/2.0/SCTP a.example;branch=z9hG4bK-2",
                    "Via: SIP/2.0/TLS b.example;branch=z9hG4bK-3, SIP/2.0/UNKNOWN c.example;branch=z9hG4bK-4"),
            (200,)),
    Torture("3.1.1.11", "a multipart body with nulls", request("MESSAGE", "multipart", "Content-Type: multipart/mixed; boundary=gap", body=MIXED), (404,)),
    Torture("3.1.1.12", "an unusual reason phrase", response("SIP/2.0 200 = 2**3 * 5**2 \u043d\u043e \u20ac", "reason"), ()),
    Torture("3.1.1.13", "an empty reason phrase", response("SIP/2.0 100 ", "no-reason"), ()),
    # invalid messages
    Torture("3.1.2.1", "too many separators", invite("separators", via="Via: SIP/2.0/UDP 127.0.0.1;;,;,,", to='To: "J" <sip:100@127.0.0.1>;;;;',
                                                     contact="Contact: <sip:a@127.0.0.1>;,"), (400,)),
    Torture("3.1.2.2", "a Content-Length above the message", invite("larger", "Content-Length: 9999"), (400,)),
    Torture("3.1.2.3", "a negative Content-Length", invite("negative", "Content-Length: -999"), (400,)),
    Torture("3.1.2.4", "overlarge numbers in a request", request("OPTIONS", "overlarge", cseq="CSeq: 36893488147419103232 OPTIONS", hops="Max-Forwards: 300"),
            (400,)),
    Torture("3.1.2.5", "overlarge numbers in a response", response("SIP/2.0 503 Service Unavailable", "overlarge-response",
                                                                   "Retry-After: 949302838503028349304023988",
                                                                   cseq="CSeq: 9292394834772304023312 OPTIONS"), ()),
    Torture("3.1.2.6", "a quoted name that doesn't end", invite("quotes", to='To: "Mr. J. User <sip:100@127.0.0.1>'), (400,)),
    Torture("3.1.2.7", "<> around the Request-URI", invite("brackets", uri="<sip:100@127.0.0.1>"), (400,)),
    Torture("3.1.2.8", "a blank in the Request-URI", invite("inner-blank", uri="sip:100@127.0.0.1; lr"), (400,)),
    Torture("3.1.2.9", "several blanks in the first line", invite("blanks", first="INVITE  sip:100@127.0.0.1  SIP/2.0"), (400,)),
    Torture("3.1.2.10", "blanks behind the first line", request("OPTIONS", "blanks-behind", first="OPTIONS sip:100@127.0.0.1 SIP/2.0  "), (400,)),
    Torture("3.1.2.11", "escaped fields in the Request-URI", invite("escaped-fields", uri="sip:100@127.0.0.1?Route=%3Csip:192.0.2.9%3E"), (400,)),
    # a Date isn't read
    Torture("3.1.2.12", "a Date of no time zone", invite("date", "Date: Fri, 01 Jan 2010 16:00:00 EST"), (100,)),
    Torture("3.1.2.13", "a Contact without <> that has fields",
            request("REGISTER", "no-brackets", contact="Contact: sip:100@127.0.0.1?Route=%3Csip:192.0.2.9%3E"), (400,)),
    Torture("3.1.2.14", "blanks within an address", request("OPTIONS", "addr-spec", to='To: "Watson" < sip:100@127.0.0.1 >'), (400,)),
    Torture("3.1.2.15", "a name that is no token", request("OPTIONS", "no-token", sender="From: Bell, A <sip:0301@127.0.0.1>;tag=1"), (400,)),
    Torture("3.1.2.16", "an unknown version", request("OPTIONS", "version", first="OPTIONS sip:100@127.0.0.1 SIP/7.0"), (505,)),
    Torture("3.1.2.17", "another method in CSeq", request("OPTIONS", "mismatch", cseq="CSeq: 8 INVITE"), (400,)),
    Torture("3.1.2.18", "an unknown method, and another one in CSeq", request("NEWMETHOD", "unknown-mismatch", cseq="CSeq: 8 INVITE"), (400,)),
    Torture("3.1.2.19", "an overlarge status", response("SIP/2.0 4294967301 don't break", "status"), ()),
    # the transaction layer: a branch that names nothing is told by the other fields
    Torture("3.2.1", "no transaction in the branch", request("OPTIONS", "cookie", via="Via: SIP/2.0/UDP 127.0.0.1:6001;branch=z9hG4bK"), (200,)),
    # the application layer
    Torture("3.3.1", "fields that have to be there are missing", invite("missing", call="", sender="", to=""), (400,)),
    Torture("3.3.2", "a Request-URI of an unknown scheme", request("OPTIONS", "scheme", uri="nobodyKnows:thisScheme"), (416,)),
    Torture("3.3.3", "a Request-URI of a known, unusual scheme", request("OPTIONS", "beep", uri="soap.beep://192.0.2.103:3002"), (416,)),
    Torture("3.3.4", "unknown schemes in fields", request("OPTIONS", "schemes", to="To: isbn:2983792873", sender="From: <http://www.example.com>;tag=1",
                                                          contact="Contact: <name:John_Smith>"), (200,)),
    Torture("3.3.5", "Require and Proxy-Require", request("OPTIONS", "require", "Require: nothingSupportsThis, norThis", "Proxy-Require: noProxiesEither"),
            (420,)),
    Torture("3.3.6", "an unknown Content-Type", invite("type", "Content-Type: application/unknownformat", body=b"<audio/>"), (415,)),
    Torture("3.3.7", "an unknown way to authorize", request("REGISTER", "authorize", "Authorization: NoOneKnows opaque-data=here"), (501,)),
    Torture("3.3.8", "two values where one may be", invite("twice", "To: <sip:101@127.0.0.1>", "From: <sip:9@h>;tag=2", "Call-ID: other", "CSeq: 8 INVITE",
                                                           "Max-Forwards: 5"), (400,)),
    Torture("3.3.9", "two Content-Lengths", request("OPTIONS", "lengths", "Content-Length: 0", "Content-Length: 5", body=b"There"), (400,)),
    Torture("3.3.10", "a response with a second Via of a broadcast",
            response("SIP/2.0 200 OK", "broadcast", "Via: SIP/2.0/UDP 255.255.255.255;branch=z9hG4bK-b"), ()),
    Torture("3.3.11", "no hops left", request("OPTIONS", "hops", hops="Max-Forwards: 0"), (200,)),
    Torture("3.3.12", "a parameter of a Contact field", request("REGISTER", "contact-parameter", contact="Contact: sip:+19725552222@127.0.0.1;unknownparam"),
            (501,)),
    Torture("3.3.13", "a parameter of a Contact's URI", request("REGISTER", "uri-parameter", contact="Contact: <sip:+19725552222@127.0.0.1;unknownparam>"),
            (501,)),
    Torture("3.3.14", "escaped fields of a Contact's URI", request("REGISTER", "uri-fields", contact="Contact: <sip:a@127.0.0.1?Route=%3Csip:192.0.2.9%3E>"),
            (501,)),
    Torture("3.3.15", "an Accept that can't be met", invite("accept", "Accept: text/nobodyKnowsThis"), (406,)),
    # what was there before RFC 3261
    Torture("3.4.1", "an INVITE of RFC 2543", b"INVITE sip:100@127.0.0.1 SIP/2.0\r\nVia: SIP/2.0/UDP 127.0.0.1:6001\r\nFrom: <sip:+0301@127.0.0.1;user=phone>\r\n"
            b"Record-Route: <sip:100@127.0.0.1;maddr=127.0.0.1>\r\nTo: sip:100@127.0.0.1;user=phone\r\nCall-ID: older@torture\r\nCSeq: 56 INVITE\r\n"
            b"Contact: <sip:0301@127.0.0.1:6001>\r\nContent-Type: application/sdp\r\n\r\n" + SDP, (100,))]


def answers(port: int, data: bytes, count: int) -> tuple[int, ...]:
    """The statuses of the first answers; where none are awaited it waits for a while."""
    found: list[int] = []
    with socket.socket(socket.AF_INET, socket.SOCK_DGRAM) as sender:
        sender.bind(("127.0.0.1", 0))
        sender.settimeout(10 if count else 0.2)
        sender.sendto(data, ("127.0.0.1", port))
        try:
            while len(found) < max(count, 1):
                found.append(int(sender.recv(8192).split(b" ")[1]))
        except TimeoutError:
            pass
    return tuple(found)


def run(folder: Path, program: Path, base: int) -> None:
    """All of them, by UDP to a bridge without an edge, which has to live and to serve on."""
    with Ground(folder, program, base, options=("--trace",)) as ground:
        for each in TORTURES:
            expect(f"torture, {each.section}, {each.name}", answers(ground.port, each.data, len(each.answers)), each.answers)
        expect("torture: it serves on", answers(ground.port, request("OPTIONS", "afterwards"), 1), (200,))
        expect("torture: steps undone", ground.said("exchange").count("a step was undone"), 0)
        ground.end(ground.exchange)
