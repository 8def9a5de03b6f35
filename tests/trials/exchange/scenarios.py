"""Scenarios of sipp as texts: phones that answer, let it ring, refuse or move; callers who wait, talk or give up."""
from __future__ import annotations

SDP = """v=0
      o=u1 5 5 IN IP4 [local_ip]
      s=-
      c=IN IP4 [media_ip]
      t=0 0
      m=audio [media_port] RTP/AVP 8 0
      a=rtpmap:8 PCMA/8000%s"""
BODY = "Content-Type: application/sdp\n      Content-Length: [len]\n\n      " + SDP
EMPTY = "Content-Length: 0\n"
LONG = 600000


def scenario(*parts: str) -> str:
    return '<?xml version="1.0"?><scenario name="trial">\n' + "\n".join(parts) + "\n</scenario>\n"


def send(text: str, **more: str) -> str:
    attributes = "".join(f' {name}="{value}"' for name, value in more.items())
    return f"<send{attributes}><![CDATA[\n{text}\n]]></send>"


def receive(what: str, optional: bool = False, wait: int = 0, late: str = "", then: str = "", more: str = "") -> str:
    kind = "response" if what.isdigit() else "request"
    return (f'<recv {kind}="{what}"' + (' optional="true"' if optional else "") + (f' timeout="{wait}" ontimeout="{late}"' if wait else "")
            + (f' next="{then}"' if then else "") + f" {more}/>")


def label(name: str) -> str:
    return f'<label id="{name}"/>'


def reply(line: str, body: str = EMPTY, to: str = "[last_To:]", cseq: str = "[last_CSeq:]",
          contact: str = "<sip:phone@[local_ip]:[local_port]>") -> str:
    return f"""
      SIP/2.0 {line}
      [last_Via:]
      [last_Record-Route:]
      [last_From:]
      {to}
      [last_Call-ID:]
      {cseq}
      Contact: {contact}
      {body}"""


def inside(method: str, cseq: int, rest: str = EMPTY) -> str:
    """A request of a phone that was rung, in its dialog."""
    return f"""
      {method} [next_url] SIP/2.0
      Via: SIP/2.0/[transport] [local_ip]:[local_port];branch=[branch]
      From: [$4];tag=[pid]P[call_number]
      To: [$3]
      Call-ID: [call_id]
      CSeq: {cseq} {method}
      [routes]
      Max-Forwards: 70
      Contact: <sip:phone@[local_ip]:[local_port]>
      {rest}"""


def talk(ms: int) -> list[str]:
    """Until the other side hangs up, or for so long: answers what asks whether it is there, and what moves its media; bears an ACK that comes again."""
    return [label("talk"), receive("OPTIONS", True, ms, "hangup", "options"), receive("INVITE", True, ms, "hangup", "moved"),
            receive("ACK", True, ms, "hangup", "talk"), receive("BYE", False, ms, "hangup", "byed"),
            label("options"), send(reply("200 OK"), next="talk"),
            label("moved"), send(reply("200 OK", BODY % ""), retrans="500"),
            label("unsettled"), receive("OPTIONS", True, then="probed"), receive("ACK", then="talk"), label("probed"), send(reply("200 OK"), next="unsettled")]


RUNG = ('<recv request="INVITE" rrs="true"><action>'
        '<ereg regexp="[0-9]+ INVITE" search_in="hdr" header="CSeq:" assign_to="2"/>'
        '<ereg regexp="[^ ].*" search_in="hdr" header="From:" assign_to="3"/>'
        '<ereg regexp="&lt;[^&gt;]*&gt;" search_in="hdr" header="To:" assign_to="4"/>%s</action></recv>')
MINE = "[last_To:];tag=[pid]P[call_number]"


def phone(delay: int, silent: str = "", talks: int = LONG, extra: tuple[str, ...] = ()) -> str:
    """Rings for delay ms, for callers of an even last digit but one three times as long; lets callers with these last digits ring;
    hangs up after talks ms unless the caller has."""
    def ringing(ms: int, name: str) -> list[str]:
        return [label(name), receive("CANCEL", False, ms, "answer", "cancelled")]

    told = "".join(f'<ereg regexp="{text}@" search_in="hdr" header="From:" assign_to="{place}"/>'
                   for text, place in ((f"[{silent or 'x'}]", 6), ("[02468].", 7)))
    answer = reply("200 OK", BODY % "", to=MINE, cseq="CSeq: [$2]")
    return scenario(
        RUNG % told,
        send(reply("180 Ringing", to=MINE), next="silent", test="6"), '<nop next="slow" test="7"/>',
        *ringing(delay, "quick"), *ringing(3 * delay, "slow"), *ringing(LONG, "silent"),
        label("answer"), send(answer, retrans="500"), receive("INVITE", True, then="answer"), receive("ACK"), *extra, *talk(talks),
        label("hangup"), send(inside("BYE", 11), retrans="500"), receive("OPTIONS", True), receive("481", True, then="over"), receive("200", then="over"),
        label("byed"), send(reply("200 OK"), next="over"),
        label("cancelled"), send(reply("200 OK")), send(reply("487 Request Terminated", to=MINE, cseq="CSeq: [$2]"), retrans="500"),
        label("unheard"), receive("CANCEL", True, then="again"), receive("ACK", then="over"), label("again"), send(reply("200 OK"), next="unheard"),
        label("over"))


def refusing(line: str, contact: str = "<sip:phone@[local_ip]:[local_port]>") -> str:
    """A phone that says at once that it is busy, or has moved."""
    return scenario(RUNG % "", send(reply(line, to=MINE, contact=contact), retrans="500"), receive("ACK"), '<Reference variables="2,3,4"/>')


def hold(ms: int) -> tuple[str, ...]:
    """A phone that holds and retrieves."""
    parts = ['<pause milliseconds="300"/>']
    for cseq, direction in ((5, "\n      a=sendonly"), (6, "\n      a=sendrecv")):
        parts += [send(inside("INVITE", cseq, BODY % direction), retrans="500"), receive("100", True), receive("200"),
                  send(inside("ACK", cseq)), f'<pause milliseconds="{ms}"/>']
    return tuple(parts)


def refer(to: str) -> tuple[str, ...]:
    """A phone that gives its call to another device, half a second later; the exchange takes its leg down."""
    return (label("calm"), receive("ACK", True, 500, "give", "calm"), receive("OPTIONS", False, 500, "give"), send(reply("200 OK"), next="calm"),
            label("give"), send(inside("REFER", 5, f"Refer-To: <sip:{to}@exchange>\n      {EMPTY}"), retrans="500"),
            label("news"), receive("202", True, then="news"), receive("NOTIFY", True, then="heard"), receive("OPTIONS", True, then="heard"),
            receive("BYE", then="byed"), label("heard"), send(reply("200 OK"), next="news"), send(reply("200 OK")))


def moved() -> tuple[str, ...]:
    """A phone that is rung by a click on a screen, and is told where its media go."""
    return (receive("INVITE"), send(reply("200 OK", BODY % ""), retrans="500"), receive("ACK"))


def caller(called: str = "100", patience: int = LONG, talks: int = 2000, music: bool = False, account: str = "") -> str:
    """Gives up after patience ms; hangs up talks ms after it is connected, or with 0 waits for the other side to do so.

    With music it is answered at once, and connected when its media are moved. The account is NAME:PASSWORD at the edge."""
    name, _, password = account.partition(":")
    secret = f"\n      [authentication username={name} password={password}]" if account else ""

    def mine(method: str, cseq: str, branch: str, tag: str = "", rest: str = EMPTY) -> str:
        uri = f"sip:{called}@[remote_ip]:[remote_port]" if branch.startswith("i") else "[next_url]"
        return f"""
      {method} {uri} SIP/2.0
      Via: SIP/2.0/[transport] [local_ip]:[local_port];branch=z9hG4bK-{branch}-[pid]-[call_number]
      From: "[field0]" <sip:[field0]@[local_ip]:[local_port]>;tag=[pid]C[call_number]
      To: <sip:{called}@[remote_ip]:[remote_port]>{tag}
      Call-ID: [call_id]
      CSeq: {cseq}
      [routes]
      Max-Forwards: 70
      Contact: <sip:[field0]@[local_ip]:[local_port]>{secret if method == "INVITE" and branch == "i2" else ""}
      {rest}"""

    invite = send(mine("INVITE", "1 INVITE", "i1", rest=BODY % ""), retrans="500", start_rtd="1")
    cseq, branch, first = 1, "i1", [invite]
    if account:
        cseq, branch = 2, "i2"
        first = [invite, receive("100", True), receive("407", more='auth="true"'), send(mine("ACK", "1 ACK", "i1", "[peer_tag_param]")),
                 send(mine("INVITE", "2 INVITE", "i2", rest=BODY % ""), retrans="500")]
    late = "bye" if music else "giveup"
    refused = [receive(status, True, patience, "giveup", "refused") for status in ("404", "403", "480", "486", "500", "503")]
    waiting = [label("wait"), receive("OPTIONS", True, patience, late, "asked"), receive("INVITE", True, patience, late, "moved"),
               receive("BYE", False, patience, late, "byed"), label("asked"), send(reply("200 OK"), next="wait")] if music else []
    bye = [send(mine("BYE", f"{cseq + 1} BYE", "b", "[peer_tag_param]"), retrans="500"), receive("OPTIONS", True), receive("INVITE", True),
           receive("481", True, then="over"), receive("200", then="over")]
    return scenario(
        *first, *(receive(status, True, patience, "giveup") for status in ("100", "180", "182")), *refused,
        receive("200", False, patience, "giveup", more='rtd="1" rrs="true"'), send(mine("ACK", f"{cseq} ACK", "a", "[peer_tag_param]")),
        *waiting, *talk(talks or LONG), label("hangup"), *([label("bye")] if music else []), *bye, label("byed"), send(reply("200 OK"), next="over"),
        label("giveup"), send(mine("CANCEL", f"{cseq} CANCEL", branch), retrans="500"),
        *(receive(status, True) for status in ("100", "180", "182", "200")), receive("487"),
        send(mine("ACK", f"{cseq} ACK", branch, "[peer_tag_param]"), next="over"),
        label("refused"), send(mine("ACK", f"{cseq} ACK", branch, "[peer_tag_param]"), next="over"), label("over"))
