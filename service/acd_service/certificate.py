"""Tells when the certificate ends that nginx shows at its port: from two weeks before its end on, and after it, with
the status 1.

It asks the port by TLS, since a new file helps nobody until nginx has read it. It is tested, not proved."""
import argparse
import datetime
import socket
import ssl
from typing import NoReturn

from acd_service import command
from acd_service.command import INFO, Fault

WAIT = 10
SEQUENCE, VERSION, UTC_TIME, GENERALIZED_TIME = 0x30, 0xA0, 0x17, 0x18
FORMS = {UTC_TIME: "%y%m%d%H%M%SZ", GENERALIZED_TIME: "%Y%m%d%H%M%SZ"}
HELP = "EVERY-DAY.md, 'Certificates', says how"


# A certificate in DER (RFC 5280): a sequence of the part that is signed, the algorithm and the signature

def value(data: bytes, at: int, *tags: int) -> tuple[int, bytes, int]:
    """The content of the element at a place, which has one of these tags, and the place after it."""
    tag, length, at = data[at], data[at + 1], at + 2
    if tags and tag not in tags:
        raise ValueError(f"tag {tag}")
    if length >= 0x80:
        count = length - 0x80
        length, at = int.from_bytes(data[at:at + count], "big"), at + count
    if at + length > len(data):
        raise ValueError("it is cut off")
    return tag, data[at:at + length], at + length


def end_of(certificate: bytes) -> datetime.datetime:
    """When a certificate ends."""
    try:
        _, whole, _ = value(certificate, 0, SEQUENCE)
        _, signed, _ = value(whole, 0, SEQUENCE)
        # a version, if it isn't the first, the number, the algorithm and the issuer are before its times
        at = value(signed, 0)[2] if signed[0] == VERSION else 0
        for _ in range(3):
            _, _, at = value(signed, at)
        _, times, _ = value(signed, at, SEQUENCE)
        _, _, at = value(times, 0, *FORMS)
        form, end, _ = value(times, at, *FORMS)
        return datetime.datetime.strptime(end.decode(), FORMS[form]).replace(tzinfo=datetime.timezone.utc)
    except (ValueError, IndexError) as fault:
        raise Fault(f"it shows no certificate that can be read ({fault})") from None


def shown_at(host: str, port: int) -> bytes | None:
    """The certificate that a port shows, trusted or not; None where nobody listens."""
    context = ssl.SSLContext(ssl.PROTOCOL_TLS_CLIENT)
    context.check_hostname, context.verify_mode = False, ssl.CERT_NONE
    # it is looked at, and nothing is sent: so a weak one is looked at too
    context.set_ciphers("DEFAULT:@SECLEVEL=0")
    try:
        with (socket.create_connection((host, port), WAIT) as plain,
              context.wrap_socket(plain, server_hostname=host) as connection):
            return connection.getpeercert(binary_form=True)
    except ConnectionRefusedError:
        return None
    except (OSError, ValueError) as fault:
        raise Fault(fault) from None


def report(host: str, port: int, days: float, now: datetime.datetime) -> bool:
    """Whether the certificate lasts longer than so many days."""
    certificate = shown_at(host, port)
    if certificate is None:
        command.report(f"nobody listens at {host}:{port}, so there is no certificate to look at (ACD_TLS_HOST and "
                       "ACD_TLS_PORT in acd.env)")
        return True
    end = end_of(certificate)
    left, when = (end - now) / datetime.timedelta(days=1), end.strftime("%Y-%m-%d %H:%M UTC")
    if left > days:
        command.report(f"the certificate at {host}:{port} ends on {when}", INFO)
        return True
    if left > 0:
        command.report(f"the certificate at {host}:{port} ends in {int(left)} days, on {when}: renew it, "
                       f"and reload nginx; {HELP}")
    else:
        command.report(f"the certificate at {host}:{port} ended on {when}, and browsers and clients refuse it: "
                       f"renew it, and reload nginx; {HELP}")
    return False


def parser() -> command.Parser:
    found = command.Parser("Tells when the certificate ends that a port shows by TLS.", printed_usage=True)
    number = command.whole_number(1, 65535)
    found.add_argument("--host", default="127.0.0.1", metavar="HOST",
                       help="the host of the port; 127.0.0.1 unless given")
    found.add_argument("--port", type=number, default=8443, metavar="PORT", help="the port; 8443 unless given")
    found.add_argument("--days", type=number, default=14, metavar="N",
                       help="so many days before its end the status is 1; 14 unless given")
    return found


def do(options: argparse.Namespace) -> int:
    """Its status."""
    try:
        now = datetime.datetime.now(datetime.timezone.utc)
        return 0 if report(options.host, options.port, options.days, now) else command.FAILED
    except Fault as fault:
        raise Fault(f"{options.host}:{options.port}: {fault}") from None


def main(words: list[str]) -> NoReturn:
    command.run(lambda given: parser().parse_args(given), do, words)
