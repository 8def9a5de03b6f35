"""How a person's command reaches a desk: by its address, over TLS, and with a login whose password is on no command
line."""
import argparse
import getpass
import grp
import os
import pwd
import re
import secrets
import ssl
import time
import warnings
from collections.abc import Callable
from typing import Any, TypeVar
from urllib.parse import quote, urlsplit

from acd_client import UNIX, Answer, Client, Request, Unanswered, is_socket

from acd_service.command import Fault
from acd_service.local import GROUP, USERS

# seconds: of one attempt, between two, and of all attempts where nothing was asked of the desk yet, and where something
# was
WAIT, PAUSE, SOON, PATIENCE = 10, 1, 5, 60
THIS_MACHINE = ("127.0.0.1", "::1", "localhost")

Found = TypeVar("Found")


def address(text: str) -> str:
    """An address of a desk, which names no login."""
    try:
        parts = urlsplit(text)
        good = is_socket(parts) or bool(parts.scheme in ("http", "https") and parts.hostname and
                                        (parts.port is None or parts.port) and not (parts.query or parts.fragment))
    except ValueError:
        good = False
    if not good or "@" in parts.netloc:
        raise argparse.ArgumentTypeError(f"{text.rpartition('@')[2]!r} is no address as https://desk.example:8443, "
                                         "without a login, which --login has")
    return text


def add_options(parser: argparse.ArgumentParser) -> None:
    parser.add_argument("--from", dest="address", type=address, metavar="ADDRESS",
                        help="ask the desk at this address, as http://127.0.0.1:8080, https://desk.example:8443 or "
                             "unix:/run/acd/desk.sock")
    add_login_options(parser)


def add_login_options(parser: argparse.ArgumentParser) -> None:
    parser.add_argument("--login", metavar="LOGIN",
                        help="ask by this login; its password is asked for, or that of the variable ACD_PASSWORD")
    parser.add_argument("--ca", metavar="FILE", help="trust the certificates in this file, in place of this machine's")


def check(parser: argparse.ArgumentParser, options: argparse.Namespace) -> None:
    """Refuses options that don't fit together."""
    parts = urlsplit(options.address or "")
    if options.ca and parts.scheme != "https":
        parser.error("--ca is for a desk at https://")
    if options.login is not None and (not options.login or ":" in options.login):
        parser.error("a login has a letter at least, and no colon")
    if options.login and parts.scheme == "http" and parts.hostname not in THIS_MACHINE:
        parser.error("a password goes to another machine over https alone")
    if options.login and parts.scheme == UNIX:
        parser.error("a desk at a socket asks nobody for a password")


def owner(login: str | None, otherwise: str) -> str:
    """The beginning of requesters: the login, as the gate demands, if a requester may begin so."""
    return login if login and re.fullmatch("[a-z0-9-]{1,15}", login) else otherwise


def new_requester(login: str | None, otherwise: str) -> str:
    """One that nobody has used."""
    return f"{owner(login, otherwise)}-{secrets.token_hex(8)}"


def password(login: str) -> str:
    if "ACD_PASSWORD" in os.environ:
        return os.environ["ACD_PASSWORD"]
    with warnings.catch_warnings():
        warnings.simplefilter("error", getpass.GetPassWarning)
        try:
            return getpass.getpass(f"Password of {login}: ")
        except (getpass.GetPassWarning, EOFError):
            raise Fault("there is no terminal to ask for the password on, and no ACD_PASSWORD") from None


def desk_at(options: argparse.Namespace) -> Client:
    """A client of the desk that the options name."""
    parts = urlsplit(str(options.address))
    context = None
    if options.ca:
        try:
            context = ssl.create_default_context(cafile=options.ca)
        except OSError as fault:
            raise Fault(f"{options.ca}: {fault.strerror or fault}") from None
    if options.login:
        parts = parts._replace(netloc=f"{quote(options.login, '')}:{quote(password(options.login), '')}@{parts.netloc}")
    return Client(parts.geturl(), wait=WAIT, context=context)


def insisted(desk: Client, attempt: Callable[[], Found], patience: float) -> Found:
    """The answer to an attempt, which is made again while there is none, or one that says no more than that (429, 502,
    503, 504)."""
    end = time.monotonic() + patience
    while True:
        try:
            return attempt()
        except Unanswered as fault:
            if fault.is_lasting or time.monotonic() > end:
                raise Fault(f"no answer: {fault.__cause__ or fault}{hint(desk, fault)}") from None
            time.sleep(PAUSE)


def hint(desk: Client, fault: Unanswered) -> str:
    """Who is let in, if the desk's own port or socket was asked: acd-local resets the connection of any other."""
    parts = desk.addresses[0]
    is_kept_out = (isinstance(fault.__cause__, PermissionError) if parts.scheme == UNIX else
                   parts.scheme == "http" and parts.hostname in THIS_MACHINE and
                   isinstance(fault.__cause__, ConnectionError))
    if not is_kept_out or is_let_in():
        return ""
    place = "socket" if parts.scheme == UNIX else "port"
    return f"; only root and the group {GROUP} reach this {place}: be one of them, or use https://.. with --login"


def is_let_in() -> bool:
    """Whether this user reaches the desk's own port, as far as accounts say. Without the group nobody is kept from
    it."""
    try:
        group = grp.getgrnam(GROUP).gr_gid
        return pwd.getpwuid(os.geteuid()).pw_name in USERS or group in (os.getegid(), *os.getgroups())
    except KeyError:
        return True


def read(desk: Client, path: str) -> dict[str, Any]:
    """The desk's answer at a path."""
    answer = insisted(desk, lambda: desk.attempt("GET", path), SOON)
    if answer.status != 200:
        raise Fault(f"the desk answered {answer.status} {answer.error}".rstrip())
    return answer.body


def sent(desk: Client, request: Request) -> Answer:
    """The answer to a request, which acts once however often it is sent."""
    return insisted(desk, lambda: desk.send(request), PATIENCE)
