"""The options of the command line, each at most once."""
import json
import os
import re
import ssl
from argparse import ArgumentDefaultsHelpFormatter, ArgumentParser, ArgumentTypeError, FileType
from dataclasses import dataclass, field, fields, replace
from ipaddress import IPv4Address, IPv4Network
from typing import Any
from urllib.parse import SplitResult, quote, unquote, urlsplit

from acd_client import is_socket

from .grammar import Malformed, read_uri


DESK = "http://127.0.0.1:8080"


def option(default: Any, text: str, **more: Any) -> Any:
    kind: dict[str, Any] = {"action": "store_true"} if default is False else {"type": type(default)}
    return field(default=default, metadata={"help": text, **kind, **more})


def read_agents(path: str) -> dict[str, set[str]] | None:
    """Each line a phone and the agents that it may log on; None without a file."""
    if not path:
        return None
    with FileType()(path) as file:
        lines: list[list[str]] = [line.partition("#")[0].split() for line in file]
    agents: dict[str, set[str]] = {}
    for words in filter(None, lines):
        if words[0] in agents or not re.fullmatch("[0-9]+(?: (?:[0-9]+|any))+", " ".join(words)):
            raise ArgumentTypeError(f"{path}: the line of {words[0]} isn't one of a phone and its agents, "
                                    "or the second one of this phone")
        agents[words[0]] = set(words[1:])
    return agents


@dataclass(frozen=True)
class Settings:
    edge: str = option("", "HOST:PORT of the proxy in front, which alone is heard, and which knows where phones are")
    phones: dict[str, str] = option(None, 'without a proxy, for a trial on loopback: a file {"201": '
                                          '"sip:201@127.0.0.1:5201"}', type=lambda path: json.load(FileType()(path)))
    listen: str = option("127.0.0.1:5070", "where it speaks SIP over UDP; with --phones on loopback alone")
    desk: str = option("", f"the desk, {DESK} or by its gate https://LOGIN@HOST:8443; without it EXCHANGE_DESK of the "
                           "environment. The login's password is EXCHANGE_PASSWORD of the environment, "
                           "which others can't read")
    ca: str = option("", "a FILE with the certificate of the desk's authority, or the desk's own one; "
                         "without it EXCHANGE_CA of the environment, or whom this machine trusts")
    file: str = option("exchange.db", "its own file")
    poll: float = option(0.1, "seconds between two looks for events")
    tick: int = option(0, "looks each so many seconds whether a tick ends something, and sends the desk its ticks; "
                          "with 0 it leaves them to the desk")
    waiting: str = option("queued", "callers who wait get 182, or are answered with music", choices=("queued", "music"))
    refused: str = option("reject", "offers that a phone refuses are rejected, or wait for the end of their ring",
                          choices=("reject", "wait"))
    agents: dict[str, set[str]] | None = option(None, "FILE with lines as '201 7 8' or '202 any': which agents a phone "
                                                      "may log on; without it any agent who is logged off",
                                                type=read_agents)
    music: str = option("", "a WAV file of 8000 Hz, 16 bits, one channel; without it silence")
    music_port: int = option(16000, "where the music is sent from")
    media: str = option("", "NETWORKS as 192.0.2.0/24,198.51.100.7: where music may go besides the address that its "
                            "caller sends from")
    session: int = option(1800, "the session interval in seconds, at least 90")
    trace: bool = option(False, "writes what comes and goes to standard error")

    @property
    def host(self) -> str:
        return self.listen.partition(":")[0]

    @property
    def networks(self) -> list[IPv4Network]:
        return [IPv4Network(text.strip()) for text in self.media.split(",") if text.strip()]

    @property
    def login(self) -> str:
        """The login at the desk's gate; empty if the exchange speaks with the desk itself."""
        return unquote(urlsplit(self.desk).username or "")

    def context(self) -> ssl.SSLContext | None:
        """Whose certificates are trusted; None for those whom this machine trusts."""
        return ssl.create_default_context(cafile=self.ca) if self.ca else None

    def may_log_on(self, phone: str, agent: str) -> bool:
        return self.agents is None or bool({agent, "any"} & self.agents.get(phone, set()))

    @classmethod
    def read(cls) -> "Settings":
        parser = ArgumentParser("acd-exchange", allow_abbrev=False, formatter_class=ArgumentDefaultsHelpFormatter)
        for each in fields(cls):
            parser.add_argument("--" + each.name.replace("_", "-"), default=each.default, **each.metadata)
        given = cls(**vars(parser.parse_args()))
        named = os.environ.get
        read = replace(given, desk=given.desk or named("EXCHANGE_DESK") or DESK,
                       ca=given.ca or named("EXCHANGE_CA", ""))
        password = named("EXCHANGE_PASSWORD", "")
        fault = read.fault() or ("EXCHANGE_PASSWORD is the one of a login, and EXCHANGE_DESK names none" if password and
                                 not read.login else "")
        if fault:
            parser.error(fault)
        return replace(read, desk=with_password(read.desk, password)) if password else read

    def fault(self) -> str:
        """Why the exchange can't run with these settings."""
        if bool(self.edge) == (self.phones is not None):
            return "it needs either --edge or --phones"
        if not all(map(is_place, (self.listen, self.edge or self.listen))) or self.session < 90:
            return "a place is an IPv4 address and a port, and a session at least 90 seconds"
        if self.phones is not None and not IPv4Address(self.host).is_loopback:
            return "with --phones nobody is asked who he is, so it listens on loopback alone"
        try:
            self.networks
        except ValueError as fault:
            return f"--media: {fault}"
        if self.desk and not is_desk(urlsplit(self.desk)):
            return ("the desk's address is unix:PATH, http://HOST:PORT or https://LOGIN@HOST:PORT, "
                    f"and not {without_password(self.desk)}")
        try:
            self.context()
        except OSError as fault:
            return f"--ca: no certificates in {self.ca}: {fault}"
        return ""


def is_desk(address: SplitResult) -> bool:
    return is_socket(address) or address.scheme in ("http", "https") and bool(address.hostname)


def with_password(address: str, password: str) -> str:
    parts = urlsplit(address)
    return parts._replace(
        netloc=f"{parts.username}:{quote(password, safe='')}@{parts.netloc.rpartition('@')[2]}").geturl()


def without_password(address: str) -> str:
    return re.sub(r"(?<=//)([^/@:]*):[^/@]*@", r"\1:...@", address)


def is_place(text: str) -> bool:
    try:
        return bool(text) and read_uri(f"sip:{text}").place == text
    except Malformed:
        return False
