"""One of several machines with a desk each, fed from one log in etcd: a front that takes requests, and a bridge that
feeds this machine's desk.

Not verified: what is proved of the desk is said in docs/PROVED.md, what this has to do for it in docs/MACHINES.md.
Clients send requests as to `acd serve`, by POST to /csta, to any machine, and send one again, with its key, until its
answer isn't 503. A read, by GET or HEAD, is answered by this machine's own desk (`acd lines --reads`), behind all that
this machine has answered; it goes into no log, no count and no digest. F/desk.db is the desk, F/at the revision of the
last value of the log of which it has answered all entries, how many entries those were until then, and a digest of
their replies. Every 1,000 entries the machines compare digests: one that differs from two others of --machines says so,
and answers 503 to everything. So does one that needs an entry that the log no longer has. F must then be replaced by a
copy of another machine's.

It asks nobody who they are, so it listens on the loopback address, behind a proxy and a gate, or asks each client for a
certificate (--client-ca): then no gate knows the client's role, and /requests is 403. Requests that wait while etcd
writes go into the log together, as one value. The module `entries` has the form of a value; all else in the log is
passed over, on all machines alike, and told.

Each machine of --machines tells its place, every 1,000 entries and every minute, and the log is kept from the least of
them on. For one that has told none for --gone hours (72) it isn't kept. With --etcd-user it asks etcd as this user,
whose password is in a file that only root and a group may read: so etcd lets it write the log and the keys below its
own name, and nothing else. --upkeep, for a timer, looks after etcd once: it gives back what the files of its members
have free, and lets a full one take entries again."""
import argparse
import asyncio
import contextlib
import ipaddress
import os
import re
import socket
import ssl
import sys
import threading
import time
import traceback
from types import TracebackType
from typing import Any, NoReturn

from acd_service import command
from acd_service.gate.main import loop_of
from acd_service.node import upkeep
from acd_service.node.bridge import Bridge
from acd_service.node.journal import Journal
from acd_service.node.keeper import Keeper
from acd_service.node.log import Log

# seconds after which a thread that has the interpreter lets another one have it: an answer passes through three
TURN = 0.0005
# connections that the kernel keeps until they are taken
BACKLOG = 1024


def name(word: str) -> str:
    if not re.fullmatch(r"[A-Za-z0-9.-]{1,64}", word):
        raise argparse.ArgumentTypeError("a machine's name is 1 to 64 letters, digits, dots and hyphens, "
                                         f"and not '{word}'")
    return word


def names(words: str) -> list[str]:
    found = [name(word) for word in words.split(",")]
    if len(set(found)) != len(found):
        raise argparse.ArgumentTypeError(f"a machine appears twice in '{words}'")
    return found


def ends(words: str) -> list[str]:
    for end in words.split(","):
        if not re.fullmatch(r"[^:]+:[0-9]{1,5}", end):
            raise argparse.ArgumentTypeError(f"'{end}' isn't HOST:PORT")
    return words.split(",")


def hours(word: str) -> float:
    if not float(word) > 0:
        raise argparse.ArgumentTypeError(f"'{word}' isn't a number of hours")
    return float(word)


def is_loopback(address: str) -> bool:
    try:
        return ipaddress.ip_address(address).is_loopback
    except ValueError:
        return address == "localhost"


def parser() -> command.Parser:
    found = command.Parser("Feeds this machine's desk from a log in etcd that several machines share, "
                           "and answers for it.", printed_usage=True, took_beginnings=True)
    for word, kind, metavar, about in (
            ("--name", name, "N", "this machine's name"), ("--etcd", ends, "HOST:PORT,..", "the members of etcd")):
        found.add_argument(word, type=kind, required=True, metavar=metavar, help=about)
    found.add_argument("--machines", type=names, default=[], metavar="N,N,N",
                       help="the names of all machines; without them the log is never shortened")
    found.add_argument("--gone", type=hours, default=72.0, metavar="HOURS",
                       help="for how many hours the log is kept for a machine that tells nothing; 72 unless given")
    found.add_argument("--upkeep", choices=["now", "turn"],
                       help="look after etcd once, now or if it is this machine's turn, and end")
    for word, usual, metavar, about in (("--port", 8080, "P", "the port to listen on"),
                                        ("--bind", "127.0.0.1", "A", "the address to listen at"),
                                        ("--line", "desk/line", "KEY", "the log's key in etcd"),
                                        ("--desk", "acd", "PROGRAM", "the desk's program")):
        found.add_argument(word, type=type(usual), default=usual, metavar=metavar,
                           help=f"{about}; {usual} unless given")
    for word, metavar, about in (("--folder", "F", "the folder of the files desk.db and at"),
                                 ("--etcd-ca", "C", "the certificate of etcd's authority"),
                                 ("--etcd-cert", "C", "this machine's certificate for etcd"),
                                 ("--etcd-key", "K", "its key"), ("--etcd-user", "U", "the user of etcd"),
                                 ("--etcd-password", "FILE", "the file of this user's password"),
                                 ("--cert", "C", "the certificate for clients"), ("--key", "K", "its key"),
                                 ("--client-ca", "C", "the authority of the clients' certificates, "
                                                      "which each client must have then")):
        found.add_argument(word, metavar=metavar, help=about)
    return found


def options_of(words: list[str]) -> argparse.Namespace:
    found = parser()
    options = found.parse_args(words)
    if options.machines and options.name not in options.machines:
        found.error(f"--machines doesn't name {options.name}")
    if options.upkeep and not options.machines:
        found.error("--upkeep needs --machines")
    if not options.upkeep and not options.folder:
        found.error("--folder is needed")
    if bool(options.cert) != bool(options.key) or options.client_ca and not options.cert:
        found.error("--cert and --key go together, and with --client-ca")
    if bool(options.etcd_cert) != bool(options.etcd_key) or options.etcd_cert and not options.etcd_ca:
        found.error("--etcd-cert and --etcd-key go together, with --etcd-ca")
    if options.etcd_user:
        check_password(found, options.etcd_password)
    if not is_loopback(options.bind) and not options.client_ca:
        found.error(f"at {options.bind} strangers would ask for everything: bind it to 127.0.0.1, behind a proxy and a "
                    "gate, or ask for certificates by --client-ca")
    return options


def check_password(parser: argparse.ArgumentParser, file: str | None) -> None:
    """Refuses a file that isn't there, or that everybody may read."""
    try:
        with open(file or "") as words:
            if os.fstat(words.fileno()).st_mode & 0o007:
                parser.error(f"everybody may read {file}, which has the password of etcd's user: chmod o= {file}")
    except OSError as fault:
        parser.error(f"--etcd-user needs the file of its password, --etcd-password FILE: {fault}")


def etcd_context(options: argparse.Namespace) -> ssl.SSLContext | None:
    """The context for TLS to etcd, or None without TLS."""
    if not options.etcd_ca:
        return None
    context = ssl.create_default_context(cafile=options.etcd_ca)
    if options.etcd_cert:
        context.load_cert_chain(options.etcd_cert, options.etcd_key)
    return context


def front_context(options: argparse.Namespace) -> ssl.SSLContext | None:
    """The context for TLS to clients, or None without TLS."""
    if not options.cert:
        return None
    context = ssl.SSLContext(ssl.PROTOCOL_TLS_SERVER)
    context.load_cert_chain(options.cert, options.key)
    if options.client_ca:
        context.load_verify_locations(options.client_ca)
        context.verify_mode = ssl.CERT_REQUIRED
    return context


def end_process(kind: type[BaseException], fault: BaseException | None, trace: TracebackType | None) -> NoReturn:
    """An unforeseen fault ends the process, in whichever thread it happens: half a machine would answer from an old
    state for ever."""
    traceback.print_exception(kind, fault, trace)
    sys.stderr.flush()
    os._exit(1)


def end_on(_: asyncio.AbstractEventLoop, about: dict[str, Any]) -> None:
    """In the loop too. A client that left is no fault."""
    fault = about.get("exception")
    if fault is not None and not isinstance(fault, OSError):
        end_process(type(fault), fault, fault.__traceback__)


def listening_at(address: str, port: int) -> socket.socket:
    family = socket.AF_INET6 if ":" in address else socket.AF_INET
    return socket.create_server((address, port), family=family, backlog=BACKLOG)


def run(options: argparse.Namespace, log: Log, journal: Journal) -> None:
    # connections wait there while the node starts
    listening = listening_at(options.bind, options.port)
    # only here: who asks for the words of each command needs no more than Python has
    from acd_service.node.front import Front
    os.makedirs(options.folder, exist_ok=True)
    if not options.machines:
        journal.report("without --machines the log is never shortened, and no digest is compared")
    if not options.etcd_ca:
        journal.report("without --etcd-ca etcd has to be this machine's own: who reaches it asks for everything")
    elif not options.etcd_user:
        journal.report("without --etcd-user each machine may write what another one says of itself")
    bridge = Bridge(options.folder, options.desk, log, journal)
    keeper = Keeper(options.name, options.machines, options.gone, log, bridge, journal)
    front = Front(bridge, journal, front_context(options))
    keeper.look()                                          # before the first answer: a folder that differed still does
    for work in (bridge.run, bridge.waiting.put_for_ever, keeper.run):
        threading.Thread(target=work, daemon=True).start()
    sys.setswitchinterval(TURN)
    with contextlib.suppress(KeyboardInterrupt), asyncio.Runner(loop_factory=loop_of()) as runner:
        runner.get_loop().set_exception_handler(end_on)
        runner.run(front.listen(listening, BACKLOG))


def do(options: argparse.Namespace) -> int:
    """Its status, if it ends."""
    journal = Journal()
    sys.excepthook, threading.excepthook = end_process, lambda fault: end_process(*fault[:3])
    user = (options.etcd_user, options.etcd_password) if options.etcd_user else None
    log = Log(options.etcd, options.line.encode(), etcd_context(options), journal, user)
    if not options.upkeep:
        run(options, log, journal)
    elif options.upkeep == "now" or upkeep.has_turn(options.name, options.machines, time.time()):
        return upkeep.once(log, options.machines, journal)
    return 0


def main(words: list[str]) -> NoReturn:
    command.run(options_of, do, words)
