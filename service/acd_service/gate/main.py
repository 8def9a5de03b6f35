"""The gate of a desk: judges passwords for the proxy, and lets a login ask for no more than its role may. Unproved."""
import argparse
import asyncio
import contextlib
from collections.abc import Callable
from pathlib import Path
from typing import NoReturn

import acd_notify

from acd_service import command, last_copy, office, settings
from acd_service.command import Fault
from acd_service.gate.desk import Desk, Place, place


def port_of(text: str) -> int | None:
    """None where there is no text: a unit's setting that has no value."""
    return int(text) if text else None


def parser() -> command.Parser:
    found = command.Parser("Judges logins for the proxy, and lets each ask for no more than its role may.",
                           printed_usage=True, took_beginnings=True)
    found.add_argument("--port", type=port_of, metavar="P",
                       help="the port of the loopback address to listen on; none unless given, and none if it is empty")
    found.add_argument("--socket", default=settings.DEFAULTS["ACD_GATE_SOCKET"], metavar="PATH",
                       help="the socket to listen on without a port; %(default)s unless given")
    found.add_argument("--desk", type=place, metavar="PLACE",
                       help="the desk: its port, http://127.0.0.1:PORT or unix:PATH; its socket unless given, "
                            "and if it is empty")
    found.add_argument("--desk-socket", default=settings.DEFAULTS["ACD_SOCKET"], metavar="PATH",
                       help="the desk's socket; %(default)s unless given")
    found.add_argument("--roles", default="/etc/acd/roles", metavar="FILE",
                       help="the roles; /etc/acd/roles unless given")
    found.add_argument("--users", default="/etc/acd/users", metavar="FILE",
                       help="the logins with their passwords, as htpasswd makes them; /etc/acd/users unless given")
    found.add_argument("--sessions", metavar="FILE", help="where sessions are kept; in memory alone unless given")
    found.add_argument("--own", metavar="FOLDER",
                       help="where the logins and roles that the office gives are, its names, and what agents choose "
                            "of its lists; there is none of that unless given")
    found.add_argument("--records", default="/var/lib/acd-records", metavar="FOLDER",
                       help="the files of records; /var/lib/acd-records unless given")
    found.add_argument("--secret", default="/etc/acd/nginx-secret.conf", metavar="FILE",
                       help="nginx's file of the secrets; /etc/acd/nginx-secret.conf unless given")
    found.add_argument("--copy", default=last_copy.FILE, metavar="FILE",
                       help=f"the line that the last copy left; {last_copy.FILE} unless given")
    found.add_argument("--office", type=Path, default=office.FILE, metavar="FILE",
                       help=f"the lists of reasons and codes; {office.FILE} unless given")
    return found


async def serve(options: argparse.Namespace) -> None:
    # only here: who asks for the words of each command needs no more than Python has
    from acd_service.gate.reasons import Giving
    from acd_service.gate.routes import Gate
    from acd_service.gate.server import Server, listening_at
    from acd_service.gate.sessions import secrets_of
    from acd_service.reasons import FOLDER
    try:
        listening = listening_at(Place(options.port) if options.port else Place(path=options.socket))
    except (OSError, OverflowError):
        raise Fault(f"cannot listen on {settings.place(options.port, options.socket)}") from None
    desk = Desk(options.desk or Place(path=options.desk_socket))
    gate = Gate(desk, options.roles, options.users, options.sessions, options.records, secrets_of(options.secret),
                options.copy, own=options.own)
    acd_notify.ready()
    if options.own:
        Giving(gate, Path(options.own) / FOLDER, options.office)
    await Server(gate.answer).listen(listening)


def loop_of() -> Callable[[], asyncio.AbstractEventLoop] | None:
    """uvloop's, where that is installed; None is Python's own."""
    try:
        import uvloop
    except ImportError:
        return None
    made: Callable[[], asyncio.AbstractEventLoop] = uvloop.new_event_loop
    return made


def do(options: argparse.Namespace) -> None:
    with contextlib.suppress(KeyboardInterrupt), asyncio.Runner(loop_factory=loop_of()) as runner:
        runner.run(serve(options))


def main(words: list[str]) -> NoReturn:
    command.run(lambda given: parser().parse_args(given), do, words)
