"""Moves callers who wait where a group is closed, nobody is there, too many wait, or a wait is too long.

It follows the desk by its event reports, judges by /etc/acd/rules.toml, and asks the desk for deflectCall or
clearConnection with the group as device. It is tested, not proved."""
import argparse
import signal
import tempfile
import time
from collections.abc import Iterator
from pathlib import Path
from typing import NamedTuple, NoReturn

from acd_service import book, command, reach, settings
from acd_service.command import Fault, report, say
from acd_service.rules import following, replay
from acd_service.rules.judging import unfit
from acd_service.rules.reading import REQUESTER, Place, Read, line_of, read
from acd_service.rules.sending import Several

FILE = settings.FILE.parent / "rules.toml"


def parser() -> command.Parser:
    found = command.Parser("Moves callers who wait where a group is closed, nobody is there, too many wait, or a wait "
                           "is too long. It runs until somebody ends it.")
    found.add_argument("address", nargs="?", type=reach.address, metavar="URL",
                       default=f"http://127.0.0.1:{settings.current()['ACD_PORT']}",
                       help="the desk's address, as http://127.0.0.1:8080 or https://desk.example:8443; "
                            "the desk of this machine unless given")
    found.add_argument("--rules", type=Path, default=FILE, metavar="FILE", help=f"the rules; {FILE} unless given")
    task = found.add_mutually_exclusive_group()
    task.add_argument("--check", action="store_true",
                      help="say what is wrong in the rules, and what the desk's plan doesn't allow, and end")
    task.add_argument("--dry-run", action="store_true", help="say whom the rules would move now, and end")
    found.add_argument("--file", type=Path, metavar="FILE",
                       help="with --check or --dry-run a copy of the desk's file in place of the desk; "
                            "--dry-run then says how many callers would have been moved on its last day")
    reach.add_login_options(found)
    return found


def asked(words: list[str]) -> argparse.Namespace:
    found = parser()
    options = found.parse_args(words)
    if options.file and not (options.check or options.dry_run):
        found.error("--file goes with --check or --dry-run")
    if options.file and (options.login or options.ca):
        found.error("--login and --ca are for a desk that serves")
    reach.check(found, options)
    return options


def rules_of(options: argparse.Namespace) -> Read:
    """The rules, with their faults."""
    return read(options.rules, reach.owner(options.login, REQUESTER))


def whole_rules(options: argparse.Namespace) -> Read:
    """The rules, where there is no fault in them."""
    found = rules_of(options)
    if found.faults:
        raise Fault(*found.faults, status=command.REFUSED)
    for line in found.ignored:
        report(line)
    return found


# --check

class Plan(NamedTuple):
    """The groups, and the stations with the agents who are logged on there."""
    groups: set[str]
    stations: dict[str, str | None]


def plan_of(options: argparse.Namespace) -> Plan:
    """That of a file, or of the desk."""
    if options.file:
        with tempfile.TemporaryDirectory() as folder:
            found = book.opened(options.file, Path(folder))
            groups = {book.identifier(device) for device, in found.rows.execute("SELECT device FROM acd_groups")}
            stations = {book.identifier(device): book.identifier(agent) for device, agent in found.rows.execute(
                "SELECT device, agent FROM stations LEFT JOIN agents ON station = device")}
            found.close()
            return Plan(groups, stations)
    snapshot = reach.read(reach.desk_at(options), "/snapshot")
    return Plan({one["device"] for one in snapshot["groups"]},
                {one["device"]: one.get("agent") for one in snapshot["stations"]})


def faults_of_plan(found: Read, options: argparse.Namespace) -> Iterator[str]:
    plan = plan_of(options)
    for group, number, why in unfit(found.rules, plan.groups, plan.stations):
        place: Place = ("groups", group)
        place = place if number is None else (*place, "rules", number)
        yield f"{options.rules}, line {line_of(found.text, place)}: {why}"


def check(options: argparse.Namespace) -> int:
    found = rules_of(options)
    faults = list(found.faults)
    try:
        faults += () if faults else faults_of_plan(found, options)
    except Fault as fault:
        faults.append(f"the desk's plan can't be compared: {fault}")
    for line in [*faults, *found.ignored]:
        say(line)
    if faults:
        return command.FAILED
    count = sum(len(has.rules) for has in found.rules.values())
    say(f"no fault was found in {options.rules}: {count} rule{'s' * (count != 1)} of {len(found.rules)} "
        f"group{'s' * (len(found.rules) != 1)}")
    return 0


# --dry-run

def would_do(found: Read, options: argparse.Namespace) -> Iterator[str]:
    if options.file:
        with tempfile.TemporaryDirectory() as folder:
            yield from replay.of_last_day(found.rules, book.opened(options.file, Path(folder)))
        return
    desk = reach.desk_at(options)
    picture, _ = reach.insisted(desk, lambda: following.begin(desk, found.rules, time.time()), reach.SOON)
    yield from replay.of_now(found.rules, picture, max(int(time.time()), picture.moment))


# The command

def do(options: argparse.Namespace) -> int:
    """Its status."""
    if options.check:
        return check(options)
    found = whole_rules(options)
    if options.dry_run:
        for line in would_do(found, options):
            say(line)
        return 0
    for one in (signal.SIGTERM, signal.SIGINT):
        signal.signal(one, signal.SIG_DFL)
    desk = reach.desk_at(options)
    desk.wait = following.PATIENCE
    following.Following(Several(desk), found.rules, reach.owner(options.login, REQUESTER)).run()


def main(words: list[str]) -> NoReturn:
    command.run(asked, do, words)
