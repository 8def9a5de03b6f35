"""Prints the plan of a desk as `acd import` reads it, out of the desk's snapshot: its JSON, or the line that `acd lines
--reads` answers. Or prints the requests that make it another plan, and sends them."""
import argparse
import csv
import io
import json
import re
import sys
from collections.abc import Iterable, Iterator
from pathlib import Path
from typing import Any, NamedTuple, NoReturn

from acd_client import Client, Request

from acd_service import command, reach
from acd_service.command import Fault, report

HEADER = ["kind", "number", "name", "ring", "wrap"]
LONGEST, MOST_SECONDS = 1048576, 3600
MARK = b"\xef\xbb\xbf"
DEVICE, AGENT, NAME, SECONDS, NOTHING = "[0-9]{1,15}", "[0-9]{1,9}", "[ -~]{1,40}", "[0-9]{1,4}", ""
# the forms of number, name, ring and wrap
FORMS = {"group": (DEVICE, NAME, SECONDS, SECONDS), "station": (DEVICE, NOTHING, NOTHING, NOTHING),
         "agent": (AGENT, NAME, NOTHING, NOTHING)}
# the same in words
WORDS = {DEVICE: "1 to 15 digits", AGENT: "1 to 9 digits",
         NAME: "1 to 40 characters of ASCII, from the blank to ~ (Mueller for Müller)",
         SECONDS: f"0 to {MOST_SECONDS} seconds", NOTHING: "empty"}


class Row(NamedTuple):
    """Of a plan, with seconds as numbers, and "" where it has none."""
    kind: str
    number: str
    name: str = ""
    ring: int | str = ""
    wrap: int | str = ""


# a device or an agent, and its number
Key = tuple[bool, str]


# The plan of a desk

def snapshot(text: bytes) -> Any:
    """The snapshot in an answer, which may begin with a status."""
    status, _, body = text.partition(b" ")
    if not status.isdigit():
        return json.loads(text)
    if status != b"200":
        raise ValueError(f"the desk answered {text.decode(errors='replace').strip()[:100]}")
    return json.loads(body)


def plan(desk: dict[str, Any]) -> Iterator[Row]:
    """The rows of the plan; each becomes a request by `plan`, whose invoke is its place."""
    yield from (Row("group", group["device"], group["name"], group["ring"], group["wrap"]) for group in desk["groups"])
    yield from (Row("station", station["device"]) for station in desk["stations"])
    yield from (Row("agent", agent["agent"], agent["name"]) for agent in desk["agents"])


def line(request: Request) -> str:
    """A request as `acd lines` reads it."""
    return f"0 {json.dumps(request, separators=(',', ':'))}"


def requester_of(login: str | None) -> str:
    """The requester of a plan; with a login, one of the login's requesters."""
    owner = reach.owner(login, "")
    return f"{owner}-plan" if owner else "plan"


def priorities(desk: dict[str, Any], requester: str, invoke: int) -> Iterator[Request]:
    """The requests that give the groups their priorities, with invoke numbers after those of the plan."""
    for group in desk["groups"]:
        if "priority" in group:
            invoke += 1
            yield {"requester": requester, "invoke": invoke, "service": "setGroupPriority",
                   "device": group["device"], "priority": group["priority"]}


# The plan of a file

def is_text(field: str) -> bool:
    try:
        field.encode("latin-1").decode()
    except UnicodeDecodeError:
        return False
    return True


def faulty_member(fields: list[str]) -> str | None:
    """The first member of a row that `acd import` refuses."""
    if len(fields) != len(HEADER) or not all(map(is_text, fields)):
        return "fields"
    kind, *members = fields
    if kind not in FORMS:
        return "kind"
    for name, form, member in zip(HEADER[1:], FORMS[kind], members):
        if not re.fullmatch(form, member) or (form == SECONDS and int(member) > MOST_SECONDS):
            return name
    return None


def wanted_of(fields: list[str], member: str) -> str:
    """The rule for a faulty member of a row, in words."""
    if member == "fields":
        return (f"a row has {len(HEADER)} fields, with commas between them; this one has {len(fields)}"
                if len(fields) != len(HEADER) else "it isn't UTF-8: save the file as UTF-8")
    if member == "kind":
        return "its kind must be group, station or agent"
    return (f"{'an' if fields[0] == 'agent' else 'a'} {fields[0]}'s {member} must be "
            f"{WORDS[FORMS[fields[0]][HEADER.index(member) - 1]]}")


def shown(character: str) -> str:
    """One of Latin-1, which is a byte: as it is in ASCII, and else as its number."""
    return character if " " <= character <= "~" else f"\\x{ord(character):02X}"


def records_of(text: str) -> Iterator[tuple[int, list[str]]]:
    """The records of a text that aren't empty, each with the line in which it begins."""
    reader = csv.reader(io.StringIO(text, newline=""))
    while True:
        line = reader.line_num + 1
        fields = next(reader, None)
        if fields is None:
            return
        if fields:
            yield line, fields


def planned(file: str) -> list[Row]:
    """The rows of a plan, in the form of `plan`; a fault is named as `acd import` names it."""
    try:
        data = Path(file).read_bytes()
    except OSError:
        raise Fault(f"cannot open {file}") from None
    if len(data) > LONGEST:
        raise Fault("plan too long")
    csv.field_size_limit(LONGEST)
    # `acd import` removes one mark more than the one that a plan may have
    records = list(records_of(data.removeprefix(MARK).removeprefix(MARK).decode("latin-1")))
    at, header = records[0] if records else (1, [])
    if header != HEADER:
        has = f"it is {''.join(map(shown, ','.join(header)[:60]))}" if records else "the file is empty"
        raise Fault("plan header", f"line {at} must be {','.join(HEADER)}; {has}")
    rows: list[Row] = []
    for number, (at, fields) in enumerate(records[1:], 1):
        member = faulty_member(fields)
        if member:
            raise Fault(f"plan row {number}: {member}", f"that is line {at}: {wanted_of(fields, member)}")
        seconds: list[int | str] = [int(field) if field else "" for field in fields[3:]]
        rows.append(Row(fields[0], fields[1], fields[2], *seconds))
    return rows


# The requests that make one plan into another

def key(row: Row) -> Key:
    """The subject of a row: a device or an agent, and its number."""
    return row.kind == "agent", row.number


def by_key(rows: Iterable[Row]) -> dict[Key, Row]:
    """The rows of a plan by their subject, of which each may be there once."""
    found: dict[Key, Row] = {}
    for number, row in enumerate(rows, 1):
        if key(row) in found:
            raise Fault(f"plan row {number}: number {row[1]} appears twice")
        found[key(row)] = row
    return found


def request(verb: str, row: Row) -> Request:
    kind, number, *members = row
    return {"service": verb + kind.capitalize(), "agent" if kind == "agent" else "device": number,
            **{name: member for name, member in zip(HEADER[2:], members) if member != ""}}


def changes(wanted: dict[Key, Row], present: dict[Key, Row]) -> list[Request]:
    """The requests that make the plan `present` the one that is wanted, but for what it has beyond it."""
    crossed = [f"{row[1]} is a {wanted[what][0]} of the plan and a {row[0]} of the desk, which no request corrects"
               for what, row in present.items() if what in wanted and wanted[what][0] != row[0]]
    if crossed:
        raise Fault(*crossed)
    return [request("change" if what in present else "add", row) for what, row in wanted.items()
            if present.get(what) != row]


def send(desk: Client, requests: Iterable[Request]) -> bool:
    """Sends them in their order, and reports each answer that isn't 200, and how many there were of each. Returns
    whether none was refused."""
    done = dict.fromkeys(("add", "change", "refused"), 0)
    for one in requests:
        name = f"{one['service']} {one.get('agent') or one.get('device')}"
        print(line(one), flush=True)
        try:
            answer = reach.sent(desk, one)
        except Fault as fault:
            raise Fault(f"{name}: {fault}", f"{count(done)} before that; run it again for the rest") from None
        if answer.status == 200:
            done["add" if one["service"].startswith("add") else "change"] += 1
        else:
            done["refused"] += 1
            report(f"{name}: {answer.status} {answer.error}".rstrip())
    report(count(done))
    return not done["refused"]


def count(done: dict[str, int]) -> str:
    return f"{done['add']} added, {done['change']} changed, {done['refused']} refused"


# The command

def parser() -> command.Parser:
    found = command.Parser("Prints the plan of a desk, for acd import, out of its snapshot on standard input; "
                           "or what makes it another one.", printed_usage=True, took_beginnings=True)
    reach.add_options(found)
    instead = found.add_mutually_exclusive_group()
    instead.add_argument("--priorities", action="store_true",
                         help="the groups' priorities instead, as lines for acd lines: a plan has none")
    instead.add_argument("--changes", metavar="PLAN",
                         help="the requests instead that make the desk's plan that of this file, as lines for acd "
                              "lines")
    found.add_argument("--send", action="store_true",
                       help="send the changes to the desk too; print each answer that isn't 200, and how many there "
                            "were of each")
    return found


def options_of(words: list[str]) -> argparse.Namespace:
    found = parser()
    options = found.parse_args(words)
    reach.check(found, options)
    if options.send and (options.changes is None or options.address is None):
        found.error("--send is for --changes of a desk --from an address")
    return options


def print_plan(desk: dict[str, Any], options: argparse.Namespace) -> None:
    rows = list(plan(desk))
    requests = list(priorities(desk, requester_of(options.login), len(rows)))
    if options.priorities:
        sys.stdout.writelines(f"{line(one)}\n" for one in requests)
        return
    csv.writer(sys.stdout, lineterminator="\n").writerows([HEADER, *rows])
    if requests:
        report(f"{len(requests)} groups have a priority, which a plan can't give: acdctl plan --priorities prints them")


def change(wanted: dict[Key, Row], desk: dict[str, Any], client: Client | None, options: argparse.Namespace) -> bool:
    """Prints the changes, or sends them; whether none was refused."""
    present = {key(row): row for row in plan(desk)}
    requester = reach.new_requester(options.login, "plan")
    requests = [{"requester": requester, "invoke": invoke, **one}
                for invoke, one in enumerate(changes(wanted, present), 1)]
    for kind, number, name, *_ in (row for row in present.values() if key(row) not in wanted):
        report(f"the desk has more than the plan: {kind} {number} {name}".rstrip())
    if options.send and client is not None:
        return send(client, requests)
    sys.stdout.writelines(f"{line(one)}\n" for one in requests)
    return True


def do(options: argparse.Namespace) -> int:
    """Its status."""
    try:
        wanted = by_key(planned(options.changes)) if options.changes is not None else None
        client = reach.desk_at(options) if options.address is not None else None
        desk = reach.read(client, "/snapshot") if client is not None else snapshot(sys.stdin.buffer.read())
        if wanted is None:
            print_plan(desk, options)
            return 0
        return 0 if change(wanted, desk, client, options) else command.FAILED
    except (ValueError, KeyError, TypeError, AttributeError) as fault:
        raise Fault(f"there is no snapshot: {fault!r}") from None


def main(words: list[str]) -> NoReturn:
    command.run(options_of, do, words)
