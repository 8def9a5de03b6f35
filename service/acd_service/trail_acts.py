"""The gate's acts in the trail of a desk: logins, roles, passwords and names that the office gave by its page. Tested,
not proved."""
import contextlib
import json
import os
from collections.abc import Iterator
from pathlib import Path
from typing import Any, NamedTuple
from urllib.parse import urlsplit

from acd_client import Client

from acd_service import gate_state, reach, settings
from acd_service.command import Fault
from acd_service.gate import acts

# what is printed of an act, besides when, who and what
MEMBERS = ("of", "role", "agent", "device", "stations", "groups", "name", "number_of")


class Act(NamedTuple):
    """A line of the gate's journal."""
    number: int
    moment: int
    login: str
    act: str
    given: dict[str, Any]

    def members(self) -> dict[str, Any]:
        return {name: self.given[name] for name in MEMBERS if name in self.given}

    def words(self) -> str:
        return ", ".join(f"{name.replace('_', ' ')} {shown(name, value)}" for name, value in self.members().items())


def shown(name: str, value: object) -> str:
    if name == "name":
        return json.dumps(value, ensure_ascii=False)
    # a line is one line, whatever a journal has
    return " ".join(ascii(one)[1:-1] for one in value) if isinstance(value, list) else ascii(value).strip("'")


def act_of(line: dict[str, Any]) -> Act:
    return Act(line["number"], line["moment"], line["login"], line["act"], line)


def of_folder(folder: Path) -> list[Act]:
    """Those of a journal; none where there is none, or this user may not read it."""
    with contextlib.suppress(OSError, Fault):
        return [act_of(line) for line in acts.acts_of(gate_state.content(folder / gate_state.ACTS).splitlines())]
    return []


def of_gate(desk: Client) -> Iterator[Act]:
    """Those that a gate tells; none of one that knows no acts."""
    after, last = 0, 1
    while after < last:
        answer = reach.insisted(desk, lambda: desk.attempt("GET", f"/acts?after={after}"), reach.SOON)
        if answer.status != 200:
            return
        page = list(acts.acts_of([json.dumps(line) for line in answer.body.get("acts", [])]))
        yield from map(act_of, page)
        if not page:
            return
        after, last = page[-1]["number"], int(answer.body.get("last", 0))


def found(file: str | None, address: str | None, desk: Client | None, own: Path | None) -> list[Act]:
    """The acts that belong to a copy, to this machine's desk, or to one that is asked by a login."""
    if own is not None:
        if not os.path.lexists(own / gate_state.ACTS):
            raise Fault(f"{own} has no journal of acts")
        return of_folder(own)
    if file:
        beside = Path(file).parent / gate_state.BESIDE
        return of_folder(beside if beside.is_dir() or file != settings.desk_file() else gate_state.FOLDER)
    if urlsplit(address or "").scheme == "https" and desk is not None:
        return list(of_gate(desk))
    return of_folder(gate_state.FOLDER)
