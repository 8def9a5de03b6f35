"""The gate's journal of acts: who gave or took a login, a role, a password or a name, and when. Unproved.

A line for each, JSON, of which none has a password; it is on the disk before the act is done. What wasn't done after
all has a line that says so."""
import json
import os
import time
from collections.abc import Callable, Iterator
from pathlib import Path
from typing import Any

from acd_service import put

FILE = "acts"
# a line whose act, of this number, wasn't done
NOT_DONE = "notDone"
# acts of a page of them
MOST = 1000
Act = dict[str, Any]


def acts_of(lines: list[str]) -> Iterator[Act]:
    """The acts of a journal's lines, passing over what is none, as the half of a line that a power cut left."""
    for line in lines:
        try:
            act = json.loads(line)
        except ValueError:
            continue
        if isinstance(act, dict) and all(type(act.get(name)) is kind for name, kind in
                                         (("number", int), ("moment", int), ("login", str), ("act", str))):
            yield act


def read(file: Path) -> list[Act]:
    """Its acts; none where there is no journal."""
    try:
        return list(acts_of(file.read_text("utf-8", "replace").splitlines()))
    except FileNotFoundError:
        return []


class Acts:
    """Who writes it waits for the disk."""

    def __init__(self, file: Path, clock: Callable[[], float] = time.time) -> None:
        self.file, self.clock = file, clock

    def add(self, login: str, act: str, **members: object) -> int:
        """One more, by its number."""
        before = read(self.file)
        number: int = before[-1]["number"] + 1 if before else 1
        line = {"number": number, "moment": int(self.clock()), "login": login, "act": act,
                **{name: value for name, value in members.items() if value is not None}}
        is_new = not self.file.exists()
        with open(os.open(self.file, os.O_RDWR | os.O_CREAT | os.O_APPEND | os.O_CLOEXEC, 0o600), "rb+") as journal:
            # half a line stays one
            is_cut = journal.seek(0, os.SEEK_END) > 0 and os.pread(journal.fileno(), 1, journal.tell() - 1) != b"\n"
            journal.write(("\n" if is_cut else "").encode() + json.dumps(line, ensure_ascii=False).encode() + b"\n")
            journal.flush()
            os.fsync(journal.fileno())
        if is_new:
            put.sync_folder(self.file.parent)
        return number

    def page(self, after: int) -> dict[str, Any]:
        """Some acts after a number, and the number of the last one of all."""
        found = read(self.file)
        return {"acts": [act for act in found if act["number"] > after][:MOST],
                "last": found[-1]["number"] if found else 0}
