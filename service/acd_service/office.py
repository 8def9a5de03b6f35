"""The settings of the office in /etc/acd/board.json, as far as records and the gate use them: names in any script,
limits of the service level, the zone, the language, and the lists of reasons and codes; and below its names those that
the office gives by its page. Tested, not proved."""
import contextlib
import json
import os
import re
import time
import zoneinfo
from collections.abc import Callable
from dataclasses import dataclass, field
from pathlib import Path

from acd_service import gate_state, settings
from acd_service.command import Fault
from acd_service.reasons import KEY
from acd_service.spelling import KINDS, Names, shown_names

FILE = Path("/etc/acd/board.json")
# seconds, where nobody says otherwise, and the most; the most letters of a name. The board has the same
LIMIT, MOST, LONGEST = 20, 86400, 80
# how many keys a list has at most; the pages have the same
MOST_KEYS = 40


def texts(said: object) -> dict[str, str]:
    """The members that are texts or numbers."""
    members = said if isinstance(said, dict) else {}
    return {
        name: str(value)[:LONGEST]
        for name, value in members.items()
        if isinstance(value, (str, int, float)) and not isinstance(value, bool)
    }


def listed(said: object) -> dict[str, str]:
    """The keys of a list with their texts, in their order."""
    found = [(key, text) for key, text in texts(said).items() if re.fullmatch(KEY, key) and text.strip()]
    return dict(found[:MOST_KEYS])


def seconds(text: str | None) -> float | None:
    try:
        found = float(text or "")
    except ValueError:
        return None
    return found if 0 < found <= MOST else None


@dataclass(frozen=True)
class Office:
    names: dict[str, dict[str, str]] = field(default_factory=lambda: {"groups": {}, "agents": {}})
    limits: dict[str, str] = field(default_factory=dict)
    zone: str | None = None
    language: str = "en"
    title: str = ""
    reasons: dict[str, str] = field(default_factory=dict)
    codes: dict[str, str] = field(default_factory=dict)

    def limit_of(self, group: str) -> float:
        """Of the group, else of all."""
        return seconds(self.limits.get(f"limit.{group}")) or seconds(self.limits.get("limit")) or LIMIT

    @property
    def counts_answered_alone(self) -> bool:
        """Whether the service level is of the answered alone."""
        return self.limits.get("level") == "answered"


def office(file: Path, report: Callable[[str], object]) -> Office:
    """The content of the file. It ignores a part that can't be read, and reports it in a line."""
    try:
        said = json.loads(Path(file).read_bytes())
    except ValueError:
        said = None
    if not isinstance(said, dict):
        report(f"{file} is not a JSON object; ignored")
        return Office()
    given, names = texts(said), said.get("names")
    zone, language = given.get("zone"), given.get("language", "en")
    if zone is not None and not is_zone(zone):
        report(f"{file}: there is no zone {zone}")
        zone = None
    return Office({kind: texts(names.get(kind) if isinstance(names, dict) else None) for kind in ("groups", "agents")},
                  texts(said.get("limits")), zone, language if re.fullmatch("[a-z]{2,3}", language) else "en",
                  given.get("title", ""), listed(said.get("reasons")), listed(said.get("codes")))


def counting(file: Path | None, report: Callable[[str], object]) -> Office:
    """The content of the named file, else of the machine's, if that is there. Its zone counts if TZ names none."""
    if file is None and not FILE.exists():
        return Office()
    found = office(file or FILE, report)
    if found.zone and "TZ" not in os.environ:
        os.environ["TZ"] = found.zone
        time.tzset()
    return found


def given_names(file: Path | str | None) -> Names:
    """The names that the office gave by its page: beside a copy those that it has, and with the machine's own desk, or
    without a file, those of the gate, where this user reads them."""
    folders = [Path(file).parent / gate_state.BESIDE] if file else []
    if file is None or str(file) == settings.desk_file():
        folders.append(gate_state.FOLDER)
    for folder in folders:
        with contextlib.suppress(OSError, ValueError, Fault):
            said = json.loads(gate_state.content(folder / "names.json"))
            return {kind: texts(said.get(kind)) for kind in KINDS} if isinstance(said, dict) else {}
    return {}


def put_names(names: Names, file: Path | str | None, found: Office) -> None:
    """Puts the office's names in the place of the desk's, those of board.json before all."""
    given = given_names(file)
    for kind in names:
        names[kind] |= shown_names(names[kind], given.get(kind, {})) | found.names[kind]


def is_zone(name: str) -> bool:
    try:
        return zoneinfo.ZoneInfo(name).key == name
    except (ValueError, OSError, zoneinfo.ZoneInfoNotFoundError):
        return False
