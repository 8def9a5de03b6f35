"""The line that a copy leaves, for who can't look into the folder of copies: when one was last made, or tried, how that
went, and when the last good one was made. Tested, not proved."""
from pathlib import Path
from typing import NamedTuple

from acd_service import put
from acd_service.command import report

FILE = Path("/run/acd/copy")
# how a copy went: sound as a whole, good up to a request that was sent again, kept aside for a reason, or not made
VERDICTS = ("sound", "again", "unsound", "unaudited", "early", "moved", "fewer", "failed")


class LastCopy(NamedTuple):
    """Moments in seconds since 1970; `good` is None where there is no good copy."""
    moment: int
    verdict: str
    good: int | None


def leave(file: Path, last: LastCopy) -> None:
    """Writes the line, where there is a folder for it: everybody who gets into that may read it."""
    if not file.parent.is_dir():
        return
    try:
        put.put(file, f"{last.moment} {last.verdict} {'-' if last.good is None else last.good}\n", 0o644)
    except OSError as fault:
        report(f"{file} can't be written: {fault.strerror}")


def read(file: Path) -> LastCopy | None:
    """None where there is no such line."""
    try:
        moment, verdict, good = file.read_text().split()
        return LastCopy(int(moment), verdict, None if good == "-" else int(good)) if verdict in VERDICTS else None
    except (OSError, ValueError):
        return None
