"""GET /records/sums: files of records of several days added up, for whoever may read the files. Unproved."""
import asyncio
import datetime
import re
import urllib.parse
from pathlib import Path

from acd_service.gate.exchanges import Answer, Question, Refused, error
from acd_service.gate.judging import Twice, once
from acd_service.gate.texts import as_json
from acd_service.recorded import BY, MOST_DAYS, Asked, Files, added

NAMES = {"kind", "since", "until", "by", "of"}
# numbers that may be chosen
MOST_CHOSEN = 64


def day_of(text: str) -> datetime.date:
    """ValueError where it is no day like 2026-11-26."""
    if not re.fullmatch(r"[0-9]{4}-[0-9]{2}-[0-9]{2}", text):
        raise ValueError
    return datetime.date.fromisoformat(text)


def numbers_of(text: str) -> frozenset[str]:
    if not re.fullmatch(r"|[0-9]{1,15}(,[0-9]{1,15})*", text) or text.count(",") >= MOST_CHOSEN:
        raise ValueError
    return frozenset(filter(None, text.split(",")))


def asked_of(query: str, led: frozenset[str] | None) -> Asked:
    """What a query asks for; refused where it is none, or of too many days."""
    try:
        said = once(urllib.parse.parse_qsl(query, keep_blank_values=True, strict_parsing=True, max_num_fields=8))
        since, until, kind, by = day_of(said["since"]), day_of(said["until"]), said["kind"], said["by"]
        is_good = said.keys() <= NAMES and kind in BY and by in BY[kind] and 0 <= (until - since).days < MOST_DAYS
        of = numbers_of(said.get("of", ""))
    except (ValueError, KeyError, Twice):
        raise Refused(error(400)) from None
    if not is_good:
        raise Refused(error(400))
    return Asked(kind, since, until, by, of, led)


class Recorded:
    def __init__(self, folder: Path | str) -> None:
        self.files = Files(folder)

    async def answer(self, question: Question, asked: Asked) -> Answer:
        """Read in a thread: a year takes seconds. It ends early where nobody waits for it any more."""
        found = await asyncio.to_thread(added, self.files, asked, question.stay)
        return Answer(200, "application/json", as_json(found._asdict()))
