"""A report of each week that is over, out of the files of records of its days: FOLDER/reports/2026-W48.csv. Tested, not
proved.

It is in the office's form, as the tables that the pages save: by the office's language its heads, what separates fields
and decimals, and by the office's settings the names."""
import csv
import datetime
import io
import math
from collections.abc import Iterable
from pathlib import Path
from typing import NamedTuple

from acd_service import put, sheets
from acd_service.office import Office
from acd_service.recorded import Asked, Files, Told, added, week_of

# languages that write 0,5
COMMA = set("""af az be bg br bs ca cs cv da de el eo es et eu ff fi fo fr fy gl hr hu hy ia id ie in is it jv jw ka kk
kl ku ky lb ln lo lt lu lv mk mo nb nl nn no oc os pl pt rm rn ro ru rw sc se sg sh sk sl sq sr su sv tg tk tr tt uk uz
vi wo""".split())
# as the pages have them, by their keys; whoever has another language reads English
ENGLISH = {
    "report.title": "Report of the week", "records.missing": "Days without records", "records.all": "Together",
    "head.group": "Group", "head.agent": "Agent", "head.day": "Day", "head.number": "Number", "head.days": "Days",
    "head.entered": "Entered", "head.answered": "Answered", "head.abandoned": "Abandoned", "head.lost": "Lost, %",
    "head.moved": "Moved", "head.inTime": "In time", "head.average": "Speed of answer",
    "head.longestWait": "Longest wait", "head.handling": "Handling time", "head.closed": "Closed",
    "head.calls": "Calls", "head.loggedOn": "Logged on", "head.talk": "Talk", "head.afterCall": "After-call work",
    "head.ready": "Ready", "head.notReady": "Not ready", "head.occupancy": "Occupancy", "head.rings": "Rings",
    "head.notAnswered": "Not answered", "head.refused": "Refused", "head.hungUp": "Hung up",
}
GERMAN = {
    "report.title": "Bericht der Woche", "records.missing": "Tage ohne Aufzeichnung", "records.all": "Zusammen",
    "head.group": "Gruppe", "head.agent": "Agent", "head.day": "Tag", "head.number": "Nummer", "head.days": "Tage",
    "head.entered": "Gekommen", "head.answered": "Angenommen", "head.abandoned": "Aufgegeben",
    "head.lost": "Verlust, %", "head.moved": "Verlegt", "head.inTime": "Rechtzeitig", "head.average": "Wartezeit Ø",
    "head.longestWait": "Längstes Warten", "head.handling": "Bearbeitung Ø", "head.closed": "Geschlossen",
    "head.calls": "Anrufe", "head.loggedOn": "Angemeldet", "head.talk": "Gespräch", "head.afterCall": "Nacharbeit",
    "head.ready": "Bereit", "head.notReady": "Nicht bereit", "head.occupancy": "Auslastung",
    "head.rings": "Geklingelt", "head.notAnswered": "Nicht angenommen", "head.refused": "Abgelehnt",
    "head.hungUp": "Aufgelegt",
}
WORDS = {"en": ENGLISH, "de": GERMAN}
# by their heads the figures, in the order of columns
OF_GROUPS = {"entered": "entered", "answered": "answered", "abandoned": "abandoned", "lost": "lost", "moved": "moved",
             "inTime": "level", "average": "average_wait", "longestWait": "longest", "handling": "average_handling",
             "closed": "closed"}
OF_AGENTS = {"days": "days", "calls": "calls", "loggedOn": "logged_on", "ready": "ready", "talk": "talking",
             "afterCall": "wrap_up", "notReady": "not_ready", "occupancy": "occupancy", "rings": "rings",
             "notAnswered": "rings_not_answered", "refused": "rings_refused", "hungUp": "rings_hung_up"}
SHARES = {"lost", "level", "level_of_answered", "occupancy"}


class Table(NamedTuple):
    """Of which files, and a line for each of what; its first heads, and the figures by their heads."""
    kind: str
    by: str
    heads: tuple[str, ...]
    figures: dict[str, str]


TABLES = (Table("groups", "each", ("group", "number"), OF_GROUPS), Table("groups", "day", ("day",), OF_GROUPS),
          Table("agents", "each", ("agent", "number"), OF_AGENTS))


class Form:
    """How an office writes a table."""

    def __init__(self, office: Office) -> None:
        self.office, self.words = office, WORDS.get(office.language, ENGLISH)
        self.has_comma = office.language in COMMA

    def figure(self, name: str, value: object) -> str:
        """Seconds and counts are whole, a share is in percent, with two digits at most."""
        if not isinstance(value, (int, float)):
            return ""
        if name not in SHARES:
            return str(math.floor(value + 0.5))
        text = f"{math.floor(10_000 * value + 0.5) / 100:g}"
        return text.replace(".", ",") if self.has_comma else text

    def lines(self, table: Table, told: Told) -> Iterable[list[str]]:
        yield [self.words[f"head.{head}"] for head in (*table.heads, *table.figures)]
        figures = [("level_of_answered" if name == "level" and self.office.counts_answered_alone else name)
                   for name in table.figures.values()]
        for line in told.lines:
            key = str(line["key"])
            name = self.office.names[table.kind].get(key) or told.names.get(key) or key
            first = [sheets.guarded(name, True), sheets.guarded(key, False)] if table.by == "each" else [key]
            yield first + [self.figure(name, line.get(name)) for name in figures]
        first = [self.words["records.all"], *[""] * (len(table.heads) - 1)]
        yield first + [self.figure(name, told.all[name]) for name in figures]

    def text(self, rows: Iterable[list[str]]) -> str:
        out = io.StringIO()
        out.write(sheets.MARK)
        csv.writer(out, delimiter=";" if self.has_comma else ",", lineterminator="\r\n").writerows(rows)
        return out.getvalue()


def report_of(files: Files, office: Office, since: datetime.date, until: datetime.date) -> str | None:
    """The text of a report; None where no day has a file."""
    form, rows, missing = Form(office), list[list[str]](), set[str]()
    for table in TABLES:
        told = added(files, Asked(table.kind, since, until, table.by))
        missing.update(told.missing, told.others, told.unread)
        if told.all["days"]:
            rows += [[], *form.lines(table, told)]
    if not rows:
        return None
    head = [[form.words["report.title"], week_of(since), f"{since} – {until}", office.title]]
    if missing:
        head.append([form.words["records.missing"], *sorted(missing)])
    return form.text(head + rows)


def write(folder: Path, office: Office, today: datetime.date) -> int:
    """The report of the last week that is over; how many files it wrote."""
    until = today - datetime.timedelta(days=today.isoweekday())
    since = until - datetime.timedelta(days=6)
    text = report_of(Files(folder), office, since, until)
    place = folder / "reports" / f"{week_of(since)}.csv"
    if text is None or place.exists() and place.read_bytes() == text.encode():
        return 0
    place.parent.mkdir(mode=0o750, exist_ok=True)
    put.put(place, text, 0o640)
    return 1
