"""Files of records, a day each, for those who may read them: an office reads a whole file, a lead the lines of its
groups. Unproved."""
import csv
import io
import re
from pathlib import Path
from typing import Literal

KINDS = ("records", "agents", "groups")
# and of days that were counted by other formulas
APART = tuple(f"by-stay/{kind}" for kind in KINDS)
NAME = r"(?:by-stay/)?(?:records|agents|groups)/[0-9]{4}-[0-9]{2}-[0-9]{2}\.csv"


def days_of(folder: Path | str, kind: str) -> list[str]:
    return sorted(file.stem for file in Path(folder, kind).glob("*.csv") if re.fullmatch(NAME, f"{kind}/{file.name}"))


def days(folder: Path | str) -> dict[str, list[str]]:
    """The days of which there is a file, by kind; those of other formulas apart, where there are some."""
    return {kind: found for kind in (*KINDS, *APART) if (found := days_of(folder, kind)) or kind in KINDS}


def content(folder: Path | str, name: str, groups: frozenset[str] | None) -> bytes | Literal[False] | None:
    """A file's bytes; with groups the lines that have one of them in the column `group` or `groups`. None if there is
    no such file, and False if a lead may read nothing of it, since it has no such column."""
    if not re.fullmatch(NAME, name):
        return None
    try:
        data = Path(folder, name).read_bytes()
    except OSError:
        return None
    return data if groups is None else of_groups(data, groups)


def of_groups(data: bytes, groups: frozenset[str]) -> bytes | Literal[False]:
    lines = csv.reader(io.StringIO(data.decode("utf-8", "replace"), newline=""))
    head: list[str] = next(lines, [])
    # files for a spreadsheet have a mark before all, and a quote before what it would change
    columns = [place for place, name in enumerate(head) if name.removeprefix("\ufeff") in ("group", "groups")]
    if not columns:
        return False
    out = io.StringIO()
    into = csv.writer(out, lineterminator="\r\n" if b"\r\n" in data else "\n")
    into.writerow(head)
    for line in lines:
        named = [line[column].removeprefix("'").split() for column in columns if column < len(line)]
        if any(not groups.isdisjoint(each) for each in named):
            into.writerow(line)
    return out.getvalue().encode()
