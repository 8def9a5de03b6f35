"""Databases by stock SQLite, and the texts of which they are made."""
import contextlib
import functools
import sqlite3
from pathlib import Path

FOLDER = Path(__file__).parent


@functools.cache
def parts_of(script):
    """Each part's text, under its name."""
    parts = (each.split("\n", 1) for each in (FOLDER / f"{script}.txt").read_text().removesuffix("\n").split("\n\n"))
    return {head.split(": ", 1)[0]: text for head, text in parts}


def part(script, name):
    return parts_of(script)[name]


def changed(file, *statements):
    """The file, which need not be there, after these; references and checks are kept as the statements keep them."""
    with contextlib.closing(sqlite3.connect(file, isolation_level=None)) as database:
        database.execute("PRAGMA synchronous = OFF")
        for each in statements:
            database.executescript(f"BEGIN; {each}; COMMIT")
    return file if isinstance(file, Path) else Path(file)


def numbers_of(file, text):
    """The wanted number, the question and the number that it has as its answer, of each line."""
    with contextlib.closing(sqlite3.connect(file)) as database:
        for each in text.splitlines():
            wanted, sql = each.split(" ", 1)
            yield int(wanted), sql, (database.execute(sql).fetchone() or [None])[0]


def session_of(text):
    """What is given, the answers, and the numbers that are then there."""
    return ["".join(each.removeprefix(f"{sign} ") + "\n" for each in text.splitlines() if each.startswith(f"{sign} ")) for sign in "><="]
