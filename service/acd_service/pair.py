"""The note beside a desk's file that says which file and which log belong together: F-pair beside F and F-wal.

A file and a log of which only one was exchanged make a mixture of two states. The note has the inode of each and when
that was made, since a file system uses an inode's number again: 'file 131 1800000000.5' and 'log 132 1800000001.25', a
line each. If there was no log, the note says 'log none'.

A stop adds how the desk left them: 'left 20480 1800000002000000000 8416' are the file's size and time, in nanoseconds,
and the log's size. The next start takes that line away. So a log that was removed in between is seen, unless somebody's
program wrote it into the file before.

Each start adds how long it took: 'opened 105500 1.12' are the requests that the file had, and the seconds until the
desk answered."""
import contextlib
import os
import re
import subprocess
from collections.abc import Iterator
from pathlib import Path
from typing import NamedTuple

from acd_service import put

# a log that was emptied, and holds nothing
EMPTY = 41
NONE = "none"
LEFT = "left"
OPENED = "opened"


class Opening(NamedTuple):
    """How many requests a start had to read, and the seconds that it took."""
    kept: int
    seconds: float


def log_of(file: Path) -> Path:
    return Path(f"{file}-wal")


def note_of(file: Path) -> Path:
    return Path(f"{file}-pair")


def holds_something(log: Path) -> bool:
    """Whether it is longer than one that was emptied."""
    return log.exists() and log.stat().st_size > EMPTY


@contextlib.contextmanager
def no_log_left(file: Path) -> Iterator[None]:
    """A program that opens a file without a log makes one, and leaves nothing in it: beside this file it doesn't
    stay."""
    existed = log_of(file).exists()
    try:
        yield
    finally:
        if not existed and not holds_something(log_of(file)):
            log_of(file).unlink(missing_ok=True)


def identity(path: Path) -> str:
    """Which file it is: its inode's number, and when that was made, where the file system says so."""
    done = subprocess.run(["stat", "--format=%i %.9W", "--", path], stdout=subprocess.PIPE, stderr=subprocess.DEVNULL,
                          text=True, env={**os.environ, "LC_ALL": "C"})
    return done.stdout.strip() or NONE


def pair(file: Path) -> dict[str, str]:
    return {"file": identity(file), "log": identity(log_of(file))}


def left(file: Path) -> tuple[int, int, int]:
    """The size and the time of the file, and the size of its log."""
    found, log = os.stat(file), log_of(file)
    return found.st_size, found.st_mtime_ns, log.stat().st_size if log.exists() else 0


def remember(file: Path, is_left: bool = False) -> None:
    """Writes the note of the file and the log that are there now, in place of the last one; it is the file's owner's,
    and on the disk before this returns."""
    opened, lines = read_note(file).get(OPENED), pair(file)
    if is_left:
        lines[LEFT] = " ".join(map(str, left(file)))
    write(file, lines | ({OPENED: opened} if opened else {}))


def write(file: Path, lines: dict[str, str]) -> None:
    owner = os.stat(file)
    put.put(note_of(file), "".join(f"{what} {which}\n" for what, which in lines.items()),
            owner=(owner.st_uid, owner.st_gid) if os.geteuid() == 0 else None)


def remember_opening(file: Path, opening: Opening) -> None:
    """Adds to the note how long the start took, if there is a note."""
    lines = read_note(file)
    if lines:
        write(file, lines | {OPENED: f"{opening.kept} {opening.seconds:.2f}"})


def last_opening(file: Path) -> Opening | None:
    """That of the last start, if this user may read the note, and it says so."""
    said = re.fullmatch(r"(\d{1,15}) (\d{1,9}\.\d\d)", read_note(file).get(OPENED, ""), re.ASCII)
    return Opening(int(said[1]), float(said[2])) if said else None


def read_note(file: Path) -> dict[str, str]:
    """The content of the note; empty if there is none, or none that can be read."""
    try:
        lines = note_of(file).read_text().splitlines()
    except (OSError, ValueError):
        return {}
    return dict(line.partition(" ")[::2] for line in lines)


def is_noted(file: Path) -> bool:
    """Whether the note is that of a start with the two that are there now."""
    return {what: which for what, which in read_note(file).items() if what != OPENED} == pair(file)


def is_split(file: Path) -> bool:
    """Whether the file and its log, which holds something, are of two pairs: the note names both, and exactly one of
    them is another one now."""
    now, then = pair(file), read_note(file)
    named = then.get("file", NONE), then.get("log", NONE)
    if not holds_something(log_of(file)) or now["file"] == NONE or NONE in named:
        return False
    return (now["file"] == then["file"]) != (now["log"] == then["log"])


def lost(file: Path) -> int:
    """The size of a log that held something as the desk was stopped, and is gone, while the file is as it was then:
    nobody wrote the log into it. Else 0."""
    then = read_note(file).get(LEFT, "")
    if holds_something(log_of(file)) or not re.fullmatch(r"\d+ \d+ \d+", then):
        return 0
    *file_then, log_then = map(int, then.split())
    return log_then if log_then > EMPTY and file_then == [*left(file)[:2]] else 0


def is_gone(file: Path) -> bool:
    """Whether the log of the last start isn't there, and no stop has noted what it left, as after a power cut."""
    then = read_note(file)
    return LEFT not in then and then.get("log", NONE) != NONE and not log_of(file).exists()
