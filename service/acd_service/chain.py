"""The archives that a desk's file goes on from. Tested, not proved.

Beside a file F that was pruned is F.archive, the note of its archive, which has what F had up to then:

    archive desk.db-2026-11-28-81234
    last 81234
    digest 5e88...

The archive's name, in F's folder; its last stamp; and its SHA-256. Notes of before 1.17 have a line more, `was`: then
the old F became the archive, and this is its inode, with the moment when that was made. An archive may have such a note
too, so archives are a chain. A folder of copies has each archive once, in the folder `archives`, with its note and its
digest at the time of the copy."""
import contextlib
import hashlib
import os
import re
import sqlite3
import subprocess
import time
from collections.abc import Iterator, Sequence
from dataclasses import dataclass
from pathlib import Path

from acd_service import pair, put
from acd_service.command import Fault

NOTE, DIGEST = ".archive", ".sha256"
# beside a copy that isn't wholly sound: which request was sent again after a cut
AGAIN = ".again"
# the folder beside a file in which acd-carry made, before 1.17, the file that replaced it
BESIDE = ".carry"
FOLDER = "archives"
# the columns of meta that are limits
LIMITS = "max_requests, max_calls, max_groups, max_stations, max_agents, max_monitors"
# what the program ends with where it doesn't know an option
REFUSED = 2


class Broken(Fault):
    """An archive isn't there, or isn't the one that the note names."""


# The note

@dataclass(frozen=True)
class Note:
    name: str
    last: int
    digest: str
    was: str = ""

    def text(self) -> str:
        was = f"was {self.was}\n" if self.was else ""
        return f"archive {self.name}\nlast {self.last}\ndigest {self.digest}\n{was}"


def note_of(file: Path) -> Path:
    return Path(f"{file}{NOTE}")


def read_note(file: Path) -> Note | None:
    """The note beside a file; None if the file continues no archive."""
    try:
        said = dict(line.partition(" ")[::2] for line in note_of(file).read_text().splitlines())
        return Note(said["archive"], int(said["last"]), said["digest"], said.get("was", ""))
    except FileNotFoundError:
        return None
    except (KeyError, ValueError):
        raise Broken(f"{note_of(file)} is no note of an archive") from None


def put_note(file: Path, note: Note) -> None:
    put.put(note_of(file), note.text())


def change_digest(note: Path, name: str, old: str, new: str) -> None:
    """Replaces this digest of this archive in a note by the new one: in place, since a restore knows the note by its
    inode, and within one sector."""
    data = note.read_bytes() if note.is_file() else b""
    if {f"archive {name}".encode(), f"digest {old}".encode()} <= set(data.splitlines()):
        with open(note, "rb+") as out:
            out.seek(data.index(f"digest {old}".encode()))
            out.write(f"digest {new}".encode())
            out.flush()
            os.fsync(out.fileno())


def chain(file: Path, folders: Sequence[Path] = ()) -> list[Note]:
    """The notes of the archives, from the last one back to the oldest that is there. It looks for an archive's note
    beside the file, then in these folders."""
    found: list[Note] = []
    note = read_note(file)
    while note and note.name not in [one.name for one in found]:
        found.append(note)
        places = [folder / note.name for folder in (file.parent, *folders)]
        note = next((one for one in map(read_note, places) if one), None)
    return found


def unfinished(file: Path) -> str | None:
    """How to end a carry-over of before 1.17 that was broken off once the new file was in place; None if there is
    none."""
    folder = Path(f"{file}{BESIDE}")
    note = read_note(folder / file.name)
    if not note or pair.identity(file) == note.was:
        return None
    steps = [f"mv {note_of(folder / file.name)} {note_of(file)}", f"rm -r {folder}"]
    if (folder / file.name).exists():
        steps[:0] = [f"mv {folder / file.name} {file.parent / note.name}"]
    return f"a carry-over of {file} was broken off before 1.17; this ends it: {' && '.join(steps)}"


# The archive

def digest(file: Path) -> str:
    """The SHA-256 of a file's bytes."""
    with open(file, "rb") as has:
        return hashlib.file_digest(has, "sha256").hexdigest()


def name_for(file: Path, last: int, moment: float) -> str:
    """The file's name as an archive: with the day of its last request, in Universal Time, and its stamp."""
    return f"{file.name}-{time.strftime('%Y-%m-%d', time.gmtime(moment))}-{last}"


def is_name(file: Path, name: str) -> bool:
    return re.fullmatch(rf"{re.escape(file.name)}-\d{{4,}}-\d\d-\d\d-\d+", name) is not None


def place(note: Note, *folders: Path) -> Path:
    """The path of an archive, in one of these folders."""
    found = next((folder / note.name for folder in folders if (folder / note.name).is_file()), None)
    if not found:
        raise Broken(f"the archive {note.name} isn't in {' or '.join(map(str, folders))}")
    return found


# Copies of archives

def copies_of(folder: Path) -> Path:
    return folder / FOLDER


def read_digest(copy: Path) -> str:
    return Path(f"{copy}{DIGEST}").read_text().partition(" ")[0]


def put_digest(copy: Path, found: str) -> None:
    """Writes the digest as sha256sum --check reads it."""
    put.put(Path(f"{copy}{DIGEST}"), f"{found}  {copy.name}\n")


def keep(archive: Path, note: Note, copies: Path) -> None:
    """Copies an archive into a folder of copies, if it isn't there; the copy gets its name once it is whole, and has
    its digest."""
    copies.mkdir(mode=0o700, exist_ok=True)
    copy = copies / note.name
    if copy.exists() and Path(f"{copy}{DIGEST}").exists():
        if read_digest(copy) != note.digest:
            raise Broken(f"{copy} is another archive than that which was noted: its digest is another one")
        return
    new = copies / f".{note.name}.new"
    new.unlink(missing_ok=True)
    if subprocess.run(["cp", "--reflink=auto", "--preserve=timestamps", "--", archive, new]).returncode:
        raise Broken(f"{archive} can't be copied into {copies}")
    if digest(new) != note.digest:
        raise Broken(f"{archive} isn't the archive that was noted: its digest is another one")
    with open(new, "rb") as has:
        os.fsync(has.fileno())
    archive_note = read_note(archive)
    if archive_note:
        put_note(copy, archive_note)
    put_digest(copy, note.digest)
    os.replace(new, copy)
    put.sync_folder(copies)


def look(copies: Path) -> Iterator[str]:
    """The faults of the archives in a folder of copies, a line each."""
    for copy in sorted(copies.iterdir()) if copies.is_dir() else ():
        # an audit by hand leaves a log beside an archive that holds nothing
        is_empty_log = copy.name.endswith("-wal") and not pair.holds_something(copy)
        if copy.name.startswith(".") or copy.name.endswith((NOTE, DIGEST)) or is_empty_log:
            continue
        try:
            if digest(copy) != read_digest(copy):
                yield f"{copy} isn't what was copied: its digest is another one"
        except FileNotFoundError:
            yield f"{copy} has no digest beside it, {copy.name}{DIGEST}"


# Whether a file continues its archive

def immutable(file: Path) -> str:
    """The file's name for SQLite, which then takes no lock, and makes no file beside it."""
    return f"{file.absolute().as_uri()}?immutable=1"


def differences(file: Path, archive: Path) -> str | None:
    """Why a file doesn't continue its archive, as far as SQL shows it: limits, and the rows that both have; None if it
    does. It doesn't check what its newer requests make of the archive's tables."""
    with contextlib.closing(sqlite3.connect(immutable(file), uri=True)) as book:
        book.execute("ATTACH ? AS old", (immutable(archive),))
        ours, theirs = (book.execute(f"SELECT version, {LIMITS} FROM {base}.meta").fetchone()
                        for base in ("main", "old"))
        if ours != theirs:
            return "the limits are others"
        for table, key, last in (("kept", "stamp", "last_stamp"), ("events", "number", "last_event")):
            found = differs(book, table, key, last)
            if found:
                return found
    return None


def differs(book: sqlite3.Connection, table: str, key: str, last: str) -> str | None:
    """The first difference between the rows of a table of both, or a missing row."""
    end, = book.execute(f"SELECT {last} FROM old.meta").fetchone()
    newest, = book.execute(f"SELECT {last} FROM main.meta").fetchone()
    first, most, count = book.execute(
        f"SELECT coalesce(min({key}), ? + 1), coalesce(max({key}), ?), count(*) FROM main.{table}",
        (newest, newest)).fetchone()
    if first > end + 1 or most != newest or count != newest - first + 1:
        return f"its {table} aren't whole"
    both = [f"SELECT * FROM {base}.{table} WHERE {key} BETWEEN {first} AND {end}" for base in ("main", "old")]
    for one, other in (both, both[::-1]):
        found, = book.execute(f"SELECT min({key}) FROM ({one} EXCEPT {other})").fetchone()
        if found is not None:
            return f"{key} {found} of {table} is another one"
    return None


def audited(program: Sequence[str], file: Path, archive: Path, *more: str) -> tuple[int, str] | None:
    """Status and output of the program's audit of a file with its archive, or None if the program has no such audit."""
    done = subprocess.run([*program, "audit", *more, "--file", file, "--archive", archive],
                          stdin=subprocess.DEVNULL, stdout=subprocess.PIPE, stderr=subprocess.STDOUT, text=True)
    return None if done.returncode == REFUSED else (done.returncode, done.stdout)
