"""Makes a caller's number unknown in the archives that a desk's file goes on from: it replaces the number in all of
them by another one, which is in no file.

It changes each archive in a copy, which it makes anew row by row, so that nothing of the number is left in free pages;
it compares all other content, and audits all files as before. Then the copies replace the archives, one after the
other, and the archives themselves are put away until --confirm. It doesn't touch the desk's file, and a desk may run
over it meanwhile; while that file has the number, it does nothing. It is tested, not proved."""
import argparse
import contextlib
import itertools
import json
import mmap
import os
import re
import secrets
import shutil
import sqlite3
import subprocess
import tempfile
from collections.abc import Iterable, Iterator
from pathlib import Path
from typing import NoReturn, TypedDict

from acd_service import chain, command, held, restoring, settings
from acd_service.archives import HISTORY, opened
from acd_service.book import connected, copied_live, is_open
from acd_service.command import Fault, say
from acd_service.pair import holds_something, log_of
from acd_service.restoring import HALF, sync

LEAST, MOST = 6, 15
# the columns and the members that have a device's number
COLUMNS = {"calls": ("caller", "called"), "connections": ("device",), "events": ("device", "target")}
MEMBERS = ("device", "called", "caller", "to", "group", "groups")
# what an outside number isn't: the columns of what is planned, and of agents
PLANNED = {"acd_groups": "device", "stations": "device", "monitors": "device", "agents": "agent"}
NAMED = {"acd_groups": "name", "agents": "name", "kept": "requester"}
STATE = "forget.json"
# files that nobody needs after a start, and that the next start clears away
SCRATCH = ".forget."
KEPT_BESIDE = ("put-away-*", "taken-back-*", "damaged-*")


def number_of(device: str) -> int:
    """The number as a column has it."""
    return int(f"1{device}")


# Finding a number

def changed(text: str, old: str, new: str) -> str:
    """The text of a request with another number in place of this one; the same text if it doesn't have the number."""
    request = json.loads(text)
    for member in MEMBERS:
        if request.get(member) == old:
            request[member] = new
        elif isinstance(request.get(member), list):
            request[member] = [new if each == old else each for each in request[member]]
    return json.dumps(request, separators=(",", ":"), sort_keys=True)


def requests_with(rows: sqlite3.Connection, device: str) -> sqlite3.Cursor:
    """Stamp and text of each kept request that has the number, as a value of any member."""
    return rows.execute("SELECT stamp, request FROM kept WHERE instr(request, ?) ORDER BY stamp", (f'"{device}"',))


def tables_with(rows: sqlite3.Connection, device: str) -> list[str]:
    """The tables that have the number."""
    found = [table for table, columns in COLUMNS.items() if rows.execute(
        f"SELECT 1 FROM {table} WHERE ? IN ({', '.join(columns)}) LIMIT 1", (number_of(device),)).fetchone()]
    return found + ["kept"] * (next(requests_with(rows, device), None) is not None)


def refuse_others(rows: sqlite3.Connection, file: Path | str, device: str) -> None:
    """Refuses a number that isn't an outside caller's alone: as an agent's, or in a name, it would stay."""
    for table, column in PLANNED.items():
        if rows.execute(f"SELECT 1 FROM {table} WHERE {column} = ? LIMIT 1", (number_of(device),)).fetchone():
            raise Fault(f"{device} isn't an outside caller's number: {table} of {file} has it; nothing was changed")
    for table, column in NAMED.items():
        if rows.execute(f"SELECT 1 FROM {table} WHERE instr({column}, ?) LIMIT 1", (device,)).fetchone():
            raise Fault(f"{device} is in a {column} of {table} in {file}, and would stay there; nothing was changed")
    for stamp, text in requests_with(rows, device):
        if f'"{device}"' in changed(text, device, ""):
            raise Fault(f"{device} is in request {stamp} of {file} as something other than a device, "
                        "and would stay there; nothing was changed")


@contextlib.contextmanager
def read(file: Path, scratch: Path, is_live: bool = False) -> Iterator[sqlite3.Connection]:
    """The rows of a file, which stays as it is."""
    with contextlib.closing(connected(file, scratch, is_live)) as rows:
        yield rows


def is_in_bytes(path: Path, device: str) -> bool:
    """Whether a file's bytes have the number anywhere, as a text of a request has it."""
    with open(path, "rb") as has:
        if not os.fstat(has.fileno()).st_size:
            return False
        with mmap.mmap(has.fileno(), 0, access=mmap.ACCESS_READ) as data:
            return data.find(f'"{device}"'.encode()) >= 0


def holds(file: Path, scratch: Path, device: str) -> bool:
    """Whether a file or its log has the number; it searches a file that isn't a desk's byte by byte."""
    try:
        with read(file, scratch) as rows:
            return bool(tables_with(rows, device))
    except (Fault, sqlite3.Error):
        return any(is_in_bytes(part, device) for part in (file, log_of(file)) if part.is_file())


def others_with(file: Path, archives: Iterable[Path], copies: Path, scratch: Path, device: str) -> Iterator[Path]:
    """The archives from which the file doesn't go on, and the folders of copies and of files that were put away, that
    still have the number."""
    names = {archive.name for archive in archives}
    for one in sorted((*file.parent.glob(f"{file.name}-*"), *chain.copies_of(copies).glob(f"{file.name}-*"))):
        if chain.is_name(file, one.name) and one.name not in names and holds(one, scratch, device):
            yield one
    folders = [folder for pattern in KEPT_BESIDE for folder in file.parent.glob(pattern)
               if not (folder / STATE).exists()]
    folders += [folder for folder in copies.glob("*") if folder.is_dir() and folder.name != chain.FOLDER]
    for folder in sorted(folders):
        files = [one for one in folder.rglob(f"{file.name}*") if one.is_file() and
                 (one.name == file.name or chain.is_name(file, one.name))]
        if any(holds(one, scratch, device) for one in files):
            yield folder


# The archives

def chained(file: Path, copies: Path, named: list[Path]) -> dict[Path, str]:
    """The archives in their order, from the oldest on, with their digests: the named ones, which have to be all, with
    the digests that the notes have."""
    notes = chain.chain(file, [copies])[::-1]
    wanted = {note.name: note.digest for note in notes
              if any((folder / note.name).is_file() for folder in (file.parent, copies))}
    if sorted(path.name for path in named) != sorted(wanted):
        raise Fault(f"{file} continues {', '.join(wanted) or 'no archive'}: name these, each by --archive; "
                    "nothing was changed")
    for path in named:
        if path.is_file() and path.stat().st_dev != file.parent.stat().st_dev:
            raise Fault(f"{path} is on another disk than {file}: put it beside that; nothing was changed")
        if holds_something(log_of(path)) or chain.digest(path) != wanted[path.name]:
            raise Fault(f"{path} isn't the archive that was noted: its digest is another one, or it has a log; "
                        "nothing was changed")
    return {path: wanted[path.name] for path in sorted(named, key=lambda path: list(wanted).index(path.name))}


def alias_for(links: list[tuple[Path, bool]], scratch: Path) -> str:
    """A number that none of the files has."""
    while True:
        alias = "".join(secrets.choice("0123456789") for _ in range(MOST))
        with contextlib.ExitStack() as stack:
            rows = [stack.enter_context(read(file, scratch, is_live)) for file, is_live in links]
            with contextlib.suppress(Fault):
                for each in rows:
                    refuse_others(each, "", alias)
                if not any(tables_with(each, alias) for each in rows):
                    return alias


def replace(new: Path, device: str, alias: str) -> None:
    """Puts the alias in the number's place, in a file that is nobody's yet, and makes the file anew."""
    with open(new, "rb") as has:
        mode = {1: "DELETE", 2: "WAL"}[has.read(19)[18]]
    with contextlib.closing(sqlite3.connect(new, isolation_level=None)) as book:
        for pragma in ("journal_mode = DELETE", "journal_mode = OFF", "synchronous = OFF", "foreign_keys = OFF"):
            book.execute(f"PRAGMA {pragma}")
        for table, columns in COLUMNS.items():
            for column in columns:
                book.execute(f"UPDATE {table} SET {column} = ? WHERE {column} = ?",
                             (number_of(alias), number_of(device)))
        for stamp, text in requests_with(book, device).fetchall():
            book.execute("UPDATE kept SET request = ? WHERE stamp = ?", (changed(text, device, alias), stamp))
        book.execute("VACUUM")
        if mode == "WAL":
            book.execute("PRAGMA journal_mode = WAL")
    sync(new)


def compare(new: Path, archive: Path, device: str, alias: str) -> None:
    """Refuses a new archive unless it has the archive's rows, with the alias in place of the number, and nothing of the
    number."""
    with contextlib.closing(sqlite3.connect(chain.immutable(new), uri=True)) as book:
        book.execute("ATTACH ? AS old", (chain.immutable(archive),))
        book.create_function("changed", 1, lambda text: changed(text, device, alias) if f'"{device}"' in text else text,
                             deterministic=True)
        listed = "SELECT name FROM {}.sqlite_master WHERE type = 'table' ORDER BY name"
        names, new_names = ([name for name, in book.execute(listed.format(of))] for of in ("old", "main"))
        if names != new_names:
            raise Fault(f"{new} has other tables than {archive}; nothing was changed")
        for table in names:
            columns = [name for _, name, *_ in book.execute(f"PRAGMA old.table_info({table})")]
            columns_wanted = ", ".join(wanted(table, column, device, alias) for column in columns)
            ours = book.execute(f"SELECT {', '.join(columns)} FROM main.{table} ORDER BY rowid")
            theirs = book.execute(f"SELECT {columns_wanted} FROM old.{table} ORDER BY rowid")
            if any(one != other for one, other in itertools.zip_longest(ours, theirs)):
                raise Fault(f"{new} has other rows of {table} than {archive}; nothing was changed")
        if tables_with(book, device):
            raise Fault(f"the number is still in {new}; nothing was changed")
    if is_in_bytes(new, device):
        raise Fault(f"the number is still in the bytes of {new}; nothing was changed")


def wanted(table: str, column: str, device: str, alias: str) -> str:
    """The value that a column of the archive has to have in the new file, in SQL."""
    if column in COLUMNS.get(table, ()):
        return f"iif({column} = {number_of(device)}, {number_of(alias)}, {column})"
    return f"changed({column})" if (table, column) == ("kept", "request") else column


# Their audits

def copy_of(file: Path, scratch: Path | str) -> Path:
    """A copy of the desk's file as it is at this moment."""
    folder = Path(tempfile.mkdtemp(dir=scratch))
    if is_open(file):
        return copied_live(file, log_of(file), folder)
    for part in (file, log_of(file)):
        if part.exists():
            shutil.copyfile(part, folder / part.name)
    return folder / file.name


def audits(program: str, links: list[Path]) -> str:
    """The program's audits of copies: of each file with the one before it as its archive. A program without such an
    audit audits all of them as one file."""
    with tempfile.TemporaryDirectory(dir=links[-1].parent) as scratch:
        links = [copy_of(link, scratch) for link in links]
        said = [audit(program, links[0])]
        for archive, file in zip(links, links[1:]):
            answer = chain.audited([program], file, archive)
            if answer is None:
                return audit(program, joined(links, scratch))
            said.append(answer[1].strip())
    return ", ".join(said)


def audit(program: str, file: Path) -> str:
    done = subprocess.run([program, "audit", "--file", file], stdin=subprocess.DEVNULL, stdout=subprocess.PIPE,
                          stderr=subprocess.STDOUT, text=True)
    if not holds_something(log_of(file)):
        log_of(file).unlink(missing_ok=True)
    return done.stdout.strip()


def joined(links: list[Path], scratch: Path | str) -> Path:
    """One file of all: the last one with what only those before it have."""
    made = Path(tempfile.mkdtemp(dir=scratch)) / "joined"
    for source, target in ((links[-1], made), (log_of(links[-1]), log_of(made))):
        if source.exists():
            shutil.copyfile(source, target)
    with contextlib.closing(sqlite3.connect(made.as_uri(), uri=True, isolation_level=None)) as book:
        book.execute("PRAGMA journal_mode = DELETE")
        for archive in links[-2::-1]:
            book.execute("ATTACH ? AS old", (chain.immutable(archive),))
            for table, (key, last, _) in HISTORY.items():
                first = f"SELECT coalesce(min({key}), (SELECT {last} FROM main.meta) + 1) FROM main.{table}"
                book.execute(f"INSERT INTO main.{table} SELECT * FROM old.{table} WHERE {key} < ({first})")
            book.execute("DETACH old")
    return made


# Their places

class Replaced(TypedDict):
    """An archive: its place, its name, and its digests."""
    at: str
    name: str
    old: str
    new: str


class Forgetting:
    """A folder put-away-DATE-RANDOM with the new archives in its folder `new`, and with the old ones that were put
    away; and its state: the place of each archive, and its digests, old and new."""

    def __init__(self, folder: Path) -> None:
        self.folder = folder
        self.state: list[Replaced] = json.loads((folder / STATE).read_text())

    def is_ended(self) -> bool:
        return not (self.folder / "new").exists()

    def go(self, file: Path, copies: Path) -> None:
        """Each step is on the disk before the next one, and the places of the files show the next step, whenever this
        was broken off."""
        for archive in self.state:
            at, new, copy = Path(archive["at"]), self.folder / "new" / archive["name"], copies / archive["name"]
            if new.exists():
                if at != copy:
                    self.put_in_copies(new, copy, archive)
                if not (self.folder / archive["name"]).exists():
                    os.link(at, self.folder / archive["name"])
                    sync(self.folder)
                os.replace(new, at)
                sync(at.parent, new.parent)
            if at == copy:
                chain.put_digest(copy, archive["new"])
            for note in {*file.parent.rglob(f"*{chain.NOTE}"), *copies.parent.rglob(f"*{chain.NOTE}")}:
                chain.change_digest(note, archive["name"], archive["old"], archive["new"])
        (self.folder / "new").rmdir()
        sync(self.folder)

    @staticmethod
    def put_in_copies(new: Path, copy: Path, archive: Replaced) -> None:
        is_noted = copy.is_file() and Path(f"{copy}{chain.DIGEST}").exists()
        if not is_noted or chain.read_digest(copy) != archive["old"]:
            return
        half = copy.with_name(f".{copy.name}.new")
        shutil.copyfile(new, half)
        half.chmod(0o600)
        sync(half)
        os.replace(half, copy)
        sync(copy.parent)
        chain.put_digest(copy, archive["new"])


def forgettings(file: Path) -> list[Forgetting]:
    """The folders of this file that are there."""
    for half in file.parent.glob(f"{HALF}*"):
        shutil.rmtree(half)
    return [Forgetting(folder) for folder in sorted(file.parent.glob("put-away-*")) if (folder / STATE).exists()]


def made(file: Path, archives: dict[Path, str], folder: Path) -> Forgetting:
    """The folder gets its state, and then its name: nobody knows of it before."""
    state: list[Replaced] = [{"at": str(archive), "name": archive.name, "old": digest,
                              "new": chain.digest(folder / "new" / archive.name)}
                             for archive, digest in archives.items()]
    (folder / STATE).write_text(json.dumps(state) + "\n")
    sync(folder / STATE, folder / "new", folder)
    named = restoring.unused_name(file, "put-away")
    restoring.move(folder, named)
    return Forgetting(named)


def prepared(file: Path, archives: dict[Path, str], device: str, program: str, scratch: Path) -> Forgetting:
    """The folder with the new archives, whole, compared and audited."""
    folder = Path(tempfile.mkdtemp(prefix=HALF, dir=file.parent))
    try:
        (folder / "new").mkdir()
        links = [folder / "new" / archive.name for archive in archives]
        for archive, new in zip(archives, links):
            shutil.copyfile(archive, new)
            new.chmod(archive.stat().st_mode & 0o666)
        desk = copy_of(file, scratch)
        old_audits = audits(program, [*links, desk])
        alias = alias_for([*((archive, False) for archive in archives), (file, True)], scratch)
        for archive, new in zip(archives, links):
            replace(new, device, alias)
            compare(new, archive, device, alias)
        opened(desk, links, scratch).close()
        new_audits = audits(program, [*links, desk])
        if new_audits != old_audits:
            raise Fault(f"the audit says '{new_audits}' of what was made, and '{old_audits}' of what is there; "
                        "nothing was changed")
        say(f"the audit says '{new_audits}' of the new archives with {file}, as before")
        return made(file, archives, folder)
    except BaseException:
        shutil.rmtree(folder, ignore_errors=True)
        raise


@contextlib.contextmanager
def alone(file: Path) -> Iterator[None]:
    """Nobody else puts files away in this folder, or prunes the file."""
    restoring.become(*restoring.owner_of(file))
    unfinished = restoring.unfinished(file) or chain.unfinished(file)
    if unfinished:
        raise Fault(unfinished)
    with restoring.alone_in(file.parent, f"{file} is pruned, or put back, just now; nothing was changed"):
        for left in file.parent.glob(f"{SCRATCH}*"):
            shutil.rmtree(left)
        yield


def forget(file: Path, copies: Path, named: list[Path], device: str, program: str, scratch: Path) -> None:
    for left in forgettings(file):
        if not left.is_ended():
            left.go(file, copies)
            say(f"Finished what was interrupted: the old archives are in {left.folder}")
    archives = chained(file, copies, named)
    # that they go on from each other
    opened(file, archives, scratch, is_live=True).close()
    found: dict[Path, list[str]] = {}
    for link in (file, *archives):
        with read(link, scratch, is_live=link == file) as rows:
            refuse_others(rows, link, device)
            found[link] = tables_with(rows, device)
            if found[file]:
                raise Fault(f"{device} is still in {file} ({', '.join(found[file])}). The first prune two days or more "
                            "after its last call removes it; nothing was changed")
    if any(found.values()):
        done = prepared(file, archives, device, program, scratch)
        done.go(file, copies)
        say(f"Removed {device} from all archives. The old ones are in {done.folder}; delete them with acdctl forget "
            "--confirm")
    else:
        say(f"{device} is in no archive")
    for place in others_with(file, archives, copies.parent, scratch, device):
        say(f"{device} is still in {place}")
    if any(is_in_bytes(part, device) for part in (file, log_of(file)) if part.is_file()):
        say(f"{device} is still in free pages of {file}: compact it ('Make the file smaller' in PRUNING.md)")


def confirm(file: Path) -> None:
    for left in forgettings(file):
        if not left.is_ended():
            raise Fault(f"{left.folder} isn't ended: the same acdctl forget --caller once more ends it")
        gone = Path(tempfile.mkdtemp(prefix=HALF, dir=file.parent))
        restoring.move(left.folder, gone)
        shutil.rmtree(gone)
        say(f"gone: {left.folder}")


# The command

def caller(text: str) -> str:
    if not re.fullmatch(f"[0-9]{{{LEAST},{MOST}}}", text):
        raise argparse.ArgumentTypeError(f"'{text}' isn't a number of {LEAST} to {MOST} digits")
    return text


def parser() -> command.Parser:
    found = command.Parser("Makes a caller's number unknown in the archives that a desk's file continues.")
    does = found.add_mutually_exclusive_group(required=True)
    does.add_argument("--caller", type=caller, metavar="N", help=f"the number, of {LEAST} digits or more")
    does.add_argument("--confirm", action="store_true", help="remove the archives that were put away")
    found.add_argument("--archive", action="append", default=[], type=Path, metavar="A",
                       help="an archive that the file continues; all of them must be named")
    settings.add_file(found)
    found.add_argument("--folder", type=Path, metavar="COPIES",
                       help="the folder of the copies; copies beside the file unless given")
    found.add_argument("--desk", default="acd", metavar="PROGRAM", help="the desk's program; acd unless given")
    return found


def read_words(words: list[str]) -> argparse.Namespace:
    options = parser().parse_args(words)
    options.file = held.place(options.file)
    options.archive = [held.place(archive) for archive in options.archive]
    options.folder = chain.copies_of(Path(os.path.abspath(options.folder or options.file.parent / "copies")))
    return options


def do(options: argparse.Namespace) -> None:
    os.umask(0o077)
    try:
        with alone(options.file), tempfile.TemporaryDirectory(prefix=SCRATCH, dir=options.file.parent) as scratch:
            if options.confirm:
                confirm(options.file)
            else:
                forget(options.file, options.folder, options.archive, options.caller,
                       shutil.which(options.desk) or options.desk, Path(scratch))
    except ValueError as fault:
        raise Fault(fault) from None


def main(words: list[str]) -> NoReturn:
    command.run(read_words, do, words)
