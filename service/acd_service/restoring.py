"""Puts a copy of a desk's file back in the file's place, and takes that back. Tested, not proved.

Beside the file F a restore makes a folder put-away-DATE-RANDOM. It puts F and its log away into it; the folder `new` in
it has the files that come in their place, until they are there; and its file `state.json` says which is which. From the
first change of F until all is in place F has a second name, or is a link that leads nowhere, and no command opens
either. So each command finds at any moment a whole pair, or can't open F. Each step is on the disk before the next one
begins, and is either done or still to do, whenever the restore was broken off: the same steps finish it, and undo
it."""
import contextlib
import fcntl
import json
import os
import pwd
import secrets
import shutil
import stat
import subprocess
import tempfile
import time
from collections.abc import Callable, Iterable, Iterator
from dataclasses import dataclass, field
from pathlib import Path
from typing import Self, TypedDict

from acd_service import audit, chain, held, pair, put
from acd_service.command import Fault, spoken
from acd_service.pair import log_of

NOWHERE = "/dev/null/"
# SQLite's pending, reserved and shared locks, which the program takes too
LOCKS_AT, LOCKS = 1 << 30, 512
IN, BACK = "restore", "undo"
# the parts of a file: its log, files that SQLite leaves if it was killed, and the note of its archive
PARTS = ("", "-wal", "-journal", "-shm", chain.NOTE)
# the folders that nobody knows of yet, or any more
HALF = ".put-away."
COPY = ("cp", "--reflink=auto", "--preserve=timestamps", "--")


# Files

def inode(path: Path) -> int | None:
    """The inode of a file; None if there is none. It doesn't follow a link."""
    try:
        found = os.lstat(path)
    except FileNotFoundError:
        return None
    return found.st_ino if stat.S_ISREG(found.st_mode) else None


def sync(*paths: Path) -> None:
    for path in paths:
        opened = os.open(path, os.O_RDONLY)
        os.fsync(opened)
        os.close(opened)


def move(source: Path, target: Path) -> None:
    os.rename(source, target)
    sync(*{source.parent, target.parent})


def remove(path: Path) -> None:
    os.unlink(path)
    sync(path.parent)


def is_hidden(file: Path) -> bool:
    """Whether a link that leads nowhere has the file's name."""
    return os.path.islink(file) and os.readlink(file).startswith(NOWHERE)


# Two pairs, of which one is in place

@dataclass
class Pair:
    """A file with its parts, and with the archives that it alone goes on from, by the inodes of those that are there;
    and the folder in which it is while it isn't in place."""
    home: Path
    name: str
    parts: dict[str, int | None] = field(default_factory=dict)

    def at_home(self, part: str = "") -> Path:
        return self.home / f"{self.name}{part}"

    def found(self, file: Path, archives: Iterable[str] = ()) -> None:
        """Reads the inodes of the parts, at this path, with these archives besides those that it has already."""
        more = [f"{name[len(self.name):]}{part}" for name in archives for part in ("", chain.NOTE)]
        self.parts = {part: inode(Path(f"{file}{part}")) for part in dict.fromkeys((*PARTS, *self.parts, *more))}

    def is_at(self, path: Path, part: str = "") -> bool:
        return self.parts.get(part) is not None and inode(path) == self.parts[part]

    def is_at_home(self, part: str = "") -> bool:
        return self.is_at(self.at_home(part), part)

    def is_none(self) -> bool:
        return self.parts[""] is None


def other(path: Path, leaving: Pair) -> Fault:
    return Fault(f"{path} isn't the one any more that it was when this was begun: look at it, and at {leaving.home}")


def hide(file: Path, leaving: Pair, link: str) -> None:
    """Gives the file's name to a link that leads nowhere. By then the file has its name at home too; while it has both
    no command opens it."""
    if is_hidden(file):
        return
    if leaving.is_none():
        if os.path.lexists(file):
            raise other(file, leaving)
        os.symlink(link, file)
        sync(file.parent)
        return
    if not leaving.is_at(file):
        raise other(file, leaving)
    if not leaving.is_at_home():
        os.link(file, leaving.at_home())
        sync(leaving.home)
    new = leaving.home / "nowhere"
    if os.path.lexists(new):
        os.unlink(new)
    os.symlink(link, new)
    move(new, file)


def exchange(file: Path, leaving: Pair, coming: Pair, link: str) -> None:
    """Takes one pair out of its place and puts the other one there. Begun anew it does what is still to do."""
    if coming.is_at(file):
        # the other way was broken off as the file had just got its second name
        if coming.is_at_home():
            remove(coming.at_home())
        return
    if coming.is_none() and not leaving.is_none() and not os.path.lexists(file):
        return
    hide(file, leaving, link)
    beside = {part: Path(f"{file}{part}") for part in dict.fromkeys((*leaving.parts, *coming.parts)) if part}
    for part, path in beside.items():
        if leaving.is_at(path, part):
            move(path, leaving.at_home(part))
        elif os.path.lexists(path) and not coming.is_at(path, part):
            raise other(path, leaving)
    for part, path in beside.items():
        if coming.is_at_home(part):
            move(coming.at_home(part), path)
    if coming.is_none():
        remove(file)
    else:
        move(coming.at_home(), file)


def write_note(file: Path) -> None:
    """Writes the note of which file and which log belong together now. A note that isn't true any more mustn't stay if
    a full disk has no room for another."""
    try:
        pair.remember(file)
    except OSError:
        pair.note_of(file).unlink(missing_ok=True)


# The folder

def unused_name(file: Path, name: str) -> Path:
    """A name beside the file that nothing has."""
    return file.parent / f"{name}-{time.strftime('%Y-%m-%dT%H%M%SZ', time.gmtime())}-{secrets.token_hex(3)}"


class State(TypedDict):
    """What `state.json` has, besides the inodes of both pairs' parts."""
    file: str
    number: int
    moment: str
    way: str
    was_in_place: bool
    old: dict[str, int | None]
    new: dict[str, int | None]


class PutAway:
    """A folder put-away-DATE-RANDOM, and its state: its file, the restore's number, the moment of the copy, the
    direction, whether the new files were ever in place, and both pairs."""

    def __init__(self, folder: Path, file: Path) -> None:
        self.folder, self.file = folder, file
        self.old, self.new = Pair(folder, file.name), Pair(folder / "new", file.name)
        self.number, self.moment, self.way, self.was_in_place = 0, "", IN, False

    def state(self) -> Path:
        return self.folder / "state.json"

    def load(self, said: State) -> Self:
        self.number, self.moment = said["number"], said["moment"]
        self.way, self.was_in_place = said["way"], said["was_in_place"]
        self.old.parts, self.new.parts = said["old"], said["new"]
        return self

    def save(self) -> None:
        """Writes the state in one step, so that there is always a whole one."""
        state: State = {
            "file": self.file.name, "number": self.number, "moment": self.moment, "way": self.way,
            "was_in_place": self.was_in_place, "old": self.old.parts, "new": self.new.parts
        }
        put.put(self.state(), json.dumps(state) + "\n")

    def is_ended(self) -> bool:
        return self.way == IN and not self.new.home.exists()

    def is_untouched(self) -> bool:
        """Whether it was broken off before anything was moved."""
        return self.way == IN and self.new.is_at_home() and not self.old.at_home().exists() and not is_hidden(self.file)

    def advice(self) -> str:
        """How to finish a restore that isn't finished."""
        back = "" if self.way == BACK else f"acdctl restore {self.moment} ends it, "
        does = "ends it" if self.way == BACK else "takes it back"
        return f"the {self.way} of {self.moment} isn't ended: {back}acdctl restore --undo {does}"

    def turn(self) -> None:
        """Turns the direction back, from wherever it was broken off, or from its end, since when there may be other
        files in place."""
        if not self.new.is_at_home():
            self.was_in_place = True
            self.new.found(self.file, unshared_archives(self.file, self.old.at_home()))
            if self.is_ended():
                if not self.old.is_none() and inode(self.old.at_home()) is None:
                    raise Fault(f"{self.folder} hasn't the file any more that was put away")
                self.old.found(self.old.at_home())
        self.way = BACK
        self.save()

    def go(self) -> None:
        """Does the remaining steps."""
        if self.way == BACK:
            self.new.home.mkdir(exist_ok=True)
        leaving, coming = (self.old, self.new) if self.way == IN else (self.new, self.old)
        exchange(self.file, leaving, coming, NOWHERE + spoken(self.advice()))
        if self.file.exists():
            write_note(self.file)

    def forget(self) -> None:
        """Removes the folder; renames it first, so that half a folder doesn't count as one."""
        gone = Path(tempfile.mkdtemp(prefix=HALF, dir=self.file.parent))
        move(self.folder, gone)
        shutil.rmtree(gone)


def folders_of(file: Path) -> Iterator[PutAway]:
    """The folders of this file."""
    for folder in file.parent.glob("put-away-*"):
        one = PutAway(folder, file)
        if one.state().exists():
            said = json.loads(one.state().read_text())
            if said["file"] == file.name:
                yield one.load(said)


def put_away(file: Path) -> list[PutAway]:
    """The folders of this file, by their numbers. It clears away folders that are half made or half removed: no state
    names them."""
    for half in file.parent.glob(f"{HALF}*"):
        shutil.rmtree(half)
    return sorted(folders_of(file), key=lambda one: one.number)


def unfinished(file: Path) -> str | None:
    """How to finish a restore that was broken off while the file was a link that leads nowhere, or had a second name;
    None if there is none."""
    if is_hidden(file):
        return os.readlink(file)[len(NOWHERE):]
    # where it has one name alone, no folder is looked at
    if inode(file) is None or os.stat(file).st_nlink == 1:
        return None
    return next((one.advice() for one in folders_of(file)
                 if inode(file) in (inode(one.old.at_home()), inode(one.new.at_home()))), None)


# Who may, and beside whom

def refuse_beside(file: Path) -> None:
    """A restore isn't for a file that a program has open, or that a desk was started over, whichever it has open."""
    found = [process for process in dict.fromkeys(held.holders(file) + held.desks(file)) if process != os.getpid()]
    if found:
        programs = ", ".join(f"process {process} ({held.printable(process)})" for process in found)
        stops = " && ".join(dict.fromkeys(map(held.stopping, found)))
        raise Fault(f"{file} is open in {programs}: {stops}; nothing was touched")


def name_of(user: int) -> str:
    try:
        return pwd.getpwuid(user).pw_name
    except KeyError:
        return str(user)


def refuse_machines(file: Path) -> None:
    """One of several is fed from their log, from its place on, and an older file would lack what is before that."""
    at = file.parent / "at"
    if at.exists():
        raise Fault(f"{at} says that this is one of several machines: copy another one's folder; nothing was touched")


def owner_of(file: Path) -> tuple[int, int]:
    """The user and the group whose file it is, or would be. Nobody else but root puts a copy back."""
    found = os.lstat(file if os.path.lexists(file) else file.parent)
    if os.geteuid() not in (0, found.st_uid):
        raise Fault(f"only root and the user {name_of(found.st_uid)} put a copy of {file} back")
    return found.st_uid, found.st_gid


def become(user: int, group: int) -> None:
    """All that is made is the owner's, and is made with no more rights than the owner has."""
    if os.geteuid() != user:
        os.setgroups([])
        os.setgid(group)
        os.setuid(user)


@contextlib.contextmanager
def alone_in(folder: Path, busy: str) -> Iterator[None]:
    """Nobody else puts files away in this folder, prunes one, or forgets a caller in one as long as this lasts; else it
    raises a fault of this text."""
    opened = os.open(folder, os.O_RDONLY | os.O_DIRECTORY)
    try:
        fcntl.flock(opened, fcntl.LOCK_EX | fcntl.LOCK_NB)
    except BlockingIOError:
        os.close(opened)
        raise Fault(busy) from None
    try:
        yield
    finally:
        os.close(opened)


@contextlib.contextmanager
def alone(file: Path) -> Iterator[None]:
    """Nobody else puts files away in this folder, and no program opens the file while it is in place."""
    owner = owner_of(file)
    refuse_beside(file)
    become(*owner)
    refuse_machines(file)
    busy = (f"another program, which this user can't see, has {file} open, "
            "or restores it: stop it first; nothing was touched")
    with contextlib.ExitStack() as stack:
        stack.enter_context(alone_in(file.parent, busy))
        if inode(file) is not None:
            has = stack.enter_context(open(file, "rb+", buffering=0))
            try:
                fcntl.lockf(has, fcntl.LOCK_EX | fcntl.LOCK_NB, LOCKS, LOCKS_AT)
            except BlockingIOError:
                raise Fault(busy) from None
        yield


# Archives

def unshared_archives(file: Path, other: Path) -> list[str]:
    """The names of the archives that this file goes on from, and the other one doesn't: those that were made since the
    other one."""
    kept = {note.name for note in chain.chain(other, [file.parent])}
    return [note.name for note in chain.chain(file) if note.name not in kept and chain.is_name(file, note.name)]


def missing_archives(file: Path, copy: Path, new: Path) -> list[str]:
    """Copies into the new file's folder the archives that it goes on from, and that aren't beside the file, if the
    folder of copies has them. Returns their names."""
    copies, made = chain.copies_of(copy.parent), []
    for note in chain.chain(new, [file.parent, copies]):
        if chain.is_name(file, note.name) and not (file.parent / note.name).exists() and (copies / note.name).is_file():
            for part in ("", chain.NOTE):
                source = copies / f"{note.name}{part}"
                if source.exists() and subprocess.run([*COPY, source, new.parent]).returncode:
                    raise Fault(f"{source} can't be copied; nothing was touched")
            made.append(note.name)
    return made


# Both ways

def copy_of(file: Path, copies: Path, moment: str) -> Path:
    """The folder of a copy."""
    copy = copies / moment
    # what begins with a dot is half a copy, or none
    if not moment or moment.startswith(".") or "/" in moment or not (copy / file.name).is_file():
        there = sorted(path.name for path in copies.glob("[!.]*") if (path / file.name).is_file())
        raise Fault(f"there is no copy {moment} of {file.name} in {copies}; there are: {', '.join(there) or 'none'}")
    return copy


def copied(file: Path, copy: Path, home: Path, say: Callable[[str], object]) -> list[str]:
    """Copies the copy, for the owner alone, and audits it as it will be in its place. Returns the names of the archives
    that come with it."""
    home.mkdir()
    new = home / file.name
    for part, target in ((copy / file.name, new), *((at(copy / file.name), at(new)) for at in (log_of, chain.note_of))):
        if part.exists() and subprocess.run([*COPY, part, target]).returncode:
            raise Fault(f"{part} can't be copied; nothing was touched")
    log_existed = log_of(new).exists()
    archives = missing_archives(file, copy, new)
    sync(*home.iterdir(), home)
    try:
        note = chain.read_note(new)
        found = audit.audited(new, chain.place(note, file.parent, home) if note else None)
    except chain.Broken as fault:
        raise Fault(f"{fault}; nothing was touched") from None
    if not found.is_good():
        raise Fault(f"the copy isn't sound: the audit says '{found.said}'; nothing was touched")
    if found.verdict == audit.AGAIN:
        say(found.said)
    # the audit made one, and left nothing in it
    if not log_existed and log_of(new).exists() and log_of(new).stat().st_size <= pair.EMPTY:
        log_of(new).unlink()
    for part in home.iterdir():
        part.chmod(0o600)
    sync(*home.iterdir(), home)
    return archives


def prepared(file: Path, copy: Path, number: int, say: Callable[[str], object]) -> PutAway:
    """Makes a folder beside the file with all the new files; until it gets its name, nobody looks at it."""
    half = PutAway(Path(tempfile.mkdtemp(prefix=HALF, dir=file.parent)), file)
    try:
        archives = copied(file, copy, half.new.home, say)
        half.number, half.moment = number, copy.name
        half.old.found(file, unshared_archives(file, half.new.at_home()))
        half.new.found(half.new.at_home(), archives)
        half.save()
        named = PutAway(unused_name(file, "put-away"), file)
        move(half.folder, named.folder)
    except BaseException:
        shutil.rmtree(half.folder, ignore_errors=True)
        raise
    return named.load(json.loads(named.state().read_text()))


def restore(file: Path, copies: Path, moment: str, say: Callable[[str], object]) -> Path:
    """Puts a copy in the place of the file, or finishes that if it was broken off. Returns the folder of what was put
    away."""
    with alone(file):
        copy = copy_of(file, copies, moment)
        known = put_away(file)
        begun = next((one for one in known if not one.is_ended()), None)
        if begun and begun.is_untouched():
            begun.forget()
            begun = None
        if begun and (begun.way == BACK or begun.moment != moment):
            raise Fault(begun.advice())
        one = begun or prepared(file, copy, 1 + max((one.number for one in known), default=0), say)
        one.go()
        say(f"Restored {moment} into {file}. The previous files are in {one.folder}; "
            "acdctl restore --undo brings them back")
        one.new.home.rmdir()
        sync(one.folder)
        return one.folder


def undo(file: Path, say: Callable[[str], object], leaves: Callable[[Path], object] = lambda put_away: None,
         takes: Callable[[Path], object] = lambda taken_back: None) -> None:
    """Undoes the last restore, or the one that was broken off, or finishes an undo. `leaves` is told of the folder of
    what was put away before that goes, `takes` of that in which the files of meanwhile are."""
    with alone(file):
        known = put_away(file)
        one = next((one for one in known if not one.is_ended()), known[-1] if known else None)
        if not one:
            raise Fault(f"there is no restore to take back: beside {file} is no folder put-away-DATE-RANDOM of it")
        if one.way == IN:
            one.turn()
        one.go()
        was = ""
        if one.was_in_place and any(one.new.home.iterdir()):
            taken = unused_name(file, "taken-back")
            move(one.new.home, taken)
            takes(taken)
            was = f". The files of meanwhile are in {taken}"
        say(f"Took the restore of {one.moment} back: {file} is as before{was}")
        leaves(one.folder)
        one.forget()
