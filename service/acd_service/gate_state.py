"""The gate's own files in copies of a desk, and put back: logins, roles, names and the journal of acts, and the parts
of reasons and codes. Tested, not proved.

They are the gate's user's, and a copy is the desk's. So where root asks, each side is read and written by its owner, in
a process of its own: root opens nothing that either of them could have put there. Each copy has the small files. A part
only grows, so that all copies have the parts together, and nothing is taken away from them either way."""
import json
import os
import signal
import stat
import sys
from collections.abc import Callable
from pathlib import Path

from acd_service import command, put, reasons
from acd_service.command import Fault, report

FOLDER = Path("/var/lib/acd-gate")
ACTS = "acts"
FILES = ("users", "roles", "names.json", ACTS)
# their folder in that of a copy; and in one that was handed over the file that says that reasons and codes are missing
BESIDE, LACKS = "gate", "lacks"
# bytes of one of them; seconds in which whoever changes them is done
LARGEST, PATIENCE = 64 << 20, 10
Files = dict[str, str]


def content(file: Path) -> str:
    """That of a plain file of a sensible size."""
    opened = os.open(file, os.O_RDONLY | os.O_NOFOLLOW | os.O_NONBLOCK | os.O_CLOEXEC)
    with open(opened, encoding="utf-8", errors="replace", newline="") as stream:
        found = os.fstat(opened)
        if not stat.S_ISREG(found.st_mode) or found.st_size > LARGEST:
            raise Fault(f"{file} is no file that the gate would have written")
        return stream.read()


def read(folder: Path) -> Files:
    """Those that are there."""
    with put.alone(folder, PATIENCE):
        return {name: content(folder / name) for name in FILES if os.path.lexists(folder / name)}


def write(folder: Path, files: Files) -> Files:
    """Puts these in the place of all that are there. A journal of acts that continues what is put back stays: no act
    is lost."""
    with put.alone(folder, PATIENCE):
        for name in (*FILES, LACKS):
            now = content(folder / name) if os.path.lexists(folder / name) else ""
            if name in files and not (name == ACTS and now.startswith(files[name])):
                put.put(folder / name, files[name])
            elif name not in files and name != ACTS:
                (folder / name).unlink(missing_ok=True)
    return {}


def tried(work: Callable[[], Files]) -> dict[str, Files | str]:
    """What it returned, or its fault."""
    try:
        return {"files": work()}
    except (OSError, Fault) as fault:
        return {"fault": told(fault)}


def told(fault: OSError | Fault) -> str:
    return command.fault_text(fault) if isinstance(fault, OSError) else str(fault)


def by_owner(folder: Path, work: Callable[[], Files]) -> Files:
    """Does this with the rights of the folder's owner, where root asks for it."""
    owner = os.stat(folder)
    return by_user((owner.st_uid, owner.st_gid), folder, work)


def by_user(owner: tuple[int, int], folder: Path, work: Callable[[], Files]) -> Files:
    """The same, with the rights of a user and a group."""
    user, group = owner
    if os.geteuid() != 0 or user == 0:
        return work()
    ends = os.pipe()
    child = os.fork()
    if not child:
        try:
            os.setgroups([])
            os.setgid(group)
            os.setuid(user)
            with open(ends[1], "w", encoding="utf-8") as out:
                json.dump(tried(work), out)
        finally:
            os._exit(0)
    os.close(ends[1])
    with open(ends[0], encoding="utf-8") as came:
        text = came.read()
    os.waitpid(child, 0)
    found = json.loads(text or '{"fault": "it ended early"}')
    if "fault" in found:
        raise Fault(f"{folder}: {found['fault']}")
    files: Files = found["files"]
    return files


# Reasons and codes

def states(folder: Path) -> Files:
    """Of each part, and of what is beside them, its size and when it was written."""
    beside = folder / reasons.FILE
    found = {part.name: os.lstat(part) for part in (*reasons.parts(folder), beside) if os.path.lexists(part)}
    return {name: f"{one.st_size} {one.st_mtime_ns}" for name, one in found.items()}


def part_of(folder: Path, name: str) -> Files:
    """Its bytes, each as a letter."""
    return {name: reasons.whole(folder / name).decode("latin-1")}


def join(folder: Path, name: str, text: str, state: str = "") -> Files:
    """Gives a folder the lines of a part that it lacks. One of copies gets the time of the state too, where it has what
    the gate has; one of the gate keeps its first day."""
    reasons.made_folder(folder)
    data, part = text.encode("latin-1"), folder / name
    with put.alone(folder, PATIENCE):
        has = reasons.whole(part) if os.path.lexists(part) else b""
        wanted = reasons.joined(has, data) if name != reasons.FILE else data if state else has or data
        if wanted != has:
            put.put_bytes(part, wanted)
        if state and wanted == data:
            os.utime(part, ns=(int(state.split()[1]),) * 2)
    return {}


def parts_copied(own: Path, copies: Path, by: Path | None = None) -> bool:
    """Copies what is new of them, by the owner of `by`. Whether all is well."""
    def written(work: Callable[[], Files]) -> Files:
        return by_owner(by, work) if by else work()

    def joined(name: str, text: str, state: str) -> Files:
        copies.mkdir(parents=True, exist_ok=True)
        return join(into, name, text, state)

    gate, into, is_well = own / reasons.FOLDER, copies / reasons.FOLDER, True
    try:
        there, has = by_owner(own, lambda: states(gate)), written(lambda: states(into))
    except (OSError, Fault) as fault:
        report(f"reasons and codes aren't copied: {told(fault)}")
        return False
    for name in (name for name, state in there.items() if has.get(name) != state):
        try:
            text = by_owner(own, lambda: part_of(gate, name))[name]
            written(lambda: joined(name, text, there[name]))
        except (OSError, Fault) as fault:
            report(f"reasons and codes aren't copied as a whole: {told(fault)}")
            is_well = False
    return is_well


def give_parts(own: Path | None, copies: Path, owner: tuple[int, int]) -> None:
    """Gives the gate the lines that it lacks, by root or the gate's user, out of the copies of this owner."""
    copied = copies / reasons.FOLDER
    there = by_user(owner, copied, lambda: states(copied)) if own is not None else {}
    if own is None or not there:
        return
    if not own.is_dir():
        return report(f"{own} isn't there: start acd-gate once, and then put the copy back again, for reasons and "
                      "codes")
    if os.geteuid() not in (0, os.stat(own).st_uid):
        return report(f"only root puts reasons and codes back: those of {copied} stay there")
    into = own / reasons.FOLDER
    for name in there:
        try:
            text = by_user(owner, copied, lambda: part_of(copied, name))[name]
            by_owner(own, lambda: join(into, name, text))
        except (OSError, Fault) as fault:
            report(f"{name}: its reasons and codes aren't put back: {told(fault)}")
    command.say(f"Reasons and codes of {copied} are in {into}")


# A copy

def hand_over(own: Path, into: Path, copies: Path) -> None:
    """Copies them into a folder of another user, who makes a copy then, and what is new of reasons and codes among the
    copies."""
    is_well = not own.is_dir() or parts_copied(own, copies, into)
    files = by_owner(own, lambda: read(own)) if own.is_dir() else {}
    by_owner(into, lambda: saved(into / BESIDE, files if is_well else files | {LACKS: "reasons and codes\n"}))


def saved(folder: Path, files: Files) -> Files:
    """Writes them into a folder of this user's, made for it."""
    folder.mkdir(mode=0o700, exist_ok=True)
    return write(folder, files)


def copied(own: Path | None, new: Path, has_to: bool) -> bool:
    """Copies them into the folder of a new copy. Whether all is well: where they have to be there, they are."""
    if own is None or not (has_to or os.path.lexists(own)):
        return True
    try:
        files = read(own)
    except (OSError, Fault) as fault:
        report(f"the copy lacks the logins and names that the office gave: {told(fault)}"
               + ("" if has_to else "; systemctl start acd-copy copies them too"))
        return not has_to
    if files:
        saved(new / BESIDE, files)
    if os.path.lexists(own / LACKS):
        report("reasons and codes aren't copied as a whole: lines before this one say why")
        return False
    return parts_copied(own, new.parent)


# A restore

def readable(own: Path) -> Files | None:
    """None where this user can't read them."""
    try:
        return by_owner(own, lambda: read(own))
    except (OSError, Fault):
        return None


def beside(own: Path | None, work: Callable[[Files | None], Files | None], after: Callable[[], None]) -> None:
    """Does a restore, which becomes the desk's user, writes into the gate's folder what it found for that, and then
    does what comes after it. `work` gets the files of now, None where there is no such folder or this user can't read
    it."""
    now = None if own is None else readable(own)
    if own is None or now is None or os.geteuid() != 0 or os.stat(own).st_uid == 0:
        put_back(own if now is not None else None, work(now))
        return after()
    ends = os.pipe()
    child = os.fork()
    if not child:
        os.close(ends[0])
        found = work(now)
        with open(ends[1], "w", encoding="utf-8") as out:
            json.dump(found, out)
        return
    os.close(ends[1])
    for one in command.ENDING:
        signal.signal(one, lambda number, _: os.kill(child, number))
    with open(ends[0], encoding="utf-8") as came:
        text = came.read()
    status = os.waitstatus_to_exitcode(os.waitpid(child, 0)[1])
    if status < 0:
        raise Fault(f"signal {-status} ended it; the same command again ends what it began")
    if status == 0:
        put_back(own, json.loads(text))
        after()
    sys.exit(status)


def put_back(own: Path | None, files: Files | None) -> None:
    if files is None:
        return
    if own is None:
        report("the logins and names that the office gave are as before: root puts them back, into the folder that "
               "--own names")
        return
    put_into(own, files)


def put_into(own: Path, files: Files) -> None:
    by_owner(own, lambda: write(own, files))
    command.say(f"Put the logins and names that the office gave into {own}")


def of_copy(folder: Path) -> Files | None:
    """Those beside a copy, or put away by a restore; None where it has none."""
    return read(folder / BESIDE) if (folder / BESIDE).is_dir() else None
