"""Takes a desk's old requests out of its file, once an archive has them. Tested, not proved.

The archive is a copy of the file: the newest good one while a desk serves, else one that is made now. It is audited,
and `acd prune`, which is proved, is tried on a copy of it. Where something would go, the archive gets its place beside
the file, with the note of the archive before it, and then the file's note names it: all of this while a desk may serve.
Then `acd prune` takes out of the file what is old. It audits file and archive before it writes, and is run again as
long as there is more to go. Whenever this is broken off, the file is as it was or pruned, and goes on from the archive
that its note names.

Over the service, acd-prune.service runs four commands: --prepare beside the desk, --stop by root, --prepared, and
--start by root, whatever the result. Since nobody is answered meanwhile, --prepared takes no more steps than it has
time for, and later nights do the rest, by the same archive as long as that has a whole step."""
import argparse
import contextlib
import math
import os
import re
import shutil
import sqlite3
import subprocess
import sys
import tempfile
import time
from collections.abc import Iterator, Sequence
from pathlib import Path
from typing import NoReturn

from acd_service import audit, chain, command, copy, held, pair, restoring, settings, unit
from acd_service.command import Fault, say
from acd_service.halt import desks_over
from acd_service.pair import log_of
from acd_service.restoring import name_of, sync

ABOUT = "Takes the desk's old requests out of its file, once an archive has them."
# the fewest requests that stay, as the program has it, and what days are
LEAST, DAYS = 1000, command.whole_number(1, 36500)
NOTHING = "nothing to prune"
PRUNED = re.compile(r"pruned up to request (\d+)(, more to go)?")
# so many seconds the steps of --prepared take together, unless the first one takes longer; and what is said then
LONGEST = 10.0
REST = "more to go: the next run goes on, since nobody is answered meanwhile"
# by these systemd tells, of --prepare, a night on which nothing is to be pruned from one on which something has to be
# mended; and what the command ended with where it had nothing to do, while it was called carry
PASS_OVER, MEND, DID_NOTHING = 1, 255, 3
# folders that nobody needs after a start, and that the next start over the same file clears away
SCRATCH = ".prune."
AT_ONCE = "is pruned or put back, or a caller is forgotten in its archives,"


# The desk's program

def run(program: Sequence[str], file: Path, archive: Path, much: Sequence[str]) -> str:
    """What the program says that it pruned; raises Fault, with the program's line, where it pruned nothing for another
    reason than that nothing is old."""
    with pair.no_log_left(archive):
        done = subprocess.run([*program, "prune", "--file", file, "--archive", archive, *much],
                              stdin=subprocess.DEVNULL, stdout=subprocess.PIPE, stderr=subprocess.STDOUT, text=True)
    said = "; ".join(done.stdout.splitlines())
    if done.returncode or said != NOTHING and not PRUNED.fullmatch(said):
        ended = f"acd prune was ended by signal {-done.returncode}"
        raise Fault(f"{ended if done.returncode < 0 else said}; {file} wasn't pruned")
    return said


def last_gone(said: str) -> int:
    """The request up to which it pruned; 0 where it pruned nothing."""
    found = PRUNED.fullmatch(said)
    return int(found[1]) if found else 0


def has_more(said: str) -> bool:
    found = PRUNED.fullmatch(said)
    return bool(found and found[2])


def prune(file: Path, archive: Path, much: Sequence[str], program: str, longest: float = math.inf) -> str:
    """Prunes a file that no program has open, step by step, as long as one more that takes as long as the last one is
    over within so many seconds; what was said last."""
    restoring.refuse_beside(file)
    begun, said, goes_on = time.monotonic(), NOTHING, True
    while goes_on:
        before, last = time.monotonic(), last_gone(said)
        said = run([program], file, archive, much)
        say(said)
        if 0 < last_gone(said) <= last:
            raise Fault(f"{program} doesn't get on with {file}: it pruned up to request {last} before")
        now = time.monotonic()
        goes_on = has_more(said) and now - begun + now - before <= longest
    if has_more(said):
        say(REST)
    return said


# The archive

def newest_copy(file: Path, copies: Path) -> Path:
    """The folder of the newest good copy, which is to be of this file: one of before a restore has another history."""
    good = [path for path in copies.glob("*Z") if re.fullmatch(copy.NAMED, path.name) and (path / file.name).is_file()]
    if not good or copy.noted(copies)[1] != copy.which(file):
        what = f"the newest good copy in {copies} is of another file than {file} is now" if good else (
            f"there is no good copy of {file} in {copies}")
        raise Fault(f"{what}: systemctl start acd-copy; nothing was changed")
    return max(good)


def copied(file: Path, copies: Path, folder: Path, program: str) -> Path:
    """Copies the newest good copy of a file that a desk has open, else the file, into a folder: audited with the
    archive that the copy continues, without a log, and on the disk."""
    if desks_over(file):
        for part in (source := newest_copy(file, copies)).iterdir():
            if part.name in (file.name, log_of(file).name, chain.note_of(file).name):
                copy.take(part, folder / part.name)
    else:
        source = file
        copy.taken(file, folder, 0)
    made = folder / file.name
    note = chain.read_note(made)
    archive = chain.place(note, file.parent, chain.copies_of(copies)) if note else None
    found = audit.audited(made, archive, program)
    if not found.is_good():
        raise Fault(f"{source} isn't sound: the audit says '{found.said}'; nothing was changed")
    if found.verdict == audit.AGAIN:
        say(found.said)
    log_of(made).unlink(missing_ok=True)
    made.chmod(file.stat().st_mode & 0o666)
    sync(made, folder)
    return made


def end_of(file: Path) -> tuple[int, int]:
    """Stamp and moment of the last request that a file without a log has executed."""
    with contextlib.closing(sqlite3.connect(chain.immutable(file), uri=True)) as book:
        stamp, moment = book.execute("SELECT last_stamp, last_moment FROM meta").fetchone()
    return stamp, moment


def archived(file: Path, made: Path, last: int, moment: int) -> Path:
    """Gives a copy its place as an archive, with the file's note of before; and then the file's note names it."""
    archive, before = file.parent / chain.name_for(file, last, moment), chain.read_note(file)
    for part in (archive, chain.note_of(archive), log_of(archive)):
        if os.path.lexists(part):
            raise Fault(f"{part} is there already; nothing was changed")
    # by its name in the folder the next start knows what this one may have left
    named = made.rename(made.with_name(archive.name))
    if before:
        chain.put_note(archive, before)
    os.link(named, archive)
    sync(archive.parent)
    chain.put_note(file, chain.Note(archive.name, last, chain.digest(archive)))
    return archive


def is_pruned(file: Path, said: str) -> bool:
    """Whether nothing goes up to the request that was said, since the file begins after it. Of a file that a desk
    writes just now nobody can tell."""
    try:
        with contextlib.closing(sqlite3.connect(chain.immutable(file), uri=True)) as book:
            first, = book.execute("SELECT min(stamp) FROM kept").fetchone()
    except sqlite3.Error:
        first = None
    return said == NOTHING or first is not None and last_gone(said) < first


def tried(file: Path, made: Path, archive: Path, much: Sequence[str], program: str) -> str:
    """What `acd prune` says of a second copy: of the first step that the file itself still wants, where it was pruned
    after the first copy."""
    second = Path(tempfile.mkdtemp(dir=made.parent)) / file.name
    shutil.copyfile(made, second)
    said = run(audit.quietly(program), second, archive, much)
    while has_more(said) and is_pruned(file, said):
        said = run(audit.quietly(program), second, archive, much)
    return said


def prepare(file: Path, copies: Path, much: Sequence[str], program: str, for_a_step: bool) -> Path | None:
    """The archive by which a file can be pruned, or at least take a step of that, whose note names it; None where
    nothing is to be pruned. A desk may serve meanwhile."""
    with scratch_of(file) as scratch:
        made, note = copied(file, copies, scratch, program), chain.read_note(file)
        last, moment = end_of(made)
        if note and note.last > last:
            raise Fault(f"the newest good copy is older than {note.name}: systemctl start acd-copy; "
                        "nothing was changed")
        # what the file's own archive has isn't copied again
        own = chain.place(note, file.parent) if note and note.last == last else None
        said = tried(file, made, own or made, much, program)
        if is_pruned(file, said):
            return None
        if for_a_step and note and has_more(said) and last_gone(said) <= note.last:
            own = chain.place(note, file.parent)
        return own or archived(file, made, last, moment)


def noted(file: Path) -> Path:
    """The archive that a file continues."""
    note = chain.read_note(file)
    if not note:
        raise Fault(f"{file} continues no archive; nothing was changed")
    return chain.place(note, file.parent)


# Alone

def clear(file: Path) -> None:
    """Removes the folders that a start left, and an archive of it that got its place and that the file's note doesn't
    name."""
    note = chain.read_note(file)
    for left in file.parent.glob(f"{SCRATCH}{file.name}.*"):
        for made in left.glob(f"{file.name}-*"):
            archive = file.parent / made.name
            if restoring.inode(archive) in (None, restoring.inode(made)) and (not note or note.name != made.name):
                for part in (archive, chain.note_of(archive)):
                    part.unlink(missing_ok=True)
        shutil.rmtree(left)


@contextlib.contextmanager
def scratch_of(file: Path) -> Iterator[Path]:
    """A folder beside a file, for as long as this lasts."""
    clear(file)
    try:
        yield Path(tempfile.mkdtemp(prefix=f"{SCRATCH}{file.name}.", dir=file.parent))
    finally:
        clear(file)


def refuse(file: Path) -> None:
    """Refuses a file that isn't there, that this user may not prune, or whose log is another one's."""
    unfinished = restoring.unfinished(file) or chain.unfinished(file)
    if unfinished:
        raise Fault(unfinished)
    if not file.is_file():
        raise Fault(f"there is no file {file}")
    owner = file.stat().st_uid
    if owner != os.geteuid():
        raise Fault(f"only the user {name_of(owner)} prunes {file}: runuser -u {name_of(owner)} -- acdctl prune")
    if pair.is_split(file):
        raise Fault(f"{log_of(file)} isn't this file's: acdctl ready says what to do; nothing was changed")


def refuse_service(file: Path) -> None:
    """Refuses what acd-prune.service can't stop: one of several machines, and a standby."""
    at = file.parent / "at"
    if at.exists():
        raise Fault(f"{at} says that this is one of several machines: all are pruned at once, by hand; "
                    "nothing was changed")
    for process in held.holders(file):
        if held.unit(process) not in (None, "acd"):
            raise Fault(f"{file} is open in {held.unit(process)}: prune it by hand; nothing was changed")


# The command

def parser() -> command.Parser:
    found = command.Parser(ABOUT)
    copy.add_places(found)
    does = found.add_mutually_exclusive_group()
    does.add_argument("--prepare", action="store_true",
                      help="make the archive beside the desk, and prune nothing; for acd-prune.service")
    does.add_argument("--prepared", action="store_true",
                      help="prune by the archive that the file continues, and make none; for acd-prune.service")
    does.add_argument("--stop", action="store_true",
                      help="stop acd.service and keep it down; by root, for acd-prune.service")
    does.add_argument("--start", action="store_true",
                      help="let acd.service start, and start it if --stop stopped it; by root, for acd-prune.service")
    much = found.add_mutually_exclusive_group()
    much.add_argument("--days", type=DAYS, metavar="N",
                      help="the requests of the last N days stay; that of ACD_CARRY_DAYS, else 2")
    much.add_argument("--keep", dest="requests", type=command.whole_number(LEAST, 999999999), metavar="N",
                      help=f"the last N requests stay, {LEAST} or more, and those of the last hour")
    found.add_argument("--desk", default="acd", metavar="PROGRAM", help="the desk's program; acd unless given")
    found.set_defaults(keep=None, halt=None)
    return found


def read(words: list[str]) -> argparse.Namespace:
    options = parser().parse_args(words)
    if options.stop or options.start:
        if options.file or options.folder:
            raise Fault("--stop and --start are of the unit acd.service, and take no file", status=command.REFUSED)
        # whatever the settings say, the desk is to be started again
        return options
    options.much = ("--keep", str(options.requests)) if options.requests else ("--days", str(days_of(options)))
    return copy.with_settings(options)


def days_of(options: argparse.Namespace) -> int:
    """How many days stay; the setting is that of the desk's own file."""
    has = settings.DEFAULTS if options.file else settings.current()
    try:
        days: int = options.days or DAYS(has["ACD_CARRY_DAYS"])
    except argparse.ArgumentTypeError as fault:
        raise Fault(f"ACD_CARRY_DAYS: {fault}", status=command.REFUSED) from None
    return days


def do_unit(is_stop: bool) -> None:
    if os.geteuid():
        raise Fault("only root stops and starts the desk's unit: systemctl start acd-prune")
    if is_stop:
        unit.stop()
    else:
        unit.start()


def do(options: argparse.Namespace) -> int:
    """Its status."""
    command.end_on_signals()
    os.umask(0o077)
    if options.stop or options.start:
        do_unit(options.stop)
        return 0
    file, program = options.file, shutil.which(options.desk) or options.desk
    refuse(file)
    (refuse_service if options.prepare else restoring.refuse_beside)(file)
    with restoring.alone_in(file.parent, f"{file} {AT_ONCE} just now; nothing was changed"):
        archive = noted(file) if options.prepared else (
            prepare(file, options.folder, options.much, program, options.prepare))
        if not archive:
            say(NOTHING)
            return DID_NOTHING
        if options.prepare:
            say(f"{archive} has all that is to be pruned")
            return 0
        said = prune(file, archive, options.much, program, LONGEST if options.prepared else math.inf)
        return DID_NOTHING if said == NOTHING else 0


def main(words: list[str]) -> NoReturn:
    was_carry, status = command.name.endswith("carry"), command.FAILED
    if was_carry:
        words = ["--prepare" if word == "--look" else word for word in words]
    try:
        command.run(read, do, words)
    except SystemExit as end:
        status = int(end.code or 0)
    except Exception as fault:
        if "--prepare" not in words:
            raise
        command.report(f"{type(fault).__name__}: {fault}; nothing was changed", command.ERROR)
    if "--prepare" in words:
        sys.exit({0: 0, DID_NOTHING: PASS_OVER}.get(status, MEND))
    sys.exit(0 if status == DID_NOTHING and not was_carry else status)
