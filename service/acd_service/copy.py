"""Copies a desk's file with its log, audits the copy, and clears old copies away. Puts a copy back, and takes that
back.

It copies the file while the desk runs, and then halts the desk for its log: if nothing wrote to the file meanwhile,
both are what a power cut would leave, and every answered request is in them. A copy whose name is its moment alone is
good, and has no fewer requests than the copy before. It keeps all other copies beside these for a look, ends with
status 1, and clears no old copy away. It audits a file that was pruned with its archive, and copies each archive once.
It is tested, not proved."""
import argparse
import calendar
import contextlib
import os
import re
import shutil
import subprocess
import tempfile
import time
from collections.abc import Iterator
from pathlib import Path
from typing import NoReturn

from acd_service import audit, chain, command, gate_state, held, last_copy, put, restoring, settings
from acd_service.command import Fault, report, say
from acd_service.halt import Desk, Missed, desks_over, halted
from acd_service.pair import identity, log_of
from acd_service.restoring import name_of, sync

ABOUT = "Copies the desk's file while the desk runs, audits the copy, and clears old copies away."
NGINX = Path("/etc/nginx")
DATE, MOMENT = "YYYY-MM-DD", "%Y-%m-%dT%H%M%SZ"
NAMED = r"\d{4}-\d\d-\d\dT\d{6}Z"
DAY = 86400
# for how many seconds the desk is halted for its log; for how many a copy is tried before the desk is halted for all of
# it, and the pauses between
BRIEF, PATIENCE, PAUSE, LONGEST = 2, 600, 0.1, 60
# seconds after which a later write of a file has another time, and where the file system counts whole ones
TICK, SECOND = 0.1, 2.1
# the most copies of one day that stay
MOST = 20
# the note in a folder of copies that says how many requests the last good one has, and of which file it is
EXECUTED = "executed"
# seconds from which on a copy takes long, and how many bytes are compared at once
SLOW, BLOCK = 1, 1 << 20
CHANGED = "its file was written, or moved, while it was copied"
LONGER = "the desk was halted, and its copy takes longer"


# of a file its device and inode, its size, and when it was written
State = tuple[int, int, int, int]


# A copy

def sources(file: Path, desk: Desk | None) -> dict[str, Path]:
    """The file and its log, each with its name in the copy: by their paths or, if one was removed or moved from under
    the desk, as the desk has them open."""
    found: tuple[Path | None, Path | None] = file, log_of(file)
    if desk and desk.moved:
        has = held.opened(desk.process)
        found = (next((one.at for one in has if one.is_database()), None),
                 next((one.at for one in has if not one.is_database()), None))
        if not found[0]:
            raise Fault(f"the desk, process {desk.process}, has no file open that could be copied")
    return {name: part for name, part in zip((file.name, log_of(file).name), found) if part}


def state(part: Path) -> State | None:
    """Which file it is, its size, and when it was written; None if there is none."""
    try:
        found = os.stat(part)
    except FileNotFoundError:
        return None
    return found.st_dev, found.st_ino, found.st_size, found.st_mtime_ns


def settled(part: Path) -> State | None:
    """The same, of a file that was written so long ago that a later write has another time."""
    found = state(part)
    written = found[-1] if found else 0
    rest = SECOND if written % 10**9 == 0 else TICK
    if 0 <= time.time() - written / 10**9 < rest:
        time.sleep(rest)
        if state(part) != found:
            raise Missed(CHANGED)
    return found


@contextlib.contextmanager
def unchanged(parts: dict[str, Path]) -> Iterator[None]:
    """Nothing writes to them as long as this lasts."""
    before = [state(part) for part in parts.values()]
    yield
    if [state(part) for part in parts.values()] != before:
        raise Missed(CHANGED)


def refresh(part: Path, made: Path, end: float | None) -> None:
    """Makes an earlier copy of a part what that is now: it writes only what differs."""
    with open(part, "rb") as source, open(made, "rb+") as copy:
        while block := source.read(BLOCK):
            if end and time.monotonic() > end:
                raise Missed(LONGER)
            old = copy.read(len(block))
            if block != old:
                copy.seek(-len(old), os.SEEK_CUR)
                copy.write(block)
        copy.truncate()


def take(part: Path, made: Path, end: float | None = None) -> None:
    """Copies a part, if it is there, by this moment."""
    if not os.path.exists(part):
        return
    if made.exists():
        return refresh(part, made, end)
    try:
        done = subprocess.run(["cp", "--reflink=auto", "--preserve=timestamps", "--", part, made],
                              timeout=end and max(end - time.monotonic(), 0))
    except subprocess.TimeoutExpired:
        raise Missed(LONGER) from None
    if done.returncode:
        raise Fault("the copy wasn't made whole; no copy is kept")


def halting(desk: Desk | None, seconds: float) -> contextlib.AbstractContextManager[float | None]:
    return halted(desk, seconds) if desk else contextlib.nullcontext()


def copied(parts: dict[str, Path], desk: Desk | None, new: Path, seconds: float, running: int) -> int:
    """Copies so many of the parts while the desk runs, of which none may have changed by the end, and the others while
    it is halted, for so many seconds at most: they are what a power cut would have left. Returns for how many
    milliseconds the desk was halted."""
    early, late = list(parts.items())[:running], list(parts.items())[running:]
    before = [settled(part) for _, part in early]
    for name, part in early:
        take(part, new / name)
    begin = time.monotonic()
    with halting(desk, seconds) as end, unchanged(parts):
        if [state(part) for _, part in early] != before:
            raise Missed(CHANGED)
        for name, part in late:
            take(part, new / name, end)
    if not (new / next(iter(parts))).exists():
        raise Missed(CHANGED)
    return round((time.monotonic() - begin) * 1000)


def tried(file: Path, desk: Desk | None, new: Path, seconds: float | None) -> int:
    """Copies the file with its log, and with the note of the archive that the file continues. Returns for how long the
    desk was halted: for so many seconds at most or, where this says none, for no more than its log needs."""
    parts, note = sources(file, desk), chain.note_of(file)
    take(note, new / note.name)
    if not desk:
        return copied(parts, None, new, 0, len(parts))
    return copied(parts, desk, new, seconds, 0) if seconds else copied(parts, desk, new, BRIEF, 1)


def taken(file: Path, new: Path, seconds: int) -> Desk | None:
    """Tries it until nothing writes to the file meanwhile, and at last with a desk that is halted for all of it.
    Returns the desk that runs over the file, if one does."""
    last, pause, tries, is_slow = time.monotonic() + PATIENCE, PAUSE, 0, False
    why: Missed | None = None
    while True:
        desk, begin = next(iter(desks_over(file)), None), time.monotonic()
        is_last = tries > 0 and begin >= last
        if is_last and not seconds:
            raise Fault(f"{why}, {tries} times, and ACD_HALT=0 says that the desk isn't halted for all of it; "
                        "no copy is kept")
        try:
            halt = tried(file, desk, new, seconds if is_last else None)
            if desk:
                because = f", for all of the copy: {why}, {tries} times" if is_last else ""
                say(f"the desk was halted for {halt} ms{because}")
            return desk
        except Missed as missed:
            why, tries = missed, tries + 1
        if not desk or is_last:
            how = f", {tries} times, at last with the desk halted for up to {seconds} s (ACD_HALT)" if is_last else ""
            raise Fault(f"{why}{how}; no copy is kept")
        # a file whose copy takes long is made what it is by then, which is quicker
        is_slow = is_slow or time.monotonic() > begin + SLOW
        for half in new.iterdir():
            if not (is_slow and half.name == file.name):
                half.unlink()
        time.sleep(max(0, min(pause, last - time.monotonic())))
        pause = min(2 * pause, LONGEST)


def which(file: Path) -> dict[str, str]:
    return {"device": str(os.stat(file).st_dev), "inode": identity(file)}


def noted(folder: Path) -> tuple[int, dict[str, str] | None]:
    """How many requests the last good copy had, and of which file it is; of none if nothing says so."""
    try:
        then = dict(line.partition(" ")[::2] for line in (folder / EXECUTED).read_text().splitlines())
        return int(then.pop("executed")), then
    except (FileNotFoundError, KeyError, ValueError):
        return 0, None


def counted(folder: Path, file: Path, executed: int) -> str | None:
    """Looks how many requests the last sound copy had of the same file, or of one that it goes on from. Returns a line
    if this one has fewer; else writes down its number."""
    same, (before, then) = which(file), noted(folder)
    earlier = [{**same, "inode": archive.was} for archive in chain.chain(file, [chain.copies_of(folder)])]
    if then in (same, *earlier) and executed < before:
        return f"the copy has {executed} executed requests, and the last one of the same file had {before}"
    if then not in (None, same, *earlier):
        say(f"this is another file than that of the last copy, which had {before} executed requests: counted anew, "
            f"from {executed}")
    lines = (f"{name} {value}\n" for name, value in {"executed": str(executed), **same}.items())
    put.put(folder / EXECUTED, "".join(lines))
    return None


def kept(new: Path, folder: Path, name: str) -> Path:
    """The copy's folder under its name; of two that are made in one second the later one waits."""
    while (folder / name.format(time.strftime(MOMENT, time.gmtime()))).exists():
        time.sleep(0.1)
    made = folder / name.format(time.strftime(MOMENT, time.gmtime()))
    os.rename(new, made)
    sync(folder)
    return made


class Aside(Fault):
    """A copy was made, and isn't a good one; the verdict is of those that a line about the last copy has."""

    def __init__(self, line: str, verdict: str) -> None:
        super().__init__(line)
        self.verdict = verdict


def kept_aside(new: Path, folder: Path, name: str, why: str) -> NoReturn:
    """Keeps what isn't a good copy, and ends. Of those whose name has no moment the last is kept."""
    if (folder / name).exists():
        shutil.rmtree(folder / name)
    raise Aside(f"{why}; it is in {kept(new, folder, name)}, and all older copies are kept",
                name.replace("{}", "").strip("-."))


def archived(new: Path, folder: Path, file: Path) -> Path | None:
    """The copied archive that a copy goes on from, if there is one. It copies each archive once, and checks the copies
    each time."""
    copies = chain.copies_of(folder)
    for note in chain.chain(new / file.name, [file.parent, copies]):
        if (file.parent / note.name).is_file():
            chain.keep(file.parent / note.name, note, copies)
    last = chain.read_note(new / file.name)
    return chain.place(last, copies) if last else None


def judged(new: Path, folder: Path, file: Path, desk: Desk | None) -> Path:
    """Keeps the copy under the name that is its due where it is a good one, says so, and returns its folder."""
    try:
        archive = archived(new, folder, file)
        found = audit.audited(new / file.name, archive)
    except chain.Broken as fault:
        kept_aside(new, folder, "{}.unaudited", f"the copy can't be audited with its archive: {fault}")
    if found.verdict == audit.UNAUDITED:
        kept_aside(new, folder, "{}.unaudited", f"the copy's audit wasn't ended: {found.said}")
    if found.verdict == audit.EARLY:
        kept_aside(new, folder, "{}.early", "the copy's log ends early, answered requests are missing: "
                                            f"the audit says '{found.said}'")
    if not found.is_good():
        kept_aside(new, folder, "unsound", f"the copy isn't sound: the audit says '{found.said}'")
    if desk and desk.moved:
        kept_aside(new, folder, "moved-{}", "this copy is of what the desk has open")
    if archive:
        say(found.said)
    fewer = counted(folder, file, found.executed)
    if fewer:
        kept_aside(new, folder, "fewer-{}", f"{fewer}: requests are missing")
    if found.verdict == audit.AGAIN:
        put.put(Path(f"{new / file.name}{chain.AGAIN}"), f"{found.said}\n")
    made = kept(new, folder, "{}")
    say(f"{'kept' if found.verdict == audit.AGAIN else 'sound'}: {made}")
    return made


def is_sound(copy: Path) -> bool:
    """Whether a good copy is wholly sound, by what was noted as it was made."""
    return not any(copy.glob(f"*{chain.AGAIN}"))


def good_copies(folder: Path) -> list[Path]:
    """From the oldest on: their names sort by their moments."""
    found = folder.iterdir() if folder.is_dir() else ()
    return sorted(path for path in found if re.fullmatch(NAMED, path.name) and path.is_dir())


def superfluous(copies: list[Path], days: int) -> list[Path]:
    """Those of good copies that nobody needs: all but the last copy of each of the last days that have one, and but the
    last twenty of today."""
    by_day: dict[str, list[Path]] = {}
    for copy in copies:
        by_day.setdefault(copy.name[:len(DATE)], []).append(copy)
    needed = {of_day[-1] for _, of_day in sorted(by_day.items())[-days:]} | set(by_day.get(today(), [])[-MOST:])
    return [copy for copy in copies if copy not in needed]


def has_room(made: Path) -> bool:
    """Whether the disk has room for two more copies like this one."""
    return shutil.disk_usage(made).free >= 2 * sum(part.stat().st_size for part in made.iterdir())


def clear_away(folder: Path, days: int, made: Path) -> None:
    """Clears away good copies that nobody needs, and then the older ones of today, until the disk has room for two
    more. Beside one that isn't wholly sound, all that are stay."""
    copies = good_copies(folder)
    may_go = [copy for copy in copies if copy != made and (is_sound(made) or not is_sound(copy))]
    needless = superfluous(copies, days)
    for copy in may_go:
        if copy in needless:
            remove(copy)
    for copy in may_go:
        if copy not in needless and copy.name.startswith(today()) and not has_room(made):
            remove(copy)


def today() -> str:
    return time.strftime("%Y-%m-%d", time.gmtime())


def remove(copy: Path) -> None:
    shutil.rmtree(copy)
    say(f"cleared away: {copy}")


def clear_half_copies(folder: Path) -> None:
    for left in folder.glob(".new.*"):
        if time.time() - left.stat().st_mtime > DAY:
            shutil.rmtree(left, ignore_errors=True)


def damaged(file: Path) -> list[Path]:
    """The folders in which acd-ready kept the file and its log as they were, where the log was damaged."""
    kept = file.parent.glob("damaged-*")
    return sorted(folder for folder in kept if folder.is_dir() and any(folder.glob(f"{file.name}*")))


def looked_for(file: Path, found: list[Desk]) -> None:
    """Refuses a file that isn't there, or that this user may not copy."""
    unfinished = restoring.unfinished(file) or chain.unfinished(file)
    if unfinished:
        raise Fault(unfinished)
    if not found and not file.is_file():
        raise Fault(f"there is no file {file}")
    at = file if file.is_file() else held.opened(found[0].process)[0].at
    owner = os.stat(at).st_uid
    if os.geteuid() != owner:
        name = name_of(owner)
        raise Fault(f"only the user {name} makes copies of {file}: runuser -u {name} -- acdctl copy")


def old_proxies() -> Iterator[Path]:
    """Configurations of nginx that have it ask the gate for strangers too: those of before 1.15."""
    for file in sorted((*NGINX.glob("conf.d/*.conf"), *NGINX.glob("sites-enabled/*"))):
        with contextlib.suppress(OSError):
            text = file.read_text(errors="replace")
            if "/auth/any" in text and "secure_link_md5" not in text:
                yield file


def copy(file: Path, folder: Path, keep: int, halt: int, own: Path | None = None, has_own: bool = False) -> bool:
    """Whether all is as it should be. `own` is the folder of the gate's own files, which have to be there if `has_own`
    says so."""
    found = desks_over(file)
    looked_for(file, found)
    for proxy in old_proxies():
        report(f"{proxy} is of before 1.15: nginx asks the gate for every stranger. "
               "Take /usr/share/doc/acd/examples/nginx.conf")
    wrong = [desk.moved for desk in found if desk.moved] + [
        f"{left} is there: the log was damaged as the desk was started" for left in damaged(file)]
    broken = list(chain.look(chain.copies_of(folder)))
    for line in wrong + broken:
        report(line)
    folder.mkdir(parents=True, exist_ok=True)
    clear_half_copies(folder)
    new = Path(tempfile.mkdtemp(prefix=".new.", dir=folder))
    try:
        desk = taken(file, new, halt)
        is_whole = gate_state.copied(own, new, has_own)
        sync(*new.iterdir(), new)
        made = judged(new, folder, file, desk)
    finally:
        shutil.rmtree(new, ignore_errors=True)
    if not broken:
        clear_away(folder, keep, made)
    return is_whole and not wrong + broken


# The command

def copied_and_told(options: argparse.Namespace) -> bool:
    """A copy, about which a line is left where one is wanted."""
    verdict = "failed"
    try:
        is_well = copy(options.file, options.folder, options.keep, options.halt, options.own, options.has_own)
        verdict = "sound" if is_sound(good_copies(options.folder)[-1]) else "again"
        return is_well
    except Aside as fault:
        verdict = fault.verdict
        raise
    finally:
        if options.tell:
            good = [calendar.timegm(time.strptime(one.name, MOMENT)) for one in good_copies(options.folder)]
            last_copy.leave(options.tell, last_copy.LastCopy(int(time.time()), verdict, max(good, default=None)))


def number(text: str) -> int:
    if not re.fullmatch("[1-9][0-9]{0,2}", text):
        raise argparse.ArgumentTypeError(f"to keep copies of '{text}' days: that isn't a whole number from 1 to 999")
    return int(text)


def halt_seconds(text: str) -> int:
    if not re.fullmatch("0|[1-9][0-9]{0,2}", text):
        raise argparse.ArgumentTypeError(f"to halt the desk for '{text}' seconds: that isn't a whole number from 0 to "
                                         "999")
    return int(text)


def parser() -> command.Parser:
    found = command.Parser(ABOUT)
    add_places(found)
    add_own(found)
    found.add_argument("--keep", type=number, metavar="DAYS",
                       help="of how many days to keep the last good copy; ACD_COPIES, else 7")
    found.add_argument("--halt", type=halt_seconds, metavar="SECONDS",
                       help="for how many seconds at most the desk may be halted; ACD_HALT, else 20")
    found.add_argument("--tell", type=Path, metavar="FILE",
                       help="leave a line about the copy in this file, for the gate's metrics")
    does = found.add_mutually_exclusive_group()
    if command.is_old:
        does.add_argument("--restore", metavar="MOMENT", help="put the copy of this moment back")
        does.add_argument("--undo", action="store_true", help="take the last restore back")
    does.add_argument("--continue", dest="continues", action="store_true",
                      help="let a halted desk continue, and copy nothing")
    does.add_argument("--hand-over", type=Path, metavar="TO",
                      help="as root copy the gate's own files into this folder, for a copy by its owner, and copy "
                           "nothing else")
    found.set_defaults(restore=None, undo=False)
    return found


def add_places(found: argparse.ArgumentParser) -> None:
    """Where the file and its copies are, for copies and restores. The settings are those of the desk's own file:
    another file has its copies beside it."""
    found.add_argument("--file", metavar="F", help="the desk's file; that of ACD_FILE, "
                                                   f"else {settings.DEFAULTS['ACD_FILE']}")
    found.add_argument("--folder", metavar="COPIES",
                       help="the folder of the copies; that of ACD_COPY_FOLDER, else copies beside the file")


def add_own(found: argparse.ArgumentParser) -> None:
    """Where the gate's own files are, which a copy has too."""
    found.add_argument("--own", type=Path, metavar="GATE",
                       help=f"the folder of the gate's own files; {gate_state.FOLDER} if no --file is given")


def read(words: list[str]) -> argparse.Namespace:
    return with_settings(parser().parse_args(words))


def with_settings(options: argparse.Namespace) -> argparse.Namespace:
    """The options, with what the settings give where they don't."""
    has = settings.current() if not options.file else settings.DEFAULTS
    own = getattr(options, "own", None)
    options.own, options.has_own = own or (None if options.file else gate_state.FOLDER), own is not None
    options.file = held.place(options.file or has["ACD_FILE"])
    options.folder = Path(os.path.abspath(options.folder or has.get("ACD_COPY_FOLDER") or
                                          options.file.parent / "copies"))
    try:
        options.keep = options.keep or number(has["ACD_COPIES"])
        options.halt = halt_seconds(has["ACD_HALT"]) if options.halt is None else options.halt
    except argparse.ArgumentTypeError as fault:
        raise Fault(f"{settings.FILE}: {fault}", status=command.REFUSED) from None
    return options


def put_back(options: argparse.Namespace, now: gate_state.Files | None) -> gate_state.Files | None:
    """Restores, or undoes that. Returns the gate's files that belong to it, and keeps those of now with what is put
    away."""
    found: list[gate_state.Files | None] = []

    def keep(put_away: Path) -> None:
        if now is not None:
            gate_state.saved(put_away / gate_state.BESIDE, now)

    if options.undo:
        restoring.undo(options.file, say, lambda put_away: found.append(gate_state.of_copy(put_away)), keep)
    else:
        keep(restoring.restore(options.file, options.folder, options.restore, say))
        found.append(gate_state.of_copy(options.folder / options.restore))
    return found[0]


def put_reasons_back(options: argparse.Namespace) -> None:
    """After a restore; an undo leaves them as they are."""
    if not options.undo:
        gate_state.give_parts(options.own, options.folder, restoring.owner_of(options.file))


def do(options: argparse.Namespace) -> int:
    """Does what was asked for; the status, 0 where all is as it should be."""
    command.end_on_signals()
    os.umask(0o077)
    if options.continues:
        for desk in desks_over(options.file):
            desk.go_on()
    elif options.hand_over:
        gate_state.hand_over(options.own or gate_state.FOLDER, options.hand_over, options.folder)
    elif options.restore is not None or options.undo:
        gate_state.beside(options.own, lambda now: put_back(options, now), lambda: put_reasons_back(options))
    elif not copied_and_told(options):
        return command.FAILED
    return 0


def main(words: list[str]) -> NoReturn:
    command.run(read, do, words)
