"""Looks whether a desk can be served, and becomes `acd serve --endless`; notes what a desk that has ended left; or
makes the file of a new desk. Tested, not proved.

If a start would fail, or would lose something, it says so in a line before anything opens the desk's file."""
import argparse
import contextlib
import filecmp
import os
import pwd
import re
import shlex
import shutil
import stat
import subprocess
import tempfile
import time
from collections.abc import Iterable
from pathlib import Path
from typing import NoReturn

from acd_service import command, held, listening, pair, put, restoring, settings, watch
from acd_service.command import Fault, report, to_mend
from acd_service.log import Damaged, Sound, State, Unreadable, look
from acd_service.restoring import name_of

SETTINGS = settings.FILE
OURS = Path("/var/lib/acd")
# what no unit sees, ProtectHome=yes
HOMES = [Path(one) for one in ("/home", "/root", "/run/user")]
PAGE = "'The desk does not start' in WHEN-WRONG.md"
# seconds between two looks at a log that seems damaged
PAUSE = 0.1
# as many seconds has the program to write the log into the file behind a stop: systemd gives it 90
WRITING = 60
# the name of a copy that is good
GOOD = r"\d{4}-\d\d-\d\dT\d{6}Z"
WEEK = 7 * 86400


def is_there(path: Path) -> bool:
    return os.path.lexists(path)


def clear_away(folder: Path, prefix: str) -> None:
    """Removes the remains of an earlier try that was killed."""
    for old in folder.glob(f"{prefix}*"):
        shutil.rmtree(old, ignore_errors=True)


# The settings

def look_at_names(names: Iterable[str]) -> None:
    for name in settings.others(names):
        raise to_mend(f"no setting is called {name}: {settings.nearest(name)} is the nearest that there is; "
                      f"mend it in {SETTINGS}, or in the unit's own file of settings")
    for name in settings.earlier(names):
        report(f"{name} is a setting of an earlier version, and is ignored: remove it from {SETTINGS}")


# The file and its folder

def advice(folder: Path) -> str:
    """What to do about a folder that the desk's user can't use. Others may need one that has something in it, so that
    it must not become this user's."""
    user = name_of(os.geteuid())
    if any(home == folder or home in folder.parents for home in HOMES):
        return f"no unit sees a home: move the file under {OURS}, and name it there, ACD_FILE in {SETTINGS}"
    try:
        is_empty = not any(folder.iterdir())
    except OSError:
        is_empty = False
    if is_empty or OURS in (folder, *folder.parents):
        return f"give it to this user (chown {user} {shlex.quote(str(folder))})"
    return (f"others may need it, so move the file under {OURS}, or into an empty folder, and name it there, "
            f"ACD_FILE in {SETTINGS}")


def look_into(folder: Path) -> None:
    user = name_of(os.geteuid())
    try:
        is_folder = folder.is_dir()
    except PermissionError:
        raise to_mend(f"the user {user} may not look into what is above {folder}: {advice(folder)}") from None
    if not is_folder:
        raise to_mend(f"the folder {folder} isn't there for the user {user}: is ACD_FILE in {SETTINGS} spelt right? "
                      "Else mount its disk")
    if not os.access(folder, os.X_OK, effective_ids=True):
        raise to_mend(f"the user {user} may not look into {folder}: {advice(folder)}")


def place(path: str) -> Path:
    """The file's path with links followed. Until a broken-off restore is finished, the file's name is a link that leads
    nowhere."""
    if not path:
        raise Fault("the file has no name", status=command.REFUSED)
    named = held.place(path)
    look_into(named.parent)
    unfinished = restoring.unfinished(named)
    if unfinished:
        raise to_mend(unfinished)
    file = Path(os.path.realpath(path))
    look_into(file.parent)
    return file


def look_at_writing(folder: Path) -> None:
    user = name_of(os.geteuid())
    if os.statvfs(folder).f_flag & os.ST_RDONLY:
        raise to_mend(f"{folder} is read-only: its disk is, or the unit isn't told of it (systemctl edit acd, "
                      f"and ReadWritePaths={folder} under [Service])")
    if not os.access(folder, os.W_OK, effective_ids=True):
        raise to_mend(f"the user {user} may not write in {folder}: {advice(folder)}")


def look_at_kind(path: Path) -> None:
    """A file, with one name, and this user's."""
    found, user = os.lstat(path), name_of(os.geteuid())
    if not stat.S_ISREG(found.st_mode):
        raise to_mend(f"{path} is no file: move it away, or name another file, ACD_FILE in {SETTINGS}")
    if found.st_nlink != 1:
        raise to_mend(f"{path} has {found.st_nlink} names: remove all but this one (find / -xdev -samefile "
                      f"{shlex.quote(str(path))})")
    if found.st_uid != os.geteuid():
        raise to_mend(f"{path} is the user {name_of(found.st_uid)}'s and not {user}'s: "
                      f"chown {user} {shlex.quote(str(path))}")


def lone_log(file: Path, what: str) -> Fault:
    return to_mend(f"{file} {what}, but its log {pair.log_of(file)} is there: put {file.name} or a copy back (acdctl "
                   "restore MOMENT), or move the log away, but don't remove it: it may hold answered requests")


def look_at_files(file: Path) -> None:
    log = pair.log_of(file)
    if not is_there(file) and is_there(log):
        raise lone_log(file, "isn't there")
    if is_there(file) and not os.path.getsize(file) and pair.holds_something(log):
        raise lone_log(file, "has no bytes")
    if not is_there(file):
        raise to_mend(f"{file} isn't there: is ACD_FILE in {SETTINGS} spelt right? Else put a copy back (acdctl "
                      f"restore MOMENT), or begin a new desk (acdctl ready --make --file {shlex.quote(str(file))})")
    both = [path for path in (file, log) if is_there(path)]
    for path in both:
        look_at_kind(path)
    look_at_writing(file.parent)
    for path in both:
        if not os.access(path, os.R_OK | os.W_OK, effective_ids=True):
            raise to_mend(f"the user {name_of(os.geteuid())} may not read and write {path}: "
                          f"chmod 600 {shlex.quote(str(path))}")
    if pair.is_split(file):
        raise to_mend(f"{file} and its log {log} weren't here together: put both of one copy back (acdctl restore "
                      f"MOMENT), or remove {pair.note_of(file)} where they are of one desk and one time")
    if pair.lost(file):
        raise lost_log(file)


# A log that was removed

def good_copies(file: Path) -> tuple[list[str], Path]:
    """The moments of the good copies of a file, the oldest first, and their folder."""
    folder = Path(os.environ.get("ACD_COPY_FOLDER") or file.parent / "copies")
    good = [one.name for one in folder.glob("*") if re.fullmatch(GOOD, one.name) and (one / file.name).is_file()]
    return sorted(good), folder


def lost_log(file: Path) -> Fault:
    copies, folder = good_copies(file)
    until = time.strftime("%Y-%m-%dT%H%M%SZ", time.gmtime(os.stat(file).st_mtime))
    copy = (f"the newest good copy is {copies[-1]} (acdctl restore {copies[-1]})" if copies
            else f"there is no good copy in {folder}")
    return to_mend(f"the log {pair.log_of(file)} is gone, which had {pair.lost(file)} bytes as the desk ended, "
                   f"and nobody wrote it into {file}: answered requests are lost. Put the log back; "
                   f"where it can't be had, {copy}, and {file} has what was written into it until {until}: "
                   f"to start with that, remove {pair.note_of(file)}")


def look_for_log(file: Path) -> None:
    if pair.is_gone(file):
        report(f"the log {pair.log_of(file)} of the last start is gone, and no stop noted what it left: "
               f"unless sqlite3 or acd wrote it into {file}, answered requests are lost ({PAGE})")


# A log that is damaged

def written(path: Path) -> tuple[int, int]:
    found = os.stat(path)
    return found.st_size, found.st_mtime_ns


def settled(log: Path) -> State:
    """The state of the log, by two looks. If they differ, or the log was written in between, somebody is writing it:
    then it counts as sound, and the desk will say that its file is open elsewhere."""
    before, found = written(log), look(log)
    if isinstance(found, Sound):
        return found
    time.sleep(PAUSE)
    return found if look(log) == found and written(log) == before else Sound()


def kept_before(file: Path, log: Path) -> Path | None:
    """The folder in which the two are kept as they are now, where an earlier start ended before it could open them."""
    for folder in sorted(file.parent.glob("damaged-*")):
        if all((folder / one.name).is_file() and filecmp.cmp(one, folder / one.name) for one in (file, log)):
            return folder
    return None


def keep(file: Path, log: Path) -> Path:
    """Copies the two, as they are, into a folder beside them that is there whole or not at all; its name."""
    clear_away(file.parent, ".damaged-")
    moment = time.strftime("%Y-%m-%dT%H%M%SZ", time.gmtime())
    with tempfile.TemporaryDirectory(prefix=f".damaged-{moment}-", dir=file.parent) as scratch:
        new = Path(scratch, "new")
        new.mkdir(mode=0o700)
        words: list[str | Path] = ["cp", "--reflink=auto", "--preserve=mode,timestamps", "--", file, log, new]
        synced: list[str | Path] = ["sync", *(new / one.name for one in (file, log)), new]
        for step in (words, synced):
            done = subprocess.run(step, stdin=subprocess.DEVNULL, stdout=subprocess.PIPE, stderr=subprocess.STDOUT,
                                  text=True)
            if done.returncode:
                raise Fault(f"the log {log} is damaged, and can't be kept as it is before the desk opens it: "
                            f"{' '.join(done.stdout.split())}", status=command.FAILED)
        made = file.parent / Path(scratch).name.lstrip(".")
        os.rename(new, made)
    put.sync_folder(file.parent)
    return made


def report_damage(file: Path, log: Path, found: Damaged | Unreadable) -> None:
    folder = kept_before(file, log) or keep(file, log)
    if isinstance(found, Damaged):
        what = (f"is damaged from its frame {found.frame} on (byte {found.offset}), and answered requests from there "
                "on are missing")
    else:
        what = f"can't be read ({found.why}), and the answered requests that it may have held are missing"
    report(f"the log {log} {what}; both files, as they were, are in {folder} ({PAGE})")


def empty(file: Path, patience: float | None = None) -> None:
    """The program opens the file and closes it, which writes the log into the file and empties it. A start without this
    would write after the last good commit, and the old frames there would seem damage, once a commit before them is
    torn. If this fails, the start will say why. However early it is ended, nothing is lost."""
    with contextlib.suppress(subprocess.TimeoutExpired):
        subprocess.run(["acd", "lines", "--file", file], stdin=subprocess.DEVNULL, stdout=subprocess.DEVNULL,
                       stderr=subprocess.DEVNULL, timeout=patience)


def look_at_log(file: Path) -> None:
    log = pair.log_of(file)
    if not is_there(log):
        return
    found = settled(log)
    if isinstance(found, (Damaged, Unreadable)):
        report_damage(file, log, found)
    if not isinstance(found, Sound):
        empty(file)


# Copies

def timer() -> str:
    """The timer of the copies of the unit that this process is of: acd-copy-north.timer of acd-north.service."""
    return f"{(held.unit(os.getpid()) or 'acd').replace('acd', 'acd-copy', 1)}.timer"


def is_active(unit: str) -> bool:
    try:
        return subprocess.run(["systemctl", "is-active", "--quiet", unit], stdin=subprocess.DEVNULL,
                              stderr=subprocess.DEVNULL).returncode == 0
    except OSError:
        return False


def look_at_copies(file: Path) -> None:
    """Nothing else tells of a timer that was turned off and forgotten. A desk whose folder is younger than a week may
    have none yet."""
    copies, folder = good_copies(file)
    since = time.time() - WEEK
    last = time.strftime("%Y-%m-%dT%H%M%SZ", time.gmtime(since))
    # the moment at which the folder was made, where its file system says so
    _, _, made = pair.identity(file.parent).partition(" ")
    if float(made or 0) < since and not any(copy > last for copy in copies) and not is_active(timer()):
        report(f"no good copy in {folder} is younger than a week: is {timer()} active? (systemctl enable --now "
               f"{timer()})")


# The work

def write_note(file: Path, is_left: bool = False) -> None:
    """Writes the note anew. A note that isn't true any more mustn't stay, and a full disk has no room for another."""
    if not is_left and pair.is_noted(file):
        return
    try:
        pair.remember(file, is_left)
    except OSError:
        pair.note_of(file).unlink(missing_ok=True)


def serve(options: argparse.Namespace) -> NoReturn:
    look_at_names(os.environ)
    file = place(options.file)
    look_at_files(file)
    listening.look_at(options.port, options.socket)
    look_at_log(file)
    look_for_log(file)
    look_at_copies(file)
    write_note(file)
    watch.beside(settings.address(options.port, options.socket), file, options.tick)
    listens = ["--port", str(options.port)] if options.port else ["--socket", options.socket]
    words = ["acd", "serve", "--file", options.file, *listens, "--endless"]
    for name, seconds in (("--tick", options.tick), ("--patience", options.patience)):
        words += [name, str(seconds)] if seconds else []
    try:
        os.execvp("acd", words)
    except FileNotFoundError:
        raise to_mend("there is no program acd in the PATH: install it") from None


def stopped(options: argparse.Namespace) -> None:
    """Behind a desk that has ended: what it left is noted, so that a start sees a log that was removed. Behind a clean
    stop there is nothing in the log by then. What keeps a desk from being served is told by its start alone."""
    is_clean = os.environ.get("SERVICE_RESULT") == "success"
    try:
        file = place(options.file)
        look_at_files(file)
    except Fault:
        return
    look_for_log(file)
    if is_clean:
        try:
            look_at_log(file)
            empty(file, WRITING)
        except Fault as fault:
            report(fault)
    write_note(file, is_left=True)


def become_owner(folder: Path) -> None:
    """Root makes what is in a folder as the folder's owner."""
    owner = os.stat(folder).st_uid
    if os.geteuid() == 0 and owner:
        user = pwd.getpwuid(owner)
        os.initgroups(user.pw_name, user.pw_gid)
        os.setgid(user.pw_gid)
        os.setuid(owner)


def make(options: argparse.Namespace) -> None:
    """The new file is there whole or not at all: it is made in another folder, and then moved to its name."""
    file = place(options.file)
    become_owner(file.parent)
    look_into(file.parent)
    clear_away(file.parent, ".new-desk-")
    if is_there(file):
        return print(f"{file} is there already")
    if is_there(pair.log_of(file)):
        raise lone_log(file, "isn't there")
    look_at_writing(file.parent)
    # of a file that was here before; the new one has had no log yet
    pair.note_of(file).unlink(missing_ok=True)
    os.umask(0o077)
    with tempfile.TemporaryDirectory(prefix=".new-desk-", dir=file.parent) as scratch:
        new = Path(scratch, file.name)
        done = subprocess.run(["acd", "lines", "--file", new], stdin=subprocess.DEVNULL, stdout=subprocess.DEVNULL,
                              stderr=subprocess.PIPE, text=True)
        if done.returncode:
            raise Fault(f"{file} isn't made: {' '.join(done.stderr.split())}", status=command.FAILED)
        os.rename(new, file)
    put.sync_folder(file.parent)
    return print(f"made {file}")


def port_of(text: str) -> int | None:
    """None where there is no text: a unit's setting that has no value."""
    if not text:
        return None
    if not (text.isascii() and text.isdigit() and len(text) < 6 and 1 <= int(text) <= 65535):
        raise argparse.ArgumentTypeError(f"the port {text!r} isn't a whole number from 1 to 65535")
    return int(text)


def parser() -> command.Parser:
    found = command.Parser("Looks whether the desk can be served, and serves it; notes how it ended; "
                           "or makes the file of a new desk.")
    act = found.add_mutually_exclusive_group(required=True)
    act.add_argument("--serve", action="store_const", const=serve, dest="act",
                     help="look, and become acd serve --endless")
    act.add_argument("--stopped", action="store_const", const=stopped, dest="act",
                     help="after a clean stop write the log into the file; note what is left")
    act.add_argument("--make", action="store_const", const=make, dest="act",
                     help="make the file of a new desk; root makes it for the folder's owner")
    settings.add_file(found)
    found.add_argument("--port", metavar="P", type=port_of,
                       help="the port of the loopback address to listen on; none unless given, and none if it is empty")
    found.add_argument("--socket", metavar="PATH", default=settings.DEFAULTS["ACD_SOCKET"],
                       help="the socket to listen on without a port; %(default)s unless given")
    for name, about in (("--tick", "how often the desk looks for what is overdue, and ticks; never unless given"),
                        ("--patience", "how long the desk waits for a client; without end unless given")):
        found.add_argument(name, metavar="SECONDS", type=command.whole_number(1, 3600), help=about)
    return found


def read(words: list[str]) -> argparse.Namespace:
    return parser().parse_args(words)


def do(options: argparse.Namespace) -> None:
    options.act(options)


def main(words: list[str]) -> NoReturn:
    command.run(read, do, words)
