"""The processes that have a desk's file open, and whether the file or its log were removed or moved from under a
running desk, by /proc. Tested, not proved."""
import contextlib
import os
import stat
import subprocess
import time
from dataclasses import dataclass
from pathlib import Path

PROCESSES = Path("/proc")
DATABASE = b"SQLite format 3\0"
# as many as the kernel follows
LINKS = 40


# which file it is: its device and inode
Which = tuple[int, int]


@dataclass(frozen=True)
class Open:
    """A file that a process has open to read and write it: its descriptor, which file it is, and its name, which ends
    in ' (deleted)' where it has none any more."""
    at: Path
    which: Which
    name: str

    def is_database(self) -> bool:
        with open(self.at, "rb") as file:
            return file.read(len(DATABASE)) == DATABASE


def place(path: Path | str) -> Path:
    """The whole path of a file, with links followed; the path of the link itself if it leads nowhere."""
    path = Path(os.path.abspath(path))
    for _ in range(LINKS):
        path = Path(os.path.realpath(path.parent)) / path.name
        if not os.path.islink(path) or not os.path.lexists(path.parent / os.readlink(path)):
            break
        path = path.parent / os.readlink(path)
    return path


def which(path: Path) -> Which | None:
    """The file at a path: its device and inode; None if there is none, or if a link leads nowhere."""
    try:
        found = os.stat(path)
    except (FileNotFoundError, NotADirectoryError):
        return None
    return found.st_dev, found.st_ino


def processes() -> list[int]:
    return sorted(int(name) for name in os.listdir(PROCESSES) if name.isdigit())


def opened(process: int, of: Which | None = None) -> list[Open]:
    """The files, or the one file, that a process has open to read and write them, in the order of their descriptors;
    none of one that isn't there, or that this user mayn't look at."""
    folder = f"{PROCESSES}/{process}/fd"
    try:
        numbers = sorted(map(int, os.listdir(folder)))
    except OSError:
        return []
    found = []
    for number in numbers:
        # a connection that is closed just now is none of them
        with contextlib.suppress(OSError):
            at = f"{folder}/{number}"
            file = os.stat(at)
            known = file.st_dev, file.st_ino
            # a machine has thousands of others: nothing more is asked of these
            if stat.S_ISREG(file.st_mode) and of in (None, known) and is_read_and_written(process, number):
                found.append(Open(Path(at), known, os.readlink(at)))
    return found


def is_read_and_written(process: int, number: int) -> bool:
    flags = (PROCESSES / f"{process}/fdinfo/{number}").read_text().split()[3]
    return int(flags, 8) & os.O_ACCMODE == os.O_RDWR


def holders(path: Path) -> list[int]:
    """The processes that have the file at this path open."""
    file = which(path)
    return [process for process in processes() if file and opened(process, file)]


def is_desk(process: int) -> bool:
    try:
        return (PROCESSES / f"{process}/comm").read_text() == "acd\n"
    except OSError:
        return False


def words(process: int) -> list[str]:
    try:
        return [os.fsdecode(word) for word in (PROCESSES / f"{process}/cmdline").read_bytes().split(b"\0")[:-1]]
    except OSError:
        return []


def printable(process: int) -> str:
    """The first of its words, for a terminal: a word that has a control character is spelt out."""
    return " ".join(word if word.isprintable() else repr(word) for word in words(process)[:4])


def named(process: int) -> Path | None:
    """The file that a desk's command line names; nothing where it names none."""
    said = words(process)
    files = [value for word, value in zip(said, said[1:]) if word == "--file"]
    files += [word[len("--file="):] for word in said if word.startswith("--file=")]
    try:
        return place(Path(os.readlink(PROCESSES / f"{process}/cwd")) / files[0]) if files else None
    except OSError:
        return None


def user_of(process: int) -> int | None:
    """The user who started a process, whatever rights it has by now; None if it has ended."""
    try:
        return int((PROCESSES / f"{process}/status").read_text().partition("\nUid:")[2].split()[0])
    except (OSError, LookupError):
        return None


def users_of(path: Path) -> set[int]:
    """Root, this user, and whose the file at this path is, or would be: anybody else may give a process the name of a
    desk. The unit of acd-tick hides the file's folder, which is root's there."""
    users = {0, os.geteuid()}
    with contextlib.suppress(OSError):
        users.add(os.lstat(path if os.path.lexists(path) else path.parent).st_uid)
    return users


def desks(path: Path) -> list[int]:
    """The desks of root, of this user and of the file's owner whose command line names the file at this path, whichever
    they have open."""
    path = place(path)
    users = users_of(path)
    return [process for process in processes()
            if is_desk(process) and user_of(process) in users and named(process) == path]


def seen(process: int, path: Path) -> Which | None:
    """The file at a path, even if it is hidden from this process and not from that one."""
    try:
        return which(path)
    except PermissionError:
        return which(PROCESSES / str(process) / "root" / str(path).lstrip("/"))


def look(process: int, path: Path) -> tuple[str, str] | None:
    """The part that was removed or moved from under a desk, 'file' or 'log', and the name of the one that the desk has
    open. None if it has the right ones open."""
    has, log = opened(process), Path(f"{path}-wal")
    file_now, log_now = seen(process, path), seen(process, log)
    if has and all(one.which != file_now for one in has):
        return "file", next((one.name for one in has if one.which != log_now), has[0].name)
    # as it begins it opens the file, and then the log
    if len(has) > 1 and all(one.which != log_now for one in has):
        return "log", next(one.name for one in has if one.which != file_now)
    return None


def moved(process: int, path: Path) -> str | None:
    """The line that the file at this path, or its log, was removed or moved from under this desk; else None. It looks
    twice, since a desk that ends closes one before the other."""
    path = place(path)
    try:
        found = look(process, path)
        if found:
            time.sleep(0.2)
        if not found or look(process, path) != found:
            return None
    except OSError:
        return None
    what, name = found
    under = f"the {what} {path}{'-wal' if what == 'log' else ''} was %s the desk, process {process}"
    if name.endswith(" (deleted)"):
        return (under % "removed from under" +
                ": what it answered is lost where it is stopped before acdctl copy made a copy")
    return under % f"moved to {name} under" + ": what it answers goes there"


def unit(process: int) -> str | None:
    """The unit of systemd that a process is, if it is one."""
    try:
        name = (PROCESSES / f"{process}/cgroup").read_text().rstrip("\n").rpartition("/")[2]
    except OSError:
        return None
    if not name.endswith(".service"):
        return None
    name = name.removesuffix(".service")
    if name.startswith("acd"):
        return name
    try:
        main = subprocess.run(["systemctl", "show", "--value", "--property=MainPID", name], stdout=subprocess.PIPE,
                              stderr=subprocess.DEVNULL, text=True)
    except OSError:
        return None
    return name if main.stdout.strip() == str(process) else None


def stopping(process: int) -> str:
    """The command that stops a process."""
    name = unit(process)
    return f"systemctl stop {name}" if name else f"kill {process}"
