"""The program's verdict on a copy of a desk's file: it is sound, a request was sent again after a cut, its log ends
early, or something else is wrong. Tested, not proved."""
import contextlib
import os
import re
import shutil
import signal
import sqlite3
import subprocess
from dataclasses import dataclass
from pathlib import Path

from acd_service import chain
from acd_service.log import Damaged, Unreadable, look
from acd_service.pair import log_of, no_log_left

SOUND, AGAIN, EARLY, UNSOUND, UNAUDITED = "sound", "again", "early", "unsound", "unaudited"
# what `acd audit --whole` ends with where the log ends early, and `acd audit --archive` where requests were sent again
ENDS_EARLY, SENT_AGAIN = 5, 6
NO_MEMORY = "acd: no memory"


@dataclass(frozen=True)
class Finding:
    """The verdict; the program's words; and how many requests a sound file has, with those of its archives."""
    verdict: str
    said: str
    executed: int = 0

    def is_good(self) -> bool:
        return self.verdict in (SOUND, AGAIN)


def quietly(program: str) -> list[str]:
    """A program that leaves the processor to the desk."""
    return ["nice", "-n", "19", program]


def run(program: str, *words: str | Path) -> tuple[int, list[str]]:
    """The status, and the lines that it printed."""
    done = subprocess.run([*quietly(program), *words], stdin=subprocess.DEVNULL, stdout=subprocess.PIPE,
                          stderr=subprocess.STDOUT, text=True)
    return done.returncode, done.stdout.splitlines()


def finding(status: int, lines: list[str]) -> Finding:
    if status == -signal.SIGKILL or NO_MEMORY in lines:
        return Finding(UNAUDITED, "it was ended, since it wanted more memory than it may have")
    if status == ENDS_EARLY:
        return Finding(EARLY, lines[0])
    said = "; ".join(lines)
    verdict = {0: SOUND, SENT_AGAIN: AGAIN}.get(status)
    if verdict and re.fullmatch(r"sound(, but request \d+ was sent again)?; executed \d+", said):
        return Finding(verdict, said, int(said.rpartition(" ")[2]))
    return Finding(UNSOUND, said)


def last_stamp(file: Path) -> int:
    with contextlib.closing(sqlite3.connect(chain.immutable(file), uri=True)) as book:
        stamp: int = book.execute("SELECT last_stamp FROM meta").fetchone()[0]
    return stamp


def carried(file: Path, archive: Path, program: str) -> Finding:
    """The verdict on a file that continues an archive. A program that can't audit it with its archive opens it, and SQL
    compares the rows of both."""
    with no_log_left(archive):
        audit = chain.audited(quietly(program), file, archive, "--whole", "--count")
    if audit:
        return finding(audit[0], audit[1].splitlines())
    if isinstance(look(log_of(file)), (Damaged, Unreadable)):
        return Finding(EARLY, "its log ends early")
    status, lines = run(program, "lines", "--file", file)
    if status:
        return finding(status, lines)
    difference = chain.differences(file, archive)
    if difference:
        return Finding(UNSOUND, f"{difference}, and not as in {archive}")
    said = f"this acd can't audit with an archive (audit --archive): by SQL the copy continues {archive.name}"
    return Finding(SOUND, said, last_stamp(file))


def audited(file: Path, archive: Path | None = None, program: str = "acd") -> Finding:
    """The finding of the audit, with the archive if there is one. The audit empties the log; if the file isn't sound,
    the old log is put back."""
    log, aside = log_of(file), Path(f"{log_of(file)}.aside")
    if log.exists():
        shutil.copy2(log, aside)
    found = (carried(file, archive, program) if archive else
             finding(*run(program, "audit", "--whole", "--count", "--file", file)))
    if os.path.exists(aside) and found.is_good():
        os.unlink(aside)
    elif os.path.exists(aside):
        os.replace(aside, log)
    return found
