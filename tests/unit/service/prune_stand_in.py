"""A stand-in for `acd prune`, for unit tests alone: stock SQLite takes out of F what it is told to.

PRUNE_UP_TO is the last request that goes where the archive has it, and PRUNE_STEP how many go at once; PRUNE_SAYS is a line that is printed in place of pruning,
with the status PRUNE_ENDS. Its words are noted in PRUNE_NOTED, a line each time."""
import contextlib
import os
import signal
import sqlite3
import sys
from pathlib import Path


def last_of(file):
    with contextlib.closing(sqlite3.connect(f"{file.as_uri()}?immutable=1", uri=True)) as book:
        return book.execute("SELECT last_stamp FROM meta").fetchone()[0]


def pruned(file, last):
    """What is said; the first row goes first."""
    step = int(os.environ.get("PRUNE_STEP", "1000000"))
    with contextlib.closing(sqlite3.connect(file, isolation_level=None)) as book:
        first, = book.execute("SELECT min(stamp) FROM kept").fetchone()
        if first is None or last < first:
            return "nothing to prune"
        up_to = min(last, first + step - 1)
        book.execute("DELETE FROM events WHERE moment <= (SELECT moment FROM kept WHERE stamp = ?)", (up_to,))
        book.execute("DELETE FROM kept WHERE stamp <= ?", (up_to,))
        book.execute("PRAGMA wal_checkpoint(TRUNCATE)")
    for end in ("-wal", "-shm"):
        Path(f"{file}{end}").unlink(missing_ok=True)
    return f"pruned up to request {up_to}{', more to go' if up_to < last else ''}"


def main():
    # each option has a value; by hand, since this is started a hundred times
    options = dict(zip(sys.argv[2::2], sys.argv[3::2], strict=True))
    if len(options) != 3 or not {"--file", "--archive"} < set(options) <= {"--file", "--archive", "--days", "--keep"}:
        sys.exit(2)
    file, archive = Path(options["--file"]), Path(options["--archive"])
    with open(os.environ["PRUNE_NOTED"], "a") as noted:
        print(*sys.argv[1:], file=noted)
    # as the program does beside an archive without a log
    log = Path(f"{archive}-wal")
    if not log.exists():
        log.write_bytes(b"\0" * 41)
    if os.environ.get("PRUNE_SAYS") == "kill":
        os.kill(os.getpid(), signal.SIGKILL)
    if "PRUNE_SAYS" in os.environ:
        print(os.environ["PRUNE_SAYS"])
        sys.exit(int(os.environ["PRUNE_ENDS"]))
    print(pruned(file, min(int(os.environ["PRUNE_UP_TO"]), last_of(archive))))


main()
