"""What the commands share: how one reads its words, says a line, and ends. Tested, not proved."""
import argparse
import contextlib
import io
import os
import re
import signal
import sqlite3
import sys
from collections.abc import Callable, Iterator
from typing import Any, NoReturn, TextIO

from acd_service import VERSION

# priorities of a line in the journal, as syslog(3) numbers them
ERROR, WARNING, NOTICE, INFO = 3, 4, 5, 6
ENDING = (signal.SIGHUP, signal.SIGINT, signal.SIGTERM)
# statuses: it may be otherwise the next time; the words are refused; somebody has to mend something first, so that
# systemd starts nothing again
FAILED, REFUSED, MEND = 1, 2, 64
# what the new names say, and what the old ones say in its place: the words of a command, and sentences
OLD_WORDS = ((r"\bacdctl restore --undo", "acd-copy --undo"), (r"\bacdctl restore\b", "acd-copy --restore"),
             (r"\bacdctl prune\b", "acd-carry"),
             (r"\bacdctl (calls|certificate|copy|export|follow|forget|gate|local|node|plan|ready|tick|trail)\b",
              r"acd-\1"),
             (r"; it is in (.*), and all older copies are kept$",
              r"; it lies in \1, and the older copies are all kept"),
             ("be audited with its archive: ", "be looked at behind its archive: "),
             ("can't audit with an archive ", "can't look behind an archive "),
             (" is no folder put-away-", " lies no folder put-away-"),
             (" is on another disk than ", " lies on another disk than "),
             ("this file is elsewhere$", "this file lies elsewhere"),
             ("and is ignored: remove", "and is passed over: remove"),
             ("a machine appears twice in ", "a machine stands twice in "),
             ("the log begins after this ", "the log begins behind this "),
             (r"^place (\S+) of the log has no entry; ignored \(",
              r"what stands at place \1 of the log is no entry, and is passed over ("),
             ("where this folder continues$", "where this folder goes on"),
             ("^argument --ports: expected one argument$", "--ports needs a value"))

# those of which a fault of the system has Python's form
PYTHONS_FORM = ("acd-calls", "acd-export", "acd-forget", "acd-plan", "acd-trail")

# the name by which the command was called, and whether that is one of before 1.15
name, is_old = "acdctl", False
# where lines go that are collected
collected: list[str] | None = None


class Fault(Exception):
    """Why a command didn't do what was asked for: a line or several, and the status with which it ends."""

    def __init__(self, *lines: object, status: int = FAILED):
        super().__init__(*lines)
        self.status = status


def to_mend(text: str) -> Fault:
    """What keeps somebody from starting something, and what to do before."""
    return Fault(text, status=MEND)


def call_it(called: str, by_old_name: bool = False) -> None:
    global name, is_old
    name, is_old = called, by_old_name


# Lines

def spoken(text: object) -> str:
    """A text with the words of the name by which the command was called: scripts may read what the old ones print."""
    said = str(text)
    for pattern, old in OLD_WORDS if is_old else ():
        said = re.sub(pattern, old, said)
    return said


def is_journal(stream: TextIO) -> bool:
    """Whether a stream goes to the journal, which takes a line's priority from the line's beginning, `<3>` say."""
    try:
        found = os.fstat(stream.fileno())
    except (OSError, ValueError):
        return False
    return os.environ.get("JOURNAL_STREAM") == f"{found.st_dev}:{found.st_ino}"


def report(text: object, priority: int = WARNING, out: TextIO | None = None) -> None:
    """Says a line on standard error, for who looks after the machine."""
    if collected is not None:
        return collected.append(spoken(text))
    stream = out or sys.stderr
    print(f"{f'<{priority}>' if is_journal(stream) else ''}{name}: {spoken(text)}", file=stream, flush=True)


@contextlib.contextmanager
def reports_into() -> Iterator[list[str]]:
    """Collects the lines that are reported meanwhile, which nobody else sees."""
    global collected
    collected = []
    try:
        yield collected
    finally:
        collected = None


def print_utf_8() -> None:
    """From now on it prints UTF-8, whatever the machine's language: names are of any script."""
    if isinstance(sys.stdout, io.TextIOWrapper):
        sys.stdout.reconfigure(encoding="utf-8")


def say(text: object) -> None:
    """Says a line on standard output: what was done."""
    print(spoken(text), flush=True)


# Words

class Parser(argparse.ArgumentParser):
    """Of one command. It refuses words in one line. The old names of some commands still do so by `usage:` and a line
    with `error:`, and those of some take the beginning of an option for the option."""

    def __init__(self, about: str, printed_usage: bool = False, took_beginnings: bool = False):
        super().__init__(prog=name, description=spoken(about), allow_abbrev=is_old and took_beginnings, add_help=False)
        self.printed_usage = printed_usage
        self.add_argument("-h", "--help", action="help", help="print this")
        self.add_argument("--version", action="version", version=f"{name} {VERSION}", help="print the version")

    def error(self, message: str) -> NoReturn:
        if is_old and self.printed_usage:
            super().error(message)
        raise Fault(message, status=REFUSED)

    def format_help(self) -> str:
        return spoken(super().format_help())


def whole_number(least: int, most: int) -> Callable[[str], int]:
    """Reads a whole number within these bounds, in digits alone."""
    def number(text: str) -> int:
        if not re.fullmatch("0|[1-9][0-9]{0,9}", text) or not least <= int(text) <= most:
            raise argparse.ArgumentTypeError(f"'{text}' isn't a whole number from {least} to {most}")
        return int(text)
    return number


# The end

def end_on_signals() -> None:
    """From now on a signal ends the command as a fault does: what is half made is removed, and the status is 1."""
    for one in ENDING:
        signal.signal(one, lambda *_: sys.exit(FAILED))


@contextlib.contextmanager
def while_somebody_reads() -> Iterator[None]:
    """Ends with what is printed in it once nobody reads that any more, as behind `| head`."""
    try:
        yield
        sys.stdout.flush()
    except BrokenPipeError:
        os.dup2(os.open(os.devnull, os.O_WRONLY), sys.stdout.fileno())
        sys.exit(0)


def fault_text(fault: OSError, file: object = None) -> str:
    where = fault.filename or file
    return f"{where}: {fault.strerror or fault}" if where else str(fault)


def run(read: Callable[[list[str]], Any], do: Callable[[Any], int | None], words: list[str]) -> NoReturn:
    """Reads the words, does what they ask for, and ends with the status that this returned, 0 where it returned none. A
    fault is told in its lines."""
    options, status = None, 0
    try:
        options = read(words)
        status = do(options) or 0
    except Fault as fault:
        for line in fault.args:
            report(line, ERROR)
        status = fault.status
    except OSError as fault:
        report(fault if name in PYTHONS_FORM else fault_text(fault, getattr(options, "file", None)), ERROR)
        status = FAILED
    except sqlite3.Error as fault:
        report(fault, ERROR)
        status = FAILED
    sys.exit(status)
