"""Prints all event reports of a desk as CSV, those of its file and of the archives that the file continues: each once,
by number.

The desk's program makes the table. This command adds which reports are missing. It is tested, not proved."""
import argparse
import subprocess
import sys
from collections.abc import Iterator, Sequence
from typing import NoReturn

from acd_service import command
from acd_service.command import Fault

# the status where the reports aren't whole
BROKEN = 3


def missing(first: int, last: int) -> None:
    command.report(f"event {first} is missing" if first == last else f"events {first} to {last} are missing")


def passed_on(lines: Iterator[str]) -> bool:
    """Prints a table, and tells which reports are missing. Whether none is."""
    number, is_whole = 0, True
    sys.stdout.write(next(lines, ""))
    for line in lines:
        before, number = number, int(line.partition(",")[0])
        if number > before + 1:
            missing(before + 1, number - 1)
            is_whole = False
        sys.stdout.write(line)
    sys.stdout.flush()
    return is_whole


def export(program: str, file: str, archives: Sequence[str]) -> bool:
    """Whether the reports are whole."""
    words = [program, "export", "--file", file, *(word for archive in archives for word in ("--archive", archive))]
    with subprocess.Popen(words, stdin=subprocess.DEVNULL, stdout=subprocess.PIPE, stderr=subprocess.PIPE,
                          text=True) as running:
        assert running.stdout and running.stderr
        is_whole = passed_on(running.stdout)
        # a fault is one line
        fault = running.stderr.read().strip()
    if running.returncode:
        raise Fault(fault, status=running.returncode)
    return is_whole


def parser() -> command.Parser:
    found = command.Parser("Prints all event reports of a desk as CSV, each once, by number; with the status 3 where "
                           "some are missing.", printed_usage=True)
    found.add_argument("--file", required=True, metavar="F", help="the desk's file, or a copy")
    found.add_argument("--archive", action="append", default=[], metavar="A",
                       help="an archive that the file continues; as often as there are some, the oldest first")
    found.add_argument("--desk", default="acd", metavar="PROGRAM", help="the desk's program; acd unless given")
    return found


def read(words: list[str]) -> argparse.Namespace:
    return parser().parse_args(words)


def do(options: argparse.Namespace) -> int:
    """Its status."""
    with command.while_somebody_reads():
        return 0 if export(options.desk, options.file, options.archive) else BROKEN


def main(words: list[str]) -> NoReturn:
    command.run(read, do, words)
