"""Writes files of the days that are over, out of a copy of a desk's file: of its calls, its agents and its groups."""
import argparse
from pathlib import Path
from typing import NoReturn

from acd_service import calls, command
from acd_service.office import FILE


def parser() -> command.Parser:
    found = command.Parser("Writes records/DAY.csv, agents/DAY.csv and groups/DAY.csv for the days that are over, "
                           "out of a copy of a desk's file.")
    calls.add_files(found)
    found.add_argument("--office", type=Path, metavar="FILE",
                       help=f"names, limits and zone; {FILE} as it comes, where that is there")
    found.add_argument("days", type=Path, metavar="FOLDER", help="where the files are written")
    found.set_defaults(live=False, names=True, since=None, until=None)
    return found


def asked(words: list[str]) -> argparse.Namespace:
    return parser().parse_args(words)


def main(words: list[str]) -> NoReturn:
    command.run(asked, calls.run, words)
