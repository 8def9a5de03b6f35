"""Puts a copy of a desk's file back, or takes the last restore back."""
import argparse
from typing import NoReturn

from acd_service import command, copy

ABOUT = ("Puts a copy in the place of the desk's file, or takes the last restore back. No program may have the file "
         "open.")


def parser() -> command.Parser:
    found = command.Parser(ABOUT)
    copy.add_places(found)
    copy.add_own(found)
    does = found.add_mutually_exclusive_group(required=True)
    does.add_argument("restore", nargs="?", metavar="MOMENT",
                      help="the name of the copy to put back, 2026-11-26T031500Z say")
    does.add_argument("--undo", action="store_true", help="take the last restore back")
    found.set_defaults(continues=False, keep=None, halt=None, hand_over=None)
    return found


def read(words: list[str]) -> argparse.Namespace:
    return copy.with_settings(parser().parse_args(words))


def main(words: list[str]) -> NoReturn:
    command.run(read, copy.do, words)
