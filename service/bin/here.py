"""Runs acdctl out of the repository, by the name of the program that imports this.

The toolchain allows no links there: the package has links to acdctl in place of these programs, and the client's
modules beside it."""
import sys
from pathlib import Path
from typing import NoReturn

TOP = Path(__file__).resolve().parents[2]


def run() -> NoReturn:
    sys.path[:1] = [str(TOP / "service"), str(TOP / "client")]
    from acd_service.main import main
    main(sys.argv)
