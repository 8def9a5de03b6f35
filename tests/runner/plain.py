#!/usr/bin/python3
"""Runs the tests of some files by unittest alone, where there is no pytest.

usage: tests/runner/plain.py [--note NOTE] FILE ..      (NOTE: a file for the count, as JSON)"""
from __future__ import annotations

import argparse
import json
import sys
import tomllib
import unittest
from pathlib import Path

TOP = Path(__file__).resolve().parents[2]


def find_modules() -> None:
    """By the same path as pytest, in the place of this script's own folder."""
    settings = tomllib.loads((TOP / "pyproject.toml").read_text())["tool"]["pytest"]["ini_options"]
    sys.path[:1] = [str(TOP / folder) for folder in settings["pythonpath"]]


def names(result: unittest.TestResult) -> tuple[set[str], set[str]]:
    """The tests that failed, each once however many of its parts did, and those that were skipped."""
    failed = [test for test, _ in [*result.failures, *result.errors]] + list(result.unexpectedSuccesses)
    return {getattr(test, "test_case", test).id() for test in failed}, {test.id() for test, _ in result.skipped}


def run(files: list[Path]) -> dict[str, object]:
    found = unittest.TestSuite(unittest.TestLoader().discover(str(file.parent), file.name) for file in files)
    result = unittest.TextTestRunner(verbosity=0).run(found)
    failed, skipped = names(result)
    if not result.testsRun and not failed:
        failed = {"it has no test"}
    # a fault of a module or of a class counts as one, and its tests weren't run
    counted = {name for name in failed if not name.startswith(("setUp", "tearDown", "it has"))}
    passed = max(result.testsRun - len(skipped) - len(counted), 0)
    return {"passed": passed, "failed": sorted(failed), "skipped": sorted(skipped)}


if __name__ == "__main__":
    find_modules()
    parser = argparse.ArgumentParser(usage=(__doc__ or "").partition("usage: ")[2], description=__doc__)
    parser.add_argument("--note", type=Path)
    parser.add_argument("files", nargs="+", type=Path)
    options = parser.parse_args()
    noted = run([file.resolve() for file in options.files])
    if options.note:
        options.note.write_text(json.dumps(noted))
    else:
        sys.exit(1 if noted["failed"] else 0)
