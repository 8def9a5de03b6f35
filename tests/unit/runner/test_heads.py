"""Every program, test and trial in Python runs under Debian's, whatever `python3` stands first on PATH."""
import re
import unittest
from collections.abc import Iterator
from pathlib import Path

TOP = Path(__file__).resolve().parents[3]
FOLDERS = ("acd", "bench", "board", "client", "exchange", "packaging", "proof", "service", "test", "tests")
PYTHON = b"#!/usr/bin/python3\n"


def files() -> Iterator[Path]:
    for name in FOLDERS:
        place = TOP / name
        yield from (file for file in ([place] if place.is_file() else place.rglob("*")) if file.is_file() and "out" not in file.parts)


class Heads(unittest.TestCase):
    def test_programs(self) -> None:
        heads = {file: file.read_bytes().split(b"\n", 1)[0] + b"\n" for file in files()}
        named = {str(file.relative_to(TOP)): head for file, head in heads.items() if re.match(rb"#!.*python", head)}
        self.assertGreater(len(named), 50)
        self.assertEqual({name: head for name, head in named.items() if head != PYTHON}, {})

    def test_started_by_a_shell(self) -> None:
        """A script of the shell that starts Python names its place, or has a PATH of its own, as what a package's scripts do."""
        scripts = [file for file in files() if file.read_bytes().startswith((b"#!/bin/sh", b"#!/usr/bin/env bash", b"#!/bin/bash")) and "packaging" not in file.parts]
        self.assertGreater(len(scripts), 3)
        found = {str(file.relative_to(TOP)): line for file in scripts for line in file.read_text().splitlines() if re.search(r"(?<![\w/.-])python3(?= -| /|$)", line.partition("#")[0])}
        self.assertEqual(found, {})


if __name__ == "__main__":
    unittest.main()
