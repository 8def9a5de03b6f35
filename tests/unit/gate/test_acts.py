#!/usr/bin/python3
"""Tests of the gate's journal of acts.   usage: tests/unit/gate/test_acts.py"""
import json
import os
import unittest
from pathlib import Path
from tempfile import TemporaryDirectory
from unittest import mock

import standing  # noqa: F401: where the modules are
from acd_service.gate import acts


class ActsTest(unittest.TestCase):
    def setUp(self):
        self.file, self.now = Path(self.enterContext(TemporaryDirectory())) / "acts", 1_800_000_000.9
        self.acts = acts.Acts(self.file, lambda: self.now)

    def test_lines(self):
        self.assertEqual((acts.read(self.file), self.acts.page(0)), ([], {"acts": [], "last": 0}))
        self.assertEqual(self.acts.add("chef", "giveLogin", of="anna", role="agent", agent="7", groups=None), 1)
        self.now += 60
        self.assertEqual(self.acts.add("chef", "giveName", agent="7", name="Jürgen"), 2)
        self.assertEqual(self.file.read_text(), '{"number": 1, "moment": 1800000000, "login": "chef", "act": "giveLogin", "of": "anna", "role": "agent", "agent": "7"}\n'
                         '{"number": 2, "moment": 1800000060, "login": "chef", "act": "giveName", "agent": "7", "name": "Jürgen"}\n')
        self.assertEqual(os.stat(self.file).st_mode & 0o777, 0o600)
        self.assertEqual([one["number"] for one in self.acts.page(1)["acts"]], [2])
        self.assertEqual(self.acts.page(2), {"acts": [], "last": 2})

    def test_pages(self):
        for _ in range(3):
            self.acts.add("chef", "endLogin", of="anna")
        with mock.patch.object(acts, "MOST", 2):
            self.assertEqual([(one["number"]) for one in self.acts.page(0)["acts"]], [1, 2])

    def test_a_line_that_was_cut(self):
        self.acts.add("chef", "endLogin", of="anna")
        with self.file.open("a") as cut:
            cut.write('{"number": 2, "mo')
        self.assertEqual(self.acts.add("chef", "endLogin", of="ben"), 2)
        self.assertEqual([one["of"] for one in acts.read(self.file)], ["anna", "ben"])
        self.assertEqual(len(self.file.read_text().splitlines()), 3)

    def test_lines_that_are_none(self):
        good = {"number": 5, "moment": 1, "login": "chef", "act": "endLogin"}
        for wrong in ("", "[]", "7", *(json.dumps({**good, name: None}) for name in good), json.dumps({**good, "number": "5"})):
            self.file.write_text(f"{wrong}\n{json.dumps(good)}\n")
            self.assertEqual(acts.read(self.file), [good], wrong)

    def test_on_the_disk_before_it_returns(self):
        done = []
        with mock.patch.object(acts.os, "fsync", side_effect=lambda _: done.append("file")), mock.patch.object(acts.put, "sync_folder", side_effect=lambda _: done.append("folder")):
            self.acts.add("chef", "endLogin", of="anna")
            self.acts.add("chef", "endLogin", of="anna")
        self.assertEqual(done, ["file", "folder", "file"])


if __name__ == "__main__":
    unittest.main()
