"""Trials by pytest: each case is a test, which fails where the case does."""
from __future__ import annotations

import importlib.util
import os
import re
import subprocess
import unittest
from pathlib import Path

from runner import parts
from runner.jobs import PYTHON, TOP

ALL = {**parts.OF_THE_PROGRAM, **parts.OF_THE_SERVICE, **parts.BY_HAND}


@unittest.skipUnless(importlib.util.find_spec("pytest"), "for want of python3-pytest")
class ByPytest(unittest.TestCase):
    def pytest(self, *words: str, **variables: str) -> tuple[int, str]:
        done = subprocess.run([PYTHON, "-m", "pytest", "-q", "-p", "no:cacheprovider", *words], cwd=TOP, env={**os.environ, **variables},
                              stdin=subprocess.DEVNULL, stdout=subprocess.PIPE, stderr=subprocess.STDOUT, text=True, check=False)
        return done.returncode, done.stdout

    def test_each_case_is_found(self) -> None:
        status, said = self.pytest("tests/trials", "--collect-only")
        found = re.findall(r"^tests/trials/(try-\S+)::(.+?): (\w+\.try_\w+)$", said, re.MULTILINE)
        self.assertEqual((status, len(found), len(set(found))), (0, sum(job.cases() for job in parts.trials(Path(), ALL)), len(found)))
        self.assertIn(("try-copies", "copies", "Again.try_good"), found)

    def test_a_case_fails_and_passes(self) -> None:
        """Over a program that says nothing, and over the one that is tried."""
        case = ("tests/trials/try-untouched", "-k", "untouched and try_a_file")
        for program, wanted in (("/bin/true", (1, "1 failed")), (os.environ.get("ACD", str(TOP / "release/acd")), (0, "1 passed"))):
            status, said = self.pytest(*case, ACD=program)
            self.assertEqual((status, wanted[1] in said), (wanted[0], True), said)


if __name__ == "__main__":
    unittest.main()
