"""What ./test counts of files of tests that are written here, by pytest and by unittest, and of a trial's last line."""
from __future__ import annotations

import re
import tempfile
import unittest
from pathlib import Path

from runner import counts, parts
from runner.jobs import TOP, Count, Job, Jobs

GOOD = "import unittest\nclass T(unittest.TestCase):\n    def test_a(self): pass\n    def test_b(self): pass\n"
BAD = GOOD + "    def test_c(self): self.assertEqual(1, 2)\n"
PARTS = GOOD + "    def test_c(self):\n        for n in range(3):\n            with self.subTest(n=n): self.fail('part')\n"
SKIPPED = GOOD + "    @unittest.skip('not here')\n    def test_c(self): pass\n"
CLASS = GOOD + "    @classmethod\n    def setUpClass(cls): raise OSError('no room')\n"
ENDED = GOOD + "    def test_c(self):\n        import os; os._exit(0)\n"
WAYS = (True, False) if parts.has_pytest() else (False,)


class Counts(unittest.TestCase):
    """A process runs several files: what failed in one of them counts beside what passed in the others."""

    def counted(self, by_pytest: bool, **texts: str) -> Count:
        with tempfile.TemporaryDirectory() as folder, Jobs() as jobs:
            files = [Path(folder) / f"test_{name}.py" for name in texts]
            for file, text in zip(files, texts.values()):
                file.write_text(text)
            return jobs.run(parts.unit_job("it", files, TOP / "release/acd", by_pytest)).count

    def test_files(self) -> None:
        for by_pytest in WAYS:
            with self.subTest(by_pytest=by_pytest):
                count = self.counted(by_pytest, good=GOOD, bad=BAD, parts=PARTS, skipped=SKIPPED)
                self.assertEqual((count.passed, [name.split(".")[-3:] for name in count.failed], [name.split(".")[-3:] for name in count.skipped]),
                                 (8, [["test_bad", "T", "test_c"], ["test_parts", "T", "test_c"]], [["test_skipped", "T", "test_c"]]))

    def test_files_that_cannot_be_run(self) -> None:
        for by_pytest in WAYS:
            with self.subTest(by_pytest=by_pytest):
                count = self.counted(by_pytest, good=GOOD, whole=CLASS, lacks="import nothing_of_this_name\n", broken="def broken(:\n")
                self.assertEqual((count.passed, {name for name in ("whole", "lacks", "broken") if any(f"test_{name}" in failed for failed in count.failed)}),
                                 (2, {"whole", "lacks", "broken"}))

    def test_a_process_that_comes_to_no_end_and_one_without_a_test(self) -> None:
        for by_pytest in WAYS:
            for texts in ({"good": GOOD, "ended": ENDED}, {"none": ""}):
                with self.subTest(by_pytest=by_pytest, texts=texts):
                    count = self.counted(by_pytest, **texts)
                    self.assertEqual((count.passed, len(count.failed)), (0, 1))

    def test_a_trial(self) -> None:
        failed = "   0.2 s  failed  Days.try_noon\n"
        for output, status, wanted in (("9 tried, 0 wrong; 3 passed, 0 failed, 2 s\n", 0, Count(3)),
                                       (f"{failed}9 tried, 1 wrong; 2 passed, 1 failed, 2 s\n", 1, Count(2, ("Days.try_noon",))),
                                       ("9 tried, 1 wrong; 2 passed, 1 failed, 2 s\n", 1, Count(2, ("status 1",))),
                                       ("9 tried, 0 wrong; 3 passed, 0 failed, 2 s\n", 1, Count(3, ("status 1",))),
                                       ("lacks strace\n", 1, Count(0, ("its process ended with status 1",))), ("", 0, Count(0, ("its process ended with status 0",)))):
            with self.subTest(output=output):
                self.assertEqual(counts.of_trial(status, output, Path()), wanted)


class Trials(unittest.TestCase):
    """By a trial that is written here."""

    def counted(self, cases: str, *words: str) -> tuple[Count, str]:
        text = f'''"""usage: try-it"""
import sys
sys.path.insert(0, {str(TOP / "tests/trials")!r})
from trial import Trial, command, main


class It(Trial):
{cases}

main([It], command(__doc__).parse_args())
'''
        with tempfile.TemporaryDirectory() as folder, Jobs() as jobs:
            file = Path(folder) / "try-it"
            file.write_text(text)
            outcome = jobs.run(Job("it", ("/usr/bin/python3", str(file), "/bin/true", *words), counts.of_trial))
        return outcome.count, outcome.output

    def test_cases(self) -> None:
        good, wrong, breaks = ("    def try_good(self):\n        self.expect('it', 1, 1)\n        self.expect('it', 2, 2)\n",
                               "    def try_wrong(self):\n        self.expect('it', 1, 2)\n        self.expect('it', 3, 4)\n",
                               "    def try_breaks(self):\n        raise OSError('no room')\n")
        set_up = "    @classmethod\n    def setUpClass(cls):\n        super().setUpClass()\n        cls.expect('set up', 1, 2)\n"
        for cases, words, passed, failed in ((good, (), 1, ()), (wrong + good, (), 1, ("It.try_wrong",)), (breaks + good, (), 1, ("It.try_breaks",)),
                                             (set_up + good, (), 1, ("outside_of_cases",)), (wrong + good, ("--case", "good"), 1, ()),
                                             (wrong + good, ("--case", "It.try_wrong"), 0, ("It.try_wrong",)), (good, ("--case", "absent"), 0, ("status 1",))):
            with self.subTest(cases=cases, words=words):
                count, output = self.counted(cases, *words)
                self.assertEqual((count.passed, count.failed), (passed, failed), output)

    def test_a_case_that_a_signal_ends(self) -> None:
        """It isn't told as one that passed, unless something had gone wrong before in it; those before it are."""
        good, wrong = "    def try_good(self):\n        self.expect('it', 1, 1)\n", "        self.expect('it', 1, 2)\n"
        head, ends = "    def try_ended(self):\n        import os, signal\n", "        os.kill(os.getpid(), signal.SIGTERM)\n        self.expect('it', 1, 1)\n"
        for before, told in (("", "not run"), (wrong, "failed")):
            with self.subTest(told):
                count, output = self.counted(good + head + before + ends)
                self.assertEqual((count.passed, count.failed), (0, ("its process ended with status 143",)), output)
                self.assertEqual(re.findall(r"^ *[\d.]+ s  (\w[\w ]*?)  It.try_(\w+)$", output, re.MULTILINE), [("passed", "good"), (told, "ended")], output)


if __name__ == "__main__":
    unittest.main()
