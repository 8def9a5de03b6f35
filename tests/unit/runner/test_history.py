"""proof/check-history, over logs that are written here."""
from __future__ import annotations

import shutil
import subprocess
import tempfile
import unittest
from pathlib import Path

TOP = Path(__file__).resolve().parents[3]
WRITER = ("-c", "user.name=A", "-c", "user.email=a@example.org", "-c", "commit.gpgsign=false", "-c", "init.defaultBranch=main")


class History(unittest.TestCase):
    def setUp(self) -> None:
        self.folder = Path(self.enterContext(tempfile.TemporaryDirectory()))
        (self.folder / "proof").mkdir()
        shutil.copy(TOP / "proof/check-history", self.folder / "proof")
        self.git("init", "-q")
        (self.folder / "release").mkdir()
        (self.folder / "release/SOURCES").write_text("sum\n")
        self.git("add", "release")
        self.git("commit", "-q", "-m", "Build release/")
        self.git("checkout", "-q", "-b", "change")

    def git(self, *words: str) -> None:
        subprocess.run(["git", *WRITER, *words], cwd=self.folder, check=True)

    def commit(self, subject: str) -> None:
        (self.folder / "file").write_text(subject)
        self.git("add", "file")
        self.git("commit", "-q", "-m", subject)

    def told(self) -> tuple[int, list[str]]:
        """The status, and what is told of each commit, without its name."""
        done = subprocess.run([self.folder / "proof/check-history"], stdout=subprocess.PIPE, text=True)
        return done.returncode, [line.partition(" ")[2] for line in done.stdout.splitlines()[:-1]]

    def test_good_subjects(self) -> None:
        for subject in ("Give each program one head", "Process what a stop leaves", "Need no disk", "X" * 3 + "y" * 68):
            self.commit(subject)
        self.assertEqual(self.told(), (0, []))

    def test_subjects_that_are_otherwise(self) -> None:
        form, mood = "a subject begins with a capital letter, and ends without a full stop", "a subject that isn't in the imperative"
        for subject, faults in (("Give it " + "x" * 64, ["a subject of 72 characters"]), ("give it", [form]), ("Give it.", [form]), ("Added a case", [mood]), ("Adding a case", [mood]),
                                ("Adds a case", [mood]), ("The case of a stop", [mood]), ("WIP", [mood]), ("gate: Give it", [form, mood])):
            with self.subTest(subject=subject):
                self.git("reset", "-q", "--hard", "main")
                self.commit(subject)
                self.assertEqual(self.told(), (1, [f"{subject}: {fault}" for fault in faults]))

    def test_merges(self) -> None:
        self.commit("Give it")
        self.git("checkout", "-q", "-b", "other", "main")
        (self.folder / "another").write_text("")
        self.git("add", "another")
        self.git("commit", "-q", "-m", "Take it")
        self.git("merge", "-q", "-m", "Merge branch change", "change")
        self.assertEqual(self.told(), (0, []))
        self.git("checkout", "-q", "change")
        self.git("merge", "-q", "-s", "ours", "-m", "Keep it beside", "other")
        self.assertEqual(self.told(), (1, ["Keep it beside: a merge that changes nothing"]))
        self.git("reset", "-q", "--hard", "HEAD~1")
        self.git("merge", "-q", "-s", "ours", "-m", "Keep the unfinished proof of it beside main", "other")
        self.assertEqual(self.told(), (0, []))

    def test_what_is_on_main(self) -> None:
        self.commit("Added a case")
        self.git("checkout", "-q", "main")
        self.git("merge", "-q", "change")
        self.assertEqual(self.told(), (0, ["Added a case: a subject that isn't in the imperative"]))
        (self.folder / "release/SOURCES").write_text("another\n")
        self.git("commit", "-q", "-a", "-m", "Build release/ anew")
        self.assertEqual(self.told(), (0, []))


if __name__ == "__main__":
    unittest.main()
