"""Of export: each event of a file and its archives once, and what is told of those that are missing."""
import subprocess
import unittest

import service_ground as ground
from service_ground import said


class Exports(ground.Case):
    def setUp(self):
        super().setUp()
        self.desk(ground.PLAN + ground.arrives(1) + ground.arrives(2, "0302345", 20) + ground.tick(1, 300000))
        whole = ground.lines(self.file, ground.arrives(3, "0305678", 300100))
        self.assertTrue(whole.startswith("200 "))
        self.text = subprocess.run([ground.ACD, "export", "--file", self.file], capture_output=True, text=True, check=True).stdout

    def pruned(self):
        """The archive of the file, which goes on without its first events."""
        archive = self.home / "archive"
        archive.write_bytes(self.file.read_bytes())
        ground.changed(self.file, "DELETE FROM kept WHERE moment < 300000", "DELETE FROM events WHERE moment < 300000")
        return archive

    def test_of_one_file(self):
        self.assertEqual(said("export", "--file", self.file), (0, self.text, ""))

    def test_with_its_archive(self):
        archive = self.pruned()
        for words, by in ((("export",), "acdctl"), ((), "acd-export")):
            self.assertEqual(said(*words, "--file", self.file, "--archive", archive, by=by), (0, self.text, ""))

    def test_without_it(self):
        self.pruned()
        done = said("export", "--file", self.file)
        first = int(done.out.splitlines()[1].partition(",")[0])
        self.assertEqual((done.status, done.faults), (3, f"acdctl export: events 1 to {first - 1} are missing\n"))

    def test_one_that_is_missing(self):
        ground.changed(self.file, "DELETE FROM events WHERE number = 2")
        lines = self.text.splitlines(keepends=True)
        self.assertEqual(said("export", "--file", self.file), (3, "".join(lines[:2] + lines[3:]), "acdctl export: event 2 is missing\n"))

    def test_an_event_of_both_is_the_archives(self):
        archive = self.pruned()
        ground.changed(self.file, "UPDATE events SET call = 1")
        self.assertEqual(said("export", "--file", self.file, "--archive", archive), (0, self.text, ""))

    def test_faults(self):
        self.assertEqual(said("export", "--file", self.home / "none")[::2], (1, f"acdctl export: acd: cannot open {self.home}/none\n"))
        self.assertEqual(said("export").status, 2)
        self.assertRegex(said(by="acd-export").faults, r"\Ausage: acd-export .*")
        archive = self.home / "archive"
        self.assertEqual(said("export", "--file", self.file, "--archive", archive), (1, "", f"acdctl export: acd: cannot open {archive}\n"))
        self.assertEqual(said("export", "--file", self.file, "--archive", self.file), (4, "", f"acdctl export: acd: {self.file} is open elsewhere\n"))


if __name__ == "__main__":
    unittest.main()
