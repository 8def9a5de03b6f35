"""The scripts of proof/places still find each text, on a clone of the tree as it is."""
from __future__ import annotations

import subprocess
import tempfile
import unittest
from pathlib import Path

from runner.jobs import PYTHON, TOP


class Places(unittest.TestCase):
    def copy(self) -> Path:
        """A clone, with what the working tree has otherwise than its last commit."""
        folder = Path(self.enterContext(tempfile.TemporaryDirectory())) / "copy"
        subprocess.run(["git", "clone", "-q", "--shared", TOP, folder], check=True)
        changed = subprocess.run(["git", "diff", "--binary", "HEAD"], cwd=TOP, stdout=subprocess.PIPE, check=True).stdout
        if changed:
            subprocess.run(["git", "apply", "-"], cwd=folder, input=changed, check=True)
        return folder

    def test_each_text_is_found(self) -> None:
        for script in ("service.py", "column.py"):
            with self.subTest(script=script):
                done = subprocess.run([PYTHON, "-B", TOP / "proof/places" / script, self.copy()], stdout=subprocess.PIPE, stderr=subprocess.PIPE, text=True, check=False)
                self.assertEqual((done.returncode, done.stderr), (0, ""))


if __name__ == "__main__":
    unittest.main()
