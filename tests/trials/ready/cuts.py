"""Cases of small files behind a power cut: the image of a disk is copied the moment a file was put there, and the copy's file system has it whole."""
import contextlib
import os
import subprocess
import sys
import tempfile
from pathlib import Path

from trial import TOP, Trial, missing

sys.path.insert(0, str(TOP / "tests/unit/service"))
# each file system, what makes one in an image of so many MB, and what its copy is mounted by: XFS takes no second disk of one name
DISKS = [("ext4", ["mkfs.ext4", "-q"], 32, []), ("xfs", ["mkfs.xfs", "-q"], 320, ["nouuid"])]


class Cuts(Trial):
    @contextlib.contextmanager
    def mounted(self, image, *options):
        with tempfile.TemporaryDirectory(dir=self.folder) as folder:
            subprocess.run(["mount", "-o", ",".join(["loop", *options]), image, folder], check=True)
            try:
                yield Path(folder)
            finally:
                subprocess.run(["umount", folder], check=True)

    def after_cut(self, image, name, options):
        """The content of a file on a copy of the image; None where there is none."""
        cut = self.folder / "cut"
        subprocess.run(["cp", "--reflink=auto", "--sparse=always", image, cut], check=True)
        with self.mounted(cut, *options) as folder:
            file = folder / name
            return file.read_bytes() if file.exists() else None

    @staticmethod
    def accounts(folder):
        """The file of all telephone accounts: its name, its path and what writes it, each number another account."""
        def write(number):
            subprocess.run([TOP / "exchange/acd-account", str(200 + number), folder / "subscriber"], input=f"secret{number}\n", text=True, check=True)

        return "the accounts", folder / "subscriber", write

    def try_cuts(self):
        """Each small file of each program, put there the first time and once more."""
        import test_put
        lacking = missing(["losetup", *(words[0] for _, words, _, _ in DISKS)])
        if os.geteuid() or lacking:
            return self.tell(f"no cuts: they need root{''.join(f', {name}' for name in lacking)}")
        for kind, words, size, options in DISKS:
            image = self.folder / kind
            with open(image, "wb") as out:
                out.truncate(size << 20)
            subprocess.run([*words, image], check=True, stdout=subprocess.DEVNULL)
            with self.mounted(image) as folder:
                (folder / "first").mkdir()
                subprocess.run(["sync", "-f", folder], check=True)
                for what, path, write in [*test_put.writers(folder / "first"), self.accounts(folder / "first")]:
                    for number in (1, 2):
                        write(number)
                        found = self.after_cut(image, path.relative_to(folder), options)
                        self.expect(f"{what}, put {number} times on {kind}", (found, bool(found)), (path.read_bytes(), True))
        return None
