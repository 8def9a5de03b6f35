"""A Debian of one's own, in a folder: fetched once by debootstrap, kept as a tar file, and unpacked anew for each trial."""
import hashlib
import os
import shutil
import subprocess
import tempfile
from pathlib import Path

MIRROR = "http://deb.debian.org/debian"
# Debian 12 and Debian 13: the packages are made and used in both
SUITES = ("bookworm", "trixie")
ALONE = ("unshare", "--mount", "--pid", "--fork", "--kill-child")


def make_base(folder, included, suite=SUITES[0]):
    """The tar file of a Debian with these packages, kept for the next run. ValueError has what debootstrap says where it fails."""
    base = folder / f"base-{suite}-{hashlib.sha256(included.encode()).hexdigest()[:8]}.tar"
    if base.exists():
        return base
    with tempfile.TemporaryDirectory(dir=folder) as scratch:
        root = Path(scratch) / "root"
        made = subprocess.run([*ALONE, "debootstrap", "--variant=minbase", f"--include={included}", suite, root, MIRROR],
                              stdout=subprocess.PIPE, stderr=subprocess.STDOUT, text=True)
        if made.returncode:
            raise ValueError(f"debootstrap says\n{made.stdout[-2000:]}")
        # no archive of packages, no policy of where it was made that services mustn't start, and nothing that a mount left
        shutil.rmtree(root / "var/cache/apt/archives")
        (root / "usr/sbin/policy-rc.d").unlink(missing_ok=True)
        subprocess.run(["tar", "-C", root, "--one-file-system", "-cf", f"{base}.new", "."], check=True)
    os.rename(f"{base}.new", base)
    return base


def unpack(base, root):
    root.mkdir()
    subprocess.run(["tar", "-C", root, "-xpf", base], check=True)
