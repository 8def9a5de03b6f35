"""A trial in name spaces of its own, with its folders in memory."""
import os
import subprocess
import sys
import tempfile

from .leash import hold


def is_alone():
    """Whether the trial has begun again in name spaces of its own."""
    return "TRIAL_ALONE" in os.environ


def alone(*spaces):
    """Starts the same command in name spaces of its own, of processes too: with it ends all that it started. There it goes on."""
    if not is_alone():
        hold()
        os.execvpe("unshare", ["unshare", *spaces, "--pid", "--fork", "--kill-child", "--mount-proc", "/usr/bin/python3", *sys.argv], {**os.environ, "TRIAL_ALONE": "yes"})
    tempfile.tempdir = "/dev/shm"
    if "--net" in spaces:
        subprocess.run(["ip", "link", "set", "lo", "up"], check=True)
