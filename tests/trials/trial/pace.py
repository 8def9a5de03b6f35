"""How much slower this machine is just now than a free one: what is promised in seconds is promised of a free one."""
import subprocess
import time

USUAL = 0.05    # seconds that a start of Python takes at most where nothing else runs
STARTS = 5


def start() -> float:
    began = time.monotonic()
    subprocess.run(["/usr/bin/python3", "-S", "-c", ""], check=True)
    return time.monotonic() - began


def slowness() -> float:
    """1 on a free machine, and on a busy one more, by the slowest of some starts of Python."""
    return max(1.0, max(start() for _ in range(STARTS)) / USUAL)
