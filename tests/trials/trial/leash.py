#!/usr/bin/python3
"""Ends a program with all that it started: its children, theirs, and those whose parents have ended.

usage: tests/trials/trial/leash.py COMMAND ..        (its status is the command's)"""
import ctypes
import os
import signal
import sys
import time
from pathlib import Path

SET_DEATH_SIGNAL, SET_CHILD_SUBREAPER = 1, 36   # of prctl
ENDING = (signal.SIGTERM, signal.SIGINT, signal.SIGHUP)
GRACE = 3.0     # so many seconds a program has to clear up after a signal
DYING = 60.0    # and so many what was killed has to be gone, which takes a busy machine some


def control(option: int, value: int) -> None:
    if ctypes.CDLL(None, use_errno=True).prctl(option, value, 0, 0, 0):
        raise OSError(ctypes.get_errno(), "prctl")


def parents() -> dict[int, int]:
    """The parent of each process."""
    found = {}
    for entry in Path("/proc").glob("[0-9]*"):
        try:
            found[int(entry.name)] = int((entry / "stat").read_text(errors="replace").rpartition(")")[2].split()[1])
        except (OSError, IndexError):
            pass    # it has ended
    return found


def descendants() -> list[int]:
    parent_of, found = parents(), [os.getpid()]
    for process in found:
        found += [child for child, parent in parent_of.items() if parent == process]
    return found[1:]


def ended(child: int) -> int | None:
    """The status of the child, if it has ended. What others have left to this process is taken leave of."""
    status = None
    while True:
        try:
            process, found = os.waitpid(-1, os.WNOHANG)
        except ChildProcessError:
            return status
        if not process:
            return status
        if process == child:
            code = os.waitstatus_to_exitcode(found)
            status = code if code >= 0 else 128 - code


def kill_all() -> None:
    """Kills every descendant, and those that they start meanwhile."""
    end = time.monotonic() + DYING
    while left := descendants():
        for process in left:
            try:
                os.kill(process, signal.SIGKILL)
            except ProcessLookupError:
                pass
        ended(0)
        if time.monotonic() > end:
            return
        time.sleep(0.01)


def wait_for(child: int) -> int:
    """Waits for the child, passes a signal on to its group, and kills what is left."""
    status, end, awaited = None, None, (*ENDING, signal.SIGCHLD)
    while status is None and (end is None or time.monotonic() < end):
        got = signal.sigtimedwait(awaited, 0.5)
        if got and got.si_signo in ENDING:
            end = end or time.monotonic() + GRACE
            try:
                os.killpg(child, signal.SIGTERM)
            except ProcessLookupError:
                pass
        status = ended(child)
    kill_all()
    return 128 + signal.SIGTERM if status is None else status


def hold() -> None:
    """From here on the program goes on as the child of a process that ends with it whatever it started."""
    control(SET_CHILD_SUBREAPER, 1)
    sys.stdout.flush()
    sys.stderr.flush()
    before = signal.pthread_sigmask(signal.SIG_BLOCK, [*ENDING, signal.SIGCHLD])
    holder = os.getpid()
    child = os.fork()
    if child:
        os._exit(wait_for(child))
    os.setpgid(0, 0)
    control(SET_DEATH_SIGNAL, signal.SIGTERM)
    signal.pthread_sigmask(signal.SIG_SETMASK, before)
    if os.getppid() != holder:
        os._exit(128 + signal.SIGTERM)


if __name__ == "__main__":
    hold()
    os.execvp(sys.argv[1], sys.argv[1:])
