"""Stops the desk's unit and keeps it down, while something is done to its file, and starts it again. By root; tested,
not proved.

/run/acd-prune, which a power cut empties, has two files without bytes. `down` is a condition of the unit: while it is
there nobody starts the unit, whoever asks for it, and systemd remembers that somebody asked. `start` says that the unit
was up, and has to be started again. Both are there before the unit is stopped, and `start` until it is started: so
either command may be killed at any moment, and the second one alone, run once more, does the rest."""
import subprocess
import time
from pathlib import Path

from acd_service.command import Fault

UNIT = "acd.service"
FOLDER = Path("/run/acd-prune")
DOWN, START = FOLDER / "down", FOLDER / "start"
# states in which somebody wants it up: it runs, or is started, or is about to be
UP = ("active", "activating", "reloading")
# seconds until one that is being stopped has ended, more than systemd gives it
PATIENCE, PAUSE = 120, 0.1


def systemctl(*words: str) -> str:
    """The command's output."""
    done = subprocess.run(["systemctl", *words], stdin=subprocess.DEVNULL, stdout=subprocess.PIPE,
                          stderr=subprocess.PIPE, text=True)
    if done.returncode:
        raise Fault(f"systemctl {' '.join(words)}: {' '.join(done.stderr.split()) or f'status {done.returncode}'}")
    return done.stdout.strip()


def state() -> str:
    return systemctl("show", "--value", "--property=ActiveState", UNIT)


def is_up() -> bool:
    """Whether somebody wants the unit up. One that is just being stopped may be about to be started again, so its end
    is waited for."""
    end = time.monotonic() + PATIENCE
    while (found := state()) == "deactivating" and time.monotonic() < end:
        time.sleep(PAUSE)
    return found in UP


def stop() -> None:
    """From now on the unit is down, and stays so."""
    was_up = is_up()
    FOLDER.mkdir(exist_ok=True)
    if was_up:
        START.touch()
    DOWN.touch()
    # or somebody started it, as nothing kept it down yet
    if not was_up and is_up():
        START.touch()
    systemctl("stop", UNIT)


def was_refused() -> bool:
    """Whether somebody asked for the unit while it was kept down: then the last look at its conditions failed, of which
    it has no other."""
    said = systemctl("show", "--property=ConditionResult,ConditionTimestampMonotonic", UNIT).split()
    return "ConditionResult=no" in said and "ConditionTimestampMonotonic=0" not in said


def start() -> None:
    """From now on the unit isn't kept down, and it is started if `stop` found it up, or somebody asked for it
    meanwhile. If there is nothing to undo, it does nothing."""
    if not FOLDER.exists():
        return
    DOWN.unlink(missing_ok=True)
    if START.exists() or was_refused():
        # it may wait for the end of the unit by which this is run, which mustn't wait for it
        systemctl("start", "--no-block", UNIT)
        START.unlink(missing_ok=True)
    FOLDER.rmdir()
