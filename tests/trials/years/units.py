"""A stand-in for systemd, as far as acd-prune.service needs one: it starts and stops acd.service, minds its condition, and runs the lines of acd-prune.service in their
order, the last ones however the others ended. Both units are read as they are installed.

usage: units.py STATE WORDS ..       what a script named systemctl is: show --property=ActiveState, start and stop of acd.service

STATE is a folder with what is known: `settings` in JSON, and `process`, the desk's."""
import contextlib
import fcntl
import json
import os
import re
import shlex
import signal
import subprocess
import sys
import time
from pathlib import Path

PYTHON = "/usr/bin/python3"
LINES = ("ExecCondition", "ExecStartPre", "ExecStart", "ExecStopPost")
# what ExecCondition fails by; anything else but 0 passes over the rest
MEND = 255


def lines_of(unit, name):
    """What a unit says by this name, in its order."""
    return re.findall(rf"^{name}=(.*)$", unit.read_text(), re.MULTILINE)


def environment(unit, settings):
    """That of the unit, with what the trial sets in the place of /etc/acd/acd.env."""
    own = dict(pair.split("=", 1) for line in lines_of(unit, "Environment") for pair in line.split())
    return {"LC_ALL": "C.UTF-8", **own, **settings["environment"], "PATH": f"{settings['bin']}:/usr/sbin:/usr/bin:/sbin:/bin"}


def command(line, scripts, values):
    """A command of a unit, as a program of the repository, without its marks."""
    words = [re.sub(r"\$\{(\w+)\}", lambda found: values[found[1]], word) for word in shlex.split(line.lstrip("+-!@"))]
    return [PYTHON, str(Path(scripts) / Path(words[0]).name), *words[1:]]


def is_alive(process):
    """A process that ended and that nobody waited for isn't."""
    try:
        return Path(f"/proc/{process}/stat").read_text().rpartition(")")[2].split()[0] != "Z"
    except OSError:
        return False


class Desk:
    """acd.service."""

    def __init__(self, state):
        self.state = Path(state)
        self.settings = json.loads((self.state / "settings").read_text())
        self.unit = Path(self.settings["scripts"]) / "acd.service"

    def process(self):
        """The one that runs; nothing where none does."""
        with contextlib.suppress(OSError, ValueError):
            process = int((self.state / "process").read_text())
            return process if is_alive(process) else None
        return None

    def may_start(self):
        return all(Path(condition.lstrip("!")).exists() != condition.startswith("!") for condition in lines_of(self.unit, "ConditionPathExists"))

    def start(self):
        if self.process():
            return
        (self.state / "condition").write_text("yes" if self.may_start() else "no")
        if not self.may_start():
            return
        values = environment(self.unit, self.settings)
        words = command(*lines_of(self.unit, "ExecStart"), self.settings["scripts"], values)
        with open(self.state / "log", "ab") as log:
            desk = subprocess.Popen(words, stdin=subprocess.DEVNULL, stdout=log, stderr=log, env=values, start_new_session=True)
        (self.state / "process").write_text(str(desk.pid))

    def end(self, *how):
        process = self.process()
        for one in how if process else ():
            os.kill(process, one)
        while process and is_alive(process):
            time.sleep(0.005)
            # who began it waits for it, where that is this one
            with contextlib.suppress(ChildProcessError):
                os.waitpid(process, os.WNOHANG)

    def stop(self):
        was_there = self.process()
        self.end(signal.SIGTERM, signal.SIGCONT)
        values = {**environment(self.unit, self.settings), "SERVICE_RESULT": "success"}
        for line in lines_of(self.unit, "ExecStopPost") if was_there else ():
            subprocess.run(command(line, self.settings["scripts"], values), stdin=subprocess.DEVNULL, env=values)


class Pruning:
    """acd-prune.service: what each start of it leaves is looked at by its trial."""

    def __init__(self, desk):
        self.desk, self.unit = desk, Path(desk.settings["scripts"]) / "acd-prune.service"
        self.said, self.begun = "", None

    def lines(self):
        return [(name, line) for name in LINES for line in lines_of(self.unit, name)]

    def run_line(self, line, wrapped=(), how=signal.SIGTERM):
        """Its status. What it left running is ended behind it, as all that is of the unit."""
        values = environment(self.unit, self.desk.settings)
        done = subprocess.Popen([*map(str, wrapped), *command(line, self.desk.settings["scripts"], values)], stdin=subprocess.DEVNULL, stdout=subprocess.PIPE,
                                stderr=subprocess.STDOUT, text=True, env=values, start_new_session=True)
        self.begun = done.pid
        self.said += done.communicate()[0]
        with contextlib.suppress(ProcessLookupError):
            while True:
                os.killpg(done.pid, how)
                time.sleep(0.005)
                # the trial is the first process of its name space, so they are its own by now
                with contextlib.suppress(ChildProcessError):
                    os.waitpid(-done.pid, os.WNOHANG)
        return done.returncode

    def start(self, wrapped=None, is_cut=False):
        """How it ended: done, passed over or failed. `wrapped` has words before the line of a number; where is_cut is set, that is the last one that is run."""
        wrapped, self.said, self.begun, ended = wrapped or {}, "", None, "done"
        passing = {0, *(int(word) for line in lines_of(self.unit, "SuccessExitStatus") for word in line.split())}
        for number, (name, line) in enumerate(self.lines()):
            if name != "ExecStopPost" and ended != "done":
                continue
            status = self.run_line(line, wrapped.get(number, ()), signal.SIGKILL if is_cut else signal.SIGTERM)
            if is_cut and number in wrapped:
                return "cut"
            if status in passing or "-" in line.partition("/")[0]:
                continue
            if name == "ExecCondition" and 0 < status < MEND:
                ended = "passed over"
            else:
                ended = "failed"
                if name == "ExecStopPost":
                    break
        return ended


def main():
    state, words = Path(sys.argv[1]), sys.argv[2:]
    with open(state / "lock", "w") as lock:
        fcntl.flock(lock, fcntl.LOCK_EX)
        desk = Desk(state)
        if words[0] == "show" and "--property=ConditionResult,ConditionTimestampMonotonic" in words:
            found = state / "condition"
            print(f"ConditionResult={found.read_text() if found.exists() else 'no'}\nConditionTimestampMonotonic={int(found.exists())}")
        elif words[0] == "show":
            print("active" if desk.process() else "inactive")
        elif words[0] == "start" and words[-1] == "acd.service":
            desk.start()
        elif words == ["stop", "acd.service"]:
            desk.stop()
        else:
            sys.exit(f"units.py: systemctl {' '.join(words)}")


if __name__ == "__main__":
    main()
