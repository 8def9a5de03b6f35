"""What each command of the program answers of a file: how many callers wait there, or that it can't be opened."""
import contextlib
import json
import os
import re
import shutil
import signal
import subprocess
import tempfile
from pathlib import Path

from ground import PLANNED, Office, kept, sums
from trial import Desk, Plan, free_port
from trial.files import log_of

ROW = Plan([], ["299"], []).text()
CLOSED = "cannot open"


def copy_of(office):
    """The folder with all that lies in it, links and second names too."""
    scratch = tempfile.mkdtemp(dir=office.folder.parent)
    subprocess.run(["cp", "-a", f"{office.folder}/.", scratch], check=True)
    return Office(scratch, office.program, office.script)


def by_audit(office):
    status, said, faults = office.run("acd", "audit", "--count", "--file", "desk.db")
    found = re.fullmatch(r"sound\nexecuted (\d+)\n", said)
    return int(found[1]) - PLANNED if status == 0 and found else (status, said, faults)


def by_report(office):
    status, said, faults = office.run("acd", "report", "--file", "desk.db")
    found = re.search(r"^100 +(\d+) ", said, re.MULTILINE)
    return int(found[1]) if status == 0 and found else (status, said, faults)


def by_export(office):
    status, said, faults = office.run("acd", "export", "--file", "desk.db")
    return said.count(",queued,") if status == 0 else (status, said, faults)


def by_lines(office):
    status, said, faults = office.run("acd", "lines", "--reads", "--file", "desk.db", given="0 GET /queues/100\n")
    return len(json.loads(said.partition(" ")[2])["calls"]) if status == 0 and said.startswith("200 ") else (status, said, faults)


def by_import(office):
    """It adds a row, and the rest is as it was."""
    (office.folder / "row.csv").write_text(ROW)
    status, said, faults = office.run("acd", "import", "--file", "desk.db", "--plan", "row.csv")
    if status or not said.startswith(("200 ", "422 ")):
        return status, said, faults
    keys = kept(office.file)
    return sum(key.startswith("x ") for key in keys)


def by_serve(office):
    with contextlib.suppress(RuntimeError), Desk(office.program, "desk.db", cwd=office.folder) as desk:
        waiting = len(desk.read("/snapshot")["calls"])
        desk.kill()
        return waiting if desk.process.returncode == -signal.SIGKILL else (desk.process.returncode, "", desk.said())
    # it doesn't serve: once more, for what it says
    return office.run("acd", "serve", "--file", "desk.db", "--port", free_port(), "--endless")


COMMANDS = {"audit": by_audit, "report": by_report, "export": by_export, "lines": by_lines, "import": by_import, "serve": by_serve}


def answer(command, office):
    """What a command answers of a copy of the folder."""
    scratch = copy_of(office)
    try:
        found = COMMANDS[command](scratch)
    finally:
        shutil.rmtree(scratch.folder)
    return CLOSED if found == (1, "", "acd: cannot open desk.db\n") else found


def seen(file):
    """All that a command can see of a file and its log."""
    if not os.path.lexists(file):
        return "nothing", *sums(log_of(file))
    about = os.lstat(file)
    return (about.st_mode, about.st_nlink, Path(os.path.realpath(file)) == file, *sums(file, log_of(file)))


class Answers:
    """What all commands answer of what they can see; the same sight is looked at once."""

    def __init__(self):
        self.known = {}

    def of(self, office):
        key = seen(office.file)
        if key not in self.known:
            self.known[key] = {command: answer(command, office) for command in COMMANDS}
        return self.known[key]
