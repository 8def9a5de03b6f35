"""What the trials of acd-ready stand on: the script and its modules in a folder of their own, of which one may have a fault; a desk's file, and a call that arrives there."""
import importlib
import os
import re
import sys
import tempfile
from pathlib import Path
from unittest import mock

from shipped import shipped, text_of
from trial import Desk, Plan, Requests, Trial, free_port, line, ran

MODULES = ("ready.py", "audit.py", "chain.py", "command.py", "held.py", "listening.py", "log.py", "acd_notify.py", "pair.py", "put.py", "restoring.py", "settings.py", "watch.py")
MOMENT = 1800000000
MEND, WORDS, ELSEWHERE, AGAIN = 64, 2, 4, 1


def pair(file):
    """A file's log and its note."""
    return file.with_name("desk.db-wal"), file.with_name("desk.db-pair")


def arrival(number):
    """The line of a call that arrives, by the request of this number."""
    return line(MOMENT + number, Requests(pbx=number - 1).arrive(f"030{number}"))


class Scripts(Trial):
    texts = {name: text_of(name) for name in MODULES}

    @classmethod
    def setUpClass(cls):
        super().setUpClass()
        cls.scripts = shipped(cls.folder / "scripts", cls.texts)
        cls.plan = cls.folder / "plan.csv"
        cls.plan.write_text(Plan([("100", "Billing", 20, 5)], ["201"], [("7", "Ana")]).text())

    @classmethod
    def new(cls):
        """The file of a desk in a folder of its own: three requests made its plan."""
        file = Path(tempfile.mkdtemp(dir=cls.folder)) / "desk.db"
        if cls.acd("import", "--file", file, "--plan", cls.plan).status:
            raise ValueError(f"{file} has no plan")
        return file

    @classmethod
    def modules(cls, *names):
        """Modules of the scripts, loaded anew with all that they stand on, which nobody else gets."""
        with mock.patch.dict(sys.modules), mock.patch.object(sys, "path", [str(cls.scripts.parent), *sys.path]):
            for each in [each for each in sys.modules if each.partition(".")[0] == "acd_service"]:
                del sys.modules[each]
            importlib.invalidate_caches()
            return [importlib.import_module(f"acd_service.{name}") for name in names]

    @classmethod
    def module(cls, name="ready"):
        return cls.modules(name)[0]


class Served(Desk):
    """A desk that is served by these words, and is killed at the end."""

    def __init__(self, words, port, variables):
        self.port = self.place = port
        self.start(*words, variables=variables)
        self.listens = self.process.stdout.readline()


class Ready(Scripts):
    """acd-ready as the unit runs it, over the program."""

    @classmethod
    def setUpClass(cls):
        super().setUpClass()
        cls.bin = cls.folder / "bin"
        cls.bin.mkdir()
        (cls.bin / "acd").symlink_to(cls.program)
        cls.variables = cls.finding(cls.bin)

    @staticmethod
    def finding(folder):
        """The variables of a process that finds `acd` in this folder."""
        return {**os.environ, "PATH": f"{folder}:{os.environ['PATH']}"}

    def words(self, *words):
        return [sys.executable, self.scripts / "acd-ready", *words]

    def ready(self, *words, variables=None):
        return ran(*self.words(*words), env=variables or self.variables)

    def executed(self, file):
        """How many requests an audit finds in the file and its log, or in copies of them."""
        return int(re.search(r"executed (\d+)", self.acd("audit", "--file", file, "--count").output).group(1))

    def served(self, file, port=None):
        port = port or free_port()
        return Served(self.words("--serve", "--file", file, "--port", port), port, self.variables)

    def ask(self, desk, number):
        """The status of a call's arrival."""
        return desk.post(arrival(number).partition(" ")[2].strip()).status

    def stopped(self, file, result):
        """What the unit does behind a desk that has ended, by systemd's word for how; what is said."""
        status, out, said = self.ready("--stopped", "--file", file, variables={**self.variables, "SERVICE_RESULT": result})
        self.expect(f"behind an end by {result}", (status, out), (0, ""))
        return said

    def starts(self, what, file, calls=(), result="signal"):
        """It is served, takes calls and is killed; what it says. Where there is no result, that is a power cut: nothing is noted behind it."""
        with self.served(file) as desk:
            self.expect(f"{what}: it listens", desk.listens, f"listening on 127.0.0.1:{desk.port}\n")
            self.expect(f"{what}: it answers", [self.ask(desk, number) for number in calls], [200] * len(list(calls)))
        return desk.said() + (self.stopped(file, result) if result else "")

    def fails(self, what, said, *words, status=MEND):
        """One line that has these words, a status, and nothing else."""
        has, out, line = self.ready("--serve", *words)
        self.expect(f"{what}: {line!r}", (has, out, line.count("\n"), line.startswith("acd-ready: "), [one for one in said if one not in line]), (status, "", 1, True, []))
