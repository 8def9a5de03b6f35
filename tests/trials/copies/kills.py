"""Restores and `--undo` that are killed before each call of the system that changes something, as strace counts them: each command then answers of a whole
pair or can't open the file, the same command again ends it, and `--undo` takes it back, to the byte."""
import re
import shutil
import subprocess
import tempfile
from pathlib import Path

from answers import CLOSED, COMMANDS, Answers
from ground import Office, Part, call, kept, sums
from trial.files import log_of

CALLS = ("rename", "renameat", "renameat2", "link", "linkat", "symlink", "symlinkat", "unlink", "unlinkat", "mkdir", "mkdirat", "rmdir", "fsync", "write",
         "pwrite64", "sendfile", "copy_file_range", "ftruncate", "chmod", "fchmod", "fchmodat", "chown", "fchown", "lchown", "fchownat", "utimensat", "fcntl", "flock")
FEW = ("rename", "link", "symlink", "unlink", "rmdir", "write")
TRACED = ",".join(f"?{name}" for name in CALLS)
# how many wait in the copy, in the file alone that was in place, and in it with its log
COPIED, LAID_IN, IN_PLACE = 2, 4, 7
# what lies beside a file that was pruned twice, in the way that has it: notes and archives, of which a restore looks at the names alone
ARCHIVES = {".archive": "archive desk.db-2026-01-02-7\nlast 7\ndigest 0\nwas 1 1\n", "-2026-01-02-7": "the last one", "-2026-01-01-5": "the first one",
            "-2026-01-02-7.archive": "archive desk.db-2026-01-01-5\nlast 5\ndigest 0\nwas 1 1\n"}
DONE, UNDONE, NOTHING = "Restored ", "Took the restore of ", "there is no restore to take back"


def strace(office, *more):
    return ["strace", "-qq", "-o", office.folder.parent / "trace", "-e", f"trace={TRACED}", *more]


def lies(file):
    """All that belongs to a file and lies there, to the byte."""
    return sums(file, log_of(file), *(file.with_name(f"{file.name}{part}") for part in ARCHIVES))


class Kills(Part):
    """Over one way in which file, log and copy may lie there: at each call, or at those that change names."""

    def __init__(self, way, some):
        super().__init__("try_way")
        self.way, self.some, self.answers, self.kills, self.states = way, some, Answers(), 0, set()

    def expect(self, what, found, wanted=True):
        super().expect(f"{self.way}, {what}", found, wanted)

    # what there is before

    def lying(self):
        """A desk whose last three callers are in its log alone, and a copy of before with two callers less."""
        office = Office(tempfile.mkdtemp(dir=self.folder), self.program, self.script)
        office.plan()
        office.feed([call(1), call(2)])
        office.moment = office.copy_now()
        office.feed([call(3), call(4)])
        office.feed([call(5), call(6), call(7)], kills=True)
        self.lie_otherwise(office)
        return office

    def made(self):
        """Anew, to the byte."""
        office = Office(tempfile.mkdtemp(dir=self.folder), self.program, self.script)
        subprocess.run(["cp", "-a", f"{self.first.folder}/.", office.folder], check=True)
        office.moment, office.before = self.first.moment, lies(office.file)
        return office

    def lie_otherwise(self, office):
        log, copied = log_of(office.file), log_of(office.copies / office.moment / office.file.name)
        if self.way == "a copy without a log":
            copied.unlink()
        elif self.way == "a copy whose log has callers":
            # as a snapshot of a file system has it
            shutil.copy(office.file, copied.parent)
            shutil.copy(log, copied)
            office.feed([call(8), call(9)])
            office.feed([call(10)], kills=True)
        elif self.way == "no log":
            office.run("acd", "audit", "--file", office.file)
            log.unlink()
        elif self.way == "archives of after the copy":
            for part, text in ARCHIVES.items():
                Path(f"{office.file}{part}").write_text(text)
        elif self.way in ("no file", "neither file nor log"):
            office.file.rename(office.folder / "lost")
            if self.way == "neither file nor log":
                log.unlink()

    def numbers(self):
        """How many wait in the copy, and in what was in place."""
        return (IN_PLACE, IN_PLACE + 3) if self.way == "a copy whose log has callers" else (COPIED, IN_PLACE)

    # what there may be meanwhile and at the end

    def look(self, office, what, more=0):
        """Each command answers of a whole pair, all of the same, or can't open the file."""
        copied, in_place = self.numbers()
        if not office.file.exists() and not office.file.is_symlink():
            # there was none before; what a command does then isn't a restore's
            self.expect(f"{what}: without a file all is as it was", lies(office.file), office.before)
            return
        answers = self.answers.of(office)
        first = answers["audit"]
        self.states.add(str(first))
        self.expect(f"{what}: one whole pair or none, {answers}", first in (copied, copied + more, in_place, CLOSED) and all(answers[name] == first for name in COMMANDS))

    def is_restored(self, office, what, more=0):
        copied, _ = self.numbers()
        self.expect(f"{what}: the copy is in place", sum(key.startswith("x ") for key in kept(office.file)), copied + more)
        away = office.folders("put-away-*")
        self.expect(f"{what}: to the byte what was in place is put away", any(lies(one / office.file.name) == office.before for one in away))
        self.expect(f"{what}: no archive of after the copy", lies(office.file)[2:], [None] * len(ARCHIVES))

    def is_back(self, office, what):
        self.expect(f"{what}: to the byte all is as before", lies(office.file), office.before)
        self.expect(f"{what}: nothing is left of it", [str(path) for path in office.folders("put-away-*") + office.folders(".put-away.*")], [])

    def undo(self, office, what, said):
        """Back; of a restore that had been done, and that the same command did once more, in two steps."""
        for _ in range(2 if DONE in said else 1):
            status, printed, faults = office.copy("--undo")
            if lies(office.file) == office.before:
                break
        self.expect(f"{what}: --undo ({faults})", (status, UNDONE in printed), (0, True))
        self.is_back(office, what)

    # what is killed

    def counts(self, office, *words):
        """How many calls of each kind there are."""
        done = office.run(*strace(office), *office.words(*words))
        self.expect(f"{words} goes through", (done[0], done[2]), (0, ""))
        made = re.findall(r"^(\w+)\(", (office.folder.parent / "trace").read_text(), re.MULTILINE)
        return {name: made.count(name) for name in CALLS if name in made}

    def killed(self, office, words, name, number):
        status, said, _ = office.run(*strace(office, "-e", f"inject={name}:signal=KILL:when={number}"), *office.words(*words))
        self.expect(f"{words} is killed at {name} {number}", status, -9)
        self.kills += 1
        return said

    def each(self, counts):
        return [(name, number) for name, count in counts.items() if not self.some or name in FEW for number in range(1, count + 1)]

    def of_restores(self):
        office = self.made()
        for name, number in self.each(self.counts(office, "--restore", office.moment)):
            what = f"restore killed at {name} {number}"
            for again in (True, False):
                office = self.made()
                said = self.killed(office, ("--restore", office.moment), name, number)
                self.look(office, what)
                if again:
                    status, printed, faults = office.copy("--restore", office.moment)
                    self.expect(f"{what}, the same again ({faults})", (status, DONE in printed), (0, True))
                    self.is_restored(office, what)
                    self.undo(office, f"{what}, ended, and --undo", said)
                else:
                    status, printed, faults = office.copy("--undo")
                    self.expect(f"{what}, --undo ({faults})", (status, UNDONE in printed) in ((0, True), (1, False)) and (status == 0 or NOTHING in faults))
                    self.is_back(office, f"{what}, --undo")
                shutil.rmtree(office.folder)

    def restored(self):
        office = self.made()
        office.copy("--restore", office.moment)
        office.feed([call(99)], kills=True)
        return office

    def of_undos(self):
        for name, number in self.each(self.counts(self.restored(), "--undo")):
            office, what = self.restored(), f"undo killed at {name} {number}"
            said = self.killed(office, ("--undo",), name, number)
            self.look(office, what, more=1)
            status, printed, faults = office.copy("--undo")
            done_before = UNDONE in said and NOTHING in faults
            self.expect(f"{what}, the same again ({faults})", status == 0 and UNDONE in printed or done_before)
            self.is_back(office, what)
            taken = office.folders("taken-back-*")
            self.expect(f"{what}: what was in place is kept", [sum(key.startswith("x ") for key in kept(one / office.file.name)) for one in taken], [self.numbers()[0] + 1])
            shutil.rmtree(office.folder)

    def try_way(self):
        self.first = self.lying()
        self.of_restores()
        self.of_undos()
        wanted = {CLOSED, str(self.numbers()[0])} | (set() if self.way in ("no file", "neither file nor log") else {str(self.numbers()[1])})
        self.expect("what was answered of in all", wanted <= self.states)
        print(f"    {self.way}: {self.kills} kills", flush=True)


WAYS = ("file and log", "a copy without a log", "a copy whose log has callers", "no log", "no file", "neither file nor log", "archives of after the copy")
