"""What try-years stands on: files of a desk, what they hold by an independent reader, and the scripts under trial."""
import contextlib
import shutil
import sqlite3
import tempfile
from pathlib import Path

from shipped import PACKAGE, shipped
from trial import TOP, Lines, Trial, planted, ran
from trial.files import held, log_of

UNITS = TOP / "service/units"

MODULES = {str(file.relative_to(PACKAGE)): file.read_text() for file in PACKAGE.rglob("*.py")}
TEXTS = {**MODULES, **{name: (UNITS / name).read_text() for name in ("acd.service", "acd-prune.service")}}
# that of Debian, which the scripts are run by
PYTHON = "/usr/bin/python3"
HISTORY = {"kept": "stamp", "events": "number"}
# what stays in any case: so many requests, and those of so many seconds before the last one
LEAST, HOUR, DAY = 1000, 3600, 86400
READS = "0 GET /snapshot\n0 GET /reports/queues\n"


class Ground(Trial):
    """A class has the program as `acd`, and the scripts, of which one may have a fault. `case` is the one that is tried of a part that has several."""

    texts, case = TEXTS, None

    @classmethod
    def lay(cls, faults):
        """For all that are tried from here on: pairs of texts by the file's name."""
        Ground.texts = {name: planted(text, *faults[name]) if name in faults else text for name, text in TEXTS.items()}

    @classmethod
    def setUpClass(cls):
        super().setUpClass()
        program = cls.folder / "bin/acd"
        program.parent.mkdir()
        cls.program = Path(shutil.copy(Trial.program, program))
        modules = {name: cls.texts[name] for name in MODULES}
        cls.scripts = shipped(cls.folder / "scripts", modules)
        for name in cls.texts.keys() - modules.keys():
            (cls.scripts / name).write_text(cls.texts[name])

    @contextlib.contextmanager
    def scratch(self):
        with tempfile.TemporaryDirectory(dir=self.folder) as folder:
            yield Path(folder)

    # what is run

    def ran(self, *words, wrapped=(), **how):
        return ran(*wrapped, *words, seconds=3600, env={"PATH": f"{self.program.parent}:/usr/sbin:/usr/bin:/sbin:/bin", "LC_ALL": "C.UTF-8"}, **how)

    def acdctl(self, *words, wrapped=()):
        return self.ran(PYTHON, self.scripts / "acdctl", *words, wrapped=wrapped)

    def prune(self, file, *words, wrapped=()):
        """By the command, which makes the archive."""
        return self.acdctl("prune", "--file", file, *words, wrapped=wrapped)

    def prune_by(self, archive, file, *words):
        """By the program alone, as long as there is more to go; the archive is a copy that is made now. What is said last."""
        self.shown(file)
        shutil.copyfile(file, archive)
        said = self.ran("acd", "prune", "--file", file, "--archive", archive, *words)
        while said[1].endswith(", more to go\n"):
            said = self.ran("acd", "prune", "--file", file, "--archive", archive, *words)
        log_of(archive).unlink(missing_ok=True)
        return said

    def export(self, *words):
        return self.ran(PYTHON, self.scripts / "acd-export", *words)

    def feed(self, file, lines):
        """The answers to these lines."""
        status, printed, faults = self.ran("acd", "lines", "--file", file, given="".join(f"{line}\n" for line in lines))
        self.expect(f"acd lines: {faults}", status, 0)
        return printed.splitlines()

    def kill_behind(self, file, lines):
        """The desk answers these, and is killed: the last ones are in its log alone."""
        with Lines(self.program, file) as desk:
            for line in lines:
                desk.say(line)

    def shown(self, file):
        """Snapshot and report."""
        return self.ran("acd", "lines", "--reads", "--file", file, given=READS)

    def audit(self, file, *more):
        return self.ran("acd", "audit", "--count", "--file", file, *more)


# What a file holds

def goes_of(found, archive_last, keep=0, days=0):
    """Of these rows: the last request that goes, and its moment; nothing where none does. No request of its moment stays, and no fewer than it says."""
    moments, last = [(row[0], row[3]) for row in found["kept"]], found["meta"][0][9]
    goes = [(stamp, moment) for left, ((stamp, moment), (_, then)) in zip(range(len(moments) - 1, 0, -1), zip(moments, moments[1:]))
            if moment < then and stamp <= archive_last and left >= max(LEAST, keep) and moment < last - max(HOUR, days * DAY)]
    return goes[-1] if goes else None


def without(found, goes):
    """These rows without those that go."""
    stamp, moment = goes
    return {**found, "kept": [row for row in found["kept"] if row[0] > stamp], "events": [row for row in found["events"] if row[1] > moment]}


def firsts(file):
    """The first request and the first event that it has; of none the next one."""
    found = held(file)
    last = found["meta"][0]
    return tuple(found[table][0][0] if found[table] else last[place] + 1 for table, place in (("kept", 8), ("events", 12)))


def joined(archives, file, made):
    """One file of all of them, by SQLite: the last one with what only the archives have."""
    shutil.copy(file, made)
    book = sqlite3.connect(made.as_uri(), uri=True, isolation_level=None)
    book.execute("PRAGMA journal_mode = DELETE")
    for archive in reversed(archives):
        # read as one that nobody changes, so that nothing is made beside it
        book.execute("ATTACH ? AS archive", (f"{archive.as_uri()}?immutable=1",))
        for table, key in HISTORY.items():
            first, = book.execute(f"SELECT coalesce(min({key}), (SELECT {'last_stamp' if key == 'stamp' else 'last_event'} FROM main.meta) + 1) FROM main.{table}").fetchone()
            book.execute(f"INSERT INTO main.{table} SELECT * FROM archive.{table} WHERE {key} < ?", (first,))
        book.execute("DETACH archive")
    book.close()
    return made
