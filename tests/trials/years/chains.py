"""acdctl prune by hand: rows, archives and the notes that it leaves, and full disks; and acd-copy over pruned files: copies, their archives, and putting back what was copied before a
prune."""
import hashlib
import json
import re
import shutil
import subprocess
import time
from pathlib import Path

from cases import changed, disk, listing
from ground import DAY, HOUR, PYTHON, TOP, Ground, goes_of, without
from trial.files import copied, held, log_of
from kills import PLAN

ALONE = ("desk.db", "desk.db-wal", "desk.db-pair", "desk.db.archive")


# requests of each hour: a caller's two, and ticks
TICKS = 20


def days(first, last):
    """Callers who come, one an hour, and hang up ten seconds later; and ticks, so that two days are more than the thousand requests that stay in any case."""
    for number in range(first, last):
        moment = DAY + HOUR * number
        yield f"{moment} " + json.dumps({"requester": "pbx", "invoke": 2 * number, "service": "arriveCall", "caller": f"030{number:08}", "called": "100"})
        yield f"{moment + 10} " + json.dumps({"requester": "pbx", "invoke": 2 * number + 1, "service": "clearConnection", "call": number,
                                              "device": f"030{number:08}"})
        yield from (f"{moment + 60 * tick} " + json.dumps({"requester": "clock", "invoke": TICKS * number + tick, "service": "tick"}) for tick in range(1, TICKS + 1))


def identity(path):
    return subprocess.run(["stat", "--format=%i %.9W", "--", path], capture_output=True, text=True).stdout.strip()


def sha256(path):
    return hashlib.sha256(path.read_bytes()).hexdigest()


def text_of(path):
    return Path(path).read_text() if Path(path).exists() else None


def note_of(file):
    """What the note of its archive says; nothing where there is none."""
    return dict(line.split(" ", 1) for line in (text_of(f"{file}.archive") or "").splitlines())


class Office:
    """A folder with a desk's file, which is pruned, and its copies."""

    def __init__(self, ground, folder):
        self.ground, self.folder, self.file, self.copies = ground, folder, folder / "desk.db", folder / "copies"

    def prune(self, *words, **how):
        return self.ground.prune(self.file, *words, **how)

    def last(self):
        """Of the last executed request the stamp and the moment."""
        return held(self.file)["meta"][0][8:10]

    def copy(self, *words, program=None):
        path = {"wrapped": ["env", f"PATH={program.parent}:{self.ground.program.parent}:/usr/sbin:/usr/bin:/sbin:/bin"]} if program else {}
        return self.ground.ran(PYTHON, self.ground.scripts / "acd-copy", "--file", self.file, "--folder", self.copies, *words, **path)

    def good(self, what, *words):
        """The folder of a good copy."""
        status, printed, faults = self.copy(*words)
        made = re.search(r"^sound: (\S+)$", printed, re.MULTILINE)
        self.ground.expect(f"{what}: {printed}{faults}", (status, faults, bool(made)), (0, "", True))
        return Path(made[1]) if made else self.copies / "none"

    def archives(self, folder=None):
        """In their order."""
        found = (re.fullmatch(r"desk\.db-\d{4}-\d\d-\d\d-(\d+)", path.name) for path in (folder or self.folder).iterdir())
        return [(folder or self.folder) / name[0] for name in sorted(filter(None, found), key=lambda name: int(name[1]))]

    def serve(self, first, last):
        answers = self.ground.feed(self.file, days(first, last))
        self.ground.expect("answers", {answer[:4] for answer in answers}, {"200 "})


class Chains:
    def __init__(self, ground, folder):
        self.ground, self.folder = ground, folder

    def office(self, name):
        folder = self.folder / name
        folder.mkdir()
        office = Office(self.ground, folder)
        self.ground.feed(office.file, PLAN)
        office.serve(1, 81)
        return office

    # by hand

    def by_hand(self):
        """Twice: rows, notes, and that nothing else is left."""
        ground, office = self.ground, self.office("hand")
        for turn in range(2):
            rows, was, own = held(office.file), identity(office.file), text_of(f"{office.file}.archive")
            last, moment = office.last()
            goes = goes_of(rows, last, days=2)
            ground.expect("pruned", office.prune(), (0, f"pruned up to request {goes[0]}\n", ""))
            archive = office.folder / f"desk.db-{time.strftime('%Y-%m-%d', time.gmtime(moment))}-{last}"
            ground.expect("the archive's rows", archive.exists() and held(archive) == rows)
            ground.expect("the file's rows", held(office.file) == without(rows, goes))
            ground.expect("the file is in its place", identity(office.file), was)
            ground.expect("the note", note_of(office.file), {"archive": archive.name, "last": str(last), "digest": sha256(archive)})
            ground.expect("the archive's own", text_of(f"{archive}.archive"), own)
            archived = {f"{each.name}{part}" for each in office.archives() for part in ("", ".archive")}
            ground.expect("the rest", {path.name for path in office.folder.iterdir()} - archived <= set(ALONE))
            office.serve(81 + 50 * turn, 131 + 50 * turn)
        self.refusals(office)

    def refusals(self, office):
        ground, (last, moment) = self.ground, office.last()
        taken = office.folder / f"desk.db-{time.strftime('%Y-%m-%d', time.gmtime(moment))}-{last}"
        for part in ("", ".archive"):
            Path(f"{taken}{part}").write_text("mine")
            before = listing(office.folder)
            status, printed, faults = office.prune()
            after = listing(office.folder)
            for found in (before, after):
                found.pop("desk.db-wal", None)
            ground.expect(f"a name that is taken: {faults}", (status, faults, after == before),
                          (1, f"acdctl prune: {taken}{part} is there already; nothing was changed\n", True))
            Path(f"{taken}{part}").unlink()
        ground.expect("pruned once more", (office.prune()[0], len(office.archives())), (0, 3))
        ground.expect("and there is nothing to prune", office.prune(), (0, "nothing to prune\n", ""))
        ground.expect("nor by an older name, with the status that it had", ground.ran(PYTHON, ground.scripts / "acd-carry", "--file", office.file, "--days", 2)[:2], (3, "nothing to prune\n"))

    def beside(self):
        """It is refused beside a desk, which goes on."""
        ground, office = self.ground, self.office("beside")
        desk = subprocess.Popen([ground.program, "lines", "--file", office.file], stdin=subprocess.PIPE, stdout=subprocess.PIPE, text=True)
        try:
            self.ask(desk, 81)
            status, printed, faults = office.prune()
            ground.expect(f"refused: {faults}", (status, f"is open in process {desk.pid}" in faults, office.archives()), (1, True, []))
            self.ask(desk, 82)
        finally:
            desk.stdin.close()
            desk.wait()

    def ask(self, desk, number):
        desk.stdin.write(f"{next(days(number, number + 1))}\n")
        desk.stdin.flush()
        self.ground.expect("the desk goes on", desk.stdout.readline()[:4], "200 ")

    def full(self):
        """On disks of each size from too small to great enough it is the file as it was, with nothing else, or the pruned one with all that belongs to it."""
        ground, whole, states = self.ground, self.office("whole"), set()
        rows = held(whole.file)
        goes = goes_of(rows, rows["meta"][0][8], days=2)
        for size in range(500, 3500, 250):
            folder = self.folder / "full"
            folder.mkdir(exist_ok=True)
            with disk(folder, f"{size}k"):
                office = Office(ground, folder)
                shutil.copy(whole.file, folder)
                status, printed, faults = office.prune()
                found = held(office.file)
                states.add((status, found == rows))
                lies = {path.name for path in folder.iterdir()} - {"desk.db-wal"}
                archive = {"desk.db.archive", *(path.name for path in office.archives())}
                # the program may have had no room where the archive has its place already
                ground.expect(f"a disk of {size} kB: {printed}{faults}", (lies in ({"desk.db"}, {"desk.db", *archive}), faults.count("acdctl prune: "), found in (rows, without(rows, goes)), found == rows),
                              (True, 1 if status else 0, True, status != 0))
                ground.expect("pruned with its archive alone", found == rows or len(archive) == 2)
        ground.expect("some go through, and some don't", states, {(0, False), (1, True)})

    def compacted(self):
        """The lines of docs/PRUNING.md that compact a file: the same rows with the same archive, nothing of who was pruned in its bytes, and a copy of it is good."""
        ground, office = self.ground, self.office("compacted")
        lines = re.search(r"runuser -u acd -- sh -euc '\n(.*?)'; systemctl start acd && systemctl start acd-copy\n", (TOP / "docs/PRUNING.md").read_text(), re.DOTALL)[1]
        ground.expect("pruned", office.prune()[0], 0)
        rows, size = held(office.file), office.file.stat().st_size
        folder = self.folder / "programs"
        folder.mkdir()
        # as the program of this name does, which isn't everywhere
        (folder / "sqlite3").write_text(f"#!{PYTHON}\nimport sqlite3, sys\nsqlite3.connect(sys.argv[1], isolation_level=None).execute(sys.argv[2])\n")
        (folder / "sqlite3").chmod(0o755)
        status, printed, faults = ground.ran("env", f"PATH={folder}:{ground.program.parent}:/usr/bin:/bin", "sh", "-euc", lines.replace("cd /var/lib/acd", f"cd {office.folder}"))
        ground.expect(f"compacted: {faults}", (status, printed, held(office.file) == rows), (0, "sound\n", True))
        ground.expect("it is smaller", office.file.stat().st_size < size * 0.8)
        ground.expect("nothing is left of a caller of before", (b"03000000001" in office.file.read_bytes(), b"03000000001" in office.archives()[0].read_bytes()), (False, True))
        lies = {path.name for path in office.folder.iterdir()} - {"desk.db-wal", f"{office.archives()[0].name}-wal"}
        ground.expect("nothing else lies there", lies, {"desk.db", "desk.db.archive", office.archives()[0].name})
        office.good("a copy of it")
        office.serve(81, 91)

    # copies

    def copied(self):
        """Each archive is copied once, and its digest looked at; the number of requests goes on."""
        ground, office = self.ground, self.office("copied")
        before, last = office.good("before the first one"), office.last()[0]
        ground.expect("it has no archive", [path.name for path in before.iterdir() if "archive" in path.name], [])
        # one of another day, that goes where anything is cleared away
        before.rename(office.copies / "1970-01-05T000000Z")
        office.prune()
        first = office.archives()[0]
        made = office.good("behind it")
        lies = office.copies / "archives" / first.name
        ground.expect("the archive's copy, and its digest", (sha256(lies), text_of(f"{lies}.sha256")), (sha256(first), f"{sha256(first)}  {first.name}\n"))
        ground.expect("the note goes along", note_of(made / "desk.db"), note_of(office.file))
        ground.expect("the number goes on", (office.copies / "executed").read_text().splitlines()[0], f"executed {last}")
        ground.expect("nothing else lies there", {path.name for path in lies.parent.iterdir()}, {first.name, f"{first.name}.sha256"})
        ground.expect("audited by hand", (ground.audit(made / "desk.db", "--archive", lies)[0], log_of(lies).exists()), (0, True))
        office.serve(81, 131)
        was = lies.stat()
        office.prune()
        office.good("behind the second one")
        ground.expect("it isn't copied again", (lies.stat().st_ino, lies.stat().st_mtime_ns), (was.st_ino, was.st_mtime_ns))
        ground.expect("both are there", [path.name for path in office.archives(lies.parent)], [path.name for path in office.archives()])
        self.fewer(office)
        self.altered(office)
        self.without(office)
        self.by_memory(office)

    def bad(self, what, office, name, said, *words, **how):
        """It fails, its copy has this name, and nothing is cleared away."""
        before = {path.name for path in office.copies.glob("*Z")}
        status, printed, faults = office.copy("--keep", "1", *words, **how)
        lies = re.search(r"it lies in (\S+),", faults)
        self.ground.expect(f"{what}: {printed}{faults}", (status, said in faults, bool(lies and re.fullmatch(name, Path(lies[1]).name))), (1, True, bool(name)))
        self.ground.expect(f"{what}: nothing is cleared away", before <= {path.name for path in office.copies.glob("*Z")})

    def fewer(self, office):
        """A pruned file goes on from the one that was copied before: it can't have fewer requests than that; nor one that an older version carried over."""
        note, last = office.copies / "executed", office.last()[0]
        office.serve(131, 135)
        office.prune("--days", "1")
        text = note.read_text()
        note.write_text(text.replace(f"executed {last}", "executed 9999"))
        said = f"the copy has {office.last()[0]} executed requests, and the last one of the same file had 9999"
        self.bad("fewer than before it was pruned", office, r"fewer-\S+", said)
        note.write_text(re.sub("inode .*", "inode 131 1.5", text.replace(f"executed {last}", "executed 9999")))
        own = Path(f"{office.file}.archive")
        own.write_text(own.read_text() + "was 131 1.5\n")
        self.bad("fewer than the file that an older version carried over", office, r"fewer-\S+", said)
        note.write_text(text)
        office.good("as many")

    def altered(self, office):
        """A file whose older requests aren't the archive's; a copied archive that changed; one whose log ends early."""
        office.serve(135, 140)
        whole = copied(office.file, self.folder)
        for statement in ("UPDATE kept SET body = '{}' WHERE stamp = (SELECT min(stamp) FROM kept)",
                          "UPDATE events SET call = 1 WHERE number = (SELECT min(number) FROM events)",
                          "UPDATE meta SET max_calls = max_calls - 1", "DELETE FROM events WHERE number = (SELECT max(number) - 1 FROM events)"):
            changed(office.file, statement)
            self.bad(statement, office, "unsound", "the copy isn't sound")
            self.bad(f"{statement}, by SQL", office, "unsound", "the copy isn't sound", program=self.stand_in('case "$*" in *--archive*) exit 2;; esac'))
            for part in (whole, log_of(whole)):
                shutil.copyfile(part, office.folder / part.name)
        lies = office.copies / "archives" / office.archives()[0].name
        data = lies.read_bytes()
        lies.write_bytes(data[:-9] + bytes([data[-9] ^ 1]) + data[-8:])
        self.bad("a copied archive that changed", office, "", f"{lies} isn't what was copied")
        lies.write_bytes(data)
        office.good("as it was")

    def without(self, office):
        """The archive that it goes on from is nowhere; or is another one than was noted."""
        last = office.archives()[-1]
        copy, aside = office.copies / "archives" / last.name, self.folder / "aside"
        last.rename(aside)
        office.good("with the copied one alone")
        away = copy.rename(self.folder / "copy-aside")
        self.bad("without its archive", office, r"\S+\.unaudited", "the copy can't be looked at behind its archive")
        shutil.copy(office.archives()[0], last)
        self.bad("with another one", office, r"\S+\.unaudited", "isn't the archive that was noted")
        aside.rename(last)
        away.rename(copy)
        office.good("with its own")

    def stand_in(self, does):
        """A program that does this where it has to audit something."""
        program = self.folder / "stand-in/acd"
        program.parent.mkdir(exist_ok=True)
        program.write_text(f'#!/bin/sh\nif [ "$1" = audit ]; then {does}; fi\nexec {self.ground.program} "$@"\n')
        program.chmod(0o755)
        return program

    def by_memory(self, office):
        """What ends the audit for its memory; and a program that looks behind the archive: stand-ins."""
        last = office.copies / "archives" / office.archives()[-1].name
        for what, does, name, said in (("killed", "kill -9 $$", r"\S+\.unaudited", "the copy's audit wasn't ended"),
                                       ("no memory", "echo 'acd: no memory' >&2; exit 1", r"\S+\.unaudited", "the copy's audit wasn't ended"),
                                       ("differs", "echo 'differs at request 7'; exit 3", "unsound", "the audit says 'differs at request 7'"),
                                       ("early", "echo 'sound, but its log ends early'; exit 5", r"\S+\.early", "log ends early"),
                                       ("sound", f'case "$*" in *--archive\\ {last}*) echo sound; echo executed {office.last()[0]};; esac', None, "")):
            program = self.stand_in(f"{does}; exit")
            if name:
                self.bad(what, office, name, said, program=program)
            else:
                status, printed, faults = office.copy(program=program)
                self.ground.expect(f"{what}: {printed}{faults}", (status, faults), (0, ""))

    # restores

    def restored(self):
        """Copies of before each prune are put back, with the archives that they go on from; and each time that is taken back, to the byte."""
        ground, office = self.ground, self.office("restored")
        moments = []
        for first in (81, 131, 181):
            moments.append((office.good("before one"), held(office.file), [path.name for path in office.archives()]))
            office.prune()
            office.serve(first, first + 50)
        for made, rows, archives in moments:
            before, all_archives = listing(office.folder), [path.name for path in office.archives()]
            status, printed, faults = office.copy("--restore", made.name)
            ground.expect(f"put back: {faults}", (status, held(office.file) == rows, [path.name for path in office.archives()]), (0, True, archives))
            ground.expect("its note", note_of(office.file).get("archive"), archives[-1] if archives else None)
            away, = office.folder.glob("put-away-*")
            ground.expect("what was made after it is put aside", [path.name for path in office.archives(away)],
                          [name for name in all_archives if name not in archives])
            if not archives:
                office.serve(81, 91)
            status, printed, faults = office.copy("--undo")
            for taken in office.folder.glob("taken-back-*"):
                shutil.rmtree(taken)
            ground.expect(f"taken back: {faults}", (status, self.same(listing(office.folder), before)), (0, []))
        self.brought(office, moments)

    @staticmethod
    def same(after, before):
        """What differs, but for the note of which file and log are together."""
        return sorted(name for name in after.keys() | before.keys() if after.get(name) != before.get(name) and name not in ("desk.db-pair", "desk.db-wal"))

    def brought(self, office, moments):
        """What lies in the folder of copies alone comes back along with a copy."""
        made, rows, archives = moments[2]
        bytes_of = {name: (office.folder / name).read_bytes() for name in archives}
        for path in office.folder.iterdir():
            if path.name != "copies":
                path.unlink() if path.is_file() else shutil.rmtree(path)
        status, printed, faults = office.copy("--restore", made.name)
        self.ground.expect(f"of a lost disk: {faults}", status, 0)
        self.ground.expect("rows and archives", (held(office.file) == rows, {path.name: path.read_bytes() for path in office.archives()} == bytes_of),
                           (True, True))
        office.good("and goes on")

    def all(self, case=None):
        for each in [case] if case else ("by_hand", "beside", "full", "compacted", "copied", "restored"):
            getattr(self, each)()


class OfChains(Ground):
    def try_chains(self):
        with self.scratch() as folder:
            Chains(self, folder).all(self.case)
