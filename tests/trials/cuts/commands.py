"""Each command that promises something of a power cut: what it leaves at each of its syncs, and that all is on the disk once it has ended."""
import hashlib
import re
import shutil
import tempfile
from pathlib import Path

from again import ARRIVES, PLANNED, TICK, ticks
from disks import KINDS, Disk
from ground import PYTHON, Office, Part, call, kept
from kills import DONE, UNDONE, Kills, lies

GOOD = re.compile(r"\d{4}-\d\d-\d\dT\d{6}Z")
CALLER = "0301555"
CLEARED = f'{{"requester":"pbx","invoke":2,"service":"clearConnection","call":1,"device":"{CALLER}"}}'
SOUND = "sound\n"


class Cuts(Part):
    """A class says what is laid on the disk, what is run, and judges what is left of it."""

    kinds = tuple(KINDS)

    def on_each_kind(self):
        for kind in self.kinds:
            self.on(kind)

    def on(self, kind):
        """`judge` sees the office behind each cut, and whether the command had ended."""
        scratch = Path(tempfile.mkdtemp(dir=self.folder))
        disk = Disk(kind, scratch)
        with disk.mounted():
            office = self.laid(disk.folder)
            disk.sync()
            done = disk.run(office, *self.words(office))
            self.expect(f"{kind}: it goes through: {done.output}{done.faults}", done.status, 0)
            self.ended(office, done)
        for number, cut in enumerate(disk.cuts):
            is_last = number == len(disk.cuts) - 1
            with disk.mounted(cut):
                self.judge(f"{kind}, {'at its end' if is_last else f'at sync {number + 1}'}", office, is_last)
            cut.unlink()
        self.see(f"{kind}: there are syncs", len(disk.cuts) > 2, len(disk.cuts))
        self.tell(f"{kind}: {len(disk.cuts)} cuts")
        disk.image.unlink()

    def ended(self, office, done):
        """What there is once the command has ended, without a cut."""

    def office_in(self, folder):
        return Office(tempfile.mkdtemp(dir=folder), self.program, self.script)

    def other_script(self, name):
        return PYTHON, self.script.parent / name

    def with_a_day_behind(self, folder):
        """A desk whose only call was over long before its last requests, as many as stay in any case."""
        office = self.office_in(folder)
        self.fed(office, PLANNED.rstrip("\n"), f"5 {ARRIVES}", f"100 {CLEARED}", f"300000 {TICK}", ticks("laid", 300000).rstrip("\n"))
        self.all = kept(office.file)
        return office

    def fed(self, office, *lines):
        status, _, faults = office.run("acd", "lines", "--file", office.file, given="".join(f"{line}\n" for line in lines))
        self.expect(f"acd lines: {faults}", status, 0)


class Copied(Cuts):
    """Each folder that has a good copy's name is one, and the number of its requests is whole."""

    def try_copy(self):
        self.on_each_kind()

    def laid(self, folder):
        office = self.office_in(folder)
        office.plan()
        office.feed([call(1), call(2)])
        self.earlier = office.copy_now()
        office.feed([call(3), call(4), call(5)], kills=True)
        self.first, self.all = kept(office.copies / self.earlier / "desk.db"), kept(office.file)
        self.notes = {(office.copies / "executed").read_text()}
        return office

    def words(self, office):
        return office.words()

    def ended(self, office, done):
        self.made = Path(done.output.rpartition("sound: ")[2].strip())
        self.notes.add((office.copies / "executed").read_text())

    def judge(self, what, office, is_last):
        self.expect(f"{what}: the desk's file", kept(office.file), self.all)
        for copy in (path for path in office.copies.iterdir() if GOOD.fullmatch(path.name)):
            self.expect(f"{what}: {copy.name}", kept(copy / "desk.db"), self.first if copy.name == self.earlier else self.all)
        self.see(f"{what}: the number of its requests is whole", (office.copies / "executed").read_text() in self.notes)
        if is_last:
            self.expect(f"{what}: the copy is there", self.made.is_dir())
        status, said, faults = office.copy()
        self.expect(f"{what}: the same again: {said}{faults}", (status, "sound: " in said, faults), (0, True, ""))


class Kept(Cuts):
    """A file with a copy of before; what is asked behind a cut is what is asked behind a kill."""

    def laid(self, folder):
        self.kills = Kills("file and log", some=True)
        self.kills.folder = self.folder
        self.kills.first = self.kills.lying()
        self.kills.folder = folder
        return self.kills.made()


class Restored(Kept):
    """Each command answers of one whole pair or can't open the file; the same again ends it, and --undo takes it back."""

    def try_restore(self):
        self.on_each_kind()

    def words(self, office):
        return office.words("--restore", office.moment)

    def judge(self, what, office, is_last):
        self.kills.look(office, what)
        if is_last:
            self.kills.is_restored(office, what)
        status, said, faults = office.copy("--restore", office.moment)
        self.expect(f"{what}, the same again: {faults}", (status, DONE in said), (0, True))
        self.kills.is_restored(office, f"{what}, the same again")
        for _ in range(3):
            if lies(office.file) != office.before:
                status, said, faults = office.copy("--undo")
                self.expect(f"{what}, --undo: {faults}", (status, UNDONE in said), (0, True))
        self.kills.is_back(office, f"{what}, --undo")


class Undone(Kept):
    """The same of --undo; what was in place is kept."""

    def try_undo(self):
        self.on_each_kind()

    def laid(self, folder):
        office = super().laid(folder)
        status, said, faults = office.copy("--restore", office.moment)
        self.expect(f"restored: {faults}", (status, DONE in said), (0, True))
        office.feed([call(99)], kills=True)
        return office

    def words(self, office):
        return office.words("--undo")

    def judge(self, what, office, is_last):
        self.kills.look(office, what, more=1)
        if is_last:
            self.expect(f"{what}: to the byte all is as before", (lies(office.file), office.folders("put-away-*")), (office.before, []))
        office.copy("--undo")
        self.kills.is_back(office, f"{what}, the same again")
        taken = office.folders("taken-back-*")
        self.expect(f"{what}: what was in place is kept", [sum(key.startswith("x ") for key in kept(one / office.file.name)) for one in taken], [self.kills.numbers()[0] + 1])


class Pruned(Cuts):
    """The file is as it was or pruned, and goes on from the archive that its note names; no request is lost; the same again does the rest."""

    def try_prune(self):
        self.on_each_kind()

    def laid(self, folder):
        return self.with_a_day_behind(folder)

    def words(self, office):
        return *self.other_script("acdctl"), "prune", "--file", office.file

    def ended(self, office, done):
        self.archive, = archives_of(office)
        self.new = kept(office.file)
        self.names = {path.name for path in office.folder.iterdir()}
        self.see("requests are pruned", 0 < len(self.new) < len(self.all), len(self.new))
        self.expect("the archive", kept(self.archive), self.all)

    def judge(self, what, office, is_last):
        found, note = kept(office.file), Path(f"{office.file}.archive")
        self.see(f"{what}: the file is as it was, or pruned", found == self.new or not is_last and found == self.all, len(found))
        if is_last:
            self.expect(f"{what}: files and notes have their names", self.names - {path.name for path in office.folder.iterdir()}, set())
        self.see(f"{what}: pruned with its archive alone", found == self.all or note.exists(), len(found))
        if note.exists():
            self.expect(f"{what}: the archive that is noted", kept(self.archive), self.all)
            self.expect(f"{what}: and its digest", re.findall("digest (.*)", note.read_text()), [hashlib.sha256(self.archive.read_bytes()).hexdigest()])
        status, said, faults = office.copy()
        self.expect(f"{what}: a copy: {said}{faults}", (status, "sound: " in said, faults), (0, True, ""))
        shutil.rmtree(office.copies)
        status, said, faults = office.run(*self.words(office))
        self.expect(f"{what}, the same again: {said}{faults}", (status, faults), (0, ""))
        self.expect(f"{what}, the same again: the files", (kept(office.file), kept(self.archive)), (self.new, self.all))
        status, said, faults = office.run("acd", "audit", "--file", office.file, "--archive", self.archive)
        self.expect(f"{what}: the audit: {faults}", (status, said), (0, SOUND))
        self.expect(f"{what}: what is left", sorted(path.name for path in office.folder.glob(".prune*")), [])


def archives_of(office):
    return [path for path in office.folder.glob("desk.db-????-??-??-*") if not path.name.endswith((".archive", "-wal"))]


class Forgotten(Cuts):
    """Each archive is whole, with the number or without it; the same again ends it; what was put away is kept."""

    def try_forget(self):
        self.on_each_kind()

    def laid(self, folder):
        office = self.with_a_day_behind(folder)
        status, _, faults = office.run(*self.other_script("acdctl"), "prune", "--file", office.file)
        self.archive, = archives_of(office)
        self.expect(f"pruned: {faults}", (status, self.holds(self.archive)), (0, True))
        office.copy_now()
        self.copy = office.copies / "archives" / self.archive.name
        return office

    @staticmethod
    def holds(archive):
        return CALLER.encode() in archive.read_bytes()

    def words(self, office):
        return *self.other_script("acd-forget"), "--file", office.file, "--folder", office.copies, "--caller", CALLER, "--archive", self.archive

    def judge(self, what, office, is_last):
        for archive in (self.archive, self.copy):
            self.expect(f"{what}: {archive.parent.name}/{archive.name}", kept(archive), self.all)
        if is_last:
            self.is_forgotten(what)
        status, said, faults = office.run(*self.words(office))
        self.expect(f"{what}, the same again: {said}{faults}", (status, faults), (0, ""))
        self.is_forgotten(f"{what}, the same again")
        status, said, faults = office.run("acd", "audit", "--file", office.file, "--archive", self.archive)
        self.expect(f"{what}: the audit: {faults}", (status, said), (0, SOUND))
        away = [path for folder in office.folders("put-away-*") for path in folder.glob(self.archive.name)]
        self.expect(f"{what}: the old archive is put away", [(kept(path) == self.all, self.holds(path)) for path in away], [(True, True)])
        status, said, faults = office.copy()
        self.expect(f"{what}: a copy: {said}{faults}", (status, "sound" in said, faults), (0, True, ""))

    def is_forgotten(self, what):
        self.expect(f"{what}: the number is nowhere", [self.holds(archive) for archive in (self.archive, self.copy)], [False, False])
