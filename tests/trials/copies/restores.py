"""Restores and --undo: what is put where, whose it is, and beside what nothing is touched."""
import fcntl
import os
import re
import shutil
import stat
import subprocess
from pathlib import Path

from ground import OTHER, PYTHON, Part, call, frames, kept, listing, spoil, sums
from trial import free_port
from trial.files import log_of

DONE = r"Restored %s into %s\. The previous files are in (\S+); acd-copy --undo brings them back\n"
UNDONE = r"Took the restore of %s back: %s is as before(?:\. The files of meanwhile are in (\S+))?\n"
HOLD = "import fcntl, sys, time; file = open(sys.argv[1], 'rb+'); fcntl.lockf(file, fcntl.LOCK_EX, 512, 1 << 30); print(flush=True); time.sleep(60)"


class Restores(Part):
    # what there is

    def copied(self, **how):
        """A desk with a copy, and three callers more, one of them in the log alone."""
        office = self.office(**how)
        office.moment = office.copy_now()
        office.feed([call(3), call(4)])
        office.feed([call(5)], kills=True)
        return office

    def restored(self, what, office, moment, **how):
        """The folder of what was put away."""
        status, said, faults = office.copy("--restore", moment, **how)
        found = re.fullmatch(DONE % (re.escape(moment), re.escape(str(office.file))), said)
        self.expect(f"{what}: {said}{faults}", (status, bool(found), faults), (0, True, ""))
        return Path(found[1]) if found else office.folder / "none"

    def undone(self, what, office, moment, **how):
        status, said, faults = office.copy("--undo", **how)
        found = re.fullmatch(UNDONE % (re.escape(moment), re.escape(str(office.file))), said)
        self.expect(f"{what}: {said}{faults}", (status, bool(found), faults), (0, True, ""))
        return Path(found[1]) if found and found[1] else None

    def refused(self, what, office, pattern, *words, **how):
        """Status 1 and one line, and nothing was touched."""
        before = listing(office.folder)
        status, said, faults = office.copy(*words, **how)
        self.expect(f"{what}: {said}{faults!r}", (status, said, faults.count("\n"), bool(re.search(pattern, faults))), (1, "", 1, True))
        self.expect(f"{what}: what was touched", {name for name, is_there in (listing(office.folder).items() ^ before.items())}, set())

    # what is done

    def try_one(self):
        office = self.copied()
        before, copy = sums(office.file, log_of(office.file)), office.copies / office.moment
        of_copy = listing(copy)
        away = self.restored("a restore", office, office.moment)
        self.expect("it has what the copy has", kept(office.file), kept(copy / "desk.db"))
        self.expect("what was in place is put away", sums(away / "desk.db", away / "desk.db-wal"), before)
        self.expect("the name", bool(re.fullmatch(r"put-away-\d{4}-\d\d-\d\dT\d{6}Z-[0-9a-f]{6}", away.name)))
        self.expect("the copy is as it was", listing(copy), of_copy)
        office.feed([call(9)])
        taken = self.undone("--undo", office, office.moment)
        self.expect("it is as before", sums(office.file, log_of(office.file)), before)
        self.expect("what was answered since is kept", kept((taken or office.folder / "none") / "desk.db")[-1:], ["x 9"])
        self.refused("a second --undo", office, "^acd-copy: there is no restore to take back", "--undo")

    def try_no_log(self):
        """A copy without a log leaves none."""
        office = self.copied()
        log_of(office.copies / office.moment / "desk.db").unlink()
        away = self.restored("of a copy without a log", office, office.moment)
        self.expect("its log, and the one before", [log_of(office.file).exists(), log_of(away / "desk.db").exists()], [False, True])

    def try_journal(self):
        """What SQLite left beside the file goes with it, and comes back with it."""
        office = self.copied()
        for part in ("-journal", "-shm"):
            Path(f"{office.file}{part}").write_text("left")
        before = listing(office.folder)
        self.restored("of a file with a journal", office, office.moment)
        self.expect("what is beside it", sorted(path.name for path in office.folder.glob("desk.db*")), ["desk.db", "desk.db-pair", "desk.db-wal"])
        self.expect("it can be opened", office.run("acd", "audit", "--file", office.file), (0, "sound\n", ""))
        self.undone("back", office, office.moment)
        self.expect("all is as before", {name: listing(office.folder).get(name) for name in before if name.startswith("desk.db")},
                    {name: what for name, what in before.items() if name.startswith("desk.db")})

    def try_several(self):
        """The last one is taken back first."""
        office = self.copied()
        first = kept(office.file)
        self.restored("the first", office, office.moment)
        office.feed([call(7)])
        second = kept(office.file)
        later = office.copy()[1].rpartition("/")[2].strip()
        office.feed([call(8)])
        third = kept(office.file)
        for moment in (later, office.moment, later):
            self.restored("the next ones", office, moment)
        found = []
        for moment in (later, office.moment, later, office.moment):
            self.undone("back", office, moment)
            found.append(kept(office.file))
        copy = kept(office.copies / office.moment / "desk.db")
        self.expect("what there was, in turn", found, [copy, second, third, first])

    def try_owner(self):
        """Root puts it back, and all is the owner's alone; so does the owner, and nobody else."""
        office = self.copied()
        subprocess.run(["chown", "-R", f"{OTHER}:{OTHER}", office.folder], check=True)
        for user in (None, OTHER):
            away = self.restored(f"a restore by {user or 'root'}", office, office.moment, user=user)
            owner = stat.S_IMODE(os.stat(office.file).st_mode), Path(office.file).owner(), Path(office.file).group()
            self.expect("whose it is", [owner, *((stat.S_IMODE(os.stat(path).st_mode), path.owner()) for path in (log_of(office.file), away))],
                        [(0o600, OTHER, OTHER), (0o600, OTHER), (0o700, OTHER)])
            self.undone("back", office, office.moment, user=user)
        self.expect("nothing is root's", [str(path) for path in office.folder.rglob("*") if os.lstat(path).st_uid == 0], [])
        self.refused("another user", office, f"^acd-copy: only root and the user {OTHER} put a copy of ", "--restore", office.moment, user="games")

    def try_mask(self):
        """A copy that others may read doesn't become one."""
        office = self.copied()
        for part in (office.copies / office.moment).iterdir():
            part.chmod(0o644)
        self.restored("of a copy for all", office, office.moment)
        self.expect("its modes", [stat.S_IMODE(os.stat(path).st_mode) for path in (office.file, log_of(office.file))], [0o600] * 2)

    def try_note(self):
        """The note of which file and log are together names those that are in place."""
        office = self.copied()
        for words in (("--restore", office.moment), ("--undo",)):
            office.copy(*words)
            said = Path(f"{office.file}-pair").read_text().split()
            self.expect(f"the note behind {words}", [said[1], said[4]], [str(os.stat(path).st_ino) for path in (office.file, log_of(office.file))])

    # beside what it is refused

    def try_beside_a_desk(self):
        office = self.copied()
        desk = office.serve().process
        for words in (("--restore", office.moment), ("--undo",)):
            self.refused("beside a desk", office, rf"^acd-copy: {office.file} is open in process {desk.pid} \(acd serve --file {office.file}\): kill {desk.pid}; nothing was touched\n", *words)
        os.rename(office.file, office.folder / "elsewhere")
        self.refused("beside a desk whose file was moved", office, rf"process {desk.pid} .*: kill {desk.pid}; nothing", "--restore", office.moment)
        office.end()

    def try_beside_others(self):
        """A program that isn't a desk, and one that this user doesn't see."""
        office = self.copied()
        subprocess.run(["chown", "-R", f"{OTHER}:{OTHER}", office.folder], check=True)
        holds = subprocess.Popen([PYTHON, "-c", HOLD, office.file], stdout=subprocess.PIPE)
        try:
            holds.stdout.readline()
            self.refused("beside another program", office, rf"is open in process {holds.pid} .*: kill {holds.pid}; nothing was touched", "--restore", office.moment)
            self.refused("beside one of root's", office, "another program, which this user can't see, has .* open, or restores it: stop it first; nothing", "--restore", office.moment, user=OTHER)
        finally:
            holds.kill()
            holds.communicate()
        folder = os.open(office.folder, os.O_RDONLY)
        fcntl.flock(folder, fcntl.LOCK_EX)
        self.refused("beside another restore", office, "or restores it: stop it first; nothing", "--restore", office.moment)
        os.close(folder)

    def try_beside_a_stranger(self):
        """A process that another user calls by a desk's name and words stops no restore and no copy, also one that runs with root's rights, as a program with that mode does;
        what the owner writes into the words of one is spelt out."""
        office = self.copied()
        subprocess.run(["chown", "-R", f"{OTHER}:{OTHER}", office.folder], check=True)
        runs = "import ctypes; ctypes.CDLL(None).prctl(15, b'acd'); import time; print(flush=True); time.sleep(60)"
        for user, how in (("games", "--reuid"), ("games", "--ruid"), (OTHER, "--reuid")):
            process = subprocess.Popen(["setpriv", how, user, "--clear-groups", "--", PYTHON, "-c", runs,
                                        "\x1b[2J\x1b[1;31m\x1b]0;title\x07", f"--file={office.file}"], stdout=subprocess.PIPE)
            try:
                process.stdout.readline()
                if user == "games":
                    self.restored(f"beside one of {user}'s, by {how}", office, office.moment)
                    self.expect("a copy beside it", office.copy(user=OTHER)[0], 0)
                    self.undone("back", office, office.moment)
                else:
                    status, said, faults = office.copy("--restore", office.moment)
                    self.expect(f"beside one of the owner's: {faults!r}", (status, said, f"is open in process {process.pid} (" in faults, "\x1b" in faults, "\x07" in faults), (1, "", True, False, False))
            finally:
                process.kill()
                process.communicate()

    def try_half(self):
        """Half a copy, which a power cut left, is none: it isn't offered, and not put back."""
        office = self.copied()
        half = office.copies / ".new.xzaz7miu"
        shutil.copytree(office.copies / office.moment, half)
        for name in ("2026-01-01T000000Z", half.name):
            self.refused(f"a copy {name}", office, rf"there is no copy {re.escape(name)} of desk.db in {office.copies}; there are: {office.moment}\n", "--restore", name)

    def try_unsound(self):
        office = self.copied()
        copy = office.copies / office.moment / "desk.db"
        spoil(copy, copy.stat().st_size - 100)
        self.refused("a spoiled copy", office, "^acd-copy: the copy isn't sound: the audit says '.+'; nothing was touched\n", "--restore", office.moment)
        office = self.copied()
        office.feed([call(number) for number in range(11, 17)], kills=True)
        early = office.copies / "2026-11-26T031500Z.early"
        early.mkdir()
        for part in (office.file, log_of(office.file)):
            shutil.copy(part, early)
        spoil(early / "desk.db-wal", frames(early / "desk.db-wal")[0] + 100)
        self.refused("a copy whose log ends early", office, "isn't sound: the audit says 'sound, but its log ends early'; nothing was touched\n", "--restore", early.name)

    def try_names(self):
        office = self.copied()
        for name in ("2026-01-01T000000Z", "", ".", "..", f"../copies/{office.moment}", str(office.copies / office.moment), "executed"):
            self.refused(f"a copy {name!r}", office, rf"there is no copy {re.escape(name)} of desk.db in {office.copies}; there are: {office.moment}\n", "--restore", name)
        status, said, faults = office.copy("--restore")
        self.expect("no moment", (status, said, faults.count("\n")), (2, "", 1))
        status, said, faults = office.copy("--restore", office.moment, "--undo")
        self.expect("both", (status, said, faults.count("\n")), (2, "", 1))

    def try_node(self):
        office = self.copied()
        (office.folder / "at").write_text("5\n")
        self.refused("one of several machines", office, "is one of several machines", "--restore", office.moment)

    def broken_off(self, office, number, *words):
        """Killed before a renaming of this number."""
        status = office.run("strace", "-qq", "-o", "/dev/null", "-e", f"inject=rename:signal=KILL:when={number}", *office.words(*words))[0]
        self.expect("it is broken off", status, -9)

    def is_not_started(self, office, says):
        """A start says what ends it, and touches nothing."""
        before = listing(office.folder)
        done = office.run(PYTHON, self.script.parent / "acd-ready", "--serve", "--file", office.file, "--port", free_port())
        self.expect("a start meanwhile", done, (64, "", f"acd-ready: {says}\n"))
        self.expect("a start touches nothing", listing(office.folder) == before)

    def try_broken_off(self):
        """What is said meanwhile: by the link, by a start, by a copy, and by another restore."""
        office = self.copied()
        other = office.copies / "2026-01-01T000000Z"
        shutil.copytree(office.copies / office.moment, other)
        # behind the link, before the log
        self.broken_off(office, 5, "--restore", office.moment)
        says = f"the restore of {office.moment} isn't ended: acd-copy --restore {office.moment} ends it, acd-copy --undo takes it back"
        self.expect("the link says it", os.readlink(office.file), f"/dev/null/{says}")
        self.is_not_started(office, says)
        self.refused("a copy meanwhile", office, f"^acd-copy: {says}\n")
        self.refused("another restore meanwhile", office, f"^acd-copy: {says}\n", "--restore", other.name)
        self.undone("taken back", office, office.moment)
        self.expect("it is whole", len(kept(office.file)), 8)

    def try_by_a_link(self):
        """A restore that is asked for by a link to the file, broken off, and ended or taken back by that link."""
        for words in (("--restore",), ("--undo",)):
            office = self.copied()
            place, link = office.file, office.folder / "elsewhere" / "desk.db"
            link.parent.mkdir()
            link.symlink_to("../desk.db")
            office.file = link
            self.broken_off(office, 5, "--restore", office.moment)
            status, said, faults = office.copy(*words, *([office.moment] if words == ("--restore",) else []))
            self.expect(f"{words} by the link: {said}{faults}", (status, bool(re.search(rf"( into|back:) {re.escape(str(place))}(\. | is )", said))), (0, True))
            self.expect("the link is as it was", (os.readlink(link), place.is_symlink(), len(office.folders("elsewhere/*"))), ("../desk.db", False, 1))

    def try_two_names(self):
        """Broken off as the file has two names: that is said, and taken back it has one before the folder goes."""
        office = self.copied()
        self.broken_off(office, 3, "--restore", office.moment)
        self.expect("it has two names", os.stat(office.file).st_nlink, 2)
        says = f"the restore of {office.moment} isn't ended: acd-copy --restore {office.moment} ends it, acd-copy --undo takes it back"
        self.is_not_started(office, says)
        self.refused("a copy meanwhile", office, f"^acd-copy: {says}\n")
        self.broken_off(office, 2, "--undo")
        self.expect("it has one name", os.stat(office.file).st_nlink, 1)
        self.undone("taken back", office, office.moment)

    def try_exchanged(self):
        """Somebody puts other files in their places meanwhile: they are left alone."""
        for part in (Path, log_of):
            office = self.copied()
            self.broken_off(office, 5, "--restore", office.moment)
            part(office.file).unlink(missing_ok=True)
            part(office.file).write_text("another one")
            self.refused("other files meanwhile", office, f"^acd-copy: {part(office.file)} isn't the one any more", "--restore", office.moment)

    def try_room(self):
        """A disk that has room for what is there, and for no second one."""
        office = self.copied()
        office.feed([call(number) for number in range(100, 200)])
        office.moment = office.copy_now()
        parts = [office.file, log_of(office.file)]
        room = sum(-(-part.stat().st_size // 4096) for part in parts) * 4 + 12
        with self.disk(f"{room}k") as full:
            for part in parts:
                shutil.copy(part, full)
            office.file, before = full / "desk.db", listing(full)
            status, said, faults = office.copy("--restore", office.moment)
            self.expect(f"a full disk: {faults}", (status, said, "can't be copied; nothing was touched" in faults, listing(full) == before), (1, "", True, True))

    def try_two_desks(self):
        """Two files in one folder: each has its own restores."""
        office = self.copied()
        for part in ("", "-wal"):
            shutil.copy(f"{office.file}{part}", office.folder / f"other.db{part}")
        self.restored("of one", office, office.moment)
        office.file = office.folder / "other.db"
        self.refused("of the other", office, "^acd-copy: there is no restore to take back", "--undo")

    def try_steps(self):
        """Each change of a name in place is on the disk before the next one: a sync of the folder stands between."""
        office = self.copied()
        for words in (("--restore", office.moment), ("--undo",)):
            trace = office.folder.parent / "steps"
            office.run("strace", "-qq", "-y", "-o", trace, "-e", "trace=rename,link,symlink,unlink,fsync", *office.words(*words))
            synced, changes = True, 0
            for line in trace.read_text().splitlines():
                named = re.findall(r'"([^"]*)"', line)
                if line.startswith("fsync(") and f"<{office.folder}>" in line:
                    synced = True
                elif any(name in (str(office.file), str(log_of(office.file))) for name in named) and not line.startswith("unlink"):
                    self.expect(f"{words}: synced before {line}", synced)
                    synced, changes = line.startswith("link("), changes + 1
            self.expect(f"{words}: changes in place, and a sync behind the last", (changes, synced), (5, True))
