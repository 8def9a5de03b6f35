"""What acdctl prune refuses, and how much stays: each time it says so by a line, and nothing is changed."""
import contextlib
import hashlib
import os
import shutil
import sqlite3
import subprocess
from pathlib import Path

from ground import DAY, HOUR, Ground, firsts
from trial.files import copied, held, log_of
from kills import PLAN

TICK = '{moment} {{"requester":"clock","invoke":{number},"service":"tick"}}'


def listing(folder):
    """All that lies in a folder, with modes, owners and bytes."""
    return {str(path.relative_to(folder)): (path.lstat().st_mode, path.lstat().st_uid, path.read_bytes() if path.is_file() else b"") for path in sorted(folder.rglob("*"))}


def changed(file, statement):
    book = sqlite3.connect(file)
    with book:
        book.execute(statement)
    book.close()


@contextlib.contextmanager
def disk(folder, size):
    subprocess.run(["mount", "-t", "tmpfs", "-o", f"mode=755,size={size}", "full", folder], check=True)
    try:
        yield
    finally:
        subprocess.run(["umount", "--lazy", folder], check=True)


class Cases:
    def __init__(self, ground, folder):
        self.ground, self.folder = ground, folder
        self.whole = folder / "whole.db"
        # three days of a request a minute, and a last hour of one a second
        self.moments = [*range(1000, 1000 + 3 * DAY, 60), *range(1000 + 3 * DAY, 1000 + 3 * DAY + HOUR)]
        ground.feed(self.whole, PLAN + [TICK.format(moment=moment, number=number) for number, moment in enumerate(self.moments, 1)])
        log_of(self.whole).unlink(missing_ok=True)

    def file(self, folder):
        """The whole file in a folder of its own."""
        folder = self.folder / folder
        folder.mkdir()
        return copied(self.whole, folder).rename(folder / "desk.db")

    def keeps(self):
        """By days, by requests, and never fewer than the last hour's."""
        moments = [1000, 1000, *self.moments]
        last = moments[-1]
        by_days = {days: sum(moment >= last - days * DAY for moment in moments) for days in (1, 2, 3)}
        in_hour = sum(moment >= last - HOUR for moment in moments)
        for words, wanted in (((), by_days[2]), (("--days", 1), by_days[1]), (("--days", 3), by_days[3]), (("--keep", 1000), in_hour), (("--keep", 4500), 4500)):
            file = self.file("keeps " + " ".join(map(str, words)))
            mode = file.stat().st_mode
            status, printed, faults = self.ground.prune(file, *words)
            self.ground.expect(f"{words}: {faults}", (status, len(moments) + 1 - firsts(file)[0]), (0, wanted))
            self.ground.expect("the modes of both", {path.stat().st_mode for path in (file, next(file.parent.glob("desk.db-1*")))}, {mode})
        file = self.file("nothing")
        self.ground.expect("nothing", self.ground.prune(file, "--days", 4), (0, "nothing to prune\n", ""))
        self.ground.expect("nothing else lies there", {path.name for path in file.parent.iterdir()} - {"desk.db-wal"}, {"desk.db"})
        for words in (("--keep", 999), ("--keep", 0), ("--days", 0), ("--days", 1, "--keep", 1000), ("--keep", "x"), ("--other",), ("--from", "x", "--to", "y")):
            self.refused(f"{words}", file, 2, "", *words)

    def refused(self, what, file, status, wanted, *words, wrapped=()):
        """By one line, and all lies there as before; a log that is laid in is that of each opening."""
        before, rows = listing(file.parent), held(file) if file.exists() and file.stat().st_size else None
        done = self.ground.prune(file, *words, wrapped=wrapped)
        self.ground.expect(f"{what}: {done}", (done[0], done[1], done[2].count("\n"), wanted in done[2], done[2].startswith("acdctl prune: ")), (status, "", 1, True, True))
        behind = listing(file.parent)
        for found in (before, behind):
            found.pop(f"{file.name}-wal", None)
        self.ground.expect(f"{what}: all lies there as before", [name for name in before.keys() | behind.keys() if before.get(name) != behind.get(name)], [])
        self.ground.expect(f"{what}: the rows", rows is None or held(file) == rows)

    def taken(self):
        file = self.file("taken")
        name = f"desk.db-1970-01-04-{held(file)['meta'][0][8]}"
        for part in ("", "-wal", ".archive"):
            taken = Path(f"{file.with_name(name)}{part}")
            for make in (lambda: taken.write_text("mine" * 20), taken.mkdir, lambda: taken.symlink_to("nowhere")):
                make()
                self.refused(f"{taken.name} is taken", file, 1, f"{taken} is there already")
                taken.rmdir() if taken.is_dir() and not taken.is_symlink() else taken.unlink()

    def rights(self):
        """Another user may not; the owner may not write beside it; no file."""
        file = self.file("rights")
        self.folder.chmod(0o755)
        self.ground.folder.chmod(0o755)
        as_user = ["setpriv", "--reuid", "daemon", "--regid", "daemon", "--clear-groups", "--"]
        self.refused("another user", file, 1, "only the user root prunes", wrapped=as_user)
        os.chown(file, 1, 1)
        self.refused("not the owner, root", file, 1, "only the user daemon prunes")
        # its folder is root's
        self.refused("no right beside it", file, 1, "Permission denied", wrapped=as_user)
        self.refused("no file", file.with_name("missing.db"), 1, "there is no file")

    def opened(self):
        """A desk has it open."""
        file = self.file("opened")
        desk = subprocess.Popen([self.ground.program, "lines", "--file", file], stdin=subprocess.PIPE, stdout=subprocess.PIPE)
        try:
            desk.stdin.write(b'9 {"requester":"a","invoke":1,"service":"tick"}\n')
            desk.stdin.flush()
            desk.stdout.readline()
            self.refused("a desk", file, 1, f"is open in process {desk.pid}")
        finally:
            desk.kill()
            desk.communicate()

    def programs(self):
        """What the program says of the file, and of file and archive: the program is a stand-in for that."""
        file, program = self.file("programs"), self.folder / "stand-in"
        for what, word, does, wanted in (("the copy differs", "audit", "echo 'differs at request 7'; exit 3", "the audit says 'differs at request 7'; nothing was changed"),
                                         ("its audit fails", "audit", "echo 'acd: no memory' >&2; exit 1", "wanted more memory than it may have'; nothing was changed"),
                                         ("both differ", "prune", "echo 'differs at request 7'; exit 3", "differs at request 7; "),
                                         ("another line", "prune", "echo done", "done; ")):
            program.write_text(f'#!/bin/sh\nif [ "$1" = {word} ]; then {does}; exit; fi\nexec acd "$@"\n')
            program.chmod(0o755)
            self.refused(what, file, 1, wanted, "--desk", program)

    def others(self):
        """Files that are none, or none that can be pruned."""
        for what, wanted, spoil in (("no database", "isn't sound: the audit says", lambda file: file.write_bytes(b"x" * 4096)),
                                    ("nothing in it", "isn't sound: the audit says", lambda file: file.write_bytes(b"")),
                                    ("of version 3", "wrong version 3", lambda file: changed(file, "UPDATE meta SET version = 3")),
                                    ("a table more", "store fault", lambda file: changed(file, "CREATE TABLE mine (x)")),
                                    ("an index more", "store fault", lambda file: changed(file, "CREATE INDEX mine ON kept (moment)")),
                                    ("a request less", "differs at request 700", lambda file: changed(file, "DELETE FROM kept WHERE stamp = 700")),
                                    ("the last request less", "differs at request 7922", lambda file: changed(file, "DELETE FROM kept WHERE stamp = 7922"))):
            file = self.file(what.replace(" ", "-"))
            spoil(file)
            with contextlib.suppress(sqlite3.Error):
                self.refused(what, file, 1, wanted)

    def prepare(self):
        """Beside a desk whose requests are all in its log, of five days or of one; copies of it are good."""
        for what, moments, wanted in (("of five days", (1000, 1000 + 5 * DAY), (0, "")), ("of a day", (1000, 1000 + HOUR), (1, ""))):
            file = self.folder / what.replace(" ", "-") / "desk.db"
            file.parent.mkdir()
            desk = subprocess.Popen([self.ground.program, "lines", "--file", file], stdin=subprocess.PIPE, stdout=subprocess.PIPE)
            try:
                for number in range(1, 1202):
                    desk.stdin.write(f"{TICK.format(moment=moments[number > 200] + number, number=number)}\n".encode())
                    desk.stdin.flush()
                    desk.stdout.readline()
                self.ground.expect("without a copy", self.ground.prune(file, "--prepare")[::2], (255, f"acdctl prune: there is no good copy of {file} in {file.parent}/copies: systemctl start acd-copy; nothing was changed\n"))
                self.ground.expect("a copy", self.ground.acdctl("copy", "--file", file)[0], 0)
                done = self.ground.prune(file, "--prepare")
                self.ground.expect(f"beside requests {what}: {done}", (done[0], done[2]), wanted)
                self.ground.expect(f"the archive {what}", (len(list(file.parent.glob("desk.db-1*"))), desk.poll()), (1 - wanted[0], None))
            finally:
                desk.kill()
                desk.communicate()

    def still(self):
        """A clock that stands still leaves no place."""
        file = self.folder / "still.db"
        self.ground.feed(file, PLAN + [TICK.format(moment=1000, number=number) for number in range(1, 2001)])
        self.ground.expect("a clock that stands still", self.ground.prune(file, "--keep", 1000), (0, "nothing to prune\n", ""))

    def carried(self):
        """A file that an older version carried over, with its note, is pruned like any other, and its archive stays in the chain."""
        file = self.file("carried")
        archive = file.with_name("desk.db-1970-01-04-7922")
        shutil.copyfile(file, archive)
        changed(file, "DELETE FROM events WHERE moment < 100000")
        changed(file, "DELETE FROM kept WHERE moment < 100000")
        text = f"archive {archive.name}\nlast 7922\ndigest {hashlib.sha256(archive.read_bytes()).hexdigest()}\nwas 131 1.5\n"
        Path(f"{file}.archive").write_text(text)
        self.ground.feed(file, [TICK.format(moment=1000 + 4 * DAY, number=90000)])
        status, printed, faults = self.ground.prune(file, "--days", 2)
        second, = (path for path in file.parent.glob("desk.db-1970-01-05-*") if path.suffix != ".archive")
        self.ground.expect(f"pruned: {printed}{faults}", (status, Path(f"{second}.archive").read_text(), firsts(file)[0] > firsts(second)[0] > 1), (0, text, True))
        self.ground.expect("a copy", self.ground.acdctl("copy", "--file", file)[0], 0)

    def full(self):
        """On disks of each size from too small to great enough it says so and leaves nothing, or goes through."""
        source, states = self.file("source"), set()
        for size in range(1000, 9000, 1000):
            folder = self.folder / "full"
            folder.mkdir(exist_ok=True)
            with disk(folder, f"{size}k"):
                try:
                    file = copied(source, folder)
                except OSError:
                    continue
                status, printed, faults = self.ground.prune(file)
                states.add(status)
                # where it is cp that has no room, it says so too
                self.ground.expect(f"a disk of {size} kB: {faults}", (firsts(file)[0] > 1, faults.count("acdctl prune: "), faults.count("\n") <= 2), (status == 0, int(status > 0), True))
                self.ground.expect("what lies there", [path.name for path in folder.glob(".prune*")], [])
        self.ground.expect("some go through, and some don't", states, {0, 1})

    def all(self):
        for case in (self.keeps, self.taken, self.rights, self.opened, self.programs, self.others, self.prepare, self.still, self.carried, self.full):
            case()


class OfCases(Ground):
    def try_cases(self):
        with self.scratch() as folder:
            Cases(self, folder).all()
