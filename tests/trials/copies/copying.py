"""Copies: what is kept under which name, what is told, and that nothing that was answered is lost by a file that was moved, a log that was removed or a disk that is full."""
import contextlib
import os
import re
import shutil
import signal
import sqlite3
import stat
import subprocess
import time
from pathlib import Path

from ground import OTHER, PYTHON, Load, Part, call, frames, kept, lost, spoil, sums
from trial import free_port
from trial.files import log_of

SOUND = r"sound: \S+/copies/\d{4}-\d\d-\d\dT\d{6}Z\n"


class Copying(Part):
    def good(self, what, office, *words, said=SOUND, **how):
        """A good copy, with nothing said but that."""
        done = office.copy(*words, **how)
        self.expect(f"{what}: a good copy, {done}", (done[0], bool(re.fullmatch(said, done[1])), done[2]), (0, True, ""))
        return done[1].rpartition("/")[2].strip()

    def bad(self, what, office, pattern, *words):
        """No good copy: status 1, and one line that says why; the folder that it says it lies in."""
        status, said, faults = office.copy(*words)
        self.expect(f"{what}: {faults!r}", (status, faults.count("\n"), "sound: " in said, bool(re.search(pattern, faults))), (1, 1, False, True))
        lies = re.search(r"it lies in (\S+),", faults)
        return Path(lies[1]) if lies else office.copies / "none"

    # as whoever, and where

    def try_anywhere(self):
        """The file's owner, called from a folder that only root may enter: nothing is said but of the copy."""
        office = self.office(owner=OTHER)
        closed = office.folder / "closed"
        closed.mkdir(mode=0o700)
        self.good("from a folder that is root's", office, cwd=closed, user=OTHER)
        self.expect("root makes none", office.copy(), (1, "", f"acd-copy: only the user {OTHER} makes copies of {office.file}: runuser -u {OTHER} -- acd-copy\n"))

    def try_modes(self):
        """The copy of a file that others may read is nobody else's."""
        office = self.office()
        office.file.chmod(0o644)
        made = office.copies / self.good("of a file for all", office)
        self.expect("its modes", [stat.S_IMODE(os.stat(path).st_mode) for path in (made, *sorted(made.iterdir()))], [0o700, 0o600, 0o600])

    def try_settings(self):
        """Without a word it goes by the units' settings."""
        office = self.office()
        script, modules = self.copied_script()
        (office.folder / "acd.env").write_text(f"# a note\nACD_FILE={office.file}\nACD_COPY_FOLDER={office.folder}/others\nACD_COPIES=1\n")
        (modules / "settings.py").write_text((modules / "settings.py").read_text().replace("/etc/acd/acd.env", f"{office.folder}/acd.env"))
        done = office.run(PYTHON, script)
        self.expect(f"by the settings: {done}", (done[0], done[2], len(list((office.folder / "others").glob("*Z")))), (0, "", 1))
        # as another system's editor and somebody's quotes leave them, which systemd takes
        (office.folder / "acd.env").write_bytes(f"ACD_FILE=\"{office.file}\"\r\nACD_COPY_FOLDER='{office.folder}/quoted'\r\n".encode())
        done = office.run(PYTHON, script)
        self.expect(f"by quoted ones: {done}", (done[0], done[2], len(list((office.folder / "quoted").glob("*Z")))), (0, "", 1))
        self.expect("another file has its own folder", office.run(PYTHON, script, "--file", office.folder / "none")[2], f"acd-copy: there is no file {office.folder}/none\n")

    def try_one_second(self):
        """The moments of the next seconds are taken: the copy waits for one that isn't."""
        office = self.office()
        taken = [time.strftime("%Y-%m-%dT%H%M%SZ", time.gmtime(time.time() + second)) for second in range(8)]
        for name in taken:
            (office.copies / name).mkdir(parents=True)
            (office.copies / name / "desk.db").write_text("another one")
        made = self.good("a second later", office, "--keep", "99")
        self.expect("the others are as they were", [made in taken, {(office.copies / name / "desk.db").read_text() for name in taken}], [False, {"another one"}])

    # what a copy lacks

    def killed(self):
        """A desk with good copies of two days, and six more callers, who are in its log alone; the offsets of the frames."""
        office = self.office()
        office.before = ["2026-01-01T000000Z", "2026-01-02T000000Z"]
        for name in office.before:
            (office.copies / self.good("before", office)).rename(office.copies / name)
        office.feed([call(number) for number in range(11, 17)], kills=True)
        return office, frames(log_of(office.file))

    def try_torn(self):
        """The last commit is spoiled, as by a power cut: nothing that was answered before it is missing, and nothing is told."""
        office, offsets = self.killed()
        whole = len(kept(office.file))
        spoil(log_of(office.file), offsets[-1] + 100)
        made = self.good("of a torn end", office)
        self.expect("it has all but the last", len(kept(office.copies / made / "desk.db")), whole - 1)

    def try_early(self):
        """One bit of the log's middle: the copy is kept as it was copied, and the good ones from before stay, though one is to be kept."""
        for place in (0, 1):
            office, offsets = self.killed()
            spoil(log_of(office.file), offsets[place] + 100)
            was = sums(office.file, log_of(office.file))
            made = self.bad("a damaged middle", office, "the copy's log ends early, answered requests are missing: the audit says 'sound, but its log ends early'; it lies", "--keep", "1")
            self.expect("its name", bool(re.fullmatch(r"\d{4}-\d\d-\d\dT\d{6}Z\.early", made.name)))
            self.expect("it is as it was copied", sums(made / "desk.db", made / "desk.db-wal"), was)
            self.expect("nothing is cleared away", [(office.copies / name).is_dir() for name in office.before], [True, True])
            self.expect("the file is as it was", sums(office.file, log_of(office.file)), was)
        office, _ = self.killed()
        spoil(log_of(office.file), 20)
        self.bad("a damaged head", office, "answered requests are missing: the audit says 'sound, but the head of its log can't be read'; it lies")

    def try_no_desk(self):
        """A copy that the audit refuses is kept as it was copied, its log too: an audit would have emptied that."""
        office, _ = self.killed()
        with contextlib.closing(sqlite3.connect(office.file)) as book:
            book.execute("PRAGMA journal_mode = WAL")
            book.execute("UPDATE agents SET name = 'Anna'")
            book.commit()
            shutil.copy(log_of(office.file), office.folder / "log")
        shutil.copy(office.folder / "log", log_of(office.file))
        was = sums(log_of(office.file))
        made = self.bad("an agent whom somebody renamed", office, r"the copy isn't sound: the audit says 'differs at request \d+'; it lies", "--keep", "1")
        self.expect("its log is as it was copied", (made.name, sums(log_of(made / "desk.db"))), ("unsound", was))
        self.expect("nothing is cleared away", [(office.copies / name).is_dir() for name in office.before], [True, True])

    def try_fewer(self):
        """The same file with fewer requests than at the last copy; and another one."""
        office = self.office()
        earlier = office.file.read_bytes()
        office.feed([call(21), call(22)])
        before = self.good("before", office)
        office.file.write_bytes(earlier)
        log_of(office.file).write_bytes(b"")
        for _ in range(2):
            made = self.bad("fewer", office, r"the copy has 5 executed requests, and the last one of the same file had 7: requests are missing; it lies", "--keep", "1")
            self.expect("its name", bool(re.fullmatch(r"fewer-\d{4}-\d\d-\d\dT\d{6}Z", made.name)))
        self.expect("what it has", len(kept(made / "desk.db")), 5)
        self.expect("nothing is cleared away", [(office.copies / before).is_dir(), len(list(office.copies.glob("fewer-*")))], [True, 2])
        (office.copies / "executed").unlink()
        self.good("counted anew once the note is gone", office)
        office.feed([call(23)])
        self.good("more than before", office)
        (office.folder / "new").write_bytes(earlier)
        os.rename(office.folder / "new", office.file)
        log_of(office.file).unlink()
        self.good("another file", office, said=r"this is another file than that of the last copy, which had 6 executed requests: counted anew, from 5\n" + SOUND)
        self.good("the same from then on", office)

    def try_damaged(self):
        """Each copy fails while the folder is there in which a start kept what was damaged."""
        office = self.office()
        (office.folder / "damaged-2026-11-26T031500Z-abcdef").mkdir()
        self.good("beside a folder of another desk", office)
        (office.folder / "damaged-2026-11-26T031500Z-abcdef/desk.db").write_text("")
        for _ in range(2):
            status, said, faults = office.copy()
            self.expect(f"beside a damaged one: {said}{faults}", (status, bool(re.fullmatch(SOUND, said)), faults),
                        (1, True, f"acd-copy: {office.folder}/damaged-2026-11-26T031500Z-abcdef is there: the log was damaged as the desk was started\n"))

    # under a desk that runs

    def loaded(self):
        office = self.office()
        desk = office.serve()
        load = self.load(desk)
        self.expect("there is a load", load.until(30))
        return office, desk.process, load

    def load(self, desk):
        load = Load(desk.port)
        self.addCleanup(load.stop)
        return load

    def says_so(self, what, office, load, pattern):
        """What was moved is told, and what was answered by then is in a copy of what the desk has open; the desk goes on."""
        answered = [f"load {number}" for number in list(load.answered)]
        status, said, faults = office.copy()
        lies = re.search(r"this copy is of what the desk has open; it lies in (\S+),", faults)
        self.expect(f"{what}: {said}{faults}", (status, bool(re.search(pattern, faults)), bool(lies), said.startswith("the desk was halted for ")), (1, True, True, True))
        made = Path(lies[1]) if lies else office.copies / "none"
        self.expect(f"{what}: the copy's name", bool(re.fullmatch(r"moved-\d{4}-\d\d-\d\dT\d{6}Z", made.name)))
        self.expect(f"{what}: what the copy lacks", sorted(set(answered) - set(kept(made / "desk.db"))), [])
        self.expect(f"{what}: the desk goes on", load.until(5))
        return made

    def try_busy(self):
        """A process that opens and closes all the time is seen to have its file open each time."""
        file = self.folder / "busy"
        file.write_text("")
        busy = "import os, socket, sys; file = open(sys.argv[1], 'rb+'); print(flush=True)\nwhile True: socket.socket().close(); os.close(os.open('/dev/null', 0))"
        looks = "import sys; sys.path.insert(0, sys.argv[1]); from acd_service import held; print({len(held.opened(int(sys.argv[2]))) for _ in range(500)})"
        with subprocess.Popen([PYTHON, "-c", busy, file], stdout=subprocess.PIPE) as goes_on:
            goes_on.stdout.readline()
            seen = subprocess.run([PYTHON, "-c", looks, self.script.parents[1], str(goes_on.pid)], capture_output=True, text=True)
            goes_on.kill()
        self.expect(f"files that it has open {seen.stderr[-200:]}", seen.stdout, "{1}\n")

    def started_again(self, what, office, load):
        """All that was answered is known to a desk that is started now."""
        self.expect(f"{what}: {len(load.answered)} answered, lost of them", lost(load, office.serve().port), [])
        office.end()

    def try_moved(self):
        """The file is moved under load, its log stays: once it is back nothing is lost."""
        office, desk, load = self.loaded()
        os.rename(office.file, office.folder / "elsewhere")
        load.until(10)
        self.says_so("a moved file", office, load, rf"the file {office.file} was moved to {office.folder}/elsewhere under the desk, process {desk.pid}: what it answers goes there\n")
        load.stop()
        desk.send_signal(signal.SIGSTOP)
        self.expect("--continue", office.copy("--continue"), (0, "", ""))
        self.expect("it goes on", Path(f"/proc/{desk.pid}/status").read_text().partition("State:\t")[2][0] in "SR")
        office.end()
        os.rename(office.folder / "elsewhere", office.file)
        self.started_again("a moved file", office, load)

    def try_moved_log(self):
        office, desk, load = self.loaded()
        os.rename(log_of(office.file), office.folder / "log")
        load.until(10)
        self.says_so("a moved log", office, load, rf"the log {office.file}-wal was moved to {office.folder}/log under the desk, process {desk.pid}: what it answers goes there\n")
        load.stop()
        office.end()
        os.rename(office.folder / "log", log_of(office.file))
        self.started_again("a moved log", office, load)

    def try_removed(self):
        """What was removed is in the copy of what the desk has open, which is put back."""
        for what, parts in (("the log", [log_of]), ("the file", [Path]), ("both", [Path, log_of])):
            office, desk, load = self.loaded()
            for part in parts:
                part(office.file).unlink()
            load.until(10)
            load.stop()
            made = self.says_so_at_rest(what, office, load)
            office.end()
            status, said, faults = office.copy("--restore", made.name)
            self.expect(f"{what} was removed, and the copy is put back ({faults})", status, 0)
            self.started_again(f"{what} was removed", office, load)

    def says_so_at_rest(self, what, office, load):
        load.goes_on, load.until = False, lambda count: True
        name = "log" if what == "the log" else "file"
        return self.says_so(f"{what} was removed", office, load,
                            rf"the {name} \S+ was removed from under the desk, process \d+: what it answered is lost where it is stopped before acd-copy made a copy\n")

    def try_moved_meanwhile(self):
        """A file that is moved while nobody runs over it and it is copied: no copy of half of one and half of another is kept."""
        office = self.office()
        slow = self.folder / "slow"
        slow.mkdir()
        (slow / "cp").write_text(f'#!/bin/sh\n/bin/cp "$@" && [ ! -e {office.file} ] || /bin/mv {office.file} {office.folder}/elsewhere\n')
        (slow / "cp").chmod(0o755)
        office.program = slow / "acd"
        (slow / "acd").symlink_to(self.program)
        self.bad("moved meanwhile", office, "its file was written, or moved, while it was copied; no copy is kept")
        self.expect("no copy is there", [path.name for path in office.copies.iterdir()], [])

    def try_started_meanwhile(self):
        """A desk that is started while nobody halts it: what it writes then may be half in the copy."""
        office, port = self.office(), free_port()
        slow = self.folder / "starting"
        slow.mkdir()
        (slow / "acd").symlink_to(self.program)
        (slow / "cp").write_text(f'#!/bin/sh\n/bin/cp "$@"\n[ -e pid ] || {{ acd serve --file {office.file} --port {port} --endless >/dev/null 2>&1 & echo $! >pid; sleep 0.5; }}\n')
        (slow / "cp").chmod(0o755)
        office.program = slow / "acd"
        self.bad("started meanwhile", office, "its file was written, or moved, while it was copied; no copy is kept")
        os.kill(int((office.folder / "pid").read_text()), signal.SIGKILL)

    def try_full_disk(self):
        office = self.office()
        office.feed([call(number) for number in range(30, 40)], kills=True)
        desk = office.serve()
        with self.disk("24k") as full:
            status, said, faults = office.run(*office.words()[:-1], full / "copies")
            self.expect(f"a full disk: {faults}", (status, "no copy is kept" in faults, list((full / "copies").iterdir())), (1, True, []))
        load = self.load(desk)
        self.expect("the desk goes on beside it", load.until(3))
        load.stop()
        self.good("another disk", office, said=r"the desk was halted for \d+ ms\n" + SOUND)
        office.end()
