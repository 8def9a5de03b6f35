"""How long a copy halts the desk: for its log alone, bounded, never for good; and that a file which the desk writes meanwhile is copied anew, to the last request."""
import contextlib
import os
import re
import signal
import sqlite3
import subprocess
import tempfile
import time
from pathlib import Path

from copying import SOUND
from ground import PYTHON, Load, Part, ask, call, kept
from trial import until
from trial.files import log_of

HALTED = r"the desk was halted for (\d+) ms"
# cp, with something done before it or after it: of the file, and of the log
CP = """#!/bin/sh
case "$*" in
    *-wal*) {log_first}; /bin/cp "$@"; exit $?;;
    *.archive*) exec /bin/cp "$@";;
esac
{file_first}
/bin/cp "$@" || exit
{file_last}
"""
# the greatest halt of all that are tried here, and so much more for a machine that is busy
BRIEF, BUSY = 2, 3


def state_of(process):
    """The letter by which the kernel says what a process does."""
    return Path(f"/proc/{process}/status").read_text().partition("State:\t")[2][0]


class Gaps:
    """Asks the desk all the time, and notes how long the longest answer took."""

    def __init__(self, load):
        self.load, self.longest, self.last = load, 0.0, (time.monotonic(), len(load.answered))

    def look(self):
        """Whether something was answered since; how long ago the last answer was counts."""
        now, count = time.monotonic(), len(self.load.answered)
        self.longest = max(self.longest, now - self.last[0])
        if count != self.last[1]:
            self.last = now, count


class Halts(Part):
    def loaded(self):
        """A desk that serves, and a load."""
        office = self.office()
        desk = office.serve()
        load = Load(desk.port)
        self.addCleanup(load.stop)
        self.expect("there is a load", load.until(30))
        return office, desk.process, load

    def by(self, office, log_first=":", file_first=":", file_last=":"):
        """This office's cp."""
        folder = Path(tempfile.mkdtemp(dir=self.folder))
        (folder / "acd").symlink_to(self.program)
        (folder / "cp").write_text(CP.format(log_first=log_first, file_first=file_first, file_last=file_last))
        (folder / "cp").chmod(0o755)
        office.program = folder / "acd"

    def hurried(self, office, patience=4):
        """This office's acd-copy has so many seconds in place of ten minutes."""
        office.script, modules = self.copied_script()
        module = modules / "copy.py"
        module.write_text(re.sub(r"^BRIEF, PATIENCE, PAUSE, LONGEST = .*$", f"BRIEF, PATIENCE, PAUSE, LONGEST = 2, {patience}, 0.1, 1", module.read_text(), flags=re.MULTILINE))

    @contextlib.contextmanager
    def copying(self, office, *words):
        """acd-copy, in a session of its own, while the block lasts; what is left of it then is killed."""
        process = subprocess.Popen([*map(str, office.words(*words))], stdout=subprocess.PIPE, stderr=subprocess.PIPE, text=True, env=office.settings(), start_new_session=True)
        try:
            yield process
        finally:
            with contextlib.suppress(ProcessLookupError):
                os.killpg(process.pid, signal.SIGKILL)
            process.communicate()

    def ended(self, process, load, seconds=60):
        """Its status and what it said, and for how long the load had no answer at most."""
        gaps, end = Gaps(load), time.monotonic() + seconds
        while process.poll() is None and time.monotonic() < end:
            gaps.look()
            time.sleep(0.01)
        said, faults = process.communicate(timeout=seconds)
        return process.returncode, said, faults, gaps.longest

    # what it may not do

    def try_killed(self):
        """Killed while the desk is halted, by a signal that nobody can catch and by others: the desk continues within a moment."""
        for one in (signal.SIGKILL, signal.SIGTERM, signal.SIGINT, signal.SIGHUP):
            office, desk, load = self.loaded()
            self.by(office, log_first="sleep 20")
            with self.copying(office) as process:
                self.expect(f"{one.name}: the desk is halted", until(lambda: state_of(desk.pid) == "T", 20, 0.002))
                os.kill(process.pid, one)
                process.wait(20)
                self.expect(f"{one.name}: the desk continues", until(lambda: state_of(desk.pid) != "T", 1, 0.01))
                self.expect(f"{one.name}: it answers", load.until(3))
            load.stop()
            office.end()

    def try_suspended(self):
        """Suspended at a terminal as the desk is halted: it continues by itself."""
        office, desk, load = self.loaded()
        self.by(office, log_first="sleep 20")
        with self.copying(office) as process:
            self.expect("the desk is halted", until(lambda: state_of(desk.pid) == "T", 20, 0.002))
            os.killpg(process.pid, signal.SIGSTOP)
            self.expect("the desk continues", until(lambda: state_of(desk.pid) != "T", BRIEF + BUSY, 0.01))

    # for how long

    def try_running(self):
        """A file whose copy takes seconds: the desk serves meanwhile."""
        office, desk, load = self.loaded()
        load.stop()
        self.by(office, file_first="sleep 4")
        with self.copying(office) as process:
            time.sleep(1)
            began = time.monotonic()
            status, _ = ask(office.started[-1].port, call(1, "meanwhile"))
            self.expect(f"it answers while its file is copied, {time.monotonic() - began:.1f} s", (status, time.monotonic() - began < 2), (200, True))
            said, faults = process.communicate()
        found = re.fullmatch(f"{HALTED}\n{SOUND}", said)
        self.expect(f"a good copy: {said}{faults}", (process.returncode, bool(found), faults), (0, True, ""))
        self.expect("the halt is short", found and int(found[1]) < BRIEF * 1000)
        made = Path(said.rpartition("sound: ")[2].strip())
        self.expect("what was answered meanwhile is in the copy", "meanwhile 1" in kept(made / office.file.name))

    def try_bounded(self):
        """A log that takes for ever to copy: each halt is bounded, the last one by what is allowed, and no copy is kept."""
        for halt in (0, 1):
            office, desk, load = self.loaded()
            self.hurried(office)
            self.by(office, log_first="exec sleep 60")
            begin = time.monotonic()
            with self.copying(office, "--halt", str(halt)) as process:
                status, said, faults, longest = self.ended(process, load, 200)
            self.expect(f"it waits for no copy, {time.monotonic() - begin:.0f} s", time.monotonic() - begin < 50)
            self.expect(f"no copy: {said}{faults}", (status, said, faults.count("\n"), "no copy is kept" in faults, f"ACD_HALT{'=0' if halt == 0 else ''}" in faults), (1, "", 1, True, True))
            self.expect(f"the longest halt of {longest:.1f} s", longest < BRIEF + BUSY)
            self.expect("no half copy", list(office.copies.iterdir()), [])
            self.expect("the desk goes on", load.until(3))
            load.stop()
            office.end()

    # a file that changes

    def writing(self, office):
        """The desk writes its log into the file as this file is copied: cp waits for that."""
        self.by(office, file_last=f'was=$(stat -c %.Y {office.file}); for turn in $(seq 600); do [ "$(stat -c %.Y {office.file})" = "$was" ] || break; sleep 0.05; done')

    def whole(self, what, office, load, said, faults, status, answered):
        found = re.search(r"^sound: (\S+)$", said, re.MULTILINE)
        self.expect(f"{what}: a good copy: {said}{faults}", (status, bool(found), faults), (0, True, ""))
        made = Path(found[1]) if found else office.copies / "none"
        self.expect(f"{what}: what the copy lacks", sorted({f"load {number}" for number in answered} - set(kept(made / office.file.name))), [])
        self.expect(f"{what}: the desk goes on", load.until(3))

    def try_changed(self):
        """Under a load whose log the desk writes into the file meanwhile, once: the next try is good."""
        office, desk, load = self.loaded()
        once, noted = self.folder / "once", self.folder / "noted"
        self.writing(office)
        cp = office.program.with_name("cp")
        # the first try waits until it is noted what was answered by then
        cp.write_text(cp.read_text().replace("was=$(", f"[ -e {once} ] && exit; touch {once}; until [ -e {noted} ]; do sleep 0.01; done; was=$("))
        with self.copying(office) as process:
            until(once.exists, 20, 0.002)
            answered = list(load.answered)
            noted.touch()
            status, said, faults, longest = self.ended(process, load)
        self.expect("it was written meanwhile", once.exists())
        self.whole("once", office, load, said, faults, status, answered)
        self.expect(f"the desk was halted for a moment: {said}", bool(re.match(f"{HALTED}\n", said)))

    def try_late(self):
        """A machine so slow that the time is over before the first try: that one too lets the desk go on meanwhile."""
        office, _, load = self.loaded()
        load.stop()
        self.hurried(office, patience=0)
        with self.copying(office, "--halt", "0") as process:
            status, said, faults, _ = self.ended(process, load)
        self.expect(f"late: a good copy: {said}{faults}", (status, bool(re.fullmatch(f"{HALTED}\n{SOUND}", said)), faults), (0, True, ""))

    def try_always(self):
        """It is written each time: at last the desk is halted for all of it, and the line says so; where that isn't allowed, no copy is kept."""
        office, desk, load = self.loaded()
        self.hurried(office)
        self.by(office, file_last=f"touch {office.file}; sleep 0.3")
        with self.copying(office, "--halt", "0") as process:
            status, said, faults, longest = self.ended(process, load)
        self.expect(f"never: {said}{faults}", (status, said, bool(re.fullmatch(r"acd-copy: its file was written, or moved, while it was copied, \d+ times, and ACD_HALT=0 says .*; no copy is kept\n", faults))), (1, "", True))
        self.expect(f"never: the longest halt of {longest:.1f} s", longest < BUSY)
        self.by(office, file_last=f'[ "$(cut -d" " -f3 /proc/{desk.pid}/stat)" = T ] || touch {office.file}')
        answered = list(load.answered)
        with self.copying(office, "--halt", "20") as process:
            status, said, faults, longest = self.ended(process, load)
        self.expect(f"at last: {said}", bool(re.match(f"{HALTED}, for all of the copy: its file was written, or moved, while it was copied, [0-9]+ times\n", said)))
        self.whole("at last", office, load, said, faults, status, answered)

    def try_limits(self):
        """The greatest halt is ACD_HALT's; what is none is refused."""
        office = self.office()
        for word in ("-1", "x", "1000", "1.5"):
            status, said, faults = office.copy("--halt", word)
            self.expect(f"--halt {word}: {faults}", (status, said, faults.count("\n")), (2, "", 1))
        script, modules = self.copied_script()
        (office.folder / "acd.env").write_text(f"ACD_FILE={office.file}\nACD_HALT=many\n")
        (modules / "settings.py").write_text((modules / "settings.py").read_text().replace("/etc/acd/acd.env", f"{office.folder}/acd.env"))
        status, said, faults = office.run(PYTHON, script)
        self.expect(f"ACD_HALT=many: {faults}", (status, said, "acd.env: to halt the desk for 'many' seconds" in faults), (2, "", True))
        self.expect("a log", log_of(office.file).exists())

    # a great file

    def try_great(self):
        """On ext4, which copies no file by reference, a file of two gigabytes: in silence, and under a load whose log the desk writes into it."""
        if not self.options.great:
            return
        with self.ext4(self.options.great * 3 + 1) as folder:
            office = self.office(folder=folder)
            padded(office.file, self.options.great)
            self.by(office)
            # an audit that isn't put behind all that this machine does
            office.program.with_name("nice").write_text('#!/bin/sh\nshift 2\nexec "$@"\n')
            office.program.with_name("nice").chmod(0o755)
            self.tell(f"a file of {office.file.stat().st_size >> 20} MB")
            desk = office.serve()
            # under load it may have to be halted for all of the copy
            for what, most in (("in silence", BRIEF), ("under load", 20)):
                load = Load(desk.port) if what == "under load" else Load(desk.port, pause=0.5)
                self.addCleanup(load.stop)
                self.expect("there is a load", load.until(3))
                answered = list(load.answered)
                with self.copying(office) as process:
                    status, said, faults, longest = self.ended(process, load, 1200)
                count = len(load.answered) - len(answered)
                self.tell(f"{what}: {said.splitlines()[:1]}, {count} answers meanwhile, the longest pause {longest * 1000:.0f} ms")
                self.whole(what, office, load, said, faults, status, answered)
                self.expect(f"{what}: the longest pause of {longest:.1f} s", longest < most + BUSY)
                load.stop()
            office.end()


def padded(file, gigabytes):
    """The file, with so much of free pages, which a table had that was dropped."""
    with contextlib.closing(sqlite3.connect(file, isolation_level=None)) as book:
        book.execute("PRAGMA journal_mode = OFF")
        book.execute("PRAGMA synchronous = OFF")
        book.execute("CREATE TABLE padding (content BLOB)")
        book.execute("BEGIN")
        content = os.urandom(1 << 22)
        for _ in range(gigabytes << 8):
            book.execute("INSERT INTO padding VALUES (?)", (content,))
        book.execute("COMMIT")
        book.execute("DROP TABLE padding")
