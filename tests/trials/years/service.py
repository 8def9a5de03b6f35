"""acdctl prune over the service: the lines of acd-prune.service killed before each call of the system that changes something, the desk, and power cuts there; what it refuses,
and under load. A stand-in for systemd runs the units; tests/trials/try-office has a systemd of its own."""
import contextlib
import fcntl
import json
import os
import re
import shutil
import signal
import threading
import time
from http.client import HTTPException
from pathlib import Path

from cases import disk, listing
from chains import TICKS, identity, note_of, sha256
from disks import Disk, lay, states
from disks import strace as strace_of_disks
from ground import DAY, HOUR, goes_of, joined, without
from trial.files import copied, held
from kills import CALLS, PLAN
from trial import Connection, free_port
from units import Desk, Pruning

RUN = Path("/run/acd-prune")
DAYS = 6
# what is traced: all that leaves something; to be killed before the last one is to be killed behind all
TRACED = (*(name for name in CALLS if name not in ("fcntl", "flock")), "utimensat", "exit_group")
# of the calls of the lines that prepare and prune those at which the power is cut, one of so many
ONE_OF = 4
# of the states of a disk after a write those that are tried, one of so many
ONE_OF_WRITES = 60
LIES = {"desk.db", "desk.db-wal", "desk.db-pair"}


def body(requester, invoke, service, **members):
    return json.dumps({"requester": requester, "invoke": invoke, "service": service, **members})


def calls(first, last, begin):
    """Callers who come, one an hour, and hang up ten seconds later; and ticks, so that two days are more than the thousand requests that stay in any case."""
    for number in range(first, last):
        moment, caller = begin + HOUR * number, f"030{number:08}"
        yield f"{moment} " + body("pbx", 2 * number, "arriveCall", caller=caller, called="100")
        yield f"{moment + 10} " + body("pbx", 2 * number + 1, "clearConnection", call=number, device=caller)
        yield from (f"{moment + 60 * tick} " + body("clock", TICKS * number + tick, "tick") for tick in range(1, TICKS + 1))


class Service:
    """A folder with the desk's file, both units over it, and who asks the desk."""

    def __init__(self, ground, folder):
        self.ground, self.folder, self.trace = ground, folder, folder / "trace"
        self.first, self.place, self.bin = folder / "first/desk.db", folder / "tried", folder / "bin"
        for made in (self.first.parent, self.bin, folder / "state"):
            made.mkdir()
        self.copies = folder / "copies"
        self.begin = int(time.time()) - DAYS * DAY
        self.port = free_port()
        self.program = Path(shutil.copy(ground.program, self.bin / "acd"))
        (self.bin / "systemctl").write_text(f'#!/bin/sh\nexec /usr/bin/python3 {Path(__file__).with_name("units.py")} {folder / "state"} "$@"\n')
        (self.bin / "systemctl").chmod(0o755)
        self.file = self.place / "desk.db"
        self.set({})
        self.make()

    def make(self):
        """The file that is laid there each time."""
        ground, half = self.ground, DAYS * 24 - 10
        ground.feed(self.first, [f"{self.begin} {line.partition(' ')[2]}" for line in PLAN] + list(calls(1, half, self.begin)))
        # what is in the log alone is in the archive too
        ground.kill_behind(self.first, list(calls(half, DAYS * 24 - 5, self.begin)))
        self.rows = held(self.first)
        self.last = self.rows["meta"][0][8]
        self.wanted = without(self.rows, goes_of(self.rows, self.last, days=2))
        self.copy()

    def copy(self):
        """A good copy of the night."""
        status, printed, faults = self.ground.acdctl("copy", "--file", self.first, "--folder", self.copies)
        self.ground.expect(f"a copy: {printed}{faults}", status, 0)

    def set(self, more):
        """What stands in the place of /etc/acd/acd.env."""
        values = {"ACD_FILE": str(self.file), "ACD_COPY_FOLDER": str(self.copies), "ACD_PORT": str(self.port), **more}
        (self.folder / "state/settings").write_text(json.dumps({"scripts": str(self.ground.scripts), "bin": str(self.bin), "environment": values}))
        self.desk = Desk(self.folder / "state")
        self.unit = Pruning(self.desk)

    def laid(self, is_up=True, seconds=20):
        """All anew, to the byte; with a desk that serves, or without."""
        self.desk.end(signal.SIGKILL)
        self.clear()
        copied(self.first, self.place)
        self.note()
        if is_up:
            self.desk.start()
            self.ground.expect("the desk is there", self.is_there(seconds))

    def note(self):
        """The copy of the night is of this file."""
        note = self.copies / "executed"
        note.write_text(re.sub("device .*\ninode .*\n", f"device {os.stat(self.file).st_dev}\ninode {identity(self.file)}\n", note.read_text()))

    def clear(self):
        shutil.rmtree(RUN, ignore_errors=True)
        self.place.mkdir(exist_ok=True)
        for path in self.place.iterdir():
            shutil.rmtree(path) if path.is_dir() else path.unlink()

    # who asks

    def ask(self, how, path, text=None):
        """Status and reply; nothing where the desk isn't there."""
        with contextlib.suppress(OSError, HTTPException), Connection(self.port, seconds=5) as desk:
            reply = desk.ask(how, path, text)
            return reply.status, reply.text
        return None

    def is_there(self, seconds=20):
        """Whether the desk answers within a time."""
        end = time.monotonic() + seconds
        while (found := self.ask("GET", "/queues/100")) is None and time.monotonic() < end:
            time.sleep(0.01)
        return found is not None and found[0] == 200

    def answers(self, what, invoke):
        """The desk is there, and answers one of the last requests that it has as it did before."""
        self.ground.expect(f"{what}: the desk is there", self.is_there())
        number = self.last_call - invoke
        found = self.ask("POST", "/csta", body("pbx", 2 * number, "arriveCall", caller=f"030{number:08}", called="100"))
        self.ground.expect(f"{what}: a kept reply is given again", found and (found[0], json.loads(found[1]).get("result")), (200, {"call": number}))

    @property
    def last_call(self):
        return DAYS * 24 - 5

    # what lies there

    def archive(self):
        """Where it has to lie."""
        return self.place / f"desk.db-{time.strftime('%Y-%m-%d', time.gmtime(self.rows['kept'][-1][3]))}-{self.last}"

    def is_new(self, what):
        """Whether the file is pruned; else it is as it was."""
        rows = held(self.file)
        self.ground.expect(f"{what}: the file is as it was, or pruned", rows in (self.rows, self.wanted))
        return rows == self.wanted

    def is_ended(self, what):
        """All is as behind a prune that nobody killed."""
        archive = self.archive()
        self.ground.expect(f"{what}: file and archive", (held(self.file) == self.wanted, archive.exists() and held(archive) == self.rows), (True, True))
        self.ground.expect(f"{what}: the note", note_of(self.file).get("digest"), sha256(archive) if archive.exists() else "none")
        self.ground.expect(f"{what}: what lies there", {path.name for path in self.place.iterdir()} - {"desk.db-wal", f"{archive.name}-wal"},
                           {"desk.db", "desk.db-pair", "desk.db.archive", archive.name})

    def pruned(self, what, ended="done"):
        self.ground.expect(f"{what}: {self.unit.said}", self.unit.start(), ended)
        self.ground.expect(f"{what}: nothing keeps the desk down", RUN.exists(), False)

    def whole(self):
        """Once, by nobody killed."""
        self.laid()
        self.pruned("pruned")
        self.answers("pruned", 1)
        self.is_ended("pruned")

    # kills

    def strace(self, *more):
        return ["strace", "-qq", "-y", "-o", self.trace, "-e", "trace=" + ",".join(f"?{name}" for name in TRACED), *more]

    def counted(self, line):
        """Of the line of this number: of each kind of call how many there are before it begins, and at its end. Before that there is the same of all scripts."""
        self.laid()
        self.ground.expect("it goes through", self.unit.start({line: self.strace()}), "done")
        text = self.trace.read_text()
        begins = re.search(r"^.*(/run/acd-prune|desk\.db|vfork\(|clone\().*$", text, re.MULTILINE)
        before = text[:begins.start()] if begins else text
        return {name: tuple(len(re.findall(rf"^{name}\(", part, re.MULTILINE)) for part in (before, text)) for name in TRACED}

    def kills(self, is_cut=False):
        """How many: each line of the unit is killed before each of its calls; where is_cut is set everything else is, too, and /run is gone."""
        done, seen = 0, set()
        for line, (name, _) in enumerate(self.unit.lines()):
            for call, (begin, end) in self.counted(line).items():
                for number in range(begin + 1, end + 1, ONE_OF if is_cut and name in ("ExecCondition", "ExecStart") else 1):
                    what = f"{'a power cut' if is_cut else 'killed'} at {call} {number} of {name} ({line})"
                    seen.add(self.killed(what, line, call, number, is_cut))
                    done += 1
        self.ground.expect("behind some it is pruned, behind others as it was", seen, {True, False})
        return done

    def killed(self, what, line, call, number, is_cut):
        """Whether it was pruned then."""
        self.laid()
        # another line of before it has calls of its own, so this one is traced alone
        ended = self.unit.start({line: self.strace("-e", f"inject={call}:signal=KILL:when={number}")}, is_cut)
        if is_cut:
            self.desk.end(signal.SIGKILL)
            shutil.rmtree(RUN, ignore_errors=True)
            self.is_new(f"{what}, before the machine starts")
            self.desk.start()
        else:
            # a second line does what the first one was killed at
            self.ground.expect(f"{what}: {self.unit.said}", ended, "done" if line == len(self.unit.lines()) - 2 else "failed")
        self.answers(what, 1)
        self.ground.expect(f"{what}: nothing keeps the desk down", RUN.exists(), False)
        is_new = self.is_new(what)
        ended = self.unit.start()
        self.ground.expect(f"{what}, the next one: {self.unit.said}", ended in ("done", "passed over") and (ended == "done" or is_new))
        self.answers(f"{what}, the next one", 2)
        self.is_ended(f"{what}, the next one")
        return is_new

    def disks(self):
        """Power cuts at each call by which ExecStart changes the folder, with what wasn't synced lost: the machine starts the desk over the file as it was or pruned, and the next
        prune does the rest."""
        ground = self.ground
        self.laid()
        prepares, stops, prunes = (line for _, line in self.unit.lines()[:3])
        ground.expect("the desk is stopped", [self.unit.run_line(line) for line in (prepares, stops)], [0, 0])
        disk = Disk(self.place)
        inodes = {identity(path): disk.now[str(path)] for path in (self.file, Path(f"{self.file}-wal"))}
        ground.expect(f"it goes through: {self.unit.said}", self.unit.run_line(prunes, strace_of_disks(self.trace)), 0)
        found, seen = [each for number, each in enumerate(states(disk, self.trace)) if "pwrite64" not in each[0] or number % ONE_OF_WRITES == 0], set()
        ground.expect("what was reckoned lies there", disk.is_as_it_is())
        inodes[identity(self.file)] = disk.now[str(self.file)]
        for what, state in found:
            self.clear()
            lay(state, inodes)
            self.note()
            seen.add(self.is_new(what))
            self.desk.start()
            self.answers(what, 1)
            ended = self.unit.start()
            ground.expect(f"{what}, the next one: {self.unit.said}", ended in ("done", "passed over"))
            self.answers(f"{what}, the next one", 2)
            self.is_ended(f"{what}, the next one")
            self.desk.end(signal.SIGKILL)
        ground.expect("over the file as it was, and pruned", seen, {True, False})
        print(f"{len(found)} states of a disk", flush=True)

    # cases

    @contextlib.contextmanager
    def another_program(self, does):
        """One that does this first."""
        (self.bin / "aside").mkdir()
        self.program.rename(self.bin / "aside/acd")
        self.program.write_text(f'#!/bin/sh\n{does}\nexec {self.bin / "aside/acd"} "$@"\n')
        self.program.chmod(0o755)
        try:
            yield
        finally:
            (self.bin / "aside/acd").rename(self.program)
            (self.bin / "aside").rmdir()

    def down(self):
        """A unit that was down stays down, whatever becomes of it, unless it is started meanwhile; and one that is started meanwhile stays down until it is over."""
        for line in (None, 1, 2, 3):
            self.laid(is_up=False)
            ended = self.unit.start({line: self.strace("-e", "inject=?vfork,?clone,?clone3:signal=KILL:when=1")} if line else None)
            self.ground.expect(f"down before, line {line} killed: {self.unit.said}", (ended, self.desk.process(), RUN.exists()),
                               ("failed" if line in (1, 2) else "done", None, False))
        self.laid(is_up=False)
        results = []
        pruning = threading.Thread(target=lambda: results.append(self.unit.start({1: self.strace("-e", "inject=utimensat:delay_enter=3000000:when=1")})))
        pruning.start()
        self.ground.expect("it stops the desk", self.eventually(RUN.exists))
        time.sleep(1)
        self.desk.start()
        pruning.join()
        self.ground.expect(f"started before anything keeps it down: {self.unit.said}", results, ["done"])
        self.answers("started before anything keeps it down", 1)
        for is_up in (True, False):
            self.laid(is_up)
            meanwhile = self.bin / "started"
            with self.another_program(f'case "$*" in "prune --file {self.file} "*) systemctl start acd.service; systemctl show acd.service >>{meanwhile};; esac'):
                self.pruned("started meanwhile")
            self.ground.expect("it is kept down meanwhile", set(meanwhile.read_text().split()), {"inactive"})
            self.answers(f"started meanwhile, was up {is_up}", 1)
            self.is_ended("started meanwhile")

    def eventually(self, holds):
        """Whether it holds within a time."""
        end = time.monotonic() + 20
        while not holds() and time.monotonic() < end:
            time.sleep(0.01)
        return holds()

    def refused(self, what, wanted, ended="failed", is_stopped=False):
        """It is told by a line; the desk was never stopped, or is back over the file as it was; and nothing else lies there than before, or the archive where the desk was stopped."""
        process, before = self.desk.process(), {name: found for name, found in listing(self.place).items() if name not in LIES}
        has = self.unit.start()
        lines = [line for line in self.unit.said.splitlines() if line.startswith("acdctl prune: ") or line == "nothing to prune"]
        self.ground.expect(f"{what}: {self.unit.said}", (has, len(lines), wanted in "".join(lines)), (ended, 1, True))
        self.ground.expect(f"{what}: nothing keeps the desk down", RUN.exists(), False)
        self.answers(what, 1)
        self.ground.expect(f"{what}: the desk was stopped", self.desk.process() != process, is_stopped)
        self.ground.expect(f"{what}: the file", held(self.file) == self.rows)
        archive = {self.archive().name, f"{self.archive().name}-wal", "desk.db.archive"} if is_stopped else set()
        self.ground.expect(f"{what}: what else lies there", {name: found for name, found in listing(self.place).items() if name not in LIES | archive} == before)

    def refusals(self):
        self.laid()
        self.pruned("pruned")
        process = self.desk.process()
        self.pruned("a second time, beside a copy of before", "passed over")
        self.ground.expect("the desk wasn't stopped", self.desk.process(), process)
        self.laid()
        for part in ("", ".archive"):
            taken = Path(f"{self.archive()}{part}")
            taken.write_text("mine")
            self.refused("a name that is taken", f"{taken} is there already; nothing was changed")
            taken.unlink()
        (self.place / "at").write_text("7\n")
        self.refused("one of several machines", "one of several machines")
        (self.place / "at").unlink()
        for days, wanted, ended in (("9", "nothing to prune", "passed over"), ("x", "isn't a whole number", "failed"), ("0", "isn't a whole number", "failed")):
            self.set({"ACD_CARRY_DAYS": days})
            self.refused(f"{days} days", wanted, ended)
        self.set({"ACD_COPY_FOLDER": str(self.folder / "none")})
        self.refused("without a copy", f"there is no good copy of {self.file} in {self.folder / 'none'}: systemctl start acd-copy; nothing was changed")
        self.set({})
        for does, wanted, is_stopped in (('[ "$1" = audit ] && kill -9 $$', "it wanted more memory than it may have", False), ('[ "$1" = prune ] && kill -9 $$', "acd prune was ended by signal 9", False),
                                         ('[ "$1" = audit ] && echo "differs at request 7" && exit 3', "the audit says 'differs at request 7'", False),
                                         (f'case "$*" in "prune --file {self.file} "*) kill -9 $$;; esac', "acd prune was ended by signal 9", True),
                                         (f'case "$*" in "prune --file {self.file} "*) echo differs at request 7; exit 3;; esac', f"differs at request 7; {self.file} wasn't pruned", True)):
            self.laid()
            with self.another_program(does):
                self.refused(does, wanted, is_stopped=is_stopped)

    def full(self):
        """A disk that has no room for the archive."""
        with disk(self.place, "8m"):
            self.laid()
            free = shutil.disk_usage(self.place).free
            for left in (0, 4096, 12000, 600000):
                (self.place / "ballast").write_bytes(b"x" * max(0, free - left))
                self.refused(f"a disk with {left} bytes left", "")
            (self.place / "ballast").unlink()
            self.pruned("with room again")
            self.is_ended("with room again")
            self.desk.end(signal.SIGKILL)

    def twice(self):
        """Two at once: one of them by hand, which is refused beside the desk and beside the other one, and which refuses that."""
        self.laid()
        self.ground.expect("by hand beside the desk", self.by_hand()[0], 1)
        holds = os.open(self.place, os.O_RDONLY)
        fcntl.flock(holds, fcntl.LOCK_EX)
        self.refused("while another one is at it", "just now")
        os.close(holds)
        results = []
        first = threading.Thread(target=lambda: results.append(self.unit.start()))
        first.start()
        others = []
        while first.is_alive():
            others.append(self.by_hand())
        first.join()
        # a desk that found its file open has ended by now, and is started again, by Restart=always
        time.sleep(0.5)
        self.desk.start()
        self.ground.expect(f"beside others: {results} {self.unit.said}", results in (["done"], ["failed"]))
        self.ground.expect(f"one at most: {others}", sum("pruned up to" in said for _, said, _ in others) + self.unit.said.count("pruned up to") <= 1)
        self.answers("beside others", 1)
        self.unit.start()
        self.answers("alone again", 1)
        self.is_ended("alone again")

    def by_hand(self):
        return self.ground.prune(self.file, "--desk", self.program)

    def loaded(self):
        """A client sends each request until it is answered, while prunes go through or are killed: each acts once."""
        self.set({"ACD_CARRY_DAYS": "1"})
        self.laid()
        answered, longest, is_over = [], [0.0], threading.Event()

        def ask():
            number = 0
            while not is_over.is_set():
                number, begun = number + 1, time.monotonic()
                while (reply := self.ask("POST", "/csta", body("client", number, "arriveCall", caller="0309", called="100"))) is None or reply[0] == 503:
                    time.sleep(0.01)
                longest[0] = max(longest[0], time.monotonic() - begun)
                answered.append((number, reply))

        client = threading.Thread(target=ask)
        client.start()
        ended, waits = [], (0.05, 0.3, 0.5, 0.7, 0.9, 1.1, None)
        for wait in waits:
            time.sleep(0.3)
            killer = threading.Timer(wait, self.unit_killed) if wait else None
            if killer:
                killer.start()
            ended.append(self.unit.start())
            if killer:
                killer.cancel()
        time.sleep(0.5)
        is_over.set()
        client.join()
        self.set({})
        self.desk.stop()
        self.ground.expect(f"at the end it was pruned: {ended}", "done" in ended)
        archives = sorted((path for path in self.place.glob("desk.db-????-??-??-*") if not path.name.endswith((".archive", "-wal"))), key=lambda path: int(path.name.rpartition("-")[2]))
        # which lays the log in
        self.ground.ran("acd", "report", "--file", self.file)
        whole = joined(archives, self.file, self.folder / "whole.db")
        kept = [(invoke, status, text) for _, requester, invoke, _, _, status, text in (row[:7] for row in held(whole)["kept"]) if requester == "client"]
        self.ground.expect("each acted once, and as it was answered", [(number, status, text.strip()) for number, (status, text) in answered] == kept)
        self.ground.expect("archives and file together", self.ground.audit(whole)[:2], (0, f"sound\nexecuted {self.last + len(kept)}\n"))
        print(f"{len(answered)} requests under load, the longest wait {longest[0]:.2f} s, {len(archives)} archives, prunes ended {ended}", flush=True)

    def unit_killed(self):
        """What the unit runs, or the first that it begins."""
        while self.unit.begun is None:
            time.sleep(0.001)
        with contextlib.suppress(ProcessLookupError):
            os.kill(self.unit.begun, signal.SIGKILL)

    def all(self, case=None):
        for each in [case] if case else ("down", "refusals", "full", "twice", "loaded", "kills", "cuts", "disks"):
            self.whole()
            if each in ("kills", "cuts"):
                print(f"{self.kills(each == 'cuts')} {'power cuts' if each == 'cuts' else 'kills'} over the service", flush=True)
            else:
                getattr(self, each)()


def try_service(ground, folder, case=None):
    trial = Service(ground, folder)
    try:
        trial.all(case)
    finally:
        trial.desk.end(signal.SIGKILL)
