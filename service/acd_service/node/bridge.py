"""Feeds this machine's desk from the log, and finds the answers to what was asked here."""
import hashlib
import subprocess
import threading
import time
from collections import deque

from acd_service.node.entries import Entry, entries_of
from acd_service.node.folder import Checked, Folder, Reached, State
from acd_service.node.journal import Journal
from acd_service.node.log import Forgotten, Log
from acd_service.node.waiting import Waiting, moment

PERIOD = 1000                                              # entries between two digests
HOUR = 3600


def has_reads(program: str) -> bool:
    """Whether the desk's program answers lines that read. Programs before version 1.1 don't."""
    return b"--reads" in subprocess.run([program, "lines", "--help"], stdout=subprocess.PIPE).stdout


class Bridge:
    """Feeds every entry of every value, in order, one at a time, and writes the place after the replies to a whole
    value: what a desk was fed of it before a fault adds nothing when it is fed again. All machines alike pass over what
    hasn't the form of a value."""

    def __init__(self, folder: str, program: str, log: Log, journal: Journal, patience: float = 10,
                 pause: float = 10) -> None:
        self.folder, self.program, self.log, self.journal = Folder(folder), program, log, journal
        self.pause, self.waiting = pause, Waiting(log, journal, patience)
        self.desk: subprocess.Popen[bytes] | None = None
        self.turn = threading.Lock()                       # whose line the desk answers
        self.reads = ["--reads"] if has_reads(program) else []
        self.passed = 0
        self.due: deque[Checked] = deque(maxlen=10)        # digests that are yet to be published
        self.held = False                                  # whether requests are refused, since etcd is nearly full
        # whether all is refused, since the log lacks entries that this desk needs, or its replies differ from two
        # others'
        self.lacks = self.differs = False

    @property
    def reached(self) -> Reached:
        return self.folder.state.reached

    def answers_nothing(self) -> bool:
        return self.lacks or self.differs

    def ask(self, desk: subprocess.Popen[bytes], line: bytes, tries: int = 0) -> bytes:
        """The desk's answer line. While the desk has no memory, it is asked again, at most so often. Empty if the desk
        ended, as it does after a store fault."""
        assert desk.stdin and desk.stdout                  # it was started with pipes
        tried = 0
        while True:
            try:
                desk.stdin.write(line + b"\n")
                desk.stdin.flush()
                answer = desk.stdout.readline()
            except OSError:
                return b""
            tried += 1
            if tried == tries or not answer.startswith(b"503 "):
                return answer if answer.endswith(b"\n") else b""
            time.sleep(0.1)

    def pass_over(self, place: int) -> None:
        """Counts what is no value, and reports it once an hour at most."""
        self.passed += 1
        self.journal.report(f"place {place} of the log has no entry; ignored "
                            f"({self.passed} such since the start): who puts it there?", "passed", 3600)

    def take(self, place: int, value: bytes) -> bool:
        """Feeds the desk the entries of one value; whether it answered all of them."""
        entries = entries_of(value)
        if not entries:
            self.pass_over(place)
        (_, count, digest), checked, due = self.reached, self.folder.state.checked, []
        for reply in map(self.answer_to, entries) if entries else [value]:
            if entries and not reply:
                return False
            count, digest = count + 1, hashlib.sha256(digest + reply).hexdigest().encode()
            if count % PERIOD == 0:
                checked = Checked(count, digest)
                due.append(checked)
        self.folder.write(State(Reached(place, count, digest), checked, place))
        self.due.extend(due)
        return True

    def answer_to(self, entry: Entry) -> bytes:
        """The desk's answer, of which who asked here hears; empty if the desk ended."""
        with self.turn:
            answer = self.ask(self.desk, entry.line) if self.desk else b""
        if answer:
            self.waiting.tell(entry.token, answer)
        return answer

    def feed(self) -> int:
        """Ends when the desk ends, with its status. The caller starts the desk again, from the place that it
        reached."""
        words = [self.program, "lines", *self.reads, "--end-on-store-fault", "--file", f"{self.folder.path}/desk.db"]
        desk = self.desk = subprocess.Popen(words, stdin=subprocess.PIPE, stdout=subprocess.PIPE)
        try:
            for place, value in self.log.follow(self.reached.place, self.folder.state.seen):
                if value is None:
                    self.folder.write(self.folder.state._replace(seen=place))
                elif not self.take(place, value):
                    break
        finally:
            desk.kill()
            status = desk.wait()
        return status

    def run(self) -> None:
        while True:
            start = time.monotonic()
            try:
                status = self.feed()
            except Forgotten as fault:
                self.wait_for_folder(fault)
                continue
            self.journal.report(f"the desk ended with status {status}, and is started again", f"ended {status}", 60)
            time.sleep(0.2 if time.monotonic() > start + 2 else 1)

    def wait_for_folder(self, fault: Forgotten) -> None:
        """Refuses all until another machine's folder is there, or the log has the entries after all; the desk doesn't
        run meanwhile."""
        self.lacks = True
        first = before = self.folder.look()
        while not self.folder.is_replaced(first, before) and not (before == first and self.has_entries()):
            self.journal.report(f"{fault}. Until that is done all requests and reads get 503",
                                f"lacks {self.reached.place}", HOUR)
            before = self.folder.look()
            time.sleep(self.pause)
        self.journal.report(f"the log has what comes after place {self.reached.place}, where this folder continues")
        self.lacks = False

    def has_entries(self) -> bool:
        try:
            self.log.begin(self.reached.place, self.folder.state.seen)
        except (Forgotten, OSError):
            return False
        return True

    async def answer(self, request: bytes) -> bytes:
        """The answer line to a request. Empty if it doesn't come in time, or if requests are refused."""
        if self.held or self.answers_nothing():
            return b""
        answer = await self.waiting.answer(request)
        return b"" if self.answers_nothing() else answer

    def read(self, target: bytes) -> bytes:
        """The answer line to a read, after the entries that the desk has answered. Empty if there is no desk, if the
        read doesn't get its turn in time, or if all is refused."""
        if self.answers_nothing() or not self.turn.acquire(timeout=5):
            return b""
        try:
            return self.ask(self.desk, b"%d GET %s" % (moment(), target), tries=1) if self.desk and self.reads else b""
        finally:
            self.turn.release()
