"""Cases of log.py: logs of the program and of SQLite, spoiled in many places. The rule judges, over frames that this file reads by itself, and so does SQLite, by the rows that it finds."""
import itertools
import random
import sqlite3
import struct
import subprocess
import time
from contextlib import closing
from dataclasses import dataclass

from ground import Scripts, arrival
from trial import Lines

HEAD, FRAME = 32, 24
KILLS = 60


def summed(big, first, second, data):
    """The checksum, as SQLite's description of its form has it."""
    words = struct.unpack(f"{'>' if big else '<'}{len(data) // 4}I", data)
    for number in range(0, len(words), 2):
        first = (first + words[number] + second) % 2**32
        second = (second + words[number + 1] + first) % 2**32
    return first, second


@dataclass
class Log:
    """A log that is whole, with the file that it belongs to, and what there is to count in that."""
    name: str
    data: bytes
    database: bytes
    table: str

    def __post_init__(self):
        self.page, = struct.unpack_from(">I", self.data, 8)
        self.long = FRAME + self.page
        self.count = (len(self.data) - HEAD) // self.long
        salted = [frame for frame in range(1, self.count + 1) if self.part(frame, 8, 8) == self.data[16:24]]
        self.frames = max(salted, default=0)
        self.marks = [frame for frame in salted if self.part(frame, 4, 4) != bytes(4)]

    def at(self, frame):
        return HEAD + (frame - 1) * self.long

    def part(self, frame, at, count):
        return self.data[self.at(frame) + at:][:count]

    def is_damaged(self, bad):
        """The rule: behind the bad frame one ends a commit, and another one stands behind that."""
        return any(mark > bad and self.frames > mark for mark in self.marks)

    def commits_before(self, bad):
        return sum(mark < bad for mark in self.marks)

    def flipped(self, place, bit=0):
        return self.changed(place, bytes([self.data[place] ^ 1 << bit]))

    def changed(self, place, new):
        return self.data[:place] + new + self.data[place + len(new):]

    def signed(self, change, big=False):
        """With another head, whose checksum fits, and so do those of all frames."""
        head = bytearray(self.data[:HEAD])
        change(head)
        sums = summed(big, 0, 0, bytes(head[:24]))
        struct.pack_into(">2I", head, 24, *sums)
        out = [bytes(head)]
        for frame in range(1, self.frames + 1):
            sums = summed(big, *summed(big, *sums, self.part(frame, 0, 8)), self.part(frame, FRAME, self.page))
            out.append(self.part(frame, 0, 16) + struct.pack(">2I", *sums) + self.part(frame, FRAME, self.page))
        return b"".join(out)


def of_program(program, file, count=10):
    """A log of the program, which is killed: a commit for each request."""
    with Lines(program, file) as desk:
        for number in range(1, count + 1):
            assert desk.say(arrival(number)).startswith("200 ")
    return Log("of the program", file.with_name("desk.db-wal").read_bytes(), file.read_bytes(), "kept")


def of_sqlite(folder, page, restarted=False):
    """A log of SQLite with commits of several sizes; restarted: behind its frames lie others, of the salt before."""
    file = folder / f"{page}{'r' if restarted else ''}.db"
    with closing(sqlite3.connect(file, isolation_level=None)) as book:
        book.executescript(f"PRAGMA page_size = {page}; PRAGMA journal_mode = WAL; PRAGMA wal_autocheckpoint = 0; CREATE TABLE t (n INTEGER PRIMARY KEY, text BLOB);")
        if restarted:
            book.execute("INSERT INTO t (text) VALUES (randomblob(?))", (40 * page,))
            book.execute("PRAGMA wal_checkpoint(RESTART)").fetchall()
        for size in (1, 3 * page, 1, 5 * page, 1, 2 * page, 4 * page):
            book.execute("INSERT INTO t (text) VALUES (randomblob(?))", (size,))
        name = f"of SQLite, pages of {page}{', restarted' if restarted else ''}"
        return Log(name, file.with_name(f"{file.name}-wal").read_bytes(), file.read_bytes(), "t")


class Logs(Scripts):
    @classmethod
    def setUpClass(cls):
        super().setUpClass()
        cls.reader, cls.places = cls.module("log"), itertools.count()
        cls.logs = [of_program(cls.program, cls.new()), *(of_sqlite(cls.folder, page) for page in (512, 4096)), of_sqlite(cls.folder, 1024, restarted=True)]

    def look(self, data):
        path = self.folder / "looked-at"
        path.write_bytes(data)
        return self.reader.look(path)

    def rows(self, log, data):
        """How many rows SQLite finds, with this log in place of the whole one; -1 where there isn't even the table."""
        file = self.folder / f"rows-{next(self.places)}.db"
        file.write_bytes(log.database)
        file.with_name(f"{file.name}-wal").write_bytes(data)
        with closing(sqlite3.connect(file)) as book:
            if not book.execute("SELECT 1 FROM sqlite_master WHERE name = ?", (log.table,)).fetchone():
                return -1
            return book.execute(f"SELECT count(*) FROM {log.table}").fetchone()[0]

    def kind(self, found):
        return type(found).__name__

    def try_logs(self):
        for log in self.logs:
            for part in (self.frames, self.last_commit, self.cuts, self.head):
                part(log)

    def frames(self, log):
        """Each frame spoiled in each of its parts: told or not by the rule, from that frame on; SQLite takes the commits before it."""
        whole = self.rows(log, log.data)
        self.expect(f"{log.name}: whole", (self.kind(self.look(log.data)), len(log.marks) > 5), ("Sound", True))
        for bad in range(1, log.frames + 1):
            at = log.at(bad)
            damaged, before = log.is_damaged(bad), log.commits_before(bad)
            lost = len(log.marks) - before
            first = log.marks[before - 1] + 1 if before else 1
            if lost > 2:
                self.expect(f"{log.name}: the rule tells frame {bad} of a commit before the last two", damaged)
            if lost == 1:
                self.expect(f"{log.name}: the rule doesn't tell frame {bad} of the last commit", damaged, False)
            for part, place, bit in (("number", 3, 0), ("size", 7, 0), ("salt", 8, 7), ("salt", 15, 0), ("checksum", 16, 3), ("checksum", 23, 0), ("page", FRAME, 7), ("page", log.long - 1, 0)):
                found = self.look(log.flipped(at + place, bit))
                wanted = self.reader.Damaged(bad, at) if damaged else self.reader.Torn(first, log.at(first))
                self.expect(f"{log.name}: frame {bad} with another {part}", found, wanted)
            if bad % 7 == 1 or lost < 4:
                taken = self.rows(log, log.data[:log.at(first)])
                self.expect(f"{log.name}: rows behind a bad frame {bad}", (self.rows(log, log.flipped(at + FRAME)), taken < whole), (taken, True))

    def last_commit(self, log):
        """Pairs, beginnings and ends of the last commit's frames, of noughts, of noise, and of what another salt left there: never told."""
        first, last = log.marks[-2] + 1, log.marks[-1]
        noise, mark = random.Random(1), log.data[log.at(log.marks[0]):][:log.long]
        # a frame that ended a commit, of which another salt is another in its first or its second half, or in both
        older = [mark[:8] + bytes(byte ^ (begin <= place < end) for place, byte in enumerate(mark[8:16])) + mark[16:] for begin, end in ((0, 8), (0, 4), (4, 8))]
        for one, other in itertools.combinations_with_replacement(range(first, last + 1), 2):
            for what in ("both", "from the first to the second"):
                frames = (one, other) if what == "both" else range(one, other + 1)
                for new in (bytes(log.long), noise.randbytes(log.long), *older):
                    data = log.data
                    for frame in frames:
                        data = data[:log.at(frame)] + new + data[log.at(frame) + log.long:]
                    self.expect(f"{log.name}: {what}, frames {one} and {other} of the last commit", self.kind(self.look(data)) in ("Torn", "Sound"))

    def cuts(self, log):
        """A log that ends early has nothing behind its end: never told."""
        for frame in range(1, log.frames + 1):
            for place in (0, 1, FRAME - 1, FRAME, log.long - 1):
                self.expect(f"{log.name}: cut at byte {place} of frame {frame}", self.kind(self.look(log.data[:log.at(frame) + place])) in ("Torn", "Sound"))
        for end in range(HEAD + FRAME):
            self.expect(f"{log.name}: of {end} bytes", self.kind(self.look(log.data[:end])), "Sound")

    def head(self, log):
        """Each bit of the head turned is told in other words, where there are frames; a log that is being emptied begins with a nought."""
        for place, bit in itertools.product(range(HEAD), range(8)):
            self.expect(f"{log.name}: bit {bit} of byte {place} of the head", self.look(log.flipped(place, bit)), self.reader.Unreadable("its head is damaged"))
        for place in range(3):
            def turn(head, place=place):
                head[place] ^= 4

            self.expect(f"{log.name}: another magic number, byte {place}", self.look(log.signed(turn)), self.reader.Unreadable("its head is damaged"))
        self.expect(f"{log.name}: a damaged head, and less than a frame's front", self.kind(self.look(log.flipped(20)[:HEAD + FRAME - 1])), "Sound")
        self.expect(f"{log.name}: a head with nothing behind it", self.kind(self.look(log.flipped(20)[:HEAD] + bytes(4 * log.long))), "Sound")
        self.expect(f"{log.name}: it is being emptied", self.kind(self.look(b"\0" + log.data[1:])), "Sound")
        for what, place, number in (("version 3007001 of the form", 4, 3007001), ("pages of 1000 bytes", 8, 1000), ("pages of 256 bytes", 8, 256), ("pages of 131072 bytes", 8, 131072)):
            found = self.look(log.signed(lambda head: struct.pack_into(">I", head, place, number))[:HEAD] + log.data[HEAD:])
            self.expect(f"{log.name}: {what}", found, self.reader.Unreadable(f"its head names {what}"))

    def try_no_log(self):
        self.expect("a log that isn't there", self.kind(self.reader.look(self.folder / "nothing")), "Sound")
        self.expect("a log of no bytes", self.kind(self.look(b"")), "Sound")
        try:
            self.expect("a folder in its place", self.reader.look(self.folder), "a fault")
        except OSError:
            self.expect("a folder in its place is a fault", True)

    def try_orders(self):
        """A log whose checksums read words with the highest byte first, as another machine writes it: SQLite takes all of it, and so does the reader."""
        for log in (self.logs[1], of_sqlite(self.folder, 65536)):
            self.orders(log)

    def orders(self, log):
        def turn(head):
            head[3] = 0x83

        data = log.signed(turn, big=True)
        self.expect("words of the other order: SQLite takes all", self.rows(log, data), self.rows(log, log.data))
        self.expect("words of the other order", self.kind(self.look(data)), "Sound")
        bad = data[:log.at(2) + 30] + bytes([data[log.at(2) + 30] ^ 1]) + data[log.at(2) + 31:]
        self.expect("and a bad frame among them", self.look(bad), self.reader.Damaged(2, log.at(2)))

    def try_kills(self):
        """The program is killed while it writes, and while it opens what the last kill left: whatever that leaves is never told. Nothing is reckoned here but by the kills themselves."""
        requests, moment, told = self.folder / "lines", random.Random(2), []
        for number in range(KILLS):
            if number % 5 == 0:
                file = self.new()
            requests.write_text("".join(arrival(2000 * number + one) for one in range(1, 2000)))
            with open(requests) as given, subprocess.Popen([self.program, "lines", "--file", file], stdin=given, stdout=subprocess.DEVNULL) as desk:
                time.sleep(moment.uniform(0.002, 0.15))
                desk.kill()
            told.append(self.kind(self.reader.look(file.with_name("desk.db-wal"))))
        self.expect(f"{KILLS} kills: {told.count('Torn')} left a torn end", [kind for kind in told if kind not in ("Sound", "Torn")], [])
