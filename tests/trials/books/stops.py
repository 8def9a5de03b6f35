"""Files whose calls fail from some call on, by strace: sessions over them, a migration, and a prune."""
import re
import shutil

from trial import Requests, Trial, line, ran

from laid import changed, numbers_of, part, session_of

WRITES = ("pwrite64", "fdatasync", "fsync", "ftruncate")
CALLS = ("pread64", *WRITES)
FULL = '503 {"error":{"code":34,"name":"storeFault"}}'
OLDER = "DROP TABLE group_priority; DROP TABLE agent_groups; UPDATE meta SET version = 1"
# how many records and events there are before a prune, and after it
WHOLE, PRUNED = [1007, 7], [1000, 5]


def pruned(trial, file):
    """The file of 1,007 requests and seven events, of which a prune takes out seven and two, and its archive."""
    archive, ticks = file.with_suffix(".archive"), Requests()
    changed(file, part("adopted", "old_tables"), part("migrated", "left"), "INSERT INTO monitors VALUES (1, 1201, 0); UPDATE meta SET last_monitor = 1")
    trial.gives("it ticks", ["lines", "--file", file], given="".join(line(10_000, ticks.tick()) for _ in range(998)))
    return file, shutil.copy(file, archive)


class Stopped(Trial):
    """Each of the two files of a desk stops at each of its calls in turn: this call fails, and so do all after it."""

    @classmethod
    def setUpClass(cls):
        super().setUpClass()
        cls.new, cls.file = cls.folder / "new.db", cls.folder / "stopping.db"
        cls.log = cls.folder / "stopping.db-wal"
        cls.gives("a new book", ["lines", "--file", cls.new], 0, "")

    def setUp(self):
        self.judged = {}

    def traced(self, base, words, given, which, injected=()):
        """The program over a copy, how it went, and the names of the calls of one of its files."""
        self.log.unlink(missing_ok=True)
        shutil.copy(base, self.file)
        notes, options = self.folder / "notes", [word for each in injected for word in ("-e", each)]
        done = ran("strace", "-f", "-qq", "-o", notes, "-e", "signal=none", "-e", f"trace={','.join(CALLS)}", "-P", which, *options, self.program, *words, given=given)
        return done, re.findall(r"^\d+ +(\w+)\(", notes.read_text(), re.MULTILINE)

    def stops(self, base, files, kinds, words, given=""):
        """Of each call of these files: where it is, and how the program went in which that call and all after it failed. First nothing fails."""
        for which in files:
            done, calls = self.traced(base, words, given, which)
            self.see(f"calls of {which.name}", len(calls) > 20, calls)
            yield f"{which.name}, {len(calls)} calls", done, True
            for place, name in enumerate(calls):
                if name in kinds:
                    injected = [f"inject={each}:error=EIO:when={calls[:place].count(each) + 1}+" for each in CALLS]
                    done, _ = self.traced(base, words, given, which, injected)
                    yield f"{which.name} stops at call {place + 1}, {name}", done, False

    def session(self, name, base, before=0, most=None, files=(), kinds=WRITES):
        """The first requests are executed before; what is left after a stop has all that was answered, or one request more, and is sound, and all that is sent again is answered."""
        lines, answers, _ = (each.splitlines(keepends=True)[:most] for each in session_of(part("stopped", name)))
        begun = shutil.copy(base, self.folder / f"{name}.db")
        if before:
            self.gives(f"{name}: before", ["lines", "--file", begun], 0, "".join(answers[:before]), given="".join(lines[:before]))
        for place, done, is_whole in self.stops(begun, files or (self.log, self.file), kinds, ["lines", "--file", self.file], "".join(lines[before:])):
            said = done.output.splitlines(keepends=True)
            granted = sum(each.startswith("200 ") for each in said)
            wanted = answers[before:][:granted] + [f"{FULL}\n"] * (len(said) - granted)
            self.see(f"{name}, {place}", said == wanted and is_whole == (done.status == 0 and granted == len(lines) - before), done)
            self.judge(f"{name}, {place}", before + granted, "".join(lines), "".join(answers))

    def judge(self, what, answered, given, answers):
        """What was left before needn't be looked at again."""
        left = (self.file.read_bytes(), self.log.exists() and self.log.read_bytes())
        if left not in self.judged:
            audit = self.acd("audit", "--count", "--file", self.file)
            executed = re.fullmatch(r"sound\nexecuted (\d+)\n", audit.output)
            self.see(f"{what}: it is sound", executed, audit)
            self.gives(f"{what}: sent again", ["lines", "--file", self.file], 0, answers, given=given)
            self.judged[left] = int(executed[1]) if executed else None
        self.see(f"{what}: all that was answered, or one more", self.judged[left] in (answered, answered + 1), (self.judged[left], answered))

    def try_sessions_stop(self):
        """Each call; and of commits of other kinds those of the log, which is laid into the file as the first one is."""
        self.session("answered", self.new, before=5, kinds=CALLS)
        for name, before in (("rejected", 8), ("renamed", 10), ("logged_off", 9)):
            self.session(name, self.new, before, files=(self.log,))

    def try_a_migration_stops(self):
        """Files of version 1, which is migrated at the first opening."""
        self.session("plan", changed(shutil.copy(self.new, self.folder / "older.db"), OLDER), most=1)

    def try_a_prune_stops(self):
        """All records are there or, pruned, those that are left, and nothing between."""
        base, archive = pruned(self, self.folder / "whole.db")
        for place, done, is_whole in self.stops(base, (self.log, self.file), WRITES, ["prune", "--file", self.file, "--archive", archive, "--keep", "1"]):
            self.gives(f"{place}: it is sound", ["audit", "--file", self.file, "--archive", archive, "--count"], 0, "sound\nexecuted 1007\n")
            found = [each for *_, each in numbers_of(self.file, "0 SELECT count(*) FROM kept\n0 SELECT count(*) FROM events")]
            is_pruned = done.status == 0
            self.see(place, found == PRUNED or (found == WHOLE and not is_pruned), (found, done))
            self.see(f"{place}: it ends", is_pruned or not is_whole, done)
