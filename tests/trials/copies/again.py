"""A request that a client sends again after it was pruned: the copy is good up to there, and so is what is made of it; and which good copies stay, day by day."""
import contextlib
import os
import re
import shutil
import sqlite3
import tempfile
import time
from pathlib import Path

from copying import SOUND
from ground import PYTHON, Office, Part, call, frames, kept, spoil
from trial import Lines, Requests, compact
from trial.files import log_of

DAY = 86400
PLANNED = '0 {"requester":"p","invoke":1,"service":"addGroup","device":"100","name":"B","ring":20,"wrap":30}\n'
ARRIVES = '{"requester":"pbx","invoke":1,"service":"arriveCall","caller":"0301555","called":"100"}'
TICK = '{"requester":"clock","invoke":1,"service":"tick"}'
# so many stay in any case, beside the tick of before
MANY = 1000
LAST, SENT = 3 + MANY, 4 + MANY
TOLD = rf"sound, but request {SENT} was sent again; executed \d+\n"


def ticks(requester, moment):
    """So many, of one moment."""
    return "".join(f'{moment} {{"requester":"{requester}","invoke":{number},"service":"tick"}}\n' for number in range(1, MANY + 1))


def moment_of(days, second=0):
    """The name of a copy of so many days ago."""
    return time.strftime("%Y-%m-%d", time.gmtime(time.time() - days * DAY)) + f"T{second:06}Z"


class Again(Part):
    # a request that is sent again

    def pruned(self):
        """A desk with a call that was pruned, that its archive alone has, and a good copy; then this call is sent again, and answered with another number."""
        office = Office(tempfile.mkdtemp(dir=self.folder), self.program, self.script)
        self.lines(office, f"{PLANNED}5 {ARRIVES}\n300000 {TICK}\n" + ticks("laid", 300000))
        self.prune(office, "pruned up to request 2\n")
        office.archive = office.folder / f"desk.db-1970-01-04-{LAST}"
        office.sound = office.copies / office.copy_now()
        answers = self.lines(office, f"300100 {ARRIVES}\n300101 {TICK.replace('1', '2', 1)}\n")
        self.expect("it acts again", answers.splitlines()[0], '200 {"invoke":1,"requester":"pbx","result":{"call":2}}')
        return office

    def prune(self, office, wanted):
        status, said, faults = office.command(self.script.parent / "acdctl", "prune", "--file", office.file)
        self.expect(f"pruned: {faults}", (status, said, faults), (0, wanted, ""))

    def lines(self, office, given):
        status, said, faults = office.run("acd", "lines", "--file", office.file, given=given)
        self.expect(f"acd lines: {faults}", status, 0)
        return said

    def copied(self, what, office, *words):
        """The folder of a copy, which is kept as a good one, and the line of it."""
        status, said, faults = office.copy(*words)
        found = re.search(rf"^{TOLD}(?:this is another file than that of the last copy, .*\n)?kept: (\S+/\d{{4}}-\d\d-\d\dT\d{{6}}Z)\n", said, re.MULTILINE)
        self.expect(f"{what}: {said}{faults}", (status, bool(found), faults), (0, True, ""))
        return Path(found[1]) if found else office.copies / "none"

    def try_again(self):
        """It is kept under its moment, and of the copies that are wholly sound all stay, however old they are; of the others those of the last days."""
        office = self.pruned()
        office.sound = office.sound.rename(office.copies / moment_of(30))
        older = shutil.copytree(office.sound, office.copies / moment_of(40))
        first = self.copied("the first", office, "--keep", "1")
        self.expect("it has all", kept(first / "desk.db")[-2:], ["pbx 1", "clock 2"])
        first = first.rename(office.copies / moment_of(1))
        second = self.copied("the second", office, "--keep", "1")
        self.expect("what stays", [path.exists() for path in (older, office.sound, first, second)], [True, True, False, True])
        self.expect("nothing is kept aside", sorted(path.name for path in office.copies.iterdir() if not path.name.endswith("Z")), ["archives", "executed"])
        # the next prune takes it out, and all is sound again
        self.lines(office, ticks("later", 700000))
        self.prune(office, f"sound, but request {SENT} was sent again; executed {2 * MANY + 5}\npruned up to request {SENT + 1}\n")
        status, said, faults = office.copy("--keep", "1")
        self.expect(f"after the next one: {said}{faults}", (status, bool(re.search(SOUND, said)), faults), (0, True, ""))
        self.expect("what stays then", [path.exists() for path in (older, office.sound, second)], [False, False, True])

    def try_good(self):
        """What is made of such a copy takes it as good, and says the line."""
        office = self.pruned()
        made = self.copied("a copy", office)
        status, said, faults = office.run(PYTHON, self.script.parent / "acd-calls", "--copies", office.copies, "--since", "1970-01-04", "--until", "1970-01-04")
        self.expect(f"records: {faults}", (status, said.count("\n"), bool(re.fullmatch(f"acd-calls: {TOLD}", faults))), (0, 2, True))
        # on the same machine, and on another one
        other = Office(tempfile.mkdtemp(dir=self.folder), self.program, self.script)
        shutil.copytree(office.copies, other.copies)
        for what, where in (("a restore", office), ("a standby", other)):
            status, said, faults = where.copy("--restore", made.name)
            self.expect(f"{what}: {said}{faults}", (status, bool(re.match(TOLD, said)), faults), (0, True, ""))
            self.expect(f"{what}: what it has", kept(where.file), kept(made / "desk.db"))
            self.copied(f"a copy of {what}", where)

    def try_forgotten(self):
        """A caller of before is forgotten, and the line is said."""
        office = self.pruned()
        self.lines(office, '600000 {"requester":"pbx","invoke":2,"service":"arriveCall","caller":"0301666","called":"100"}\n')
        status, said, faults = office.run(PYTHON, self.script.parent / "acd-forget", "--file", office.file, "--folder", office.copies, "--caller", "0301777", "--archive", office.archive)
        self.expect(f"nobody's number: {said}{faults}", (status, faults), (0, ""))
        self.lines(office, '900000 {"requester":"pbx","invoke":3,"service":"clearConnection","call":1,"device":"0301555"}\n'
                   '900000 {"requester":"pbx","invoke":4,"service":"clearConnection","call":2,"device":"0301555"}\n' + ticks("later", 1300000))
        self.prune(office, f"sound, but request {SENT} was sent again; executed {2 * MANY + 8}\npruned up to request {SENT + 4}\n")
        archives = [office.archive, office.folder / f"desk.db-1970-01-16-{2 * MANY + 8}"]
        words = [word for archive in archives for word in ("--archive", archive)]
        status, said, faults = office.run(PYTHON, self.script.parent / "acd-forget", "--file", office.file, "--folder", office.copies, "--caller", "0301555", *words)
        self.expect(f"forgotten: {said}{faults}", (status, f"sound, but request {SENT} was sent again" in said, faults), (0, True, ""))

    def try_others(self):
        """What isn't so: another difference before it or behind it, a log that ends early."""
        for stamp in (LAST, SENT + 1):
            office = self.pruned()
            self.change(office, f"UPDATE kept SET body = '{{\"invoke\":1}}' WHERE stamp = {stamp}")
            status, said, faults = office.copy()
            self.expect(f"reply {stamp} was changed: {faults}", (status, f"'differs at request {stamp}'; it lies in {office.copies}/unsound" in faults), (1, True))
        office = self.pruned()
        with Lines(self.program, office.file) as desk:
            for number in range(9):
                desk.say(f"300200 {compact(Requests(n=number)('tick', 'n'))}")
        offsets = frames(log_of(office.file))
        spoil(log_of(office.file), offsets[len(offsets) // 2] + 100)
        status, said, faults = office.copy()
        self.expect(f"its log ends early: {faults}", (status, bool(re.search(r"answered requests are missing: .*; it lies in \S+\.early,", faults))), (1, True))

    def change(self, office, statement):
        with contextlib.closing(sqlite3.connect(office.file)) as book:
            book.execute(statement)
            book.commit()

    # which copies stay

    def old(self, office, days, seconds):
        """Copies of so many days ago, which were good."""
        made = [office.copies / moment_of(days, second) for second in seconds]
        for copy in made:
            copy.mkdir(parents=True)
            (copy / "desk.db").write_bytes(b"x" * 60000)
        return made

    def try_days(self):
        """Of each of the last days that have one the last stays, and of today twenty; what has another name isn't looked at."""
        office = self.office()
        copies = {days: self.old(office, days, seconds) for days, seconds in ((20, (1, 2)), (9, (1,)), (8, (1, 2, 3)), (1, (5, 6)), (0, range(1, 31)))}
        other = office.copies / f"{moment_of(20)}.early"
        other.mkdir()
        status, said, faults = office.copy("--keep", "3")
        self.expect(f"a good copy: {said}{faults}", (status, faults, said.count("cleared away: ")), (0, "", 2 + 1 + 2 + 1 + 11))
        self.expect("what stays", {days: [copy.exists() for copy in made] for days, made in copies.items()},
                    {20: [False, False], 9: [False], 8: [False, False, True], 1: [False, True], 0: [False] * 11 + [True] * 19})
        self.expect("another name", other.exists())

    def try_little_room(self):
        """A disk without room for two more: the older ones of today go, the oldest first, and no other day's."""
        office = self.office()
        office.feed([call(number) for number in range(3, 60)])
        with self.disk("396k") as disk:
            office.copies = disk / "copies"
            yesterday, today = self.old(office, 1, (1,)), self.old(office, 0, (1, 2, 3, 4))
            status, said, faults = office.copy()
            self.expect(f"a good copy: {said}{faults}", (status, faults), (0, ""))
            made, = (path for path in office.copies.glob("*Z") if path not in yesterday + today)
            wanted, room = 2 * sum(part.stat().st_size for part in made.iterdir()), os.statvfs(disk)
            stays = [copy.exists() for copy in today]
            self.expect(f"the oldest went first, {stays}", stays == sorted(stays) and 0 < stays.count(False) < 4)
            self.expect("yesterday's stays", [copy.exists() for copy in yesterday], [True])
            free = room.f_bavail * room.f_frsize
            self.expect(f"there is room, and no more went than had to: {wanted} of {free}", wanted <= free < wanted + 61440)
