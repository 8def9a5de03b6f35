"""acd-forget: an alias stands in the place of a caller's number in all archives and their copies, nothing of the number is left in their bytes, and all else is
what it was. The judge reads rows by SQLite and bytes as they are, and nothing of the script's."""
import json
import re
import shutil
import signal
import sqlite3
import subprocess
from collections import Counter
from pathlib import Path

from cases import changed, listing
from chains import DAY, HOUR, Office, note_of, sha256, text_of
from ground import PYTHON, Ground, joined
from trial.files import copied, held
from kills import PLAN

# who is forgotten: of 11 digits, whose integers have 6 bytes, of 15, whose integers have 8, and of 6, whose integers have 3 and may stand in bytes by chance
CALLERS = ("03055501234", "491705550123456"[:15], "055512")
# who calls until the end, and what is no caller's
STAYS, STATION, REQUESTER, NAMED = "03044400001", "2010001", "0777777", "088888801"
PLANNED = [*PLAN, f'1000 {{"requester":"plan","invoke":3,"service":"addStation","device":"{STATION}"}}',
           '1000 {"requester":"plan","invoke":4,"service":"addAgent","agent":"7","name":"Ana"}',
           f'1000 {{"requester":"plan","invoke":5,"service":"addAgent","agent":"8","name":"{NAMED}"}}',
           f'1000 {{"requester":"{REQUESTER}","invoke":6,"service":"setAgentState","agent":"7","requested":"loggedOn","device":"201","group":"100"}}',
           '1000 {"requester":"plan","invoke":7,"service":"setAgentState","agent":"7","requested":"ready"}']
TEXT = {"calls": (1, 2), "connections": (1,), "events": (3, 7)}


class Lines:
    """What callers and the agent ask for, and how each request is answered is the desk's."""

    def __init__(self):
        self.invoke, self.call = 0, 0

    def ask(self, moment, service, **members):
        self.invoke += 1
        return f"{moment} " + json.dumps({"requester": "pbx", "invoke": self.invoke, "service": service, **members})

    def visit(self, moment, caller):
        """The caller comes, is answered, held, retrieved, and hangs up; and asks in each service for what is refused."""
        self.call += 1
        yield self.ask(moment, "arriveCall", caller=caller, called="100")
        yield self.ask(moment + 5, "answerCall", call=self.call, device="201")
        yield self.ask(moment + 6, "deflectCall", call=self.call, device="201", to=caller)
        yield self.ask(moment + 7, "arriveCall", caller="0309", called=caller)
        yield self.ask(moment + 7, "setAgentState", agent="7", requested="loggedOn", device=caller, group=caller)
        yield self.ask(moment + 7, "setAgentState", agent="7", requested="loggedOn", device="201", groups=["100", caller])
        yield self.ask(moment + 8, "monitorStart", device=caller)
        yield self.ask(moment + 8, "holdCall", call=self.call, device=caller)
        yield self.ask(moment + 9, "singleStepTransfer", call=self.call, device="201", to=caller)
        yield self.ask(moment + 20, "clearConnection", call=self.call, device=caller)
        # so many that two days are more than the thousand requests that stay in any case
        for minute in range(1, 85):
            yield self.ask(moment + 60 * minute, "tick")

    def days(self, first, last, callers):
        for number in range(first, last):
            yield from self.visit(DAY + 4 * HOUR * number, callers[number % len(callers)])


def forms(caller):
    """The bytes that a number leaves: its digits, and its integer in 6 or 8 bytes."""
    number = int(f"1{caller}")
    width = 6 if number < 1 << 47 else 8
    return [caller.encode(), *([number.to_bytes(width, "big")] if number >= 1 << 31 else [])]


def stands(path, caller):
    return any(form in path.read_bytes() for form in forms(caller))


def integers(path, caller):
    """How often the integer stands in the rows, in whichever column of a device."""
    number, found = int(f"1{caller}"), held(path)
    return sum(row[column] == number for table, columns in TEXT.items() for row in found[table] for column in columns)


def mapped(found, caller, alias):
    """The rows with the alias in the number's place."""
    old, new = int(f"1{caller}"), int(f"1{alias}")
    made = {}
    for table, rows in found.items():
        columns = TEXT.get(table, ())
        made[table] = [tuple(new if column in columns and value == old else value for column, value in enumerate(row)) for row in rows]
    made["kept"] = [(*row[:4], row[4].replace(f'"{caller}"', f'"{alias}"'), *row[5:]) for row in made["kept"]]
    return made


class Forgets:
    def __init__(self, ground, folder):
        self.ground, self.folder = ground, folder
        self.first = Office(ground, folder / "first")
        self.first.folder.mkdir()
        lines = Lines()
        ground.feed(self.first.file, PLANNED)
        for first in range(0, 60, 20):
            self.feed(self.first, lines.days(first, first + 20, [*CALLERS, STAYS]))
            self.first.good("a copy")
            ground.expect("pruned", self.first.prune()[0], 0)
            # the last two days are of those who stay, so that the next prune takes the others out
        self.feed(self.first, lines.days(60, 80, [STAYS]))
        self.first.prune()
        ground.kill_behind(self.first.file, list(lines.days(80, 82, [STAYS])))
        self.first.good("the last copy")

    def feed(self, office, lines):
        answers = Counter(answer[:3] for answer in self.ground.feed(office.file, lines))
        self.ground.expect(f"granted and refused: {dict(answers)}", answers["200"] > 10 and answers["409"] > 10 and set(answers) == {"200", "409"})

    def office(self, name):
        """Anew, in a folder of its own."""
        office = Office(self.ground, self.folder / name)
        shutil.rmtree(office.folder, ignore_errors=True)
        subprocess.run(["cp", "-a", self.first.folder, office.folder], check=True)
        return office

    def forget(self, office, *words, named=None, wrapped=()):
        archives = [word for archive in (office.archives() if named is None else named) for word in ("--archive", archive)]
        return self.ground.ran(PYTHON, self.ground.scripts / "acd-forget", "--file", office.file, "--folder", office.copies, "--desk", self.ground.program,
                               *words, *archives, wrapped=wrapped)

    def calls(self, office):
        words = [word for archive in office.archives() for word in ("--archive", archive)]
        return self.ground.ran(PYTHON, self.ground.scripts / "acd-calls", "--file", office.file, *words, "--legs")[1]

    def whole(self, office):
        """What the program's audit says of all as one file."""
        with self.ground.scratch() as scratch:
            file = copied(office.file, scratch)
            self.ground.shown(file)
            return self.ground.audit(joined(office.archives(), file, scratch / "joined.db"))

    # one after the other

    def forgotten(self):
        office = self.office("forgotten")
        before = {path: path.read_bytes() for path in office.archives()}
        rows, calls, sound = {path: held(path) for path in before}, self.calls(office), self.whole(office)
        self.ground.expect("together they are sound", sound[1].splitlines()[:1], ["sound"])
        for caller in CALLERS:
            rows, calls = self.one(office, caller, rows, calls, sound)
        copies = [path for path in self.first.copies.glob("*Z/desk.db*") if not path.name.endswith(".archive")]
        same = all((office.copies / path.relative_to(self.first.copies)).read_bytes() == path.read_bytes() for path in copies)
        self.ground.expect("the copies of desks that have it are as they were", (same, len(copies) > 4), (True, True))
        self.confirmed(office, before)
        office.good("a copy behind it")

    def one(self, office, caller, rows, calls, sound):
        ground, archives = self.ground, office.archives()
        desk = {path: path.read_bytes() for path in office.folder.glob("desk.db*") if path.name in ("desk.db", "desk.db-wal")}
        ground.expect("it stands in archives, as text and as integer",
                      (all(stands(path, caller) for path in archives[:3]), all(integers(path, caller) for path in archives[:3])), (True, True))
        status, printed, faults = self.forget(office, "--caller", caller)
        ground.expect(f"forgotten: {faults}", (status, faults, f"'{', '.join(['sound'] * (1 + len(archives)))}' of the new archives" in printed), (0, "", True))
        copies = office.archives(office.copies / "archives")
        ground.expect("in live and in free pages", [path.name for path in archives + copies if stands(path, caller)], [])
        ground.expect("nor as an integer of rows", [path.name for path in archives + copies if integers(path, caller)], [])
        ground.expect("free pages", {sqlite3.connect(f"file:{path}?immutable=1", uri=True).execute("PRAGMA freelist_count").fetchone() for path in archives},
                      {(0,)})
        came = f'"caller":"{caller}"'
        pairs = [(one[4], other[4]) for path in archives for one, other in zip(rows[path]["kept"], held(path)["kept"]) if came in one[4]]
        aliases = {other.split('"caller":"')[1].split('"')[0] for _, other in pairs}
        ground.expect("one alias", (len(aliases), {len(alias) for alias in aliases}), (1, {15}))
        alias = aliases.pop() if aliases else caller
        ground.expect("which stood nowhere", any(stands(path, alias) for path in self.first.folder.rglob("desk.db*") if path.is_file()), False)
        ground.expect("the rows", [path.name for path in archives if held(path) != mapped(rows[path], caller, alias)], [])
        ground.expect("the records of calls", self.calls(office), calls.replace(caller, alias))
        ground.expect("the audit of all", self.whole(office), sound)
        ground.expect("the desk's file", {path: path.read_bytes() for path in desk} == desk)
        self.digests(office, archives)
        listed = {line.rpartition(" ")[2] for line in printed.splitlines() if " is still in " in line and " is still in free pages of " not in line}
        ground.expect("free pages of the file that have it are told", f"{caller} is still in free pages of {office.file}: compact it" in printed,
                      any(f'"{caller}"'.encode() in data for data in desk.values()))
        ground.expect("the copies that have it yet are listed", listed,
                      {str(path.parent) for path in office.copies.glob("*Z/desk.db") if f'"{caller}"'.encode() in path.read_bytes()})
        return {path: held(path) for path in archives}, self.calls(office)

    def digests(self, office, archives):
        """In the notes, beside the copied archives, and of these."""
        for archive in archives:
            copy = office.copies / "archives" / archive.name
            digest = sha256(archive)
            self.ground.expect("a copied archive", (sha256(copy), text_of(f"{copy}.sha256")), (digest, f"{digest}  {archive.name}\n"))
        for note in office.folder.rglob("desk.db*.archive"):
            has = note_of(Path(str(note).removesuffix(".archive")))
            if (office.folder / has["archive"]).exists():
                self.ground.expect(f"a note: {note}", has["digest"], sha256(office.folder / has["archive"]))

    def confirmed(self, office, before):
        away = sorted(office.folder.glob("put-away-*"))
        self.ground.expect("the archives of before, to the byte",
                           {path.name: path.read_bytes() for path in away[0].glob("desk.db-*")} == {path.name: data for path, data in before.items()})
        status, printed, faults = self.ground.ran(PYTHON, self.ground.scripts / "acd-forget", "--confirm", "--file", office.file)
        self.ground.expect(f"confirmed: {faults}", (status, printed.count("gone: "), list(office.folder.glob("put-away-*"))), (0, len(away), []))

    # what is refused

    def refused(self):
        office = self.office("refused")
        self.says(office, STAYS, "is still in", "removes it")
        self.says(office, STATION, "isn't an outside caller's number")
        self.says(office, REQUESTER, "is in a requester of kept")
        self.says(office, NAMED, "is in a name of agents")
        self.says(office, CALLERS[0], "continues", named=office.archives()[1:])
        self.says(office, CALLERS[0], "continues", named=[])
        for words in (("--caller", "05551"), ("--caller", "0305550123456789"), ("--caller", "x"), ("--confirm", "--caller", CALLERS[0]), ()):
            self.ground.expect(f"{words}", self.forget(office, *words)[0], 2)
        status, printed, faults = self.forget(office, "--caller", "99999999")
        self.ground.expect(f"who never called: {faults}", (status, printed), (0, "99999999 is in no archive\n"))
        altered = office.archives()[1]
        digest = sha256(altered)
        changed(altered, "UPDATE events SET moment = moment + 1 WHERE number = (SELECT max(number) FROM events)")
        self.says(office, CALLERS[0], "isn't the archive that was noted")
        for note in office.folder.glob("*.archive"):
            note.write_text(note.read_text().replace(digest, sha256(altered)))
        # of one that stands nowhere nothing else looks at them
        for caller in (CALLERS[0], "99999999"):
            self.says(office, caller, "differ at event")

    def says(self, office, caller, *said, named=None):
        before = listing(office.folder)
        status, printed, faults = self.forget(office, "--caller", caller, named=named)
        self.ground.expect(f"{caller}: {printed}{faults}", (status, printed, faults.count("\n"), all(text in faults for text in said),
                                                            listing(office.folder) == before), (1, "", 1, True, True))

    def audited(self):
        """By a program that looks behind an archive, a stand-in: what it says of the new ones has to be what it said before."""
        program = self.folder / "acd"
        for what, says, wanted in (("sound", "echo sound", 0),
                                   ("the number has to be there", f'grep -q {CALLERS[0]} "$5" && echo sound || echo differs at request 3', 1)):
            program.write_text(f'#!/bin/sh\ncase "$*" in audit*--archive*) {says}; exit;; esac\nexec {self.ground.program} "$@"\n')
            program.chmod(0o755)
            office = self.office("audited")
            before = listing(office.folder)
            status, printed, faults = self.forget(office, "--caller", CALLERS[0], "--desk", program)
            self.ground.expect(f"{what}: {faults}", (status, "'sound, sound, sound, sound, sound' of the new archives" in printed,
                                                     listing(office.folder) == before), (wanted, not wanted, bool(wanted)))

    def deleted(self):
        """Where the oldest archive was deleted, with its copy, the others are all that there are."""
        office = self.office("deleted")
        oldest = office.archives()[0].name
        for path in (*office.folder.glob(f"{oldest}*"), *(office.copies / "archives").glob(f"{oldest}*")):
            path.unlink()
        status, printed, faults = self.forget(office, "--caller", CALLERS[1])
        self.ground.expect(f"the oldest one was deleted: {faults}",
                           (status, len(office.archives()), [path.name for path in office.archives() if stands(path, CALLERS[1])]), (0, 3, []))
        self.digests(office, office.archives())

    def served(self):
        """Beside a desk that has the file open, whose last requests are in its log alone."""
        office = self.office("served")
        desk = subprocess.Popen([self.ground.program, "lines", "--file", office.file], stdin=subprocess.PIPE, stdout=subprocess.PIPE, text=True)
        try:
            for number, caller in enumerate((STAYS, "0305559999"), 1):
                desk.stdin.write(f'{DAY * 99} {{"requester":"late","invoke":{number},"service":"arriveCall","caller":"{caller}","called":"100"}}\n')
                desk.stdin.flush()
                desk.stdout.readline()
            self.says(office, "0305559999", "is still in", "removes it")
            status, printed, faults = self.forget(office, "--caller", CALLERS[0])
            self.ground.expect(f"beside a desk: {faults}", (status, any(stands(path, CALLERS[0]) for path in office.archives())), (0, False))
        finally:
            desk.stdin.close()
            desk.wait()

    def killed(self):
        """Killed before each call that puts something in its place: each archive is of before or behind, and the same again ends it."""
        trace, names, states = self.folder / "trace", ("link", "rename", "rmdir", "fsync"), set()
        office = self.office("killed")
        self.forget(office, "--caller", CALLERS[0], wrapped=["strace", "-qq", "-o", trace, "-e", "trace=" + ",".join(names)])
        text = trace.read_text()
        begin = text[:text.index("put-away-")].rindex("\n")
        counts = {name: (len(re.findall(rf"^{name}\(", text[:begin], re.MULTILINE)), len(re.findall(rf"^{name}\(", text, re.MULTILINE))) for name in names}
        places = [(name, number) for name in ("link", "rename", "rmdir") for number in range(counts[name][0], counts[name][1] + 1, 1 if name == "link" else 2)]
        for name, number in places:
            if not number:
                continue
            office = self.office("killed")
            before = {path: path.read_bytes() for path in office.archives()}
            what = f"killed at {name} {number}"
            status, printed, faults = self.forget(office, "--caller", CALLERS[0],
                                                  wrapped=["strace", "-qq", "-o", trace, "-e", "trace=" + ",".join(names), "-e",
                                                           f"inject={name}:signal=KILL:when={number}"])
            self.ground.expect(f"{what}: it is", status, -signal.SIGKILL)
            states.add(sum(path.read_bytes() != data for path, data in before.items()))
            self.ground.expect(f"{what}: of before or behind",
                               [path.name for path, data in before.items() if path.read_bytes() != data and stands(path, CALLERS[0])], [])
            status, printed, faults = self.forget(office, "--caller", CALLERS[0])
            self.ground.expect(f"{what}, the same again: {faults}", (status, [path.name for path in office.archives() if stands(path, CALLERS[0])]), (0, []))
            self.digests(office, office.archives())
            self.confirmed(office, before)
            self.ground.expect(f"{what}: what is left", [path.name for path in office.folder.glob(".*")], [])
        self.ground.expect("some have none of them behind, some have some, and some have all", len(states) > 2)

    def all(self, case=None):
        for each in [case] if case else ("forgotten", "refused", "audited", "deleted", "served", "killed"):
            getattr(self, each)()


class OfForgets(Ground):
    def try_forgets(self):
        with self.scratch() as folder:
            Forgets(self, folder).all(self.case)
