"""acd-export over a file and its archives, and archives.py: what they read is what one file of all has; holes and a wrong order are told, and altered rows by archives.py. And who
follows events over a file that was pruned."""
import asyncio
import importlib.util
import json
import re
import sys
import urllib.request
from unittest import mock

from trial import Desk
from trial.files import copied, held

from cases import changed
from ground import TOP, Ground, firsts, joined
from kills import PLAN, calls

sys.path += [str(TOP / "service"), str(TOP / "client")]
import acd_client  # noqa: E402
from acd_service.gate import boards, days, following  # noqa: E402
from acd_service.gate.exchanges import Answer  # noqa: E402


def module(ground):
    """The reader of archives, and what it stands on, as they lie among the scripts."""
    with mock.patch.dict(sys.modules):
        for name in ("acd_service.book", "acd_service.archives"):
            spec = importlib.util.spec_from_file_location(name, ground.scripts.parent / f"{name.replace('.', '/')}.py")
            sys.modules[name] = found = importlib.util.module_from_spec(spec)
            spec.loader.exec_module(found)
    return found


# requests before each prune, and one of how many is a call
MANY, CALL = 1100, 25


def requests(first, last):
    """A request each minute: calls, and ticks between them."""
    for number in range(first, last):
        call, = calls(number, number + 1)
        yield call if number % CALL == 0 else f'{1000 + 60 * number} {{"requester":"clock","invoke":{number},"service":"tick"}}'


class Exports:
    def __init__(self, ground, folder):
        self.ground, self.folder, self.archives = ground, folder, []
        file = folder / "desk.db"
        ground.feed(file, PLAN)
        for number in range(3):
            ground.feed(file, list(requests(1 + MANY * number, 1 + MANY * (number + 1))))
            archive = folder / f"archive-{number}.db"
            status, _, faults = ground.prune_by(archive, file, "--keep", 1000)
            ground.expect(f"pruned: {faults}", status, 0)
            self.archives.append(archive)
        ground.feed(file, list(requests(1 + 3 * MANY, 20 + 3 * MANY)))
        # the last ones are in its log alone
        ground.kill_behind(file, list(requests(20 + 3 * MANY, 30 + 3 * MANY)))
        self.file = file
        with ground.scratch() as scratch:
            closed = copied(file, scratch)
            ground.shown(closed)
            self.whole = joined(self.archives, closed, folder / "joined.db")
        ground.expect("together they are sound", ground.audit(self.whole)[1], f"sound\nexecuted {31 + 3 * MANY}\n")
        self.text = ground.ran("acd", "export", "--file", self.whole)[1]

    def words(self, archives, file):
        return ["--file", file, *(word for archive in archives for word in ("--archive", archive))]

    # acd-export

    def exports(self):
        ground = self.ground
        for archives in (self.archives, self.archives[:1] + self.archives, self.archives + self.archives[:1]):
            ground.expect("each event once, also where an archive is named twice", ground.export(*self.words(archives, self.file)), (0, self.text, ""))
        ground.expect("a file that wasn't pruned", ground.export("--file", self.whole), (0, self.text, ""))
        lines = self.text.splitlines(keepends=True)
        for archives in (self.archives[1:], self.archives[:1] + self.archives[2:], self.archives[:2], []):
            has = {1 + number for each in (*archives, self.file) for number in range(firsts(each)[1] - 1, held(each)["meta"][0][12])}
            missing = [number for number in range(1, max(has)) if number not in has]
            status, out, faults = ground.export(*self.words(archives, self.file))
            spans = [(int(first), int(last or first)) for first, last in re.findall(r"^acd-export: events? (\d+)(?: to (\d+))? (?:is|are) missing$", faults, re.MULTILINE)]
            ground.expect("what is missing is told", [number for first, last in spans for number in range(first, last + 1)], missing)
            ground.expect("and all else is there", (status, out), (3 if missing else 0, "".join(lines[:1] + [line for line in lines[1:] if int(line.split(",")[0]) in has])))
        first = firsts(self.archives[2])[1]
        ground.expect("where the newest archive is named first, what the others have is missing", ground.export(*self.words(self.archives[::-1], self.file)),
                      (3, "".join(lines[:1] + lines[first:]), f"acd-export: events 1 to {first - 1} are missing\n"))
        self.differing()
        ground.expect("a file that isn't there", ground.export("--file", self.folder / "none.db")[::2], (1, f"acd-export: acd: cannot open {self.folder / 'none.db'}\n"))

    def differing(self):
        """An event of which two files have different ones."""
        with self.ground.scratch() as scratch:
            altered, number = copied(self.archives[1], scratch), firsts(self.archives[1])[1] + 3
            changed(altered, f"UPDATE events SET call = call + 1 WHERE number = {number}")
            self.ground.expect("of two of one number the one of the archive that was named first", self.ground.export(*self.words([self.archives[0], altered, self.archives[2]], self.file)), (0, self.text, ""))

    # archives.py

    def reads(self, archives, file):
        """All that a reader gets, or why it gets nothing."""
        archive = module(self.ground)
        with self.ground.scratch() as scratch:
            try:
                rows = archive.opened(file, archives, scratch)
            except archive.Fault as fault:
                return str(fault)
            found = (list(rows.execute("SELECT * FROM events ORDER BY number")), list(rows.execute("SELECT * FROM kept WHERE status = ? ORDER BY stamp", (200,))),
                     rows.execute("SELECT * FROM meta").fetchone())
            rows.close()
            return found

    def archives_are_read(self):
        ground, wanted = self.ground, held(self.whole)
        before = held(self.file)
        kept = [row for row in wanted["kept"] if row[5] == 200]
        ground.expect("all rows, each once", self.reads(self.archives, self.file) == (wanted["events"], kept, wanted["meta"][0]))
        ground.expect("of one file", self.reads([], self.whole) == (wanted["events"], kept, wanted["meta"][0]))
        alone = self.reads([], self.file)
        ground.expect("of one that was pruned", alone[0], before["events"])
        ground.expect("the last archive and itself", len(self.reads(self.archives[2:], self.archives[2])[1]), len(held(self.archives[2])["kept"]))
        with ground.scratch() as scratch:
            for what, archives, said in self.bad_chains(scratch):
                ground.expect(what, self.reads(archives, self.file), said)

    def bad_chains(self, scratch):
        first, second, third = self.archives
        number, stamp = firsts(second)[1] + 3, firsts(third)[0] + 2
        yield "in the wrong order", [second, first, third], f"{second} has requests up to {2 + 2 * MANY}, and {first} up to {2 + MANY}: archives are named from the oldest on"
        yield "one is left out", [first, third], f"requests {3 + MANY} to {firsts(third)[0] - 1} are neither in {first} nor in {third}"
        yield "none", [scratch / "none.db"], f"there is no file {scratch / 'none.db'}"
        (scratch / "text.db").write_text("no database")
        yield "no desk's", [scratch / "text.db"], f"{scratch / 'text.db'} is no desk's file"
        for what, statement, place, said in (
                ("an event is another one", f"UPDATE events SET call = 9 WHERE number = {number}", 1, f"{first} and {{}} differ at event {number}"),
                ("a reply is another one", f"UPDATE kept SET body = '{{}}' WHERE stamp = {stamp}", 2, f"{second} and {{}} differ at request {stamp}"),
                ("a request is missing", "DELETE FROM kept WHERE stamp = 1500", 1, f"{{}} hasn't all of its requests from {firsts(second)[0]} to {2 + 2 * MANY}"),
                ("an event is missing", "DELETE FROM events WHERE number = (SELECT max(number) FROM events)", 0, f"{{}} hasn't all of its events from 1 to {MANY // CALL}"),
                ("of another version", "UPDATE meta SET version = 3", 0, "{}: wrong version 3")):
            folder = scratch / what.replace(" ", "-")
            folder.mkdir()
            altered = copied(self.archives[place], folder)
            changed(altered, statement)
            yield what, [*self.archives[:place], altered, *self.archives[place + 1:]], said.format(altered)

    # followers

    def follow(self):
        """One whose last event is in the file goes on without a word; one whose last event was pruned sees another history, or, where it asks by the number alone, that it missed some."""
        moments = [int(line.split(",")[1]) for line in self.text.splitlines()[1:]]
        first = firsts(self.file)[1]
        with (self.ground.scratch() as scratch, Desk(self.ground.program, copied(self.file, scratch)) as desk,
              acd_client.Client(f"http://127.0.0.1:{desk.port}") as client):
            known, = client.page(first - 1)["events"][:1]
            self.ground.expect("the first event that is there", (known["number"], known["moment"]), (first, moments[first - 1]))
            self.ground.expect("behind it", [event["number"] for event in client.page(first, known)["events"]], list(range(first + 1, len(moments) + 1))[:99])
            for what, after, seen, fault in (("its last event was pruned", first - 1, {**known, "number": first - 1}, acd_client.AnotherHistory),
                                             ("by the number alone", first - 2, None, acd_client.Missed), ("from the beginning", 0, None, acd_client.Missed)):
                try:
                    self.ground.expect(what, client.page(after, seen), fault)
                except acd_client.AnotherHistory as found:
                    self.ground.expect(what, type(found), fault)

    def pages(self):
        """The board and the gate over a file whose events are all pruned: what comes is handed on, once. And where a day begins that the file hasn't."""
        with self.ground.scratch() as scratch:
            file = scratch / "desk.db"
            ticks = (f'{90000 + 60 * number} {{"requester":"clock","invoke":{number},"service":"tick"}}' for number in range(1, 1101))
            self.ground.feed(file, [*PLAN, *calls(1, 400), *ticks])
            self.ground.prune_by(scratch / "archive.db", file, "--keep", 1000)
            with Desk(self.ground.program, file) as desk:
                address = f"http://127.0.0.1:{desk.port}"
                asyncio.run(self.followed(desk, address))

    async def followed(self, desk, address):
        """Events 1 to 399 were pruned, so that no day is whole that began before event 400."""
        gate = following.Following(lambda _, path: asked(address, path))
        sight = boards.Sight(80000, (), frozenset(), frozenset({"day", "events"}), ((2000, 80000), (90000, 2 ** 40)))
        view = gate.streams.see(sight, await gate.catch_up())
        for number in range(500, 510):
            desk.post({"requester": "pbx", "invoke": number, "service": "arriveCall", "caller": "0301", "called": "100"})
        await gate.catch_up()
        await asyncio.gather(*gate.streams.boards.tasks)
        gate.streams.boards.turn(gate.number + 1)
        told = {name: json.loads(table.whole()) for name, table in view.tables.items()}
        self.ground.expect("what the gate knows", (gate.state.last, len(gate.state.groups["100"].waiting)), (409, 409))
        self.ground.expect("what a board is told", (told["groups"]["100"]["waiting"], told["sums"]["100"][0], list(map(int, told["events"])), told["day"]["share"]), (409, 10, list(range(400, 410)), 1))
        self.ground.expect("of days that began before there is nothing", told["past"], {})
        found = [await days.beginning(lambda after: gate.events(f"/events?after={after}"), 409, moment) for moment in (2000, 80000, 90000, 90001, 2 ** 40)]
        self.ground.expect("where a day begins, and whether it is whole", found, [(399, False)] * 4 + [(409, True)])


async def asked(address, path):
    with urllib.request.urlopen(f"{address}{path}") as reply:
        return Answer(reply.status, "", reply.read())


class OfExports(Ground):
    def try_exports(self):
        with self.scratch() as folder:
            exports = Exports(self, folder)
            # the program lays a log in, so what is to read one comes first
            exports.archives_are_read()
            exports.follow()
            exports.pages()
            exports.exports()
