"""What is tried of acd-calls: its tables against days that were reckoned apart, and against the desk's own report;
what is chosen of them, how they are written, and the files of a day each."""
import array
import contextlib
import csv
import datetime
import importlib.util
import io
import itertools
import json
import os
import shutil
import signal
import sqlite3
import sys
import tempfile
import threading
import time
import types
import zoneinfo
from pathlib import Path
from unittest import mock

from trial import TOP, Desk, Plan, Requests, ran

import moved
import office
import story
from ground import Records
from reckoning import Reckoning, ended_by_rules, stretched

TABLES = {"calls": ([], story.CALLS, "call_lines"), "legs": (["--legs"], story.LEGS, "leg_lines"), "agents": (["--agents"], story.AGENTS, "day_lines"),
          "groups": (["--groups"], story.GROUPS, "quarter_lines")}
# begin, factor and zone of the office's whole day: as it is; and from 23:40 of the evening before the clocks go back
WHOLE = [(0, 1, "UTC"), (1792878000, 30, "Europe/Berlin")]
# so of ten smaller ones, each another
ZONES = ["UTC", "Europe/Berlin", "America/New_York", "Asia/Kathmandu", "Australia/Lord_Howe", "Asia/Tokyo", "America/Sao_Paulo", "Pacific/Chatham", "Europe/London", "Asia/Kolkata"]
SMALL = office.MORNING._replace(requests=600, repeats=20, live_calls=14, mixed=True)
OFFICE = {"zone": "America/New_York", "limits": {"limit": "10", "limit.100": 60}, "names": {"groups": {"100": "Störung; \"eins\""}, "agents": {"7": "=Ana", "8": 8}}}


class Random(office.Office):
    def check(self):
        """Of so short a day nothing has to come up."""


# the files of the days are made once, also where faults are planted
HOME = tempfile.TemporaryDirectory()


class Calls(Records):
    days, story = [], Path(HOME.name) / "story.db"

    @classmethod
    def setUpClass(cls):
        super().setUpClass()
        cls.nothing = cls.folder / "nothing.json"
        cls.nothing.write_text("{}")
        if not cls.days:
            cls.make()

    def script(self, *words, zone="UTC"):
        """What it prints; of this machine's office it knows nothing."""
        return self.ran([self.scripts["acd-calls"], *words, *(() if "--office" in words else ("--office", self.nothing))], zone=zone)

    @classmethod
    def make(cls):
        """The files of the story, and of each day with what has to come of it."""
        cls.feed(cls.story, story.LINES)
        whole = office.Office(office.DAY).day().given
        for begin, factor, zone in WHOLE:
            cls.make_day(whole, begin, factor, zone)
        for seed, zone in enumerate(ZONES):
            cls.make_day(Random(SMALL._replace(seed=seed)).day().given, 1792785000 + 86400 * 37 * seed + 5000 * seed, 30 + 25 * seed, zone)
        os.environ["TZ"] = "UTC"
        time.tzset()

    @classmethod
    def make_day(cls, given, begin, factor, zone):
        os.environ["TZ"] = zone
        time.tzset()
        file, lines = Path(HOME.name) / f"day{len(cls.days)}.db", list(stretched(ended_by_rules(given), begin, factor))
        reckoned = Reckoning(lines)
        cls.expect_lines(f"answers of {file.name}", cls.feed(file, "".join(f"{line}\n" for line in lines)), reckoned.answers)
        cls.days.append((file, zone, {name: list(getattr(reckoned, lines_of)()) for name, (_, _, lines_of) in TABLES.items()}, reckoned.switch.moment))

    def longest(self):
        """What has the most days."""
        return max(self.days, key=lambda day: len({line[:10] for line in day[2]["agents"]}))

    def rows(self, file, zone, *words):
        return list(csv.DictReader(io.StringIO(self.script("--file", file, *words, zone=zone)[1])))

    @staticmethod
    def moment(text):
        return int(datetime.datetime.strptime(f"{text} +0000", "%Y-%m-%d %H:%M:%S %z").timestamp())

    # the tables

    def try_moved(self):
        """Callers who are moved, and who are passed on to an agent."""
        file = self.folder / "moved.db"
        self.feed(file, moved.LINES)
        self.expect("their groups", self.script("--file", file, "--groups"), (0, moved.GROUPS, ""))
        self.expect("their waits", [int(row["waited"]) for row in self.rows(file, "UTC")], moved.WAITED)

    def try_story(self):
        for name, (words, wanted, _) in TABLES.items():
            self.expect(f"the story's {name}", self.script("--file", self.story, *words), (0, wanted, ""))

    # what is chosen, and how it is written

    def try_choice(self):
        """--since and --until leave lines out, and change none."""
        file, zone, tables, _ = self.longest()
        days = sorted({line[:10] for line in tables["agents"][1:]})
        for name, column in (("calls", "entered"), ("legs", None), ("agents", "day"), ("groups", "begin")):
            entered = {row["number"]: row["entered"] for row in csv.DictReader(tables["calls"])}
            rows = list(csv.DictReader(tables[name]))
            for words, since, until in (((), "", "~"), (("--since", days[1]), days[1], "~"), (("--until", days[1]), "", days[1]), (("--since", days[1], "--until", days[1]), days[1], days[1])):
                wanted = [row for row in rows if since <= (row[column] if column else entered[row["call"]])[:10] <= until]
                self.expect(f"{name} {words}", self.rows(file, zone, *TABLES[name][0], *words) == wanted, True)
        for words in (("--since", "2026-13-01"), ("--until", "yesterday"), ("--since", "2026-1-1"), ("--legs", "--agents"), ("--days", "x", "--since", "2026-01-01"), ("--days", "x", "--live"),
                      ("--copies", "x")):
            self.expect(f"refused: {words}", self.script("--file", file, *words)[:2], (2, ""))
        for words in (("--copies", "x", "--live"), ()):
            self.expect(f"refused: {words}", self.script(*words)[:2], (2, ""))

    def try_names(self):
        """Names beside numbers: the desk's, and over them the office's; the office's limits and zone count without them too."""
        file = self.folder / "board.json"
        file.write_text(json.dumps(OFFICE))
        words = ["--file", self.story, "--office", file]
        line = self.script(*words, "--names")[1].splitlines()[1]
        self.expect("a call's names", line, '1,0301,100,1970-01-01 23:58:40,100,1,7,201,5,25,10,20,by caller,,1970-01-01 23:58:45,1970-01-01 23:59:20,"Störung; ""eins""",=Ana,')
        self.expect("a leg's", self.script(*words, "--names", "--legs")[1].splitlines()[2].endswith(',by caller,,=Ana,"Störung; ""eins"""'), True)
        self.expect("an agent's", self.script(*words, "--names", "--agents")[1].splitlines()[2].split(",")[:3], ["1970-01-01", "8", "8"])
        self.expect("the desk's own", self.script("--file", self.story, "--names", "--legs")[1].splitlines()[2].endswith(",by caller,,Ana,Billing"), True)
        quarters = self.script(*words, "--groups")[1].splitlines()
        self.expect("the group's limit", [line.split(",")[6:10] for line in quarters[1:]], [["60", "1", "0", "100"], ["60", "1", "0", "100"]])
        told = ran(self.scripts["acd-calls"], *words, "--agents", env={name: value for name, value in os.environ.items() if name != "TZ"}).output
        self.expect("the office's zone", told.splitlines()[1].split(",")[:4], ["1970-01-01", "7", "Ana", "270"])
        for text, said in (("[]", "is not a JSON object; ignored"), ("{", "is not a JSON object; ignored"), ('{"zone":"Mars/Crater"}', "there is no zone Mars/Crater"), ('{"zone":"../../etc"}', "there is no zone")):
            status, has, fault = self.script("--file", self.story, "--office", self.written(text))
            self.expect(f"an office that says {text}", (status, has, said in fault, fault.count("\n")), (0, story.CALLS, True, 1))
        self.expect("an office that isn't there", self.script("--file", self.story, "--office", "/none")[0], 1)

    def try_limits(self):
        """Who waited just the limit was answered in time, and gave up in time: calls of the story were answered behind 5 and 15 seconds, and ended behind 60, 45 and 10."""
        for limit, first, second in ((4, [0, 0, 0], [0, 3, 0]), (5, [1, 0, 100], [0, 3, 0]), (10, [1, 0, 100], [0, 2, 0]), (14, [1, 0, 100], [0, 2, 0]), (15, [1, 0, 100], [1, 2, 33]),
                                     (45, [1, 0, 100], [1, 1, 50]), (60, [1, 0, 100], [1, 0, 100])):
            file = self.written(json.dumps({"limits": {"limit": limit}}))
            lines = self.script("--file", self.story, "--office", file, "--groups")[1].splitlines()[1:]
            self.expect(f"the limit {limit}", [list(map(int, line.split(",")[7:10])) for line in lines], [first, second])
        reached = self.module(self.scripts["acd-calls"].parents[1] / "acd_service/figures.py").reached
        # the fourth as the page's Math.round has it, of the same number
        for in_time, answered, late, level in ((2, 3, 0, 67), (1, 8, 0, 13), (1, 3, 0, 33), (57, 150, 50, 28), (0, 0, 4, 0), (0, 0, 0, None)):
            waits = array.array("I", [20] * in_time + [21] * (answered - in_time)), array.array("I", [20, *[21] * late])
            self.expect(f"{in_time} of {answered} and {late}", reached(*waits, 20), (in_time, late, level))

    @staticmethod
    def module(file):
        """A module of the scripts, loaded anew with what it stands on, which nobody else gets."""
        top = next(folder.parent for folder in file.parents if folder.name == "acd_service")
        with mock.patch.dict(sys.modules), mock.patch.object(sys, "path", [str(top), *sys.path]):
            for each in [each for each in sys.modules if each.partition(".")[0] == "acd_service"]:
                del sys.modules[each]
            spec = importlib.util.spec_from_file_location(file.stem, file)
            module = sys.modules[file.stem] = importlib.util.module_from_spec(spec)
            spec.loader.exec_module(module)
            return module

    def written(self, text):
        file = self.folder / "office.json"
        file.write_text(text)
        return file

    def try_excel(self):
        """' stands before what a spreadsheet would change, and before nothing else; taken off, all is as without."""
        request, file = Requests(), self.folder / "excel.db"
        plan = Plan([("0100", "=1+1"), ("100", "'quoted"), ("7", "1/2")], ["201"], [("007", "-Ana"), ("8", "Ben 8")])
        called = (("037676944", "0100"), ("491701234567", "100"), ("49170123456", "7"), ("0", "201"))
        self.feed(file, [*request.plan(plan), request.log_on("007", "201", "7", "0100"), *(request.arrive(*each) for each in called)])
        safe = {name: self.script("--file", file, "--names", "--excel", *words)[1] for name, (words, _, _) in TABLES.items()}
        self.expect("callers, called and names", [[row[column] for column in ("caller", "called", "groups", "group_names")] for row in csv.DictReader(io.StringIO(safe["calls"][1:]))],
                    [["'037676944", "'0100", "'0100", "'=1+1"], ["'491701234567", "100", "100", "''quoted"], ["49170123456", "7", "7", "'1/2"], ["0", "201", "", ""]])
        self.expect("an agent", list(csv.DictReader(io.StringIO(safe["agents"][1:])))[0] | {"first_on": "", "last_on": ""},
                    dict(zip(safe["agents"][1:].splitlines()[0].split(","), ["1970-01-01", "'007", "'-Ana", *["0"] * 11, "", "", "7 0100", "1/2; =1+1"])) | {"group_names": "'1/2; =1+1"})
        for name, (words, _, _) in TABLES.items():
            self.expect(f"the mark before the {name}", safe[name][:1], "\ufeff")
            plain = [[field.removeprefix("'") for field in row] for row in csv.reader(io.StringIO(safe[name][1:]))]
            raw = [[field.removeprefix("'") for field in row] for row in csv.reader(io.StringIO(self.script("--file", file, "--names", *words)[1]))]
            self.expect(f"the {name} without '", plain, [[field if field != "quoted" else "'quoted" for field in row] for row in raw] if name != "agents" else raw)

    # files of a day each

    @staticmethod
    def named(copies, moment):
        """The folder of a copy of that moment."""
        return copies / time.strftime("%Y-%m-%dT%H%M%SZ", time.gmtime(moment))

    def copy_of(self, file, moment):
        """A folder of copies, with this one of that moment."""
        copies = self.folder / "copies"
        shutil.rmtree(copies, ignore_errors=True)
        made = self.named(copies, moment)
        made.mkdir(parents=True)
        shutil.copy(file, made / "desk.db")
        for other in ("unsound", "fewer-2099-01-01T000000Z", "2099-01-01T000000Z.early", ".new.x"):
            (copies / other).mkdir()
        (copies / "executed").write_text("executed 1\n")
        (copies / "1970-01-01T000000Z").mkdir()
        (copies / "1970-01-01T000000Z/desk.db").write_text("no desk\n")
        return copies

    def write(self, folder, copies, zone):
        folder.mkdir(exist_ok=True)
        return self.script("--copies", copies, "--days", folder, zone=zone)

    def files(self, folder):
        """Those of days."""
        return {str(file.relative_to(folder)): file.read_bytes().decode() for file in sorted(folder.rglob("*")) if file.is_file() and file.parent.name != "reports"}

    def try_files(self):
        """The days that are over, and no other; each as the tables have it; for the owner and the group alone."""
        file, zone, _, moment = self.longest()
        folder, copies = self.folder / "written", self.copy_of(file, moment)
        shutil.rmtree(folder, ignore_errors=True)
        status, said, fault = self.write(folder, copies, zone)
        over = datetime.datetime.fromtimestamp(moment, zoneinfo.ZoneInfo(zone)).date()
        today, wanted = str(over), {}
        for kind, name, column in (("records", "calls", 3), ("agents", "agents", 0), ("groups", "groups", 0)):
            said_of = self.script("--file", file, "--names", "--excel", *TABLES[name][0], zone=zone)[1].splitlines(keepends=True)
            for line in said_of[1:]:
                date = next(csv.reader([line]))[column][:10]
                if date < today:
                    # each says by which formulas it is
                    wanted[f"{kind}/{date}.csv"] = wanted.get(f"{kind}/{date}.csv", said_of[0].replace("\n", ",formulas\n")) + line.replace("\n", ",2\n")
        # those in which nothing was have a head alone
        first = datetime.date.fromisoformat(min(Path(name).stem for name in wanted))
        for date in (first + datetime.timedelta(days=number) for number in range((over - first).days)):
            for kind, name in (("records", "calls"), ("agents", "agents"), ("groups", "groups")):
                head = self.script("--file", file, "--names", "--excel", *TABLES[name][0], "--since", "2099-01-01", zone=zone)[1]
                wanted.setdefault(f"{kind}/{date}.csv", head.replace("\n", ",formulas\n"))
        has = self.files(folder)
        self.expect("which days", (status, fault, sorted(has)), (0, "", sorted(wanted)))
        self.expect("more than one day", len({name for name in wanted if name.startswith("agents/")}) > 1, True)
        for name in wanted:
            self.expect_lines(f"{name}", has.get(name, "").splitlines(), wanted[name].splitlines())
        self.expect("who reads them", {oct(file.stat().st_mode & 0o777) for file in folder.rglob("*.csv")}, {"0o640"})
        self.expect("again", self.write(folder, copies, zone)[:2], (0, "0 files written\n"))
        self.again(folder, copies, zone, has, moment)

    def again(self, folder, copies, zone, has, moment):
        """A file of the last days is mended, and one of before isn't; what a run that was killed left is gone."""
        first = sorted(name for name in has if name.startswith("records/"))[0]
        (folder / first).write_text("number,formulas\n,2\n")
        (folder / "records/.2026-01-01.new").write_text("half")
        self.expect("a file of the last days", (self.write(folder, copies, zone)[1], self.files(folder) == has), ("1 files written\n", True))
        (folder / first).write_text("number,formulas\n,2\n")
        self.named(copies, moment).rename(self.named(copies, moment + 60 * 86400))
        self.write(folder, copies, zone)
        self.expect("a file of long ago", (folder / first).read_text(), "number,formulas\n,2\n")
        (folder / first).unlink()
        self.write(folder, copies, zone)
        self.expect("one that was removed long behind its day", (folder / first).exists(), False)
        shutil.rmtree(folder / "records")
        self.write(folder, copies, zone)
        self.expect("all where none is there", {name for name in has if name.startswith("records/")} <= set(self.files(folder)), True)

    def try_live_day(self):
        """A call that goes on over midnight is written anew once it is over; and what goes on is counted up to the copy."""
        lines = [line for line in story.LINES.splitlines() if int(line.split()[0]) <= 86350]
        file, folder = self.folder / "live.db", self.folder / "of-live"
        for old in self.folder.glob("live.db*"):
            old.unlink()
        shutil.rmtree(folder, ignore_errors=True)
        self.feed(file, "".join(f"{line}\n" for line in lines))
        self.write(folder, self.copy_of(file, 86400 + 3600), "UTC")
        has = self.files(folder)
        self.expect("live", [row.split(",")[12] for row in has["records/1970-01-01.csv"].splitlines()[1:]], ["live", "live"])
        self.expect("the day is counted to its end", has["agents/1970-01-01.csv"].splitlines()[1].split(",")[:6], ["1970-01-01", "7", "Ana", "90", "15", "75"])
        more = [line for line in story.LINES.splitlines() if 86350 < int(line.split()[0]) <= 86360]
        self.feed(file, "".join(f"{line}\n" for line in more))
        self.write(folder, self.copy_of(file, 86400 + 7200), "UTC")
        self.expect("over", [row.split(",")[12] for row in self.files(folder)["records/1970-01-01.csv"].splitlines()[1:]], ["by caller", "live"])

    def try_copies_folder(self):
        empty = self.folder / "empty"
        empty.mkdir(exist_ok=True)
        for place in (empty, self.folder / "nowhere"):
            self.expect(f"copies in {place.name}", self.script("--copies", place), (1, "", f"acd-calls: there is no copy in {place}\n"))
        copies = self.copy_of(self.story, 90000)
        self.expect("the newest copy", self.script("--copies", copies), (0, story.CALLS, ""))
        self.expect("a folder that isn't there", self.script("--copies", copies, "--days", self.folder / "nowhere")[:2], (1, ""))

    def try_gate(self):
        """The gate gives a lead the lines of the own groups; where there is a gate that serves files of records."""
        file, folder = TOP / "service/acd_service/gate/files.py", self.folder / "written"
        if not file.exists():
            return
        gate = self.module(file)
        for kind, days in gate.days(folder).items():
            for date in days:
                whole = list(csv.DictReader(io.StringIO(gate.content(folder, f"{kind}/{date}.csv", None).decode("utf-8-sig"))))
                told = gate.content(folder, f"{kind}/{date}.csv", frozenset({"100", "0100"}))
                column = "group" if kind == "groups" else "groups"
                own = [row for row in whole if {"100", "0100"} & set(row[column].removeprefix("'").split())]
                self.expect(f"a lead's {kind} of {date}", list(csv.DictReader(io.StringIO(told.decode("utf-8-sig")))) == own, True)

    # files that are no copies

    def try_copies(self):
        """A file that is open is refused; a copy of it with its log is read, and stays as it is."""
        file, copy = self.folder / "open.db", self.folder / "copy"
        for old in (file, Path(f"{file}-wal")):
            old.unlink(missing_ok=True)
        shutil.rmtree(copy, ignore_errors=True)
        shutil.copy(self.story, file)
        copy.mkdir()
        with Desk(self.program, file) as desk:
            request = Requests()
            for number in range(1, 4):
                desk.post(request("arriveCall", "late", caller=f"099{number}", called="202"))
            self.expect("a file that is open", self.script("--file", file), (1, "", f"acd-calls: {file} is open elsewhere: take a copy of it, by acd-copy, or add --live\n"))
            desk.process.send_signal(signal.SIGSTOP)
            for part in (file, Path(f"{file}-wal")):
                shutil.copy(part, copy)
        before = {path.name: path.read_bytes() for path in copy.iterdir()}
        status, said, fault = self.script("--file", copy / "open.db")
        self.expect("the callers of a copy with its log", (status, [line.split(",")[1] for line in said.splitlines()[9:]], fault), (0, ["0991", "0992", "0993"], ""))
        self.expect("a copy stays as it is", {path.name: path.read_bytes() for path in copy.iterdir()} == before, True)

    @contextlib.contextmanager
    def serving(self):
        """A desk that goes on over the story: its file, and what has it take so many calls more."""
        file = self.folder / "serving.db"
        for old in self.folder.glob("serving.db*"):
            old.unlink()
        shutil.copy(self.story, file)
        with Desk(self.program, file) as desk:
            numbers, request = itertools.count(1), Requests()

            def call(times):
                for number in itertools.islice(numbers, times):
                    caller = f"08{number}"
                    desk.post(request("arriveCall", "live", caller=caller, called="202"))
                    desk.post(request("clearConnection", "end", call=8 + number, device=caller))
                return number

            yield file, call

    def try_live(self):
        """Of a desk that goes on: all that was answered before, in its order, each time."""
        with self.serving() as (file, call):
            sent, ends = [0], threading.Event()

            def go_on():
                while not ends.is_set():
                    sent[0] = call(10)

            caller = threading.Thread(target=go_on)
            caller.start()
            try:
                for _ in range(10):
                    least = sent[0]
                    status, said, fault = self.script("--file", file, "--live")
                    has = [line.split(",")[1] for line in said.splitlines()[9:]]
                    self.expect("a live look", (status, fault, has == [f"08{invoke}" for invoke in range(1, len(has) + 1)], len(has) >= least), (0, "", True, True))
            finally:
                ends.set()
                caller.join()
        self.expect("of a file that nobody has open", self.script("--file", self.story, "--live"), (0, story.CALLS, ""))

    def try_live_anew(self):
        """Where the log begins anew while file and log are copied, they are copied again; where it does so each time, that is a fault, and no mixture."""
        book = self.module(self.scripts["acd-calls"].parents[1] / "acd_service/book.py")
        copyfile, times = shutil.copyfile, []

        def slow(part, to):
            copyfile(part, to)
            if part == file and (len(times) < most):
                times.append(call(160))

        book.shutil, book.TRIES = types.SimpleNamespace(copyfile=slow), 3
        with self.serving() as (file, call):
            call(20)
            for most, wanted in ((1, "sound"), (9, "faster than it can be copied")):
                folder = Path(tempfile.mkdtemp(dir=self.folder))
                try:
                    told = self.ran([self.program, "audit", "--file", book.copied_live(file, Path(f"{file}-wal"), folder)])
                except book.Fault as fault:
                    told = str(fault)
                self.expect(f"a log that begins anew {most} times", wanted in str(told), True)

    def try_faulty_files(self):
        self.expect("no file", self.script("--file", self.folder / "none"), (1, "", f"acd-calls: there is no file {self.folder / 'none'}\n"))
        text, other = self.folder / "text", self.folder / "other.db"
        text.write_text("no desk\n" * 100)
        shutil.copy(self.story, other)
        with contextlib.closing(sqlite3.connect(other)) as book, book:
            book.execute("UPDATE meta SET version = 7")
        self.expect("a text", self.script("--file", text), (1, "", "acd-calls: file is not a database\n"))
        self.expect("another version", self.script("--file", other), (1, "", "acd-calls: wrong version 7\n"))
        with contextlib.closing(sqlite3.connect(other)) as book, book:
            book.execute("UPDATE meta SET version = 2")
            book.execute("DELETE FROM kept WHERE request LIKE '%arriveCall%'")
        self.expect("a file without its beginning", self.script("--file", other), (1, f"{story.CALLS.splitlines()[0]}\n", "acd-calls: no kept request tells of call 1: the beginning of this file lies elsewhere\n"))

    # the days

    def try_days(self):
        for file, zone, tables, _ in self.days:
            for name, (words, _, _) in TABLES.items():
                status, said, fault = self.script("--file", file, *words, zone=zone)
                self.expect(f"status of {file.name}'s {name}", (status, fault), (0, ""))
                self.expect_lines(f"{file.name}'s {name}", said.splitlines(), tables[name])

    # a file that was pruned

    def carried(self, file):
        """Two archives and the file that goes on from them, as two prunes leave them; and the first request that the file has."""
        folder = Path(tempfile.mkdtemp(dir=self.folder))
        with contextlib.closing(sqlite3.connect(file)) as book:
            kept = book.execute("SELECT moment, request FROM kept ORDER BY stamp").fetchall()
        places = [place for place in range(1, len(kept)) if kept[place - 1][0] < kept[place][0]]
        cuts, ends, made = [0, *(places[len(places) * part // 3] for part in (1, 2))], [], []
        ends = [cuts[1] + 30, cuts[2] + 30, len(kept)]
        for number, (cut, end) in enumerate(zip(cuts, ends)):
            made.append(folder / f"part{number}.db")
            self.feed(made[-1], "".join(f"{moment} {request}\n" for moment, request in kept[:end]))
            with contextlib.closing(sqlite3.connect(made[-1])) as book:
                book.execute("DELETE FROM kept WHERE stamp <= ?", (cut,))
                book.execute("DELETE FROM events WHERE moment < ?", (kept[cut][0] if cut else 0,))
                book.commit()
        return made[:-1], made[-1], kept[cuts[-1]][0]

    def try_archives(self):
        """With its archives it is as if it had never been pruned; without them the calls are missing that came before."""
        for file, zone, tables, _ in self.days:
            archives, last, begin = self.carried(file)
            words = ["--file", last, *(word for archive in archives for word in ("--archive", archive))]
            for name, (more, _, _) in TABLES.items():
                status, said, fault = self.script(*words, *more, zone=zone)
                self.expect_lines(f"{file.name} and its archives: {name} {status} {fault}", said.splitlines(), tables[name])
            self.alone(file.name, last, zone, tables, begin)
        self.expect("in another order", self.script("--file", last, "--archive", archives[1], "--archive", archives[0])[::2][0], 1)
        self.expect("one is missing", self.script("--file", last, "--archive", archives[0])[::2][0], 1)

    def alone(self, what, file, zone, tables, begin):
        with contextlib.closing(sqlite3.connect(file)) as book:
            first = min(json.loads(body)["result"]["call"] for request, body in book.execute("SELECT request, body FROM kept WHERE status = 200")
                        if json.loads(request)["service"] in ("arriveCall", "makeCall"))
        for name in ("calls", "legs"):
            status, said, fault = self.script("--file", file, *TABLES[name][0], zone=zone)
            wanted = [line for line in tables[name][1:] if int(line.split(",")[0]) >= first]
            if name == "calls":
                self.expect_lines(f"{what} without its archives: {status} {fault}", said.splitlines()[1:], wanted)
            else:
                self.expect_lines(f"{what} without its archives, the legs: {status} {fault}", self.without(said.splitlines()[1:], 4), self.without(wanted, 4))
        # of the quarter in which it begins a part lies elsewhere, and so does what was begun before: since when those who were moved wait, too
        rows = [[{**row, **dict.fromkeys(("handled", "handling", "waited", "longest", "in_time", "service_level"), "")} for row in csv.DictReader(lines) if self.moment(row["begin"]) > begin]
                for lines in (tables["groups"], self.script("--file", file, "--groups", zone="UTC")[1].splitlines())] if zone == "UTC" else [[], []]
        self.expect(f"{what} without its archives, the quarters", [row for row in rows[1] if row not in rows[0]], [])
        status, said, fault = self.script("--file", file, "--agents", zone=zone)
        self.expect(f"{what} without its archives, the agents: {fault}", (status, fault), (3, self.before(begin, zone)))
        first = datetime.datetime.fromtimestamp(begin, zoneinfo.ZoneInfo(zone)).date()
        for words, wanted in (((), 3), (("--since", str(first)), 3), (("--until", str(first - datetime.timedelta(days=1))), 3), (("--since", str(first + datetime.timedelta(days=1))), 0)):
            status, said, fault = self.script("--file", file, *words, zone=zone)
            self.expect(f"{what} without its archives, {words}", (status, fault), (wanted, self.before(begin, zone) if wanted else ""))

    @staticmethod
    def before(begin, zone):
        """What is told where requests of before are in a file that isn't there."""
        return f"acd-calls: what was before {datetime.datetime.fromtimestamp(begin, zoneinfo.ZoneInfo(zone)):%Y-%m-%d %H:%M:%S} isn't there: name the archives that have it, by --archive\n"

    def noted(self, file, folder):
        """The same files in a folder as acdctl prune leaves them, with a note beside each that goes on from another one: the file, the archives from the oldest on, and where the file begins."""
        archives, last, begin = self.carried(file)
        folder.mkdir()
        names, place, note = [], folder / "desk.db", ""
        for archive in archives:
            with contextlib.closing(sqlite3.connect(archive)) as book:
                stamp, moment = book.execute("SELECT last_stamp, last_moment FROM meta").fetchone()
            names.append(folder / f"desk.db-{time.strftime('%Y-%m-%d', time.gmtime(moment))}-{stamp}")
            shutil.copy(archive, names[-1])
            if note:
                Path(f"{names[-1]}.archive").write_text(note)
            note = f"archive {names[-1].name}\nlast {stamp}\ndigest {'0' * 64}\nwas 1 {moment}.5\n"
        shutil.copy(last, place)
        Path(f"{place}.archive").write_text(note)
        return place, names, begin

    def try_notes(self):
        """Nobody names an archive: the notes beside the files do; beside a copy, those of the folder of copies. What isn't there is told, where it may have been asked for."""
        file, zone, tables, moment = self.longest()
        where = Path(tempfile.mkdtemp(dir=self.folder))
        place, archives, begin = self.noted(file, where / "desk")
        copies = self.copy_of(place, moment)
        made = self.named(copies, moment)
        shutil.copy(f"{place}.archive", made)
        (copies / "archives").mkdir()
        for part in (*archives, *where.glob("desk/desk.db-*.archive")):
            shutil.copy(part, copies / "archives")
        for of in (("--file", place), ("--copies", copies), ("--file", made / "desk.db")):
            for name, (more, _, _) in TABLES.items():
                status, said, fault = self.script(*of, *more, zone=zone)
                self.expect(f"{of[0]}, {name}, by the notes", (status, fault), (0, ""))
                self.expect_lines(f"{of[0]}, {name}, by the notes", said.splitlines(), tables[name])
        days = sorted({line[:10] for line in tables["agents"][1:]})
        for day in days:
            status, said, fault = self.script("--file", place, "--since", day, "--until", day, zone=zone)
            self.expect(f"the calls of {day}", (status, fault, said.splitlines()[1:]), (0, "", [line for line in tables["calls"][1:] if next(csv.reader([line]))[3][:10] == day]))
        self.days_by_notes(copies, where / "written", file, zone, moment)
        self.without_archives(place, archives, begin, zone)

    def days_by_notes(self, copies, folder, file, zone, moment):
        """Files of all days, as out of a file that was never pruned."""
        self.expect("files by the notes", self.write(folder, copies, zone)[::2], (0, ""))
        has = self.files(folder)
        shutil.rmtree(folder)
        self.write(folder, self.copy_of(file, moment), zone)
        self.expect("the same files", has == self.files(folder), True)

    def without_archives(self, place, archives, begin, zone):
        """An archive isn't opened where the file has all of the days; one that isn't there is told else, and so is one whose own archive isn't."""
        first = datetime.datetime.fromtimestamp(begin, zoneinfo.ZoneInfo(zone)).date()
        # by the requests of the day before it is known who was logged on
        whole = ("--since", str(first + datetime.timedelta(days=2)))
        with contextlib.closing(sqlite3.connect(archives[1])) as book:
            begins, = book.execute("SELECT moment FROM kept ORDER BY stamp LIMIT 1").fetchone()
        archives[0].unlink()
        status, said, fault = self.script("--file", place, zone=zone)
        self.expect("the oldest isn't there", (status, fault), (3, self.before(begins, zone)))
        archives[1].write_text("no desk\n" * 100)
        self.expect("one that isn't needed isn't opened", self.script("--file", place, *whole, zone=zone)[::2], (0, ""))
        self.expect("one that is no desk's", self.script("--file", place, zone=zone)[:2], (1, ""))
        archives[1].unlink()
        self.expect("none is there", self.script("--file", place, zone=zone)[::2], (3, self.before(begin, zone)))
        Path(f"{place}.archive").write_text("no note\n")
        self.expect("a note that is none", self.script("--file", place, zone=zone), (1, "", f"acd-calls: {place}.archive is no note of an archive\n"))

    @staticmethod
    def without(lines, column):
        """The lines without a column: which groups an agent serves isn't known of one who logged on before."""
        return [fields[:column] + fields[column + 1:] for fields in csv.reader(lines)]

    def try_days_of_a_part(self):
        """Files of days that aren't there as a whole stay as they are, and which are missing is told."""
        file, zone, _, moment = self.longest()
        folder = self.folder / "parts"
        shutil.rmtree(folder, ignore_errors=True)
        self.write(folder, self.copy_of(file, moment), zone)
        whole = self.files(folder)
        archives, last, begin = self.carried(file)
        day = str(datetime.datetime.fromtimestamp(begin, zoneinfo.ZoneInfo(zone)).date())
        copies = self.copy_of(last, moment)
        self.expect("beside whole ones", (self.write(folder, copies, zone)[::2], {name for name in whole if self.files(folder).get(name) != whole[name]}), ((0, ""), set()))
        shutil.rmtree(folder)
        status, said, fault = self.write(folder, copies, zone)
        self.expect(f"told: {fault}", (status, fault.count("\n"), "aren't there as a whole" in fault), (3, 1, True))
        self.expect("of these none is made", {name.rpartition("/")[2][:10] <= day for name in self.files(folder)} - {False}, set())
        folder.mkdir(exist_ok=True)
        words = [word for archive in archives for word in ("--archive", archive)]
        self.expect("with the archives", (self.script("--copies", copies, "--days", folder, *words, zone=zone)[0], self.files(folder) == whole), (0, True))

    # the report

    def try_sums(self):
        """The legs of who called from outside make the call; the quarters make the desk's own report, which counts stays in queues."""
        for file, zone, tables, _ in self.days:
            calls, legs, groups = (self.rows(file, zone, *TABLES[name][0]) for name in ("calls", "legs", "groups"))
            # who was sent to a station waits there too
            sent, waited = set(), set()
            for leg in legs:
                (sent if leg["call"] in waited and not leg["group"] else waited if leg["group"] else set()).add(leg["call"])
            self.expect_sums(f"{file.name}: the groups' waits", [call for call in calls if call["number"] not in sent], legs, "waited", lambda leg: int(leg["waited"]) + int(leg["rang"]) if leg["group"] else 0)
            for column in ("talked", "held", "wrapped_up"):
                outside = [call for call in calls if len(call["caller"]) == 9]
                self.expect_sums(f"{file.name}: {column}", outside, legs, column, lambda leg: int(leg[column]))
            report = [line.split() for line in self.ran([self.program, "report", "--file", file])[1].splitlines()[1:]]
            has = {group: [0] * 4 for group, *_ in report}
            for row in groups:
                # the report knows no rules
                stays = int(row["entered"]), int(row["answered_by_stay"]), int(row["abandoned_by_stay"]) + int(row["closed"]), int(row["moved"])
                has[row["group"]] = [one + more for one, more in zip(has[row["group"]], stays)]
            self.expect(f"{file.name}: the report", has, {group: list(map(int, figures[2:6])) for group, *figures in report})

    def expect_sums(self, what, calls, legs, column, part):
        sums = {}
        for leg in legs:
            sums[leg["call"]] = sums.get(leg["call"], 0) + part(leg)
        self.expect(what, [(call["number"], sums[call["number"]]) for call in calls], [(call["number"], int(call[column])) for call in calls])
