"""What is told that isn't so, what is missing, what doesn't answer: acd-follow goes on where nothing is wrong, else it stops with both, and nothing is fed."""
import base64
import contextlib
import json
import os
import shutil
import signal
import sqlite3
import subprocess
import tempfile
import threading
import time
from pathlib import Path

from ground import PATIENCE, Between, Follower, Ground, Served, ask, certificate, day, is_beginning, last_of, state_in
from trial import until
from trial.files import held, log_of

FAULT, REFUSED, DIFFERS, LACKS = 1, 2, 3, 4
# what it makes a file at
HALF = ".copy.db.acd-follow"
# a desk's program that is killed at its first start, where the new file has a head alone
KILLED_PROGRAM = """#!/bin/sh
[ -e {note} ] && exec {program} "$@"
: >{note}
exec strace -qq -o /dev/null -e trace=pwrite64 -e inject=pwrite64:signal=KILL:when=9 {program} "$@"
"""
# a desk's program that is another one at some lines, by the environment: what stands in its place is Python
ODD_PROGRAM = """#!/usr/bin/python3
import os, subprocess, sys, time
how, at, note, real = (os.environ[f"ODD_{name}"] for name in ("HOW", "AT", "NOTE", "REAL"))
desk = subprocess.Popen([real, *sys.argv[1:]], stdin=subprocess.PIPE, stdout=subprocess.PIPE)
for line in sys.stdin.buffer:
    # once for all starts together
    counts = b" GET " not in line and not os.path.exists(note)
    with open(note + ".count", "a+") as count:
        if counts:
            count.write("x")
        count.seek(0)
        odd = counts and len(count.read()) == int(at)
    if odd and how != "slow":
        open(note, "w").close()
    if odd and how in ("33", "34"):
        print(f'503 {{"error":{{"code":{how},"name":"{"noMemory" if how == "33" else "storeFault"}"}}}}', flush=True)
        continue
    if odd and how == "before":
        desk.kill()
        sys.exit(1)
    desk.stdin.write(line)
    desk.stdin.flush()
    answer = desk.stdout.readline()
    if not answer:
        sys.exit(desk.wait())
    if odd and how == "behind":
        desk.kill()
        sys.exit(1)
    if odd and how == "slow":
        open(note, "w").close()
        time.sleep(1)
    sys.stdout.buffer.write(answer)
    sys.stdout.flush()
desk.stdin.close()
sys.exit(desk.wait())
"""


def changed(file, statement, *values):
    book = sqlite3.connect(file)
    with book:
        book.execute(statement, values)
    book.close()


def page_with(body, change):
    """A page whose records were changed, as a desk would spell it."""
    page = json.loads(body)
    page["requests"] = change(page["requests"])
    return json.dumps(page, separators=(",", ":"), sort_keys=True).encode()


class OfADesk(Ground):
    """What the cases share: a desk that has answered a day."""

    @classmethod
    def setUpClass(cls):
        super().setUpClass()
        cls.lines = day(7, 240)
        cls.desk = cls.day_at("desk.db", cls.lines)
        cls.last = len(cls.desk.rows()["kept"])

    @classmethod
    def tearDownClass(cls):
        cls.desk.kill()

    @classmethod
    def day_at(cls, name, lines):
        """A desk that has answered these lines."""
        cls.feed(cls.folder / name, lines)
        return Served(cls, cls.folder / name).start()

    def odd(self, how, at):
        program = self.folder / "odd"
        program.write_text(ODD_PROGRAM)
        program.chmod(0o755)
        note = Path(tempfile.mkdtemp(dir=self.folder)) / "note"
        return ("--desk", program), {"ODD_HOW": how, "ODD_AT": str(at), "ODD_NOTE": str(note), "ODD_REAL": str(self.program)}

    def pruned(self, name):
        """A desk's file of a day and of ticks two hours later, and a copy that was pruned: 90 requests of the day stay, with the ticks the thousand that stay in any case."""
        whole, new = self.folder / name / "whole.db", self.folder / name / "desk.db"
        whole.parent.mkdir()
        later = int(self.lines[-1].partition(" ")[0]) + 7200
        self.feed(whole, [*self.lines, *(f'{later + number} {{"requester":"late","invoke":{number},"service":"tick"}}' for number in range(1, 911))])
        shutil.copy(whole, new)
        done = self.ran(self.program, "prune", "--file", new, "--archive", whole, "--keep", 1000)
        self.expect(f"acd prune: {done}", (done[0], done[1].startswith("pruned up to request ")), (0, True))
        return whole, new

    def whole(self):
        """A copy that has all."""
        return self.new_file(of=self.desk.file)

    def follow(self, what, address, file, wanted, *texts, more=(), words=()):
        """Once; its status, and what it tells, among it these texts."""
        status, said, told = self.once(address, file, *words, more=more)
        self.expect(f"{what}: {told}{said}", (status, [text for text in texts if text not in told]), (wanted, []))
        state = state_in(said)
        if state:
            self.expect(f"{what}: how many it has by its own account, {said}", state[0], last_of(file))
        return told, state


class Cases(OfADesk):
    # all is well

    def try_anew(self):
        """Three pages of an office's day."""
        desk, file = self.day_at("long.db", day(8, 2200)), self.new_file()
        between = Between(desk)
        self.follow("anew", between.address, file, 0)
        count = self.judge("anew", file, desk)
        self.expect("anew: what it asked for", [asked[0] for asked in between.asked], [f"/requests?after={after}" for after in (0, 999, 1998)])
        self.expect("anew: nobody else reads it", file.stat().st_mode & 0o077, 0)
        status, said, _ = self.acd("audit", "--count", "--file", file)
        self.expect("anew: its audit", (status, said), (0, f"sound\nexecuted {count}\n"))
        desk.kill()

    def try_again(self):
        file = self.whole()
        between = Between(self.desk)
        told, state = self.follow("again", between.address, file, 0)
        self.expect("again: it asks for one page", [asked[0] for asked in between.asked], [f"/requests?after={self.last - 1}"])
        self.expect("again: the state", state, (self.last, self.last))

    def try_rests(self):
        """While it is far behind the desk serves others for as long as it served this. Of short pages, which are fed at once."""
        def alter(number, path, status, body):
            time.sleep(1)
            return status, page_with(body, lambda records: records[:60])

        between = Between(self.desk, alter)
        self.follow("short pages", between.address, self.new_file(), 0)
        pauses = [later[1] - before[2] for before, later in zip(between.asked, between.asked[1:])]
        self.expect(f"short pages: a pause as long as each, {pauses}", len(pauses) == 4 and min(pauses) > 0.95)

    def try_empty(self):
        """Of a desk that has nothing, and then one request, and then two."""
        desk, file = Served(self, self.folder / "empty.db").start(), self.new_file()
        for number in range(3):
            if number:
                ask(desk.port, "/csta", b'{"requester":"a","invoke":%d,"service":"tick"}' % number)
            _, state = self.follow(f"{number} requests", desk.address, file, 0)
            self.expect(f"{number} requests: the state", state, (number, number))
        self.judge("two requests", file, desk)
        desk.kill()

    def try_copy_of_it(self):
        """acd-copy takes one in place of a desk that it halts."""
        file, copies = self.new_file(), self.folder / "copies"
        self.follow("a live copy", self.desk.address, file, 0)
        status, said, told = self.script("acd-copy", "--file", file, "--folder", copies)
        self.expect(f"acd-copy of it: {said}{told}", (status, "halted" in said, "sound: " in said), (0, False, True))
        made = next(copies.glob("20*")) / file.name
        has = held(made)
        self.expect("acd-copy of it: what the copy has", [table for table, rows in self.desk.rows().items() if has[table] != rows], [])

    # who doesn't answer

    def try_silent(self):
        """Each is asked again, and told once."""
        def alter(number, path, status, body):
            odd = [(503, b'{"error":{"code":33,"name":"noMemory"}}'), None, (502, b"<html>"), (200, body[:-40]), (200, b"[]"), (200, b'{"last":9}'),
                   (429, b"{}"), (200, page_with(body, lambda records: records[::-1])), (200, body.replace(b'"stamp":4,', b'"stamp":3,'))]
            return odd[number] if number < len(odd) else (status, body)

        file, between = self.new_file(), Between(self.desk, alter)
        # with --once it gives up behind some seconds, so without
        follower = Follower(self, between.address, file)
        self.expect("silent: it goes on", until(lambda: len(between.asked) > 14, PATIENCE, 0.01))
        status, said = follower.end()
        self.expect(f"silent: it says so once, {said}", (status, said.count("no answer ("), said.count("the desk answers again")), (0, 1, 1))
        self.judge("silent", file, self.desk)

    def try_nobody(self):
        with contextlib.closing(Between(self.desk, lambda *_: None).listener) as listener:
            told, state = self.follow("nobody", f"http://127.0.0.1:{listener.getsockname()[1]}", self.new_file(), FAULT, "no answer (")
            self.expect("nobody: the state", state, (0, None))

    def try_refusals(self):
        for status, name in ((404, "notFound"), (403, "forbidden"), (401, "unauthorized"), (400, "malformed")):
            body = b'{"error":{"code":35,"name":"%s"}}' % name.encode()
            self.follow(f"{status}", Between(self.desk, lambda *_: (status, body)).address, self.new_file(), FAULT, f"answered {status} {name}")

    # a file that isn't there yet

    def try_made(self):
        """A desk that is killed as it makes the file; what a killed acd-follow left; a log whose file is gone."""
        file, program = self.new_file(), self.folder / "killed"
        program.write_text(KILLED_PROGRAM.format(note=self.folder / "killed-once", program=self.program))
        program.chmod(0o755)
        self.follow("a desk that is killed amid the making", self.desk.address, file, 0, words=("--desk", program))
        self.judge("a desk that is killed amid the making", file, self.desk)

        for whole in (False, True):
            file = self.whole() if whole else self.new_file()
            for part in (HALF, f"{HALF}-wal"):
                (file.parent / part).write_text("a part of what was to be one")
            self.follow("what a killed one left", self.desk.address, file, 0)
            self.judge("what a killed one left", file, self.desk)
            self.expect("what a killed one left: it goes", [*file.parent.glob(".*")], [])

        file = self.whole()
        file.unlink()
        self.follow("an empty log alone", self.desk.address, file, 0)
        self.judge("an empty log alone", file, self.desk)

        other = Served(self, self.whole()).start()
        ask(other.port, "/csta", b'{"requester":"other","invoke":1,"service":"tick"}')
        other.kill()
        other.file.unlink()
        self.follow("a log alone", self.desk.address, other.file, FAULT, f"{other.file} can't be opened")
        self.expect("a log alone: it stays so", [*other.file.parent.iterdir()], [log_of(other.file)])

    # another history

    def try_told_twice(self):
        """A request in another one's place, as that is answered."""
        def twice(records):
            return [records[at - 1] | {"stamp": record["stamp"]} if record["stamp"] == 90 else record for at, record in enumerate(records)]

        def alter(number, path, status, body):
            return status, page_with(body, lambda records: twice(records)[:90])

        file = self.new_file()
        told, _ = self.follow("told twice", Between(self.desk, alter).address, file, DIFFERS, "told one of them twice")
        self.expect("told twice: what it has", is_beginning(held(file)["kept"][:89], self.desk.rows()["kept"]))

    def try_left_out(self):
        def alter(number, path, status, body):
            return status, page_with(body, lambda records: [record for record in records if record["stamp"] != 110])

        file = self.new_file()
        self.follow("left out", Between(self.desk, alter).address, file, LACKS, "request 110 ")
        self.expect("left out: what it has", len(held(file)["kept"]), 109)

    def try_planted(self):
        """The last request is another one here or there."""
        _, requester, invoke, moment, _, status, _ = self.desk.rows()["kept"][-1]
        request = json.dumps({"invoke": invoke, "requester": requester, "service": "tick"}, separators=(",", ":"))
        for column, value in (("moment", moment - 1), ("request", request), ("status", 609 - status), ("body", '{"invoke":1}')):
            file = self.whole()
            changed(file, f"UPDATE kept SET {column} = ? WHERE stamp = ?", value, self.last)
            before = held(file)
            texts = f"the desk: request number {self.last}", f"{file}: request number {self.last}", str(value)
            self.follow(f"another {column} in the copy", self.desk.address, file, DIFFERS, *texts)
            self.expect(f"another {column} in the copy: nothing was fed", held(file), before)

            spoilt = Served(self, self.whole())
            changed(spoilt.file, f"UPDATE kept SET {column} = ? WHERE stamp = ?", value, self.last)
            spoilt.start()
            file = self.whole()
            before = held(file)
            self.follow(f"another {column} at the desk", spoilt.address, file, DIFFERS, f"the desk: request number {self.last}", str(value))
            self.expect(f"another {column} at the desk: nothing was fed", held(file), before)
            spoilt.kill()

    def try_clocks(self):
        """Nobody learns the ticks' requester."""
        desk = Served(self, self.folder / "clock.db")
        secret = "clock-abcdefghijkl"
        self.feed(desk.file, [f'{number} {{"requester":"{secret}","invoke":{number},"service":"tick"}}' for number in (1, 2)])
        file = self.new_file(of=desk.file)
        changed(file, "UPDATE kept SET moment = 3 WHERE stamp = 2")
        desk.start()
        told, _ = self.follow("a tick that differs", desk.address, file, DIFFERS)
        self.expect(f"a tick that differs: {told}", secret in told, False)
        desk.kill()

    # a file that was pruned

    def try_pruned_up_to_its_last(self):
        """A copy whose last request is the last one that was pruned: it continues; one with another history, whose next replies are others, doesn't."""
        whole, new = self.pruned("last")
        first = held(new)["kept"][0][0]
        desk = Served(self, new).start()
        for number in range(3):
            ask(desk.port, "/csta", b'{"requester":"later","invoke":%d,"service":"arriveCall","caller":"0309%03d","called":"100"}' % (number + 1, number))

        def beginning(count, *more):
            """A copy of the first so many requests, and of others."""
            file = self.new_file()
            self.feed(file, [f"{row[3]} {row[4]}" for row in held(whole)["kept"][:count]] + list(more))
            return file

        file = beginning(first - 1)
        told, _ = self.follow("up to the last one", desk.address, file, 0)
        has, wanted = held(file), desk.rows()
        self.expect("up to the last one: row for row", [table for table in wanted if (has[table][-len(wanted[table]):] if table in ("kept", "events") else has[table]) != wanted[table]], [])
        self.follow("up to the last one, and again", desk.address, file, 0)
        file = beginning(first - 2)
        self.follow("one before it", desk.address, file, LACKS, f"request {first - 2} is needed", f"is {first}: ")
        moment = held(whole)["kept"][first - 3][3]
        file = beginning(first - 2, f'{moment} {{"requester":"other","invoke":1,"service":"arriveCall","caller":"0308","called":"100"}}')
        self.follow("another history up to the last one", desk.address, file, DIFFERS)
        desk.kill()

    def try_caught_up(self):
        """It says so once, and again behind a silence; and what it said last is there afterwards, beside a desk over the file too."""
        quiet = []

        def alter(number, path, status, body):
            return None if quiet and len(quiet) > number - quiet[0] else (status, body)

        desk, file = self.day_at("caught.db", self.lines[:50]), self.new_file()
        between, count = Between(desk, alter), len(held(self.folder / "caught.db")["kept"])
        self.expect("nothing was said yet", self.script("acd-follow", "--last", "--file", file)[:2], (FAULT, ""))
        follower = Follower(self, between.address, file)
        self.expect("it asks on", until(lambda: len(between.asked) > 20, PATIENCE, 0.01))
        self.expect("what it has meanwhile", state_in(self.script("acd-follow", "--last", "--file", file).output), (count, count))
        quiet += [len(between.asked)] * 3
        self.expect("it says so again", until(lambda: follower.text().count(f"caught up at {count}\n") == 2, PATIENCE, 0.05))
        ask(desk.port, "/csta", b'{"requester":"later","invoke":1,"service":"tick"}')
        self.expect("it goes on", until(lambda: (state_in(self.script("acd-follow", "--last", "--file", file).output) or [0])[0] == count + 1, PATIENCE, 0.5))
        status, said = follower.end()
        self.expect(f"it says that it has caught up, {said}", (status, said.count("caught up at ")), (0, 2))
        taken_over = Served(self, file).start()
        ask(taken_over.port, "/csta", b'{"requester":"later","invoke":2,"service":"tick"}')
        done = self.script("acd-follow", "--last", "--file", file)
        self.expect("what it said last", (done.status, done.output), (0, said.splitlines(keepends=True)[-1]))
        for words in (("--last", desk.address), ("--file", file), (desk.address,)):
            self.expect(f"{words}", self.script("acd-follow", *words).status, REFUSED)
        taken_over.kill()
        desk.kill()

    # the copy's desk

    def try_signals(self):
        """One that comes while a line is on its way waits for the answer: what it says that it has is what it has."""
        for one in (signal.SIGTERM, signal.SIGINT, signal.SIGHUP):
            file = self.new_file()
            words, more = self.odd("slow", 50)
            follower = Follower(self, self.desk.address, file, *words, more=more)
            note = Path(more["ODD_NOTE"])
            self.expect("a slow line is on its way", until(note.exists, PATIENCE, 0.01))
            status, said = follower.end(one)
            self.expect(f"a signal amid a line: {said}", (status, (state_in(said) or [None])[0]), (0, last_of(file)))

    def try_terminal(self):
        """Ctrl-C is for all of a terminal's processes: its desk answers the line first."""
        file = self.new_file()
        words, more = self.odd("slow", 50)
        follower = Follower(self, self.desk.address, file, *words, more=more, process_group=0)
        self.expect("a slow line is on its way", until(Path(more["ODD_NOTE"]).exists, PATIENCE, 0.01))
        os.killpg(follower.process.pid, signal.SIGINT)
        status, said = follower.end()
        self.expect(f"Ctrl-C amid a line: {said}", (status, state_in(said)), (0, (50, self.last)))

    def try_soon(self):
        """A file that another program has for a moment yet, as the desk that a killed one left."""
        file = self.whole()
        other = Served(self, file).start()
        threading.Timer(1.5, other.desk.process.kill).start()
        self.follow("open elsewhere for a moment", self.desk.address, file, 0)

    def try_disk(self):
        """The copy's disk is full: it ends, or asks again, and goes on once there is room."""
        folder = self.folder / "disk"
        folder.mkdir()
        subprocess.run(["mount", "-t", "tmpfs", "-o", "size=500k", "full", folder], check=True)
        try:
            file = folder / "copy.db"
            ends = [self.once(self.desk.address, file)[0]]
            self.expect("a full disk: it doesn't end well", ends, [FAULT])
            has = len(held(file)["kept"])
            self.expect(f"a full disk: {has} of {self.last} are there", 0 < has < self.last)
            subprocess.run(["mount", "-o", "remount,size=50m", folder], check=True)
            self.follow("a disk with room again", self.desk.address, file, 0)
            self.judge("a disk with room again", file, self.desk)
        finally:
            subprocess.run(["umount", "--lazy", folder], check=True)

    def try_held_elsewhere(self):
        file = self.whole()
        other = Served(self, file).start()
        self.follow("open elsewhere", self.desk.address, file, FAULT, "is open elsewhere", f"{file} can't be opened")
        other.kill()
        self.follow("not any more", self.desk.address, file, 0)

    def try_programs(self):
        self.follow("no program", self.desk.address, self.new_file(), FAULT, "No such file", words=("--desk", self.folder / "none"))
        self.follow("another program", self.desk.address, self.new_file(), FAULT, "can't be opened", words=("--desk", "/bin/true"))
        old = self.folder / "old"
        old.write_text('#!/bin/sh\nwhile read -r line; do echo \'404 {"error":{"code":35,"name":"notFound"}}\'; done\n')
        old.chmod(0o755)
        self.follow("an older program", self.desk.address, self.new_file(), FAULT, "older version", words=("--desk", old))
        none = self.folder / "none.db"
        none.write_text("no database, and more than a page of it" * 100)
        self.follow("no desk's file", self.desk.address, none, FAULT, "can't be opened")

    # the way there

    def try_login(self):
        made, context = certificate(self.folder)
        between = Between(self.desk, context=context, needs=base64.b64encode(b"standby:secret-1").decode())
        right, wrong = {"ACD_PASSWORD": "secret-1"}, {"ACD_PASSWORD": "secret-2"}
        words = "--ca", made, "--login", "standby"
        file = self.new_file()
        self.follow("by a login", between.address, file, 0, words=words, more=right)
        self.judge("by a login", file, self.desk)
        self.follow("a wrong password", between.address, file, FAULT, "401 unauthorized", words=words, more=wrong)
        self.follow("nobody's certificate", between.address, file, FAULT, "CERTIFICATE_VERIFY_FAILED", words=words[2:], more=right)
        self.follow("no terminal", between.address, file, FAULT, "no terminal", words=words)

    def try_command_lines(self):
        here, file = "http://127.0.0.1:1", ("--file", "g")
        for words in ((), (here,), ("ftp://a", *file), ("http://a:b@127.0.0.1:1", *file), ("http://10.0.0.1:1", *file, "--login", "a"),
                      (here, *file, "--ca", "a"), (here, *file, "--on"), (here, *file, "more")):
            status, said, told = self.script("acd-follow", *words)
            self.expect(f"{words}: {told}", (status, said, "acd-follow: error: " in told), (REFUSED, "", True))


class More(OfADesk):
    """Those that follow a desk most often, each time by a process of its own."""

    def try_told_otherwise(self):
        """What the desk tells of a request in the middle isn't what the copy answers: it has that one then, and none behind it."""
        place = 150

        def told(what, change, *texts):
            def alter(number, path, status, body):
                return status, page_with(body, lambda records: [record | change(record) if record["stamp"] == place else record for record in records])

            file = self.new_file()
            self.follow(f"another {what}", Between(self.desk, alter).address, file, DIFFERS, f"the desk: request number {place}", *texts)
            has = held(file)["kept"]
            self.expect(f"another {what}: a beginning", is_beginning(has, shown))
            return len(has)

        shown = self.desk.rows()["kept"]
        changes = {"reply": lambda record: {"reply": {**record["reply"], "result": {"call": 77}}}, "status": lambda record: {"status": 609 - record["status"]}}
        for what, change in changes.items():
            self.expect(f"another {what}: what it has", told(what, change, f"copy.db: request number {place}"), place)
        self.expect("an earlier moment: what it has", told("moment", lambda record: {"moment": 1}, "moment", f"copy.db: request number {place - 1}"), place - 1)

    def try_shorter(self):
        """An older copy was put back: with fewer requests, with as many, with more."""
        desk = Served(self, self.folder / "older.db")
        self.feed(desk.file, self.lines[:60])
        short = len(held(desk.file)["kept"])
        file = self.new_file(of=desk.file)
        # one that has three more than the desk has
        self.feed(file, [f'9999 {{"requester":"more","invoke":{number},"service":"tick"}}' for number in (1, 2, 3)])
        for number in range(5):
            desk.start()
            if number:
                ask(desk.port, "/csta", b'{"requester":"other","invoke":%d,"service":"tick"}' % number)
            before = held(file)
            texts = [f"up to {short + number}", f"up to {short + 3}"] if number < 3 else ["the desk: request number", f"{file}: request number"]
            self.follow(f"a copy put back, and {number} requests", desk.address, file, DIFFERS, *texts)
            self.expect(f"a copy put back, and {number} requests: nothing was fed", held(file), before)
            desk.kill()

    def try_pruned(self):
        whole, new = self.pruned("pruned")
        up_to_date = self.new_file(of=whole)
        self.feed(whole.with_name("behind.db"), self.lines[:70])
        behind = self.new_file(of=whole.with_name("behind.db"))
        first = held(new)["kept"][0][0]
        desk = Served(self, new).start()
        self.follow("pruned, up to date", desk.address, up_to_date, 0)
        needed = len(held(behind)["kept"])
        for what, file, number in (("behind", behind, needed), ("anew", self.new_file(), 1)):
            self.follow(f"pruned, {what}", desk.address, file, LACKS, f"request {number} is needed", f"is {first}: ")
            self.expect(f"pruned, {what}: nothing was fed", len(held(file)["kept"]), number if what == "behind" else 0)
        for number in range(20):
            ask(desk.port, "/csta", b'{"requester":"later","invoke":%d,"service":"tick"}' % (number + 1))
        for what, file in (("up to date", up_to_date), ("of the archive", self.new_file(of=whole)), ("of the new file", self.new_file(of=new))):
            self.follow(f"pruned, {what}, later", desk.address, file, 0)
            has, wanted = held(file), desk.rows()
            kept = {table: rows[-len(wanted[table]):] if table in ("kept", "events") else rows for table, rows in has.items()}
            self.expect(f"pruned, {what}, later: row for row", [table for table in wanted if kept[table] != wanted[table]], [])
        desk.kill()

    def try_its_desk(self):
        """Refuses memory, fails, is killed before or behind a line."""
        for how in ("33", "34", "before", "behind"):
            for at in (1, 50, self.last):
                file = self.new_file()
                words, more = self.odd(how, at)
                told, _ = self.follow(f"its desk, {how} at {at}", self.desk.address, file, 0, words=words, more=more)
                self.expect(f"its desk, {how} at {at}: it says so once, {told}", told.count("it is opened and asked again"), 1)
                self.judge(f"its desk, {how} at {at}", file, self.desk)
