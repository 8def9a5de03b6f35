"""Cases of acd-ready: what keeps a desk from being served, which file and log belong together, a log that is damaged, and a new desk."""
import contextlib
import os
import re
import resource
import shutil
import socket
import sqlite3
import time
from pathlib import Path

from ground import AGAIN, ELSEWHERE, MEND, WORDS, Ready, Served
from logs import Log
from trial import free_port


def seconds_used():
    """What all that was started and has ended took of a processor."""
    used = resource.getrusage(resource.RUSAGE_CHILDREN)
    return used.ru_utime + used.ru_stime


class Starts(Ready):
    # what is looked at

    def try_words(self):
        file = self.new()
        for words in (["--port", "0"], ["--port", "65536"], ["--port", "80x"], ["--port", "-1"], ["--port"], ["--file"], ["--file", ""], ["--other"], ["more"], ["--make"]):
            self.fails(f"the words {words}", [], *(["--file", file] if "--file" not in words else []), *words, status=WORDS)
        self.expect("neither of both", self.ready("--file", file)[0], WORDS)
        status, out, _ = self.ready("--help")
        self.expect("help", (status, "--serve" in out, "--make" in out), (0, True, True))

    def try_file(self):
        file = self.new()
        log, folder, port = file.with_name("desk.db-wal"), file.parent, ["--port", free_port()]
        self.fails("no folder", [str(folder / "none"), "isn't there", "is ACD_FILE in /etc/acd/acd.env spelt right?"], "--file", folder / "none/desk.db", *port)
        self.fails("no file", ["other.db isn't there: is ACD_FILE in /etc/acd/acd.env spelt right?", "acd-copy --restore", f"acd-ready --make --file {folder / 'other.db'}"], "--file", folder / "other.db", *port)
        self.fails("a folder in its place", [f"{folder} is no file"], "--file", folder, *port)
        os.mkfifo(folder / "pipe")
        self.fails("a pipe in its place", ["is no file"], "--file", folder / "pipe", *port)
        os.link(file, folder / "second")
        self.fails("a second name", ["2 names", "-samefile"], "--file", file, *port)
        (folder / "second").unlink()
        log.rename(folder / "away")
        log.symlink_to("away")
        self.fails("a link in the log's place", ["desk.db-wal is no file"], "--file", file, *port)
        log.unlink()
        os.link(folder / "away", log)
        self.fails("a second name of the log", ["desk.db-wal has 2 names"], "--file", file, *port)
        (folder / "away").unlink()
        (folder / "link").symlink_to(file)
        self.starts("a link that leads to it", folder / "link", [1])
        self.lone_log(file, log, port)

    def lone_log(self, file, log, port):
        """A log whose file is away stays as it is, and nothing is made in the file's place."""
        held = log.read_bytes()
        self.expect("its log holds something", len(held) > 41)
        away = file.rename(file.with_name("x"))
        for what, prepare in (("isn't there", lambda: None), ("has no bytes", file.touch)):
            prepare()
            self.fails(f"a log whose file {what}", [f"{file} {what}", str(log), "put desk.db or a copy back", "move the log away", "don't remove it"], "--file", file, *port)
            self.expect("the log is as it was", log.read_bytes(), held)
        file.unlink()
        status, out, line = self.ready("--make", "--file", file)
        self.expect(f"nor is a new desk made there: {line}", (status, out, "don't remove it" in line, file.exists(), log.read_bytes() == held), (MEND, "", True, False, True))
        away.rename(file)
        self.starts("with the file put back", file)
        self.expect("the answered requests are there", self.executed(file), 4)
        log.write_bytes(bytes(41))
        file.write_bytes(b"")
        self.starts("a first start that ended early left no bytes, and a log that holds nothing", file, [])

    def try_restore(self):
        """A restore that was broken off has left a link that leads nowhere in the file's place: its own words are told, also where another link leads there."""
        file, words = self.new(), "the restore of 2026-11-26T031500Z isn't ended: acd-copy --restore 2026-11-26T031500Z ends it, acd-copy --undo takes it back"
        away = file.rename(file.with_name("away"))
        file.symlink_to(f"/dev/null/{words}")
        link = file.parent / "elsewhere/desk.db"
        link.parent.mkdir()
        link.symlink_to("../desk.db")
        for path in (file, link):
            self.expect(f"a restore that isn't ended, {path}", self.ready("--serve", "--file", path, "--port", free_port()), (MEND, "", f"acd-ready: {words}\n"))
            self.expect(f"nor is a new desk made there, {path}", self.ready("--make", "--file", path), (MEND, "", f"acd-ready: {words}\n"))
        self.expect("the link is as it was", os.readlink(file), f"/dev/null/{words}")
        away.replace(file)
        self.starts("with the file back", link, [1])

    def try_socket(self):
        """It is served at a socket, where there is no port or an empty one; what an ended desk left there is made anew, and what else is there stays."""
        file, path = self.new(), self.folder / "desk.sock"
        for number, words in enumerate(([], ["--port", ""]), 1):
            with Served(self.words("--serve", "--file", file, *words, "--socket", path), path, self.variables) as desk:
                self.expect("it listens", desk.listens, f"listening on {path}\n")
                self.expect("it answers", self.ask(desk, number), 200)
                self.fails("one that is taken", [f"{path} is taken: end who listens there (ss -lxp src unix:{path}), or name another socket, ACD_SOCKET in /etc/acd/acd.env"],
                           "--file", self.new(), "--socket", path)
            self.expect("it is left", path.is_socket(), True)
        path.unlink()
        path.touch()
        self.fails("a file", [f"{path} is there, and is no socket of the user"], "--file", file, "--socket", path)
        self.expect("it is left", path.is_file(), True)
        self.fails("a folder that isn't there", [f"the folder {self.folder}/none isn't there: make it (systemd-tmpfiles --create acd.conf)"], "--file", file, "--socket", self.folder / "none/desk.sock")

    def try_port(self):
        file = self.new()
        for address in ("127.0.0.1", "0.0.0.0"):
            with socket.socket() as other:
                other.bind((address, 0))
                other.listen()
                port, began, used = str(other.getsockname()[1]), time.monotonic(), seconds_used()
                self.fails(f"a port that is taken at {address}", [f"port {port} is taken", "(ss -ltnp sport = :", "ACD_PORT"], "--file", file, "--port", port)
                # a busy machine keeps it waiting: there it may take a second of a processor
                is_soon = time.monotonic() - began < 2 or (seconds_used() - used < 1 and os.getloadavg()[0] > os.cpu_count())
                self.expect("it is told within two seconds", is_soon)
        self.expect("nothing was noted", file.with_name("desk.db-pair").exists(), False)
        with self.served(file) as desk:
            self.ask(desk, 1)
        with self.served(file, desk.port) as again:
            self.expect("the same port, at once", (again.listens, self.ask(again, 2)), (f"listening on 127.0.0.1:{desk.port}\n", 200))
            self.fails("the port of a desk", ["is taken"], "--file", self.new(), "--port", str(desk.port))

    def try_serving(self):
        """It becomes the program, which has the words that it was given, and says nothing."""
        file = self.new()
        with self.served(file) as desk:
            process = Path(f"/proc/{desk.process.pid}")
            self.expect("its name and its words", (process.joinpath("comm").read_text(), process.joinpath("cmdline").read_text().split("\0")),
                        ("acd\n", ["acd", "serve", "--file", str(file), "--port", str(desk.port), "--endless", ""]))
            held = sorted(os.readlink(one).partition(":")[0] for one in process.joinpath("fd").iterdir() if one.name not in ("1", "2"))
            self.expect("nothing is left open", held, sorted([os.readlink("/proc/self/fd/0").partition(":")[0], str(file), f"{file}-wal", "anon_inode", "socket"]))
            status, _, line = self.ready("--serve", "--file", file, "--port", free_port())
            self.expect("a second one over the same file", (status, line), (ELSEWHERE, f"acd: {file} is open elsewhere\n"))
        self.expect("it says nothing", desk.said(), "")

    # a new desk

    def try_make(self):
        folder = self.folder / "new"
        folder.mkdir()
        file = folder / "desk.db"
        self.expect("a new desk", self.ready("--make", "--file", file), (0, f"made {file}\n", ""))
        self.expect("it is there alone, and its user's", ([one.name for one in folder.iterdir()], file.stat().st_mode & 0o777), (["desk.db"], 0o600))
        self.expect("it is a desk", (self.acd("audit", "--file", file), self.executed(file)), ((0, "sound\n", ""), 0))
        self.starts("it is served", file)
        # the first start notes no log, since there is none yet
        self.starts("it is served again", file, result=None)
        file.unlink()
        file.with_name("desk.db-wal").unlink()
        self.expect("another one in its place", self.ready("--make", "--file", file), (0, f"made {file}\n", ""))
        self.expect("nothing is said of the old one's log", self.starts("another one is served", file), "")
        held = file.read_bytes()
        self.expect("one that is there", self.ready("--make", "--file", file), (0, f"{file} is there already\n", ""))
        self.expect("stays as it is", file.read_bytes(), held)
        status, _, line = self.ready("--make", "--file", folder / "none/desk.db")
        self.expect(f"in no folder: {line}", (status, line.count("\n")), (MEND, 1))
        (folder / "acd").write_text("#!/bin/sh\necho 'acd: store fault' >&2\nexit 1\n")
        (folder / "acd").chmod(0o755)
        done = self.ready("--make", "--file", folder / "b.db", variables=self.finding(folder))
        self.expect("one that can't be made", done, (AGAIN, "", f"acd-ready: {folder / 'b.db'} isn't made: acd: store fault\n"))
        self.expect("leaves nothing", sorted(one.name for one in folder.iterdir()), ["acd", "desk.db", "desk.db-pair", "desk.db-wal"])

    # which file and log belong together

    def try_pairs(self):
        """What an office does beside its desk, and none of it is a fault."""
        file = self.new()
        log = file.with_name("desk.db-wal")
        self.expect("first start", self.starts("first start", file, [1]), "")
        self.expect("behind a kill", self.starts("behind a kill", file, [2]), "")
        with contextlib.closing(sqlite3.connect(file)) as book:
            self.expect("stock sqlite3 reads the stopped file", book.execute("SELECT count(*) FROM kept").fetchone(), (5,))
        self.expect("and takes the log away", log.exists(), False)
        for number in (3, 4):
            self.expect("a start behind it", self.starts(f"start {number - 2} behind sqlite3", file, [number]), "")
        self.acd("import", "--file", file, "--plan", self.plan)
        self.expect("behind an import", self.starts("behind an import", file, [5]), "")
        self.acd("audit", "--file", file)
        log.unlink()
        for number in (6, 7):
            self.expect("behind a log that was removed", self.starts("behind a log that was removed", file, [number]), "")
        kept = file.parent / "kept"
        kept.mkdir()
        for one in (file, log):
            shutil.copy(one, kept)
        self.starts("later", file, [8])
        for number in (8, 9):
            for one in file.parent.glob("desk.db*"):
                one.unlink()
            for one in kept.iterdir():
                shutil.copy(one, file.parent)
            self.expect("behind a copy that was put back whole", self.starts("behind a copy", file, [number]), "")
        self.expect("nothing was lost", self.executed(file), 3 + 8)

    def try_other_pairs(self):
        """One of the two alone was exchanged."""
        file = self.new()
        log, note, kept = file.with_name("desk.db-wal"), file.with_name("desk.db-pair"), file.parent / "kept"
        self.starts("first start", file, [1])
        kept.mkdir()
        for one in (file, log):
            shutil.copy(one, kept)
        self.starts("second start", file, range(2, 20))
        for older in (file, log):
            newer = older.rename(older.with_name("newer"))
            held = {one: one.read_bytes() for one in (file, log, newer) if one.exists()}
            for what, put in (("copied", lambda: shutil.copy(kept / older.name, older)), ("moved", lambda: os.replace(shutil.copy(kept / older.name, older.with_name("moved")), older))):
                put()
                self.fails(f"an older {older.name} beside the newer one, {what}", ["weren't here together", f"remove {note}", "acd-copy --restore"], "--file", file, "--port", free_port())
                self.expect("what was there is as it was", {one: one.read_bytes() for one in held}, held)
                older.unlink()
            newer.rename(older)
            self.expect("the newer one back", self.starts("the newer one back", file), "")
        self.numbers_given_again(file, kept)
        self.expect("nothing was lost", self.executed(file), 3 + 19)

    def numbers_given_again(self, file, kept):
        """The newer one is removed first: its inode's number goes to the older one, on most file systems."""
        later = file.parent / "later"
        later.mkdir()
        both = (file, file.with_name("desk.db-wal"))
        for older in both:
            for one in both:
                shutil.copy(one, later)
            older.unlink()
            shutil.copy(kept / older.name, older)
            self.fails(f"an older {older.name}, the newer one being removed", ["weren't here together"], "--file", file, "--port", free_port())
            for one in both:
                one.unlink()
                shutil.copy(later / one.name, one)
            self.expect("both anew", self.starts("both anew", file), "")

    def try_note(self):
        file = self.new()
        log, note = file.with_name("desk.db-wal"), file.with_name("desk.db-pair")
        numbers = lambda: re.findall(r"^(file|log) (\d+|none)\b", note.read_text(), re.MULTILINE)  # noqa: E731
        log.unlink()
        self.starts("first start", file, [1], result=None)
        self.expect("a note without a log", numbers(), [("file", str(file.stat().st_ino)), ("log", "none")])
        self.expect("is its user's alone", note.stat().st_mode & 0o777, 0o600)
        self.starts("second start", file, [2])
        self.expect("a note of both", numbers(), [("file", str(file.stat().st_ino)), ("log", str(log.stat().st_ino))])
        self.expect("which starts again alone", sorted(one.name for one in file.parent.iterdir()), ["desk.db", "desk.db-pair", "desk.db-wal"])
        for text in ("", "file\nlog\n", "nothing", "file 1\n"):
            note.write_text(text)
            self.expect(f"a note that says {text!r} is none", self.starts("a note that can't be read", file), "")
            self.expect("and is written anew", numbers(), [("file", str(file.stat().st_ino)), ("log", str(log.stat().st_ino))])

    # a log that is damaged

    def damaged(self, spoil):
        """A desk that was killed with 30 requests in its log, which is spoiled; the file, and what the log was and is."""
        file = self.new()
        log = file.with_name("desk.db-wal")
        self.starts("before the damage", file, range(1, 31))
        whole = Log("of the program", log.read_bytes(), file.read_bytes(), "kept")
        spoilt = spoil(whole)
        log.write_bytes(spoilt)
        return file, whole, spoilt

    def folders(self, file):
        return sorted(file.parent.glob("*damaged*"))

    def try_damage(self):
        middle = lambda whole: whole.marks[14] + 1  # noqa: E731
        file, whole, spoilt = self.damaged(lambda whole: whole.flipped(whole.at(middle(whole)) + 100))
        held = {"desk.db": file.read_bytes(), "desk.db-wal": spoilt}
        said = self.starts("a bit of the log's middle", file, [])
        folder, *more = self.folders(file)
        self.expect("there is one folder, of the user alone, named by the day", (more, folder.stat().st_mode & 0o777, bool(re.fullmatch(r"damaged-\d{4}-\d\d-\d\dT\d{6}Z-\w{8}", folder.name))), ([], 0o700, True))
        self.expect("it has both, to the byte", {one.name: one.read_bytes() for one in folder.iterdir()}, held)
        line = f"acd-ready: the log {file}-wal is damaged from its frame {middle(whole)} on (byte {whole.at(middle(whole))}), and answered requests from there on are missing; both files, as they were, are in {folder} "
        self.expect("and that is told in a line", (said.startswith(line), said.count("\n")), (True, 1))
        self.expect("the next start tells nothing", (self.starts("the next start", file, [31]), self.folders(file)), ("", [folder]))
        self.expect("what was before the damage is there, and what came since", self.executed(file), 3 + 15 + 1)
        file, _, spoilt = self.damaged(lambda whole: whole.flipped(20))
        said = self.starts("a bit of the log's head", file)
        folder, *more = self.folders(file)
        self.expect("a log whose head can't be read", (more, "can't be read (its head is damaged)" in said, "may have held" in said, (folder / "desk.db-wal").read_bytes()), ([], True, True, spoilt))
        self.expect("the next start tells nothing", (self.starts("the next start", file, [31]), self.folders(file)), ("", [folder]))

    def try_torn_ends(self):
        """A torn end isn't told, nor another one, of a shorter commit, in the same place."""
        def longest(whole):
            """The longest commit is the last one, and its first frame bad."""
            last = max(range(1, len(whole.marks)), key=lambda number: whole.marks[number] - whole.marks[number - 1])
            data = whole.data[:whole.at(whole.marks[last] + 1)]
            return whole.flipped(whole.at(whole.marks[last - 1] + 1) + 100)[:len(data)]

        for what, spoil in (("the last commit", lambda whole: whole.flipped(whole.at(whole.marks[-1]) + 100)), ("a log that is cut", lambda whole: whole.data[:whole.at(whole.marks[-2]) + 100]), ("the longest commit", longest)):
            file, _, _ = self.damaged(spoil)
            self.expect(f"{what}: a torn end isn't told", (self.starts(what, file, [41]), self.folders(file)), ("", []))
            log = file.with_name("desk.db-wal")
            again = Log("again", log.read_bytes(), file.read_bytes(), "kept")
            self.expect(f"{what}: what was torn is gone, and one commit has come", len(again.marks), 1)
            log.write_bytes(again.flipped(again.at(1) + 100))
            self.expect(f"{what}: nor is the next one", (self.starts(what, file), self.folders(file)), ("", []))

    def try_damage_kept_once(self):
        """A desk that can't open its file is started again and again: the two are kept once."""
        file, whole, spoilt = self.damaged(lambda whole: whole.flipped(whole.at(20)))
        broken = bytearray(file.read_bytes())
        broken[0:16] = bytes(16)
        file.write_bytes(broken)
        leftover = file.parent / ".damaged-2026-01-01T000000Z-abcdefgh"
        leftover.mkdir()
        said = [self.ready("--serve", "--file", file, "--port", free_port()) for _ in range(3)]
        self.expect("each start tells the same line, and the desk's own", [(status, line == said[0][2], line.count("\n"), "is damaged" in line) for status, _, line in said], [(1, True, 2, True)] * 3)
        self.expect("there is one folder", len(self.folders(file)), 1)
        self.expect("an earlier half copy is gone", leftover.exists(), False)

    def try_damage_while_written(self):
        """What another program writes meanwhile looks damaged, and isn't."""
        file = self.new()
        log = file.with_name("desk.db-wal")
        ready, logs = self.modules("ready", "log")
        bad = ready.Damaged

        def writes():
            with open(log, "ab") as out:
                out.write(b"more")

        def looks(*found):
            """The reader finds these, in turn; what is a function is called first."""
            left = list(found)

            def look(_):
                one = left.pop(0)
                if callable(one):
                    one()
                    one = left.pop(0)
                return one
            ready.look = look
            return ready.settled(log)

        sound, torn = ready.Sound(), logs.Torn(2, 100)
        self.expect("damaged, and nobody writes", looks(bad(2, 100), bad(2, 100)), bad(2, 100))
        self.expect("torn, and nobody writes", looks(torn, torn), torn)
        self.expect("whole at once", looks(sound), sound)
        self.expect("whole at the second look", looks(bad(2, 100), sound), sound)
        self.expect("torn at the second look", looks(bad(2, 100), torn), sound)
        self.expect("another frame at the second look", looks(bad(2, 100), bad(3, 200)), sound)
        self.expect("written during the first look", looks(writes, bad(2, 100), bad(2, 100)), sound)
        self.expect("written during the second look", looks(bad(2, 100), writes, bad(2, 100)), sound)
