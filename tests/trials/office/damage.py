"""Cases of a desk's file and its log: of two times, or damaged; done wrong first, and then right."""
import re
import shutil
import sys
from pathlib import Path

from office import FILE, HOME, STATE, Planned
from trial import TOP

LOG, NOTE = f"{FILE}-wal", f"{FILE}-pair"

sys.path.append(str(TOP / "tests/trials/ready"))
from logs import Log  # noqa: E402


class Damage(Planned):
    def killed(self, requester, count=20):
        """The desk is killed with so many ticks in its log, and nothing else there, and stays down: an audit empties the log."""
        self.done("systemctl", "stop", "acd")
        self.done("runuser", "-u", "acd", "--", "acd", "audit", "--file", FILE)
        self.restarts(f"before {requester}")
        self.expect(f"{requester} is answered", self.sent(requester, count), [{}] * count)
        self.kill()

    def folders(self):
        return [name for name in self.names() if "damaged" in name]

    # file and log of two times

    def try_beside_the_desk(self):
        """What an office does while its desk is stopped, none of it a fault: twice a start behind stock sqlite3, an import, an audit, a copy put back whole."""
        count = "import sqlite3; print(sqlite3.connect('/var/lib/acd/desk.db').execute('SELECT count(*) FROM kept').fetchone()[0])"
        for what, *steps in (
                ("sqlite3", ("python3", "-c", count)),
                ("an import", ("runuser", "-u", "acd", "--", "acd", "import", "--file", FILE, "--plan", "/plan.csv")),
                ("an audit", ("runuser", "-u", "acd", "--", "acd", "audit", "--file", FILE)),
                ("a copy put back whole", ("sh", "-c", f"mkdir {HOME}/copy && cp -p {FILE}* {HOME}/copy && rm {FILE}* && cp -p {HOME}/copy/* {STATE}"))):
            self.killed(what.replace(" ", "-"), 2)
            for step in steps:
                self.done(*step)
            for number in (1, 2):
                self.restarts(f"start {number} behind {what}")
                self.expect("it answers", self.service("beside", len(what) + 100 * number, "tick").get("result"), {})
        self.expect("the note is of what is there", re.findall(r"(?m)^(?:file|log) (\d+) ", self.inside(NOTE).read_text()), [str(self.inside(path).stat().st_ino) for path in (FILE, LOG)])

    def try_removed_log(self):
        """Behind a stop the log may go, and behind a kill it may not: told until it is back, or a copy is."""
        self.restarts("before a stop")
        self.expect("requests are answered", self.sent("removed", 5), [{}] * 5)
        self.done("systemctl", "stop", "acd")
        self.done("rm", LOG)
        self.restarts("behind a log that was removed")
        self.done("runuser", "-u", "acd", "--", "acd-copy")
        copy, = [name for name in self.names(f"{STATE}/copies") if name.endswith("Z")]
        self.killed("lost", 5)
        self.done("mv", LOG, f"{HOME}/away")
        for _ in range(2):
            self.fails("a log that was removed behind a kill", f"the log {LOG} is gone", "answered requests are lost", f"acdctl restore {copy}", f"remove {NOTE}", before=(FILE,))
        self.done("mv", f"{HOME}/away", LOG)
        self.restarts("with the log back")
        self.expect("nothing is lost", (self.kept("removed"), self.kept("lost")), ([1, 2, 3, 4, 5], [1, 2, 3, 4, 5]))
        self.killed("restored", 2)
        self.done("rm", LOG)
        self.done("acd-copy", "--restore", copy)
        self.restarts("with the copy")
        self.expect("it has what the copy has", (self.kept("removed"), self.kept("lost")), ([1, 2, 3, 4, 5], []))

    def try_older_file(self):
        """An older file beside the newer log, and the other way round."""
        self.done("systemctl", "stop", "acd")
        shutil.rmtree(self.inside(f"{HOME}/older"), ignore_errors=True)
        self.killed("older", 3)
        self.done("cp", "-rp", STATE, f"{HOME}/older")
        self.killed("newer", 3)
        for older in (FILE, LOG):
            self.done("mv", older, f"{HOME}/newer")
            self.done("cp", "-p", f"{HOME}/older/{Path(older).name}", older)
            self.fails(f"an older {Path(older).name}", f"{FILE} and its log {LOG} weren't here together", "put both of one copy back", f"remove {NOTE}")
            self.done("rm", older)
            self.done("mv", f"{HOME}/newer", older)
            self.restarts("with the newer one back")
            self.kill()
        self.expect("nothing was lost", (self.kept("older"), self.kept("newer")), ([1, 2, 3], [1, 2, 3]))

    # a log that is damaged

    def spoiled(self, requester, spoil):
        """The desk is killed, and its log changed; the log as it was."""
        self.killed(requester)
        file, log = self.held()
        whole = Log("of the desk", log, file, "kept")
        self.inside(LOG).write_bytes(spoil(whole))
        return whole

    def try_middle(self):
        """A bit of the log's middle: told in a line, and both files are kept as they were before the desk begins."""
        whole = self.spoiled("middle", lambda whole: whole.flipped(whole.at(whole.marks[9] + 1) + 50))
        held, frame = self.held(), whole.marks[9] + 1
        mark = self.mark()
        self.done("systemctl", "start", "acd")
        self.serves("behind the damage")
        folder, *more = self.folders() or ["none"]
        self.expect("one folder, the desk's user's alone", (more, self.done("stat", "-c", "%U %a", f"{STATE}/{folder}")), ([], "acd 700\n"))
        self.expect("it has both, to the byte", self.held(f"{STATE}/{folder}/desk.db", f"{STATE}/{folder}/desk.db-wal") == held)
        self.expect("the line is there", self.said_since(mark), [f"acdctl ready: the log {LOG} is damaged from its frame {frame} on (byte {whole.at(frame)}), and answered requests from there on are missing; "
                                                                 f"both files, as they were, are in {STATE}/{folder} ('The desk does not start' in WHEN-WRONG.md)"])
        self.expect("what is before the damage is there", self.kept("middle"), list(range(1, 11)))
        self.restarts("the next start tells nothing")
        self.expect("what is before the damage is still there", self.kept("middle"), list(range(1, 11)))
        self.expect("nor keeps anything", self.folders(), [folder])
        mark = self.mark()
        self.expect("each copy fails while it is there", [self.ran("systemctl", "start", "acd-copy")[0] for _ in range(2)], [1, 1])
        self.expect("and says why", self.said_since(mark, "copy"), [f"acdctl copy: {STATE}/{folder} is there: the log was damaged as the desk was started"] * 2)
        self.done("mv", f"{STATE}/{folder}", f"{HOME}/damaged")
        self.done("systemctl", "start", "acd-copy")

    def try_early_copy(self):
        """The log is damaged while the desk is stopped, and a copy is made before it is started again: kept as it was copied, and nothing is cleared away."""
        self.done("systemctl", "start", "acd-copy")
        copies = f"{STATE}/copies"
        good = self.names(copies)
        self.spoiled("early", lambda whole: whole.flipped(whole.at(whole.marks[4] + 1) + 50))
        held, mark = self.held(), self.mark()
        self.expect("the copy fails", self.ran("systemctl", "start", "acd-copy")[0], 1)
        lines, more = self.said_since(mark, "copy"), sorted(set(self.names(copies)) - set(good))
        self.expect(f"it tells why: {lines}", [(line.startswith("acdctl copy: the copy's log ends early, answered requests are missing: "), f"it is in {copies}/{name}," in line) for line, name in zip(lines, more)], [(True, True)])
        self.expect("its name", bool(re.fullmatch(r"\d{4}-\d\d-\d\dT\d{6}Z\.early", more[0])))
        self.expect("its log is as it was copied", self.held(f"{copies}/{more[0]}/desk.db-wal"), held[1:])
        self.expect("the desk's own files too", self.held() == held)
        self.expect("all others are there", set(good) <= set(self.names(copies)))
        self.done("systemctl", "start", "acd")
        self.serves("behind it")
        self.done("rm", "-r", *(f"{STATE}/{folder}" for folder in self.folders()))

    def try_head(self):
        self.spoiled("head", lambda whole: whole.flipped(18))
        log, mark = self.held(LOG), self.mark()
        self.done("systemctl", "start", "acd")
        self.serves("behind a damaged head")
        folder, *more = self.folders() or ["none"]
        lines = self.said_since(mark)
        self.expect(f"a head that can't be read: {lines}", (more, len(lines), "can't be read (its head is damaged)" in str(lines)), ([], 1, True))
        self.expect("the log is kept, to the byte", self.held(f"{STATE}/{folder}/desk.db-wal"), log)
        self.done("rm", "-r", f"{STATE}/{folder}")

    def try_torn_end(self):
        """The last commit, as a power cut spoils it: nothing is told, nothing kept, and all before it is there."""
        self.spoiled("torn", lambda whole: whole.flipped(whole.at(whole.marks[-1]) + 50))
        self.restarts("behind a torn end")
        self.expect("nothing is kept", self.folders(), [])
        self.done("systemctl", "stop", "acd")
        self.expect("all before it is there", self.kept("torn"), list(range(1, 20)))

    def try_no_room(self):
        """A damaged log, and no room to keep it: the desk isn't begun over it before there is."""
        self.killed("room")
        file, log = self.held()
        whole = Log("of the desk", log, file, "kept")
        log = whole.flipped(whole.at(whole.marks[9] + 1) + 50)
        user, group = (self.done("id", word, "acd").strip() for word in ("-u", "-g"))
        room = (len(file) + len(log)) // 1024 + 200
        self.done("mount", "-t", "tmpfs", "-o", f"size={room}k,mode=750,uid={user},gid={group}", "none", STATE)
        for path, data in ((FILE, file), (LOG, log)):
            self.inside(path).write_bytes(data)
            self.done("chown", "acd:acd", path)
        mark = self.mark()
        self.expect("the command says so", self.ran("systemctl", "start", "acd")[0], 1)
        self.expect("it is started again", self.eventually(lambda: int(self.show("NRestarts")[0]) >= 2, True, 20), True)
        self.expect("the log is as it was, and no half copy stays", (self.held(LOG) == [log], [name for name in self.names() if "damaged" in name]), (True, []))
        self.expect("each time it tells why", {bool(re.search("is damaged, and can't be kept as it is before the desk opens it: .*No space left", line)) for line in self.said_since(mark)}, {True})
        self.done("mount", "-o", f"remount,size={3 * room}k", STATE)
        self.serves("with room")
        self.expect("and both are kept", self.held(f"{STATE}/{self.folders()[0]}/desk.db", f"{STATE}/{self.folders()[0]}/desk.db-wal") == [file, log])
        self.done("systemctl", "stop", "acd")
        self.done("umount", STATE)
