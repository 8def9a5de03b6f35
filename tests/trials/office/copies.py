"""Cases of copies: by the timer's unit and by hand, what a copy lacks, and putting one back; done wrong first, and then right."""
import json
import re
from collections import Counter

from office import FILE, HOME, STATE, Planned

LOG, COPIES = f"{FILE}-wal", f"{STATE}/copies"
MOMENT = r"\d{4}-\d\d-\d\dT\d{6}Z"
STARTS = 9
BACK = "Put a copy back"
# what a restore changes names by, and where all lies as it was before one
CALLS = ("rename", "link", "symlink", "unlink", "unlinkat", "rmdir", "mkdir")
STRACE = ("strace", "-f", "-q", "-o", "/tmp/steps", "-e", f"trace={','.join(CALLS)}")
BEFORE = "/srv/before"
# how a restore is ended that was broken off
UNENDED = r"^acdctl ready: the (restore|undo) of \S+ isn't ended: (acdctl restore \S+ ends it, )?acdctl restore --undo (takes it back|ends it)$"


def restoring(words):
    """The words of acdctl for these of acd-copy: what is broken off says by which of both it was begun."""
    return "acdctl", "restore", *(words[1:] or words)


class Copies(Planned):
    def good(self):
        """The copies that are sound, the oldest first; none before the first one is made, by which the folder comes."""
        return [name for name in (self.names(COPIES) if self.inside(COPIES).exists() else ()) if re.fullmatch(MOMENT, name)]

    def copied(self, what):
        """The name of a copy that is made by the unit, and is good."""
        before, mark = self.good(), self.mark()
        self.expect(f"{what}: a copy", (self.ran("systemctl", "start", "acd-copy"), self.said_since(mark, "copy")), ((0, ""), []))
        self.expect(f"{what}: it is there", self.good()[-1] not in before)
        return self.good()[-1]

    def lines(self):
        """All that the unit's processes have said."""
        return self.done("journalctl", "--no-pager", "--quiet", "--output=cat", "_SYSTEMD_UNIT=acd-copy.service").splitlines()

    def executed(self, folder):
        said = self.done("runuser", "-u", "acd", "--", "acd", "audit", "--count", "--file", f"{folder}/desk.db")
        return int(said.partition("executed ")[2])

    def try_one_behind_the_other(self):
        """More copies by hand than a unit may be started in ten seconds: each is good, and says nothing else, and all of a day stay, twenty at most."""
        before = len(self.good())
        # a slow machine starts fewer in ten seconds
        self.expect("how many may be started isn't limited", self.show("StartLimitIntervalUSec", unit="acd-copy"), ["0"])
        for number in range(STARTS):
            self.expect(f"copy {number}", self.ran("systemctl", "start", "acd-copy"), (0, ""))
        said, forms = self.lines(), (r"the desk was halted for \d+ ms", f"sound: {COPIES}/{MOMENT}", f"cleared away: {COPIES}/{MOMENT}")
        self.expect("what they say", ([line for line in said if not any(re.fullmatch(form, line) for form in forms)], sum(line.startswith("sound") for line in said)), ([], STARTS))
        self.expect("all of today are kept", len(self.good()), min(before + STARTS, 20))
        self.expect("nobody else reads them", self.done("find", COPIES, "-perm", "/077"), "")

    def try_from_anywhere(self):
        """As the desk's user, from a folder that this one may not enter; what is the gate's is in copies by the unit alone."""
        status, said = self.typed("runuser -u acd -- acd-copy")
        lacks = r"acd-copy: the copy lacks the logins and names that the office gave: /var/lib/acd-gate: Permission denied; systemctl start acd-copy copies them too\n"
        self.expect_in(f"from root's home, {status}", said, rf"\Athe desk was halted for \d+ ms\n{lacks}sound: {COPIES}/{MOMENT}\n(cleared away: {COPIES}/{MOMENT}\n)?\Z")

    def try_plain_copy(self):
        """The file that is served is copied by `cp`, without its log: the audit says `sound` of what lacks the last answers. A copy by the unit has them."""
        self.sent("plain", 5)
        self.done("sh", "-c", f"mkdir {HOME}/plain && cp {FILE} {HOME}/plain")
        self.expect("the audit says", self.ran("acd", "audit", "--file", f"{HOME}/plain/desk.db"), (0, "sound\n"))
        self.expect("the last answers aren't there", self.kept("plain", f"{HOME}/plain"), [])
        self.expect_in("the page says so", self.page("What an audit cannot see").replace("\n", " "), "`sound` .* Nor that nothing is missing at the end: .* so is a file without its log")
        self.expect("a copy by the unit has them", self.kept("plain", f"{COPIES}/{self.copied('with its log')}"), [1, 2, 3, 4, 5])

    def put_back(self, moment):
        """As the page has it."""
        return self.typed(self.recipe(BACK, "systemctl stop acd", {"2026-11-26T031500Z": moment}))

    def try_back_twice(self):
        """A copy is put back, and a second time, and both are taken back; not beside the desk that serves."""
        held = {}
        for name in ("first", "second"):
            self.expect(f"{name} is answered", self.sent(name, 3), [{}] * 3)
            held[name] = self.copied(name)
        self.sent("third", 3)
        self.expect_in("beside the desk", self.ran("acd-copy", "--restore", held["first"])[1],
                       rf"^acd-copy: {FILE} is open in process \d+ \(acd serve --file {FILE}\): systemctl stop acd; nothing was touched\n$")
        for moment, name in ((held["second"], "second"), (held["first"], "first"), (held["second"], "second")):
            status, said = self.put_back(moment)
            self.expect(f"the {name} copy is put back ({said})", (status, said.startswith(f"Restored {moment} into {FILE}. ")), (0, True))
            self.serves(f"of the {name} copy")
            self.expect("what it has", (self.kept("first"), self.kept("second"), self.kept("third")), ([1, 2, 3], [1, 2, 3] if name == "second" else [], []))
        self.expect("nobody else reads what was put away", (self.done("find", STATE, "-mindepth", "1", "-perm", "/077"), len([name for name in self.names() if "put-away" in name])), ("", 3))
        self.done("systemctl", "stop", "acd")
        for _ in range(3):
            self.expect_in("--undo", self.ran("acd-copy", "--undo")[1], rf"^Took the restore of {MOMENT} back: {FILE} is as before\. The files of meanwhile are in {STATE}/taken-back-")
        self.restarts("as before all of it")
        self.expect("nothing is lost", (self.kept("first"), self.kept("second"), self.kept("third")), ([1, 2, 3],) * 3)

    def try_broken_off(self):
        """A restore is killed in its middle. No start makes another desk: it says what ends it, and that does."""
        moment = self.copied("before it")
        self.sent("late", 2)
        self.done("systemctl", "stop", "acd")
        for words in (("--restore", moment), ("--undo",)):
            said = self.ran("strace", "-f", "-qq", "-o", "/dev/null", "-e", "inject=rename:signal=KILL:when=5", "acdctl", "restore", moment)
            self.expect("it tells that it was killed", said, (1, "acdctl restore: signal 9 ended it; the same command again ends what it began\n"))
            says = f"the restore of {moment} isn't ended: acdctl restore {moment} ends it, acdctl restore --undo takes it back"
            self.expect("it is broken off", self.ran("readlink", FILE), (0, f"/dev/null/{says}\n"))
            self.fails(f"a start before acd-copy {words[0]}", says)
            self.expect("a copy before it", self.ran("acdctl", "copy", user="acd"), (1, f"acdctl copy: {says}\n"))
            self.done("acd-copy", *words)
            self.restarts(f"behind acd-copy {words[0]}")
            self.expect("what it has", self.kept("late"), [] if words[0] == "--restore" else [1, 2])
            self.done("systemctl", "stop", "acd")
            if words[0] == "--restore":
                self.done("acd-copy", "--undo")

    # a restore that is killed

    def try_killed(self):
        """A restore is killed before each call by which it changes a name, and so is what takes it back: a start serves one of the two, whole, or none, and says
        what ends it. Either command then does."""
        self.restarts("before it is killed")
        moment = self.copied("before it")
        self.expect("what the copy lacks is answered", self.sent("killed", 2), [{}, {}])
        self.done("systemctl", "stop", "acd")
        self.done("cp", "-a", STATE, BEFORE)
        kills, seen = 0, set()
        for words, ends in ((("--restore", moment), (("--restore", moment), ("--undo",))), (("--undo",), (("--undo",),))):
            for call, number in self.steps(moment, words):
                for end in ends:
                    what = f"{words[0]} killed at {call} {number}"
                    self.laid_out(moment, words)
                    self.ran(*STRACE, "-e", f"inject={call}:signal=KILL:when={number}", *restoring(words))
                    self.expect(f"{what}: it is killed", "+++ killed by SIGKILL" in self.done("cat", "/tmp/steps"))
                    seen.add(self.start_of_one(what))
                    self.end_by(what, end)
                    kills += 1
        self.expect(f"{kills} kills: what a start served", (kills > 30, seen), (True, {"none", "[]", "[1, 2]"}))
        self.laid_out(moment, ("--restore",))
        self.restarts("as before all of it")

    def laid_out(self, moment, words):
        """All as it was, and before an --undo a restore on top of it."""
        self.done("sh", "-c", f"find {STATE} -mindepth 1 -delete && cp -a {BEFORE}/. {STATE}")
        if words[0] == "--undo":
            self.done("acd-copy", "--restore", moment)

    def steps(self, moment, words):
        """Each call by which this changes a name, and which one of its kind it is, as strace counts them, of one process each: the desk's file is one's, and the gate's folder another's."""
        self.laid_out(moment, words)
        self.done(*STRACE, *restoring(words))
        made = Counter(re.findall(r"^(\d+) +(\w+)\(", self.done("cat", "/tmp/steps"), re.MULTILINE))
        return [(call, number) for call in CALLS for number in range(1, max((count for (_, of), count in made.items() if of == call), default=0) + 1)]

    def start_of_one(self, what):
        """What a start serves: the rows of a requester that only one of the two has, or none."""
        said = self.ran("acd", "audit", "--file", FILE, user="acd")
        self.expect(f"{what}: a whole one or none", said in ((0, "sound\n"), (1, f"acd: cannot open {FILE}\n")), True)
        mark = self.mark()
        self.ran("systemctl", "start", "acd")
        self.eventually(lambda: self.show("ActiveState")[0] == "failed" or self.curl(self.at("/snapshot")) == 200, True)
        state, status = self.show("ActiveState", "ExecMainStatus")
        kept, lines = (str(self.kept("killed")) if state == "active" else "none"), self.said_since(mark)
        self.ran("systemctl", "stop", "acd")
        if kept == "none":
            self.expect(f"{what}: none is served, and it is told why: {lines}", (said[0], status, [bool(re.search(UNENDED, line)) for line in lines]), (1, "64", [True]))
        else:
            self.expect(f"{what}: one of the two is served: {lines}", (said[0], kept in ("[]", "[1, 2]"), lines), (0, True, []))
        return kept

    def end_by(self, what, words):
        """The command that ends it, or takes it back; what is there then."""
        status, said = self.ran("acd-copy", *words)
        self.expect(f"{what}, then {words[0]}: {said}", status == 0 or words == ("--undo",) and "there is no restore to take back" in said)
        self.expect(f"{what}, then {words[0]}: what it has", self.kept("killed"), [1, 2] if words == ("--undo",) else [])
        self.expect(f"{what}, then {words[0]}: it is whole", self.ran("acd", "audit", "--file", FILE, user="acd"), (0, "sound\n"))

    def try_moved_file(self):
        """The file is moved, then removed, and then the log, under load: told each minute and by the copy, and nothing that was answered is lost."""
        self.restarts("before the file is moved")
        for what, wrong, line in (("moved", ("mv", FILE, f"{STATE}/elsewhere"), f"the file {FILE} was moved to {STATE}/elsewhere under the desk, process %s: what it answers goes there"),
                                  ("removed", ("rm", FILE), f"the file {FILE} was removed from under the desk, process %s: what it answered is lost where it is stopped before acdctl copy made a copy"),
                                  ("log-removed", ("rm", LOG), f"the log {LOG} was removed from under the desk, process %s: what it answered is lost where it is stopped before acdctl copy made a copy")):
            process, = self.show("MainPID")
            with self.loaded(what):
                mark = self.mark()
                self.done(*wrong)
                lines = self.eventually(lambda: self.said_since(mark), [f"acdctl ready: {line % process}"], 75)
                self.expect(f"{what}: the journal tells it within a minute or so", lines, [f"acdctl ready: {line % process}"])
            self.expect(f"{what}: the copy fails", self.ran("systemctl", "start", "acd-copy")[0] != 0)
            self.expect_in(f"{what}: and is named", self.ran("systemctl", "--failed", "--no-legend", "--plain")[1], "acd-copy.service")
            lines = self.said_since(mark, "copy")
            made = re.search(rf"this copy is of what the desk has open; it is in {COPIES}/(moved-{MOMENT}),", "\n".join(lines))
            self.expect(f"{what}: what it tells: {lines}", (f"acdctl copy: {line % process}" in lines, bool(made)), (True, True))
            self.expect(f"{what}: each answered request is in the copy, once", self.kept(what, f"{COPIES}/{made[1]}")[:len(self.answered)], self.answered)
            if what == "moved":
                self.done("systemctl", "stop", "acd")
                self.done("mv", f"{STATE}/elsewhere", FILE)
            else:
                self.expect("the copy is put back", self.put_back(made[1])[0], 0)
            self.restarts(f"with what was {what}")
            self.expect(f"{what}: each answered request is there, once", self.kept(what)[:len(self.answered)], self.answered)
            self.copied(f"{what}: a copy is good again")

    def try_removed_log(self):
        """The log is removed behind a kill, with answered requests in it: the audit says `sound`, and no start serves until its line is followed; then the copy
        says that there are fewer, each time, until somebody has looked."""
        self.sent("gone", 5)
        self.copied("before it")
        before = self.executed(f"{COPIES}/{self.good()[-1]}")
        self.kill()
        self.expect("the last ones are in the log alone", self.inside(LOG).stat().st_size > 1000)
        self.done("rm", LOG)
        self.expect("the audit says", self.ran("acd", "audit", "--file", FILE, user="acd"), (0, "sound\n"))
        now = self.executed(STATE)
        self.fails("without its log", f"to start with that, remove {FILE}-pair")
        self.done("rm", f"{FILE}-pair")
        self.restarts("without its log, as the line says")
        good = self.good()
        for _ in range(2):
            self.expect("the copy fails", self.ran("systemctl", "start", "acd-copy")[0] != 0)
        lines = [line for line in self.lines() if "requests are missing" in line]
        self.expect("what it tells", (len(lines), lines[-1].startswith(f"acdctl copy: the copy has {now} executed requests, and the last one of the same file had {before}: requests are missing; it is in {COPIES}/fewer-")), (2, True))
        self.expect("nothing is cleared away", self.good(), good)
        self.put_back(good[-1])
        self.serves("of the last good copy")
        self.expect("what was missing is there", self.kept("gone"), [1, 2, 3, 4, 5])

    def try_new_year(self):
        """A new year by the page's recipe, typed in root's home: nobody else reads any of its files."""
        status, said = self.typed(self.recipe("A new year in a new file", "curl -s --unix-socket"))
        self.expect(f"the recipe ({said[-200:]})", status, 0)
        self.serves("in the new year")
        self.expect("the plan is there", [one["name"] for one in json.loads(self.read("/snapshot"))["agents"]], ["Ana"])
        self.expect("nobody else reads its files", self.done("find", STATE, "-mindepth", "1", "-perm", "/077"), "")
        self.copied("the first copy of the new year")
