"""Cases of what the program itself says and leaves alone: a log without its file, an audit of the log, why at a terminal; done wrong first, and then right."""
import re
import sys

from office import FILE, HOME, PLAN, STATE, Planned
from trial import TOP

sys.path.append(str(TOP / "tests/trials/ready"))
from logs import Log  # noqa: E402

LOG = f"{FILE}-wal"
# every command that opens a file
COMMANDS = (("lines",), ("import", "--plan", f"{STATE}/plan.csv"), ("serve", "--port", "8079", "--endless"), ("report",), ("export",), ("audit",))


class Program(Planned):
    def try_plan(self):
        super().try_plan()
        self.container.put(f"{STATE}/plan.csv", PLAN)

    def acd(self, *words, wait=20):
        """A command by the desk's user; one that goes on is ended."""
        return self.ran("timeout", "5", "acd", *words, user="acd", wait=wait)

    # a log without its file

    def try_lone_log(self):
        """F is moved away, or of no bytes, and its log holds answered requests: each command leaves both as they are. Then F is put back."""
        self.sent("lone", 5)
        self.kill()
        _, log = self.held()
        self.done("mv", FILE, f"{HOME}/x")
        for what, data in (("isn't there", None), ("has no bytes", b"")):
            if data is not None:
                self.inside().write_bytes(data)
                self.done("chown", "acd:acd", FILE)
            for command, *words in COMMANDS:
                self.expect(f"{command}, where the file {what}", self.acd(command, "--file", FILE, *words), (1, f"acd: cannot open {FILE}\n"))
                self.expect(f"{command}, where the file {what}: all is as it was", self.held() == [data, log])
        self.done("mv", f"{HOME}/x", FILE)
        self.restarts("with the file back")
        self.expect("what was answered is there", self.kept("lone"), [1, 2, 3, 4, 5])

    # an audit of the log

    def try_whole(self):
        """One bit of the log's middle, one of its head, one of its end, and none; what each command says at a terminal as it opens the file."""
        self.sent("whole", 20)
        self.kill()
        file, log = self.held()
        whole = Log("of the desk", log, file, "kept")
        early, no_head = (r"the log of \S+ ends early: it is damaged in its middle", r"the head of the log of \S+ can't be read")
        for what, data, wanted, reason in (("whole", log, (0, "sound\n"), None), ("torn", whole.flipped(whole.at(whole.marks[-1]) + 50), (0, "sound\n"), None),
                                           ("damaged", whole.flipped(whole.at(whole.marks[9] + 1) + 50), (5, "sound, but its log ends early\n"), early),
                                           ("without a head", whole.flipped(18), (5, "sound, but the head of its log can't be read\n"), no_head)):
            for option, said in (("--whole", wanted), (None, (0, "sound\n"))):
                self.laid(file, data)
                self.expect(f"an audit of a log that is {what}, {option}", self.acd("audit", *filter(None, [option]), "--file", FILE), said)
            for command in ("report", "audit"):
                self.laid(file, data)
                found = [line for line in self.at_terminal(command, "--file", FILE) if line.startswith("acd: ")]
                self.expect(f"{command} at a terminal, over a log that is {what}: {found}", [bool(reason and re.search(reason, line)) for line in found], [True] if reason else [])
        self.laid(file, log)
        self.restarts("with the log as it was")
        self.expect("nothing is lost", self.kept("whole"), list(range(1, 21)))

    def laid(self, file, log):
        """Both in their places, whatever a command made of them."""
        for path, data in ((FILE, file), (LOG, log)):
            self.inside(path).write_bytes(data)
            self.done("chown", "acd:acd", path)

    # why, at a terminal

    def at_terminal(self, *words):
        """What is said at a terminal, by lines."""
        said = self.ran("script", "--quiet", "--return", "--command", " ".join(["timeout", "5", "acd", *words]), "/dev/null", user="acd", wait=20)[1]
        return said.replace("\r", "").splitlines()

    def why(self, what, line, pattern, *words):
        """At a terminal the line that a pipe gets is followed by one that says why; a pipe gets no more than the line."""
        said = self.at_terminal(*words)
        self.expect(f"{what}, at a terminal: {said}", (said[:1], len(said), bool(re.search(pattern, said[-1]))), ([line], 2, True))
        self.expect(f"{what}, by a pipe", self.acd(*words)[1], f"{line}\n")

    def try_files(self):
        # a clean stop would empty the log
        self.sent("files", 2)
        self.kill()
        other, meta, text, sheet = f"{STATE}/other.db", f"{STATE}/meta.db", f"{STATE}/notes.txt", f"{STATE}/plan.csv"
        for path, table in ((other, "t"), (meta, "meta")):
            self.done("runuser", "-u", "acd", "--", "python3", "-c", f"import sqlite3; book = sqlite3.connect('{path}'); book.execute('CREATE TABLE {table} (n)'); book.commit()")
        self.done("runuser", "-u", "acd", "--", "sh", "-c", f"echo 'a list of what is to be done' > {text}")
        self.done("chown", "acd:acd", sheet)
        for what, pattern, file, line, *prepared in (
                ("no file", "isn't there|not there|no such", f"{STATE}/none.db", "cannot open"),
                ("no permission", "permission|may not", FILE, "cannot open", ("chmod", "000", FILE)),
                ("a folder", "folder|directory", STATE, "cannot open"),
                ("a text", "no database", text, "cannot open"),
                ("a plan", "no database", sheet, "cannot open"),
                ("in no folder", "isn't there", f"{STATE}/none/desk.db", "cannot open"),
                ("another program's database", "another|no desk", other, "wrong version 0"),
                ("one with a table meta", "another", meta, "store fault"),
                ("a log without its file", "log", FILE, "cannot open", ("mv", FILE, f"{HOME}/x")),
                ("a second name", "name", FILE, "cannot open", ("ln", FILE, f"{STATE}/second")),
                ("a disk to be read only", "read-only|read only", "/srv/only/desk.db", "cannot open", ("sh", "-c", f"mkdir /srv/only && cp -p {FILE}* /srv/only && mount --bind /srv/only /srv/only && mount -o remount,ro,bind /srv/only"))):
            for words in prepared:
                self.done(*words)
            said = f"acd: cannot open {file}" if line == "cannot open" else f"acd: {line}"
            self.why(what, said, pattern, "audit", "--file", file)
            self.done("sh", "-c", f"umount /srv/only 2>/dev/null; rm -rf /srv/only {STATE}/second; [ ! -e {HOME}/x ] || mv {HOME}/x {FILE}; chmod 600 {FILE}")

    def try_plans(self):
        header, rows = PLAN.split("\n", 1)
        for what, data, line, *patterns in (
                ("semicolons", PLAN.replace(",", ";").encode(), "plan header", re.escape(header), re.escape(header.replace(",", ";"))),
                ("capitals", PLAN.replace("kind", "Kind").encode(), "plan header", "Kind,number"),
                ("UTF-16", PLAN.encode("utf-16"), "plan header", r"(?i)is \\xff\\xfek\\x00i\\x00"),
                ("no header", rows.encode(), "plan header", "is group,100,Billing,3,2"),
                ("nothing", b"", "plan header", re.escape(header)),
                ("a database", self.inside().read_bytes(), "plan header", "is SQLite format 3"),
                ("a header in Latin-1", f"kind,n\u00fcmber,name,ring,wrap\n{rows}".encode("latin-1"), "plan header", r"(?i)kind,n\\xfcmber"),
                ("a long header", f"{'k' * 100}\n{rows}".encode(), "plan header", "(?<!k)k{1,60}(?!k)"),
                ("a name of UTF-8", f"{header}\ngroup,100,Billing,3,2\nagent,9,M\u00fcller,,\n".encode(), "plan row 2: name", "line 3", "40"),
                ("a name of Latin-1", f"{header}\ngroup,100,Billing,3,2\nagent,9,M\u00fcller,,\n".encode("latin-1"), "plan row 2: fields", "line 3", "UTF-8"),
                ("a name of 41", f"{header}\nagent,9,{'A' * 41},,\n".encode(), "plan row 1: name", "line 2", "40"),
                ("a station with a name", f"{header}\nstation,201,Desk,,\n".encode(), "plan row 1: name", "line 2", "station"),
                ("rows of a spreadsheet's end", f"{header}\n{rows},,,,\n".encode(), "plan row 4: kind", "line 5", "group, station or agent"),
                ("commas that are missing", f"{header}\nstation,201\n".encode(), "plan row 1: fields", "line 2", "five"),
                ("a blank behind a comma", f"{header}\nstation, 201,,,\n".encode(), "plan row 1: number", "line 2", "digits"),
                ("seconds with a fraction", f"{header}\ngroup,100,Billing,20.0,30\n".encode(), "plan row 1: ring", "line 2", "3600"),
                ("a number with a plus", f"{header}\nstation,+49201,,,\n".encode(), "plan row 1: number", "line 2", "digits"),
                ("behind an empty line", f"{header}\n\n\nstation,20a,,,\n".encode(), "plan row 1: number", "line 4")):
            self.inside(f"{STATE}/plan.csv").write_bytes(data)
            for pattern in patterns:
                self.why(what, f"acd: {line}", pattern, "import", "--file", f"{STATE}/none.db", "--plan", f"{STATE}/plan.csv")
        self.expect("no desk is begun", [name for name in self.names() if name.startswith("none")], [])
